/* The typed calls: each block of a list of calls on standard input is taken apart and made through its function of quoting_typed.h, and its line is
   printed as examples/month.c prints it. Then the same list runs on four threads, each with a month of its own, whose words must be the same.
   Before that come calls that are not made: nothing of an earlier answer may be left. */
#define main example_main
#include "../examples/month.c"
#undef main

#include <pthread.h>

enum { THREADS = 4 };

static uint8_t *list;
static size_t length;

static void stop(const char *why) {
    fprintf(stderr, "typed: %s\n", why);
    exit(2);
}

static uint32_t word(const uint8_t *block, size_t place) {
    const uint8_t *b = block + 4 * place;
    return b[0] + ((uint32_t) b[1] << 8) + ((uint32_t) b[2] << 16) + ((uint32_t) b[3] << 24);
}

static uint64_t two_words(const uint8_t *block, size_t place) {
    return word(block, place) + ((uint64_t) word(block, place + 1) << 32);
}

/* The bytes of a block. */
static size_t size_of(const uint8_t *b) {
    static const size_t words[] = {0, 0, 6, 5, 3, 4, 2, 5, 1, 8, 4, 4, 1, 0, 5, 11, 0, 1};
    uint32_t kind = word(b, 0);
    if (kind == QUOTING_CALL_OPEN) return 4 * ((size_t) word(b, 1) + 5);
    if (kind == QUOTING_CALL_OPEN_STRIKE) return 4 * ((size_t) word(b, 1) + 8);
    if (kind == QUOTING_CALL_MESSAGE) return 12 + ((size_t) word(b, 1) + word(b, 2) + 3) / 4 * 4;
    return 4 * words[kind];
}

static quoting_status open_typed(struct quoting_month *m, const uint8_t *b) {
    const struct quoting_row row = {word(b, 2), word(b, 3), word(b, 4), word(b, 5), word(b, 6), word(b, 7), word(b, 8)};
    const struct quoting_strike strike = {word(b, 10), word(b, 11), word(b, 12), word(b, 13)};
    if (word(b, 0) == QUOTING_CALL_OPEN) return quoting_month_open(m, &row, word(b, 9), quoting_signed(word(b, 10)), word(b, 11));
    return quoting_month_open_strike(m, &row, word(b, 9), &strike, word(b, 14));
}

static quoting_status commit_typed(struct quoting_month *m, const uint8_t *b) {
    const struct quoting_ticket ticket = {word(b, 5), word(b, 6), quoting_signed(word(b, 7)), word(b, 8), two_words(b, 9)};
    return quoting_month_commit(m, word(b, 1), word(b, 2), quoting_signed(word(b, 3)), word(b, 4), &ticket);
}

/* Calls with an answer of their own. */
static quoting_status answered(struct quoting_month *m, const uint8_t *b, struct quoting_reply *r) {
    memset(r, 0xa5, sizeof *r);
    r->kind = (enum quoting_answer) 99;
    quoting_status status;
    switch (word(b, 0)) {
    case QUOTING_CALL_LOOK:
        status = quoting_month_look(m, word(b, 1), word(b, 2), word(b, 3), &r->cell);
        r->kind = QUOTING_ANSWER_CELL;
        break;
    case QUOTING_CALL_REPORT:
        status = quoting_month_report(m, &r->report);
        r->kind = QUOTING_ANSWER_REPORT;
        break;
    case QUOTING_CALL_OUTLOOK:
        status = quoting_month_outlook(m, &r->outlook);
        r->kind = QUOTING_ANSWER_OUTLOOK;
        break;
    default:
        status = quoting_month_ask(m, word(b, 1), word(b, 2), quoting_signed(word(b, 3)), word(b, 4), &r->asked);
        r->kind = QUOTING_ANSWER_ASKED;
    }
    if (status != QUOTING_ACCEPTED) r->kind = QUOTING_ANSWER_REFUSED;
    return status;
}

/* Rows of another length, and messages that are too long, have no typed form: they go as the bytes that they are. */
static bool is_typed(const uint8_t *b) {
    uint32_t kind = word(b, 0);
    if (kind == QUOTING_CALL_OPEN || kind == QUOTING_CALL_OPEN_STRIKE) return word(b, 1) == 7;
    return kind != QUOTING_CALL_MESSAGE || (uint64_t) word(b, 1) + word(b, 2) <= QUOTING_MESSAGE_BYTES;
}

static quoting_status made(struct quoting_month *m, const uint8_t *b, struct quoting_reply *r) {
    if (!is_typed(b)) return quoting_month_block(m, b, size_of(b), r);
    quoting_status status;
    switch (word(b, 0)) {
    case QUOTING_CALL_OPEN:
    case QUOTING_CALL_OPEN_STRIKE: status = open_typed(m, b); break;
    case QUOTING_CALL_ADD:
        status = quoting_month_add(m, word(b, 1), word(b, 2), (enum quoting_side) word(b, 3), quoting_signed(word(b, 4)), word(b, 5));
        break;
    case QUOTING_CALL_AMEND: status = quoting_month_amend(m, word(b, 1), word(b, 2), quoting_signed(word(b, 3)), word(b, 4)); break;
    case QUOTING_CALL_CANCEL: status = quoting_month_cancel(m, word(b, 1), word(b, 2)); break;
    case QUOTING_CALL_DEAL: status = quoting_month_deal(m, word(b, 1), word(b, 2), word(b, 3)); break;
    case QUOTING_CALL_TICK: status = quoting_month_tick(m, word(b, 1)); break;
    case QUOTING_CALL_CLOSE: status = quoting_month_close(m, two_words(b, 1), two_words(b, 3)); break;
    case QUOTING_CALL_DROP: status = quoting_month_drop(m); break;
    case QUOTING_CALL_CHARGE: status = quoting_month_charge(m, word(b, 1), word(b, 2), word(b, 3), two_words(b, 4), two_words(b, 6)); break;
    case QUOTING_CALL_WITHDRAW: status = quoting_month_withdraw(m, word(b, 1), word(b, 2), word(b, 3)); break;
    case QUOTING_CALL_COMMIT: status = commit_typed(m, b); break;
    case QUOTING_CALL_MESSAGE:
        status = quoting_month_message(m, (const char *) b + 12, word(b, 1), b + 12 + word(b, 1), word(b, 2));
        break;
    default: return answered(m, b, r);
    }
    r->kind = status == QUOTING_ACCEPTED ? QUOTING_ANSWER_ACCEPTED : QUOTING_ANSWER_REFUSED;
    return status;
}

static void run_list(struct quoting_month *m, bool is_printed) {
    struct quoting_reply reply;
    if (quoting_month_start(m) != QUOTING_ACCEPTED) stop("no month");
    for (size_t at = 0; at < length; at += size_of(list + at)) {
        quoting_status status = made(m, list + at, &reply);
        if (status >= QUOTING_NOT_A_CALL) stop(quoting_status_text(status));
        if (is_printed) print_reply(status, &reply);
    }
}

static void *on_a_thread(void *given) {
    run_list(given, false);
    return NULL;
}

static bool is_clear(const void *bytes, size_t size) {
    for (size_t i = 0; i < size; i++) {
        if (((const uint8_t *) bytes)[i] != 0) return false;
    }
    return true;
}

#define WANTED(status, call, out)                                       \
    do {                                                                \
        memset(&(out), 0xa5, sizeof(out));                              \
        if ((call) != (status)) stop(#call " has another status");      \
        if (!is_clear(&(out), sizeof(out))) stop(#call " left a value"); \
    } while (0)

/* What is refused, and what is not made, by its name. */
static void run_refused(void) {
    static struct quoting_month m;
    static char text[QUOTING_MESSAGE_BYTES + 1];
    struct quoting_cell cell;
    struct quoting_report report;
    struct quoting_outlook outlook;
    struct quoting_asked asked;
    struct quoting_view view;
    uint32_t taken;
    uint8_t records[45];
    const struct quoting_row row = {1, 1, 10000, 5, 100, 10, 600};
    if (quoting_month_start(&m) != QUOTING_ACCEPTED) stop("no month");
    if (quoting_month_add(&m, 1, 1, (enum quoting_side) 3, 5, 5) != QUOTING_NOT_A_CALL) stop("side 3");
    if (quoting_month_message(&m, "", 0, text, sizeof text) != QUOTING_MESSAGE_TOO_LONG) stop("a long message");
    WANTED(QUOTING_CELL_BLANK, quoting_month_look(&m, 1, 1, 1, &cell), cell);
    WANTED(QUOTING_ARGUMENT_OUT_OF_RANGE, quoting_month_look(&m, 32, 1, 1, &cell), cell);
    WANTED(QUOTING_NO_QUANTUM_OPEN, quoting_month_outlook(&m, &outlook), outlook);
    WANTED(QUOTING_NO_QUANTUM_OPEN, quoting_month_ask(&m, 1, 1, 1, 1, &asked), asked);
    WANTED(QUOTING_ACCEPTED, quoting_month_now(&m, &view), view);
    if (quoting_month_open(&m, &row, 1, 100, QUOTING_NO_LIMIT) != QUOTING_ACCEPTED) stop("no quantum");
    quoting_put_record(records, QUOTING_RECORD_ADD_SELL, 5, 1, -7, 20);
    quoting_put_record(records + 20, QUOTING_RECORD_DEAL, 5, 1, 99, 21);
    if (quoting_month_apply(&m, records, 40, &taken) != QUOTING_DEAL_ABOVE_LEFT || taken != 1) stop("a deal above the rest");
    if (quoting_month_apply(&m, records + 20, 0, &taken) != QUOTING_ACCEPTED || taken != 0) stop("no records");
    quoting_put_record(records, QUOTING_RECORD_CANCEL, 6, 1, 99, 99);
    quoting_put_record(records + 20, QUOTING_RECORD_TICK, 7, 99, 99, 99);
    if (quoting_month_apply(&m, records, 45, &taken) != QUOTING_BAD_RECORD || taken != 2) stop("a record cut short");
    m.words[1] = 186;
    WANTED(QUOTING_NOT_A_MONTH, quoting_month_report(&m, &report), report);
    WANTED(QUOTING_NOT_A_MONTH, quoting_month_now(&m, &view), view);
    WANTED(QUOTING_NOT_A_MONTH, quoting_month_apply(&m, records, 40, &taken), taken);
}

/* A session's functions agree with each other. */
static void run_session(void) {
    const struct quoting_row row = {1, 1, 10000, 5, 100, 10, 600};
    uint8_t head[32], records[20 * 3];
    uint32_t words[QUOTING_ACCOUNT_WORDS(3)], kept, place;
    struct quoting_pairs pairs;
    struct quoting_times times;
    quoting_put_head(head, &row, 100);
    quoting_put_record(records, QUOTING_RECORD_ADD_BUY, 1000, 1, 99, 20);
    quoting_put_record(records + 20, QUOTING_RECORD_ADD_SELL, 2000, 2, 101, 20);
    quoting_put_record(records + 40, QUOTING_RECORD_CANCEL, 5000, 1, 0, 0);
    if (quoting_session_kept(head, 32, records, 60, &kept, &place) != QUOTING_ACCEPTED || kept != 3000 || place != 0) stop("kept");
    if (quoting_session_stretches(head, 32, records, 60, words, QUOTING_PAIRS_WORDS(3), &pairs, &place) != QUOTING_ACCEPTED) stop("pairs");
    struct quoting_stretch first = quoting_pair_at(&pairs, 0);
    if (pairs.kept != 3000 || pairs.count != 1 || first.offset != 2000 || first.length != 3000) stop("the pair");
    if (quoting_session_times(&row, 100, NULL, records, 60, words, sizeof words / 4, &times, &place) != QUOTING_ACCEPTED) stop("times");
    struct quoting_stretch last = quoting_stretch_at(&times, times.count - 1);
    if (times.totals[QUOTING_STATE_KEPT] != 3000 || times.count != 4 || last.state != QUOTING_STATE_NO_BID || last.offset != 5000) stop("stretches");
    if (quoting_session_times(&row, 100, NULL, records, 60, words, 8, &times, &place) != QUOTING_BUFFER_SHORT || times.count != 0) stop("short");
    records[20] = 9;
    if (quoting_session_kept(head, 32, records, 60, &kept, &place) != QUOTING_BAD_RECORD || kept != 0 || place != 2) stop("a bad record");
}

int main(void) {
    static struct quoting_month own, others[THREADS];
    pthread_t threads[THREADS];
    size_t room = 1 << 20;
    list = malloc(room);
    if (list == NULL) stop("no memory");
    length = fread(list, 1, room, stdin);
    length = 4 * quoting_calls_words(list, length);
    run_refused();
    run_session();
    run_list(&own, true);
    for (int i = 0; i < THREADS; i++) {
        if (pthread_create(&threads[i], NULL, on_a_thread, &others[i]) != 0) stop("no thread");
    }
    for (int i = 0; i < THREADS; i++) {
        pthread_join(threads[i], NULL);
        if (memcmp(own.words, others[i].words, sizeof own.words) != 0) stop("a month on a thread differs");
    }
    free(list);
    return 0;
}
