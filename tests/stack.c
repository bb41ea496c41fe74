/* The most stack that each call uses: a line a call, its name and the bytes.

   Each call runs on a thread that has painted its stack below its own frame; the lowest byte that has another colour afterwards says how deep
   the call went. Calls are accepted and refused ones, on months with no order, few and 64, and on short and long lists. A line is printed for
   a call as soon as it was accepted once. */

#define _GNU_SOURCE
#include <pthread.h>
#include <stdint.h>
#include <stdio.h>
#include <stdlib.h>
#include <string.h>
#include <sys/mman.h>

#include "blocks.h"
#include "quoting.h"

enum {
    STACK = 1 << 20, /* bytes, more than any call uses */
    OWN = 1024,      /* below the painting frame, left to it; a call that uses less is printed with so many */
    COLOUR = 0xa5,
    MONTH = QUOTING_MONTH_WORDS,
    HINTS = QUOTING_HINT_BYTES,
    ANSWER = QUOTING_ANSWER_WORDS,
    NAMES = 64
};

static void stop(const char *why) {
    fprintf(stderr, "stack: %s\n", why);
    exit(2);
}

/* ---- a painted stack */

struct work {
    const char *name;
    uint64_t (*call)(const void *);
    const void *given;
    uint64_t answer;
    size_t depth;
};

static uint8_t *stack;

static void *painted(void *given) {
    struct work *work = given;
    volatile uint8_t *top = (uint8_t *) __builtin_frame_address(0) - OWN;
    for (volatile uint8_t *at = stack; at < top; at++) *at = COLOUR;
    work->answer = work->call(work->given);
    volatile uint8_t *lowest = stack;
    while (lowest < top && *lowest == COLOUR) lowest++;
    work->depth = (size_t) (top - lowest) + OWN;
    return NULL;
}

static struct {
    const char *name;
    size_t deepest;
} found[NAMES];

static void note(const char *name, size_t depth) {
    size_t at = 0;
    while (found[at].name != NULL && strcmp(found[at].name, name) != 0) at++;
    if (at + 1 == NAMES) stop("too many calls");
    found[at].name = name;
    if (depth > found[at].deepest) found[at].deepest = depth;
}

static uint64_t measure(const char *name, uint64_t (*call)(const void *), const void *given) {
    struct work work = {.name = name, .call = call, .given = given};
    pthread_attr_t how;
    pthread_t thread;
    if (pthread_attr_init(&how) != 0 || pthread_attr_setstack(&how, stack, STACK) != 0) stop("no stack");
    if (pthread_create(&thread, &how, painted, &work) != 0 || pthread_join(thread, NULL) != 0) stop("no thread");
    pthread_attr_destroy(&how);
    if (work.depth >= STACK / 2) stop(name);
    note(name, work.depth);
    return work.answer;
}

/* ---- a month's calls */

static uint32_t words[MONTH], answer[ANSWER], view[QUOTING_VIEW_WORDS];
static uint8_t hints[HINTS], list[1 << 16];
static size_t listed;

static struct call message(uint32_t kind, uint32_t id, uint32_t of, const char *sixty) {
    uint32_t fields[6] = {kind, id, of, 1, 5, 4990};
    struct call c = {.name = "message"};
    uint64_t n = quoting_fix_write(fields, 6, (const uint8_t *) sixty, 21, c.bytes + 12 + 21, QUOTING_FIX_BYTES);
    if (quoting_refusal_of(n) != 0) stop("no message");
    put(c.bytes, 16);
    put(c.bytes + 4, 21);
    put(c.bytes + 8, (uint32_t) n);
    memcpy(c.bytes + 12, "20261102-10:00:00.000", 21);
    c.length = (12 + 21 + n + 3) / 4 * 4;
    return c;
}

static uint64_t month_call(const void *given) {
    const struct call *c = given;
    return quoting_month_call(words, MONTH, hints, HINTS, c->bytes, c->length, answer, ANSWER);
}

static uint64_t month_fresh(const void *given) {
    (void) given;
    return quoting_month_fresh(words, MONTH);
}

static uint64_t month_view(const void *given) {
    (void) given;
    return quoting_month_view(words, MONTH, view, QUOTING_VIEW_WORDS);
}

static uint64_t list_call(const void *given) {
    static uint32_t answers[5 * sizeof list];
    (void) given;
    return quoting_calls(list, listed, answers, 5 * listed);
}

static uint64_t list_words(const void *given) {
    (void) given;
    return quoting_calls_words(list, listed);
}

/* Makes a call on the month, and puts it into the list. */
static void made(struct call c) {
    if (measure(c.name, month_call, &c) != ANSWER) stop(c.name);
    if (listed + c.length > sizeof list) stop("the list is full");
    memcpy(list + listed, c.bytes, c.length);
    listed += c.length;
}

static void events(uint32_t t, uint32_t id) {
    made(BLOCK("add", 2, t, id, 1, 4990, 7));
    made(BLOCK("amend", 3, t, id, 4991, 9));
    made(BLOCK("deal", 5, t, id, 1));
    made(BLOCK("tick", 6, t));
    made(BLOCK("ask", 14, t, id, 5002, 4));
    made(BLOCK("commit", 15, t, id, 5002, 4, answer[6], answer[7], answer[8], answer[9], answer[10], answer[11]));
    made(BLOCK("cancel", 4, t, id));
    made(BLOCK("add", 2, t, id, 2, 5010, 7));
    made(BLOCK("amend", 3, t, id, 5011, 9));
    made(BLOCK("deal", 5, t, id, 9));
    made(BLOCK("deal", 5, t, id, 9));
}

static void add_orders(uint32_t count) {
    for (uint32_t i = 0; i < count; i++) made(BLOCK("add", 2, 10, 1001 + i, i % 2 + 1, i % 2 ? 5005 + i : 4995 - i, 5));
}

static void messages(void) {
    made(message(1, 11, 0, "20261102-10:00:09.500"));
    made(message(3, 12, 11, "20261102-10:00:09.500"));
    made(message(2, 13, 12, "20261102-10:00:09.600"));
    made(message(2, 13, 12, "20261102-10:00:09.600"));
    made(message(1, 1001, 0, "20261102-10:00:09.700"));
    made(message(1, 15, 0, "20261102-09:00:00.000"));
}

static void shown(uint32_t quantum) {
    made(BLOCK("report", 12));
    made(BLOCK("outlook", 17));
    made(BLOCK("look", 11, 1, 1, quantum));
    measure("quoting_month_view", month_view, NULL);
}

/* A quantum with so many orders, through every kind of call, accepted and refused, and dropped or closed. */
static void quantum(uint32_t number, uint32_t orders) {
    made(BLOCK("open", 1, 7, 1, number, 10000, 5, 100, 10, 600, 1, 5000, 65535));
    if (answer[0] == QUOTING_ANSWER_REFUSED) stop("no quantum was opened");
    events(5, 7);
    add_orders(orders);
    shown(number);
    events(20, 7);
    events(20, 1002);
    messages();
    shown(number);
    made(BLOCK("open", 1, 7, 1, number, 10000, 5, 100, 10, 600, 1, 5000, 65535));
    made(BLOCK("close", 7, 5, 0, 7, 0));
    made(BLOCK("close", 7, 5, 0, 7, 0));
    shown(number);
    made(BLOCK("charge", 9, 1, 1, number, 1, 0, 2, 0));
    made(BLOCK("withdraw", 10, 1, 1, number));
    made(BLOCK("withdraw", 10, 1, 1, number));
    made(BLOCK("charge", 9, 1, 1, number, 1, 0, 2, 0));
    made(BLOCK("open a strike", 13, 7, 1, number, 10000, 5, 100, 10, 600, 1, 200, 100000, 365, 10, 65535));
    made(BLOCK("open a strike", 13, 7, 1, number, 10000, 5, 100, 10, 600, 1, 200, 100000, 365, 10, 65535));
    add_orders(orders);
    shown(number);
    made(BLOCK("drop", 8));
    made(BLOCK("drop", 8));
}

/* ---- the others */

static uint8_t head[32], records[20 * 300];
static uint32_t table[70], buffer[4096];
static const uint32_t row[7] = {1, 1, 10000, 5, 100, 10, 600};
static int32_t prices[200];

static void make_session(void) {
    for (int i = 0; i < 7; i++) put(head + 4 * i, row[i]);
    put(head + 28, 5000);
    for (uint32_t i = 0; i < 300; i++) {
        uint8_t *at = records + 20 * i;
        uint32_t id = i < 60 ? i : i % 60;
        at[0] = (uint8_t) (i < 60 ? 1 + i % 2 : i < 200 ? 3 : i < 240 ? 5 : i < 299 ? 6 : 4);
        put(at + 4, 10 * i);
        if (at[0] != 6) put(at + 8, id);
        if (at[0] <= 3) put(at + 12, id % 2 ? 5004 + i % 3 : 4996 - i % 3);
        if (at[0] <= 3) put(at + 16, 50);
        if (at[0] == 5) put(at + 16, 1);
    }
}

static size_t given_records = sizeof records;

static uint64_t session(const void *given) {
    (void) given;
    return quoting_session(head, 32, records, given_records);
}

/* On a month with an open quantum, or with none. */
static uint64_t month_records(const void *given) {
    (void) given;
    return quoting_month_records(words, MONTH, hints, HINTS, records, given_records, answer, ANSWER);
}

static uint64_t session_pairs(const void *given) {
    (void) given;
    return quoting_session_pairs(head, 32, records, given_records, buffer, 4096);
}

static uint64_t account(const void *given) {
    uint32_t strike = given != NULL;
    return quoting_account(row, 7, strike, 5000, 200, 100000, 365, 10, records, given_records, buffer, 4096);
}

static uint64_t weight(const void *given) {
    (void) given;
    return quoting_weight(7000, 10000, 600);
}

static uint64_t choose_row(const void *given) {
    (void) given;
    return quoting_choose_row(table, 70, table, 70, 1, 1, 1, buffer, 7);
}

static uint64_t fix(const void *given) {
    const struct call *c = given;
    return quoting_fix(c->bytes, c->length, buffer, QUOTING_FIX_WORDS);
}

static uint64_t fix_write(const void *given) {
    static uint8_t bytes[QUOTING_FIX_BYTES];
    static const uint32_t fields[6] = {3, 4294967295u, 4294967295u, 1, 4294967295u, 0x80000000u};
    (void) given;
    return quoting_fix_write(fields, 6, (const uint8_t *) "20261102-10:00:09.500", 21, bytes, sizeof bytes);
}

static uint64_t fix_scan(const void *given) {
    static const uint32_t tags[3] = {11, 41, 60};
    const struct call *c = given;
    return quoting_fix_scan(c->bytes, c->length, tags, 3, buffer, 4096);
}

static uint64_t board(const void *given) {
    (void) given;
    for (int i = 0; i < 64; i++) buffer[i] = i % 2 ? 10000 : 7000;
    return quoting_board(buffer, 32, 55, 60);
}

static uint64_t sigma(const void *given) {
    (void) given;
    return quoting_sigma(prices, 200, buffer, 1);
}

static uint64_t volatile_day(const void *given) {
    (void) given;
    return quoting_volatile(prices, 200, 5000);
}

static uint64_t ease(const void *given) {
    uint32_t eased[7];
    memcpy(eased, row, sizeof eased);
    return quoting_ease(eased, 7, given != NULL, prices, 200, 5000);
}

static uint64_t safe_minutes(const void *given) {
    (void) given;
    return quoting_safe_minutes(60, 60, 60);
}

static uint64_t standing(const void *given) {
    static struct quoting_maker makers[512];
    static uint32_t calls[3 * 400], outcomes[400];
    (void) given;
    for (uint32_t i = 0; i < 400; i++) {
        calls[3 * i] = i < 200 ? 1 : i < 300 ? 2 : 3;
        calls[3 * i + 1] = i % 200;
        calls[3 * i + 2] = calls[3 * i] == 3 ? 0 : i * 7 % 100;
    }
    return quoting_standing(makers, 512, 0, calls, 3 * 400, outcomes, 400);
}

static void accepted(const char *name, uint64_t (*call)(const void *), const void *given) {
    if (quoting_refusal_of(measure(name, call, given)) != 0) stop(name);
}

static void others(void) {
    static const int strike = 1;
    struct call c = message(3, 12, 11, "20261102-10:00:09.500");
    struct call said = {.length = c.bytes[8]};
    memcpy(said.bytes, c.bytes + 12 + 21, said.length);
    struct call opened = BLOCK("open", 1, 7, 1, 1, 10000, 5, 100, 10, 600, 1, 5000, 65535);
    make_session();
    accepted("quoting_month_fresh", month_fresh, NULL);
    if (month_call(&opened) != ANSWER || answer[0] == QUOTING_ANSWER_REFUSED) stop("no quantum was opened");
    for (int i = 0; i < 70; i++) table[i] = i < 63 ? 2 : row[i - 63];
    for (int i = 0; i < 200; i++) prices[i] = 7000 + (i < 120 ? i % 3 : i * 37 % 200);
    for (int turn = 0; turn < 2; turn++) {
        accepted("quoting_session", session, NULL);
        accepted("quoting_month_records", month_records, NULL);
        accepted("quoting_session_pairs", session_pairs, NULL);
        accepted("quoting_account", account, NULL);
        accepted("quoting_account", account, &strike);
        given_records = 0;
    }
    given_records = 20 * 100 + 7; /* refused by 15 */
    measure("quoting_session", session, NULL);
    measure("quoting_month_records", month_records, NULL);
    measure("quoting_session_pairs", session_pairs, NULL);
    measure("quoting_account", account, NULL);
    accepted("quoting_weight", weight, NULL);
    accepted("quoting_choose_row", choose_row, NULL);
    accepted("quoting_fix", fix, &said);
    accepted("quoting_fix_write", fix_write, NULL);
    accepted("quoting_fix_scan", fix_scan, &said);
    said.bytes[said.length - 2] ^= 1; /* a wrong checksum */
    accepted("quoting_fix_scan", fix_scan, &said);
    accepted("quoting_board", board, NULL);
    accepted("quoting_sigma", sigma, NULL);
    accepted("quoting_volatile", volatile_day, NULL);
    accepted("quoting_ease", ease, NULL);
    accepted("quoting_ease", ease, &strike);
    accepted("quoting_safe_minutes", safe_minutes, NULL);
    accepted("quoting_standing", standing, NULL);
}

int main(void) {
    stack = mmap(NULL, STACK, PROT_READ | PROT_WRITE, MAP_PRIVATE | MAP_ANONYMOUS, -1, 0);
    if (stack == MAP_FAILED) stop("no memory");
    accepted("quoting_month_fresh", month_fresh, NULL);
    events(1, 1);
    messages();
    shown(0);
    quantum(0, 0);
    quantum(1, 3);
    quantum(2, 64);
    accepted("quoting_calls", list_call, NULL);
    accepted("quoting_calls_words", list_words, NULL);
    others();
    for (size_t i = 0; found[i].name != NULL; i++) printf("%s: %zu\n", found[i].name, found[i].deepest);
    return 0;
}
