/* Words that no call wrote, through every kind of call, event records and the view: nothing outside the lent buffers may be touched, and nothing may trap.

     foreign_words [THIN [PLAIN]]    every THIN-th trial alone; PLAIN: the buffers are of malloc, for a tool that watches memory

   Real months (idle, with filled cells, open with 0, 5, 12 and 64 orders) have one word, or two, set to something else. Each trial makes the
   calls of every kind, each from these words, then some in a row. A lent buffer ends, or begins, at memory that may not be touched and that
   is wider than any word can index. A signal is caught and printed with the month, the words and the call. Words that are no month's by the
   tests on entry must be refused by 3 at place 1, with nothing written. */

#define _GNU_SOURCE
#include <inttypes.h>
#include <setjmp.h>
#include <signal.h>
#include <stdint.h>
#include <stdio.h>
#include <stdlib.h>
#include <string.h>
#include <sys/mman.h>
#include <sys/wait.h>
#include <unistd.h>

#include "blocks.h"
#include "quoting.h"

enum { MONTH = QUOTING_MONTH_WORDS, HINTS = QUOTING_HINT_BYTES, ANSWER = QUOTING_ANSWER_WORDS, VIEW = QUOTING_VIEW_WORDS };
enum { PLACE = 1, LENGTH = 6, BUYS = 208, SELLS = 464, BUY_IDS = 16, SELL_IDS = 272, CELLS = 604, MONTHS = 8, CALLS = 64, BYTES = 256, SHOWN = 100 };

static const uint64_t no_month = ((uint64_t) QUOTING_ARGUMENT_OUT_OF_RANGE << 32) + 1;
static const uint64_t view_short = ((uint64_t) QUOTING_BUFFER_SHORT << 32) + 2;

/* ---- lent buffers, each between two stretches that may not be touched */

static int plain;
static const size_t guard = (size_t) 1 << 35; /* more than 4 bytes for each number of 32 bits */

struct lent {
    uint8_t *at[2]; /* flush against the end, and against the start */
    size_t size;
};

static void stop(const char *why) {
    fprintf(stderr, "foreign_words: %s\n", why);
    exit(2);
}

static uint8_t *between(size_t size, int end) {
    size_t page = (size_t) sysconf(_SC_PAGESIZE), inner = (size + page - 1) / page * page;
    uint8_t *all = mmap(NULL, inner + 2 * guard, PROT_NONE, MAP_PRIVATE | MAP_ANONYMOUS | MAP_NORESERVE, -1, 0);
    if (all == MAP_FAILED) stop("no room for the buffers");
    if (mprotect(all + guard, inner, PROT_READ | PROT_WRITE) != 0) stop("no buffer");
    return all + guard + (end ? inner - size : 0);
}

static void lend(struct lent *l, size_t size) {
    l->size = size;
    for (int i = 0; i < 2; i++) {
        l->at[i] = plain ? malloc(size) : between(size, i == 0);
        if (l->at[i] == NULL) stop("no memory");
    }
}

static struct lent words, hints, answer, view;
/* a call's bytes, for each length a buffer of its own */
static struct lent said[BYTES + 1];

/* ---- calls */

static struct call calls[CALLS];
static size_t made;

static const char *const start = "20261102-10:00:00.000";

static struct call message(const char *name, uint32_t kind, uint32_t id, uint32_t of, uint32_t side, uint32_t volume, uint32_t price) {
    uint32_t fields[6] = {kind, id, of, side, volume, price};
    struct call c = {.name = name};
    uint64_t n = quoting_fix_write(fields, 6, (const uint8_t *) "20261102-10:00:09.500", 21, c.bytes + 12 + 21, QUOTING_FIX_BYTES);
    if (n >> 32 != 0) stop("no message");
    put(c.bytes, 16);
    put(c.bytes + 4, 21);
    put(c.bytes + 8, (uint32_t) n);
    memcpy(c.bytes + 12, start, 21);
    c.length = (12 + 21 + n + 3) / 4 * 4;
    return c;
}

static void add_call(struct call c) {
    if (made == CALLS) stop("too many calls");
    calls[made++] = c;
}

/* Event records of every kind, on two orders. */
static struct call some_records(uint32_t t, uint32_t id, uint32_t other) {
    const uint32_t fields[][5] = {
        {1, t, other, 4994, 3}, {3, t, id, 5001, 9}, {3, t, other, (uint32_t) -1000000000, 1000000}, {5, t, id, 0, 1}, {2, t, other + 1, 5010, 7},
        {4, t, id, 0, 0}, {6, t, 0, 0, 0}, {4, t, other, 0, 0}};
    struct call c = {.name = "records", .length = sizeof fields, .is_records = 1};
    for (size_t i = 0; i < sizeof fields / 4; i++) put(c.bytes + 4 * i, fields[i / 5][i % 5]);
    return c;
}

/* Every kind of call; those about an order name `id`, a cell's calls the cell `place`. */
static void make_calls(uint32_t t, uint32_t id, uint32_t other, uint32_t place) {
    uint32_t day = place / 6 + 1, expiry = place / 3 % 2 + 1, quantum = place % 3;
    made = 0;
    add_call(some_records(t, id, other));
    add_call(BLOCK("add buy", 2, t, id, 1, 4990, 7));
    add_call(BLOCK("add sell", 2, t, id, 2, 5010, 7));
    add_call(BLOCK("add, new", 2, t, other, 1, 4993, 3));
    add_call(BLOCK("amend", 3, t, id, 5001, 9));
    add_call(BLOCK("amend to the worst", 3, t, id, (uint32_t) -1000000000, 1000000));
    add_call(BLOCK("cancel", 4, t, id));
    add_call(BLOCK("deal", 5, t, id, 1));
    add_call(BLOCK("deal, all", 5, t, id, 5));
    add_call(BLOCK("tick", 6, t));
    add_call(BLOCK("tick to the end", 6, 10000));
    add_call(BLOCK("ask", 14, t, id, 5002, 4));
    add_call(BLOCK("look", 11, day, expiry, quantum));
    add_call(BLOCK("close", 7, 5, 0, 7, 0));
    add_call(BLOCK("drop", 8));
    add_call(BLOCK("charge", 9, day, expiry, quantum, 1, 0, 2, 0));
    add_call(BLOCK("withdraw", 10, day, expiry, quantum));
    add_call(BLOCK("report", 12));
    add_call(BLOCK("outlook", 17));
    add_call(BLOCK("open", 1, 7, expiry, quantum, 10000, 5, 100, 10, 600, day, 5000, 3));
    add_call(BLOCK("open a strike", 13, 7, expiry, quantum, 10000, 5, 100, 10, 333, day, 50, 100, 30, 10, 65535));
    add_call(BLOCK("commit", 15, t, id, 5003, 6, t, id, 5003, 6, 0, 0));
    add_call(message("message D", 1, id, 0, 2, 5, 5004));
    add_call(message("message F", 2, other, id, 0, 0, 0));
    add_call(message("message G", 3, other, id, 1, 5, 4992));
}

/* ---- a call on foreign words */

/* What is tried now, and how many were; in memory that outlives the process that tries it. */
struct now {
    const char *month, *call;
    uint32_t set_at[2], set_to[2];
    int sets, hint;
    long trials, wrong;
    size_t shown;
    const char *calls[SHOWN], *whats[SHOWN]; /* each kind of call is named once for each thing that went wrong */
};

static struct now *now;
static sigjmp_buf back;
static volatile sig_atomic_t inside;

static void caught(int signal) {
    if (!inside) _exit(3);
    siglongjmp(back, signal);
}

static void complain(const char *what) {
    now->wrong++;
    for (size_t i = 0; i < now->shown; i++) {
        if (now->calls[i] == now->call && now->whats[i] == what) return;
    }
    if (now->shown == SHOWN) return;
    now->calls[now->shown] = now->call;
    now->whats[now->shown++] = what;
    printf("%s, ", now->month);
    for (int i = 0; i < now->sets; i++) printf("word %" PRIu32 " = %" PRIu32 ", ", now->set_at[i], now->set_to[i]);
    printf("%s, hints %d: %s\n", now->call, now->hint, what);
    fflush(stdout);
}

static const char *named(int signal) {
    return signal == SIGFPE ? "a division trapped" : signal == SIGALRM ? "it does not end" : signal == SIGILL ? "an instruction trapped" : "memory outside the lent buffers";
}

/* Whether the tests on entry let words pass. */
static int may_be_month(const uint32_t *w) {
    return w[PLACE] < 186 && w[LENGTH] >= 1 && w[BUYS] <= 64 && w[SELLS] <= 64 && w[BUYS] + w[SELLS] <= 64;
}

static uint64_t answered(const struct call *c, int side) {
    uint32_t *w = (uint32_t *) (void *) words.at[side], *out = (uint32_t *) (void *) answer.at[side];
    const uint8_t *bytes = said[c->length].at[side];
    return c->is_records ? quoting_month_records(w, MONTH, hints.at[side], HINTS, bytes, c->length, out, ANSWER)
                         : quoting_month_call(w, MONTH, hints.at[side], HINTS, bytes, c->length, out, ANSWER);
}

/* The number that a call, or a view where `c` is null, answers into `found`; or the signal that ended it. */
static int watched(const struct call *c, int side, size_t room, uint64_t *found) {
    uint32_t *w = (uint32_t *) (void *) words.at[side];
    int signal = sigsetjmp(back, 0);
    if (signal == 0) {
        inside = 1;
        *found = c == NULL ? quoting_month_view(w, MONTH, (uint32_t *) (void *) view.at[side], room) : answered(c, side);
    }
    inside = 0;
    return signal;
}

static int all_are(const uint8_t *bytes, size_t from, size_t to, int value) {
    for (size_t i = from; i < to; i++) {
        if (bytes[i] != (uint8_t) value) return 0;
    }
    return 1;
}

/* One call from the words in `w`; those that it leaves are there afterwards where `keep`. */
static void try_call(uint32_t *w, const struct call *c, int hint, int side, int keep) {
    uint64_t found = 0;
    memcpy(words.at[side], w, MONTH * 4);
    memset(hints.at[side], hint, HINTS);
    memset(answer.at[side], 0x5a, ANSWER * 4);
    memcpy(said[c->length].at[side], c->bytes, c->length);
    now->call = c->name;
    now->hint = hint;
    now->trials++;
    int signal = watched(c, side, 0, &found), passes = may_be_month(w);
    if (signal != 0) {
        complain(named(signal));
        return;
    }
    if (!passes ? found != no_month : c->is_records ? found > c->length / 20 : found != ANSWER) complain("another answer");
    if (!passes && (memcmp(words.at[side], w, MONTH * 4) != 0 || !all_are(hints.at[side], 0, HINTS, hint) || !all_are(answer.at[side], 0, ANSWER * 4, 0x5a))) {
        complain("something was written");
    }
    if (keep) memcpy(w, words.at[side], MONTH * 4);
}

static void try_view(const uint32_t *w, int side, size_t room) {
    uint64_t found = 0;
    memcpy(words.at[side], w, MONTH * 4);
    memset(view.at[side], 0x5a, VIEW * 4);
    now->call = "view";
    now->hint = 0;
    now->trials++;
    int signal = watched(NULL, side, room, &found), passes = may_be_month(w);
    if (signal != 0) {
        complain(named(signal));
        return;
    }
    if (passes ? found > room && found != view_short : found != no_month) complain("another answer");
    if (memcmp(words.at[side], w, MONTH * 4) != 0) complain("the words were changed");
    if (!all_are(view.at[side], found > room ? 0 : 4 * found, VIEW * 4, 0x5a)) complain("more was written than it says");
}

/* ---- real months */

static uint32_t months[MONTHS][MONTH];
static const char *const month_names[MONTHS] = {
    "fresh", "filled, idle", "open, no order", "open, 5 orders", "open, a strike, 12 orders", "open, 64 buys", "open, 64 orders, filled", "open, 2 sells"};

static void call_on(uint32_t *w, struct call c) {
    static uint8_t h[HINTS];
    uint32_t out[ANSWER];
    if (quoting_month_call(w, MONTH, h, HINTS, c.bytes, c.length, out, ANSWER) != ANSWER || out[0] == QUOTING_ANSWER_REFUSED) stop(c.name);
}

static struct call opened(uint32_t place, uint32_t share) {
    return BLOCK("open", 1, 7, place / 3 % 2 + 1, place % 3, 10000, 20, 100, 10, share, place / 6 + 1, 5000, 65535);
}

/* Orders 1001, 1002, ..: some at one price, in both directions; `buys` of them buys. */
static void add_orders(uint32_t *w, uint32_t count, uint32_t buys) {
    for (uint32_t i = 0; i < count; i++) {
        int buy = i % 2 == 0 ? i / 2 < buys : count - buys <= i / 2;
        uint32_t away = i * 7 % 11;
        call_on(w, BLOCK("add", 2, 100 * i, 1001 + i, buy ? 1 : 2, buy ? 4995 - away : 5005 + away, 5 + i % 3));
    }
}

static void fill_cells(uint32_t *w) {
    for (uint32_t place = 0; place < 186; place += 2) {
        call_on(w, opened(place, place % 4 == 0 ? 600 : 333));
        add_orders(w, 10, 5);
        call_on(w, BLOCK("close", 7, 100 + place, 0, 7, 0));
    }
}

static void make_months(void) {
    for (int i = 0; i < MONTHS; i++) {
        uint32_t *w = months[i];
        if (quoting_month_fresh(w, MONTH) != MONTH) stop("no fresh month");
        if (i == 1 || i == 6) fill_cells(w);
        if (i == 4) call_on(w, BLOCK("open a strike", 13, 7, 1, 1, 10000, 5, 100, 10, 333, 2, 50, 100, 30, 10, 4));
        if (i == 2 || i == 3 || i >= 5) call_on(w, opened(7, 333));
        if (i >= 3) {
            static const uint32_t counts[MONTHS] = {0, 0, 0, 5, 12, 64, 64, 2}, buys[MONTHS] = {0, 0, 0, 3, 6, 64, 32, 0};
            add_orders(w, counts[i], buys[i]);
        }
    }
}

/* ---- the trials */

static uint64_t seed = 1;

static uint32_t pick(uint32_t below) {
    seed = seed * 6364136223846793005u + 1442695040888963407u;
    return (uint32_t) ((seed >> 33) % below);
}

static const uint32_t values[] = {0, 1, 64, 65, 186, 800, 1001, 1004, 0x80000000u, 0xffffffffu};
enum { VALUES = sizeof values / sizeof values[0] };

/* The slot of an order whose id is this word, or 255. */
static int slot_of(uint32_t at) {
    if (at - BUY_IDS < 64) return (int) (at - BUY_IDS);
    if (at - SELL_IDS < 64) return (int) (64 + at - SELL_IDS);
    return 255;
}

static void try_words(uint32_t *w, uint32_t at, uint32_t value, long turn) {
    static const uint32_t times[] = {9500, 10000, 0};
    uint32_t place = at < CELLS ? 7 : (at - CELLS) / 10;
    int slot = slot_of(at), side = (int) (turn & 1);
    uint32_t row[MONTH];
    /* by the id that was set, with hints that point there; by a live id, with hints that point nowhere */
    make_calls(times[turn % 3 == 2 ? 1 : 0], value, 77, place);
    for (size_t i = 0; i < made; i++) try_call(w, &calls[i], slot, side, 0);
    try_view(w, side, VIEW);
    try_view(w, 1 - side, 16 + pick(80));
    make_calls(9500, 1001 + pick(5), value, place);
    for (size_t i = 0; i < 12; i++) try_call(w, &calls[i], (int) pick(128), 1 - side, 0);
    /* some in a row */
    memcpy(row, w, sizeof row);
    for (int i = 0; i < 3; i++) try_call(row, &calls[pick((uint32_t) made)], slot, side, 1);
    try_view(row, 1 - side, VIEW);
}

/* A word that is read as more than a number, mostly. */
static uint32_t word_picked(void) {
    static const uint32_t parts[][2] = {{0, 16}, {BUY_IDS, 64}, {80, 128}, {BUYS, 4}, {SELL_IDS, 64}, {336, 128}, {SELLS, 4}, {528, 76}, {CELLS, 200}, {0, MONTH}};
    const uint32_t *part = parts[pick(sizeof parts / sizeof parts[0])];
    return part[0] + pick(part[1]);
}

static uint32_t value_picked(void) {
    uint32_t i = pick(VALUES + 3);
    return i < VALUES ? values[i] : i == VALUES ? 1001 + pick(64) : i == VALUES + 1 ? pick(128) : pick(0x7fffffff) * 2 + pick(2);
}

static long thin, turn;

/* One word set to each value, for the words from one to another. */
static void try_single(int m, uint32_t from, uint32_t to) {
    uint32_t w[MONTH];
    memcpy(w, months[m], sizeof w);
    now->sets = 1;
    for (uint32_t at = from; at < to; at++) {
        for (uint32_t v = 0; v < VALUES; v++) {
            /* cells are alike */
            if (++turn % thin != 0 || (at >= CELLS + 200 && (v + at) % 4 != 0)) continue;
            now->set_at[0] = at;
            now->set_to[0] = values[v];
            w[at] = values[v];
            try_words(w, at, values[v], turn);
            w[at] = months[m][at];
        }
    }
}

static void try_pairs(int m, long count) {
    uint32_t w[MONTH];
    memcpy(w, months[m], sizeof w);
    now->sets = 2;
    for (long k = 0; k < count; k++) {
        for (int i = 0; i < 2; i++) {
            now->set_at[i] = word_picked();
            now->set_to[i] = value_picked();
        }
        if (++turn % thin != 0) continue;
        for (int i = 0; i < 2; i++) w[now->set_at[i]] = now->set_to[i];
        try_words(w, now->set_at[1], now->set_to[1], turn);
        for (int i = 0; i < 2; i++) w[now->set_at[i]] = months[m][now->set_at[i]];
    }
}

/* A group of trials, in a process of its own where no tool watches: a stray write may end it, and is then named as well. */
static void try_group(int m, uint32_t part) {
    enum { WORDS = 32, PAIRS = 500 };
    now->month = month_names[m];
    pid_t child = plain ? 0 : fork();
    if (child == 0) {
        seed = turn = 1000 * m + part;
        alarm(300);
        if (part * WORDS < MONTH) {
            try_single(m, part * WORDS, (part + 1) * WORDS);
        } else {
            try_pairs(m, PAIRS);
        }
        if (plain) return;
        _exit(0);
    }
    int status;
    if (child < 0 || waitpid(child, &status, 0) != child) stop("no process");
    if (status != 0) complain("it ended the process");
}

int main(int count, char **given) {
    enum { GROUPS = MONTH / 32 + 8 };
    thin = count > 1 ? atol(given[1]) : 1;
    plain = count > 2;
    now = mmap(NULL, sizeof *now, PROT_READ | PROT_WRITE, MAP_SHARED | MAP_ANONYMOUS, -1, 0);
    if (now == MAP_FAILED) stop("no memory");
    lend(&words, MONTH * 4);
    lend(&hints, HINTS);
    lend(&answer, ANSWER * 4);
    lend(&view, VIEW * 4);
    for (size_t n = 4; n <= BYTES; n += 4) lend(&said[n], n);
    make_months();
    static uint8_t aside[1 << 16];
    stack_t other = {.ss_sp = aside, .ss_size = sizeof aside};
    sigaltstack(&other, NULL);
    struct sigaction action = {.sa_handler = caught, .sa_flags = SA_NODEFER | SA_ONSTACK};
    int signals[] = {SIGSEGV, SIGBUS, SIGFPE, SIGILL, SIGALRM};
    for (size_t i = 0; i < sizeof signals / sizeof signals[0]; i++) sigaction(signals[i], &action, NULL);
    for (int m = 0; m < MONTHS; m++) {
        for (uint32_t part = 0; part < GROUPS; part++) try_group(m, part);
    }
    printf("foreign words: %ld calls on words that no call wrote, %ld wrong\n", now->trials, now->wrong);
    return now->wrong != 0;
}
