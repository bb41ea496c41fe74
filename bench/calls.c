/* Nanoseconds of a month's calls through quoting_typed.h: processor time, the least of 400 rounds of 200 calls.

     cc -O2 -Iinclude -o target/calls bench/calls.c target/library/libquoting.a && target/calls        (after make library) */
#define _POSIX_C_SOURCE 200809L
#include <stdio.h>
#include <stdlib.h>
#include <time.h>

#include "quoting_typed.h"

enum { ROUNDS = 400, CALLS = 200 };

static const char start[] = "20261102-10:00:00.000", sixty[] = "20261102-10:00:09.500";
static const struct quoting_row row = {1, 1, 10000, 5, 100, 10, 600};
static struct quoting_month month;
static uint8_t new_order[QUOTING_FIX_BYTES], cancel[QUOTING_FIX_BYTES];
static size_t new_order_length, cancel_length;

static quoting_status report(void) {
    struct quoting_report found;
    return quoting_month_report(&month, &found);
}

static quoting_status charge(void) {
    return quoting_month_charge(&month, 1, 1, 1, 5, 7);
}

static quoting_status open_and_drop(void) {
    quoting_status status = quoting_month_open(&month, &row, 31, 5000, QUOTING_NO_LIMIT);
    return status != QUOTING_ACCEPTED ? status : quoting_month_drop(&month);
}

static quoting_status outlook(void) {
    struct quoting_outlook found;
    return quoting_month_outlook(&month, &found);
}

static quoting_status order_and_cancel(void) {
    quoting_status status = quoting_month_message(&month, start, 21, new_order, new_order_length);
    return status != QUOTING_ACCEPTED ? status : quoting_month_message(&month, start, 21, cancel, cancel_length);
}

static void accepted(quoting_status status) {
    if (status == QUOTING_ACCEPTED) return;
    fprintf(stderr, "calls: %s\n", quoting_status_text(status));
    exit(2);
}

static double seconds(void) {
    struct timespec t;
    clock_gettime(CLOCK_THREAD_CPUTIME_ID, &t);
    return (double) t.tv_sec + 1e-9 * (double) t.tv_nsec;
}

static void measure(const char *name, quoting_status (*call)(void)) {
    double least = 1e9;
    for (int i = 0; i < ROUNDS; i++) {
        double began = seconds();
        for (int k = 0; k < CALLS; k++) accepted(call());
        double took = (seconds() - began) / CALLS;
        if (took < least) least = took;
    }
    printf("%s: %.0f ns\n", name, 1e9 * least);
}

/* Ninety cells, each kept for eight seconds of ten. */
static void fill_cells(void) {
    for (uint32_t place = 0; place < 90; place++) {
        const struct quoting_row each = {place / 3 % 2 + 1, place % 3, 10000, 5, 100, 10, 600};
        accepted(quoting_month_open(&month, &each, place / 6 + 1, 5000, QUOTING_NO_LIMIT));
        accepted(quoting_month_add(&month, 10, 1, QUOTING_BUY, 4999, 50));
        accepted(quoting_month_add(&month, 2000, 2, QUOTING_SELL, 5001, 50));
        accepted(quoting_month_close(&month, 5, 7));
    }
}

static size_t message(uint8_t *bytes, uint32_t kind, uint32_t id, uint32_t other) {
    const uint32_t fields[] = {kind, id, other, QUOTING_BUY, 5, 4990};
    uint64_t length = quoting_fix_write(fields, 6, (const uint8_t *) sixty, 21, bytes, QUOTING_FIX_BYTES);
    accepted(quoting_refusal_of(length));
    return (size_t) length;
}

int main(void) {
    new_order_length = message(new_order, 1, 11, 0);
    cancel_length = message(cancel, 2, 12, 11);
    accepted(quoting_month_start(&month));
    fill_cells();
    measure("report, 90 filled cells", report);
    measure("charge", charge);
    measure("open and drop, two calls", open_and_drop);
    accepted(quoting_month_open(&month, &row, 31, 5000, QUOTING_NO_LIMIT));
    measure("outlook", outlook);
    measure("message D and message F, two calls", order_and_cancel);
    return 0;
}
