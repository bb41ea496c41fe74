/*
 * Answers as lines of text, over quoting_typed.h, for a client's log: the lines that `replay` prints. A client that prints them can be compared with
 * `replay` on the same calls. All of it is static inline, for C99 and C++.
 */
#ifndef QUOTING_LINES_H
#define QUOTING_LINES_H

#include <inttypes.h>
#include <stdio.h>

#include "quoting_typed.h"

/* A name and its number, or the word that is printed where there is none. */
static inline void quoting_print_number(FILE *out, const char *name, bool is_there, int64_t number, const char *otherwise) {
    if (is_there) fprintf(out, " %s %" PRId64, name, number);
    else fprintf(out, " %s %s", name, otherwise);
}

static inline void quoting_print_quotes(FILE *out, struct quoting_quote bid, struct quoting_quote ask) {
    quoting_print_number(out, "bid", bid.is_there, bid.price, "absent");
    quoting_print_number(out, "ask", ask.is_there, ask.price, "absent");
}

static inline void quoting_print_cell(FILE *out, const struct quoting_cell *c) {
    fprintf(out, "cell kept %" PRIu32 " of %" PRIu32 " share %" PRIu32 " lapses %" PRIu32, c->kept, c->length, c->share, c->lapses);
    quoting_print_number(out, "limit", c->lapse_limit != QUOTING_NO_LIMIT, c->lapse_limit, "none");
    fprintf(out, " active %" PRIu64 " passive %" PRIu64, c->active, c->passive);
    fprintf(out, " verdict %s weight %" PRIu32 "\n", c->is_met ? "met" : "failed", c->weight);
}

static inline void quoting_print_asked(FILE *out, const struct quoting_asked *a) {
    const struct quoting_ticket *t = &a->ticket;
    fprintf(out, "asked");
    quoting_print_quotes(out, a->bid, a->ask);
    fprintf(out, " ticket %" PRIu32 " %" PRIu32 " %" PRId32 " %" PRIu32 " count %" PRIu64 "\n", t->t, t->id, t->price, t->volume, t->count);
}

static inline void quoting_print_report(FILE *out, const struct quoting_report *r) {
    fprintf(out, "report open %s time %" PRIu32 " orders %" PRIu32, r->is_open ? "yes" : "no", r->time, r->orders);
    quoting_print_quotes(out, r->bid, r->ask);
    fprintf(out, " kept %" PRIu32 " lapses %" PRIu32 " failed", r->kept, r->lapses);
    for (int i = 0; i < 6; i++) fprintf(out, " %" PRIu32, r->failed[i]);
    fprintf(out, " fee %" PRIu64 "\n", r->fee);
}

static inline void quoting_print_outlook(FILE *out, const struct quoting_outlook *o) {
    fprintf(out, "outlook need %" PRIu32 " left %" PRIu32, o->need, o->left);
    quoting_print_number(out, "by", o->by.is_possible, o->by.milliseconds, "never");
    quoting_print_number(out, "full", o->full.is_possible, o->full.milliseconds, "never");
    quoting_print_number(
        out, "lapses", o->lapses_left == QUOTING_LAPSES_LEFT, o->lapses, o->lapses_left == QUOTING_LAPSES_OVER ? "over" : "none");
    fprintf(out, " rest %s lost %s", o->may_rest ? "yes" : "no", o->is_lost ? "yes" : "no");
    fprintf(out, " weight %" PRIu32 " %" PRIu32 "\n", o->weight_resting, o->weight_keeping);
}

/* The line of an answer. A call that was not made has the line "not made", and its reason. */
static inline void quoting_print_reply(FILE *out, quoting_status status, const struct quoting_reply *reply) {
    if (status >= QUOTING_NOT_A_CALL) fprintf(out, "not made: %s\n", quoting_status_text(status));
    else if (status != QUOTING_ACCEPTED) fprintf(out, "refused %" PRIu32 "\n", status);
    else if (reply->kind == QUOTING_ANSWER_CELL) quoting_print_cell(out, &reply->cell);
    else if (reply->kind == QUOTING_ANSWER_ASKED) quoting_print_asked(out, &reply->asked);
    else if (reply->kind == QUOTING_ANSWER_REPORT) quoting_print_report(out, &reply->report);
    else if (reply->kind == QUOTING_ANSWER_OUTLOOK) quoting_print_outlook(out, &reply->outlook);
    else fprintf(out, "accepted\n");
}

/* The open quantum, and a line for each live order in the order in which they were added. */
static inline void quoting_print_view(FILE *out, const struct quoting_view *v) {
    const struct quoting_row *r = &v->row;
    const struct quoting_strike *s = &v->strike;
    if (!v->is_open) {
        fprintf(out, "view none\n");
        return;
    }
    fprintf(out, "view day %" PRIu32 " row %" PRIu32 " %" PRIu32 " %" PRIu32, v->day, r->expiry, r->quantum, r->length);
    fprintf(out, " %" PRIu32 " %" PRIu32 " %" PRIu32 " %" PRIu32, r->volume, r->a, r->b, r->share);
    if (v->by_strike) fprintf(out, " strike %" PRIu32 " %" PRIu32 " %" PRIu32 " %" PRIu32, s->a, s->difference, s->days, s->b);
    else fprintf(out, " sp %" PRId32, v->sp);
    fprintf(out, " limit %" PRIu32 " widest %" PRIu32, v->lapse_limit, v->widest);
    fprintf(out, " state %s orders %" PRIu32 "\n", quoting_state_name(v->state), v->count);
    for (const struct quoting_order *o = v->orders; o < v->orders + v->count; o++) {
        fprintf(out, "order %" PRIu32 " %s %" PRId32 " %" PRIu32 "\n", o->id, o->side == QUOTING_BUY ? "buy" : "sell", o->price, o->volume);
    }
}

#endif
