/*
 * The quoting meter with types, over quoting.h: a month as a struct, a function for each of its calls, and a struct for each answer. All of it is
 * static inline, for C99 and C++; quoting.hpp is for C++17.
 *
 *     struct quoting_month month;
 *     struct quoting_report report;
 *     const struct quoting_row row = {1, 1, 31500000, 1000, 150, 3, 600};
 *     quoting_status status = quoting_month_start(&month);
 *     if (status == QUOTING_ACCEPTED) status = quoting_month_open(&month, &row, 1, 8452, QUOTING_NO_LIMIT);
 *     if (status == QUOTING_ACCEPTED) status = quoting_month_add(&month, 10000, 1, QUOTING_BUY, 8446, 1000);
 *     if (status == QUOTING_ACCEPTED) status = quoting_month_report(&month, &report);
 *     if (status != QUOTING_ACCEPTED) puts(quoting_status_text(status));
 *
 * Every function that may be refused returns one status. What it fills in is cleared first, so that nothing is left there of an earlier call. A
 * month that is damaged, and arguments that are no call, have statuses of their own: nothing was done then.
 */
#ifndef QUOTING_TYPED_H
#define QUOTING_TYPED_H

#include <stdbool.h>
#include <string.h>

#include "quoting.h"

#if defined(__GNUC__)
#define QUOTING_CHECKED __attribute__((warn_unused_result))
#else
#define QUOTING_CHECKED
#endif

/* In C++ the casts of C below would be a warning of -Wold-style-cast at each client. */
#if defined(__cplusplus) && defined(__GNUC__)
#pragma GCC diagnostic push
#pragma GCC diagnostic ignored "-Wold-style-cast"
#endif

/* QUOTING_ACCEPTED, a number of enum quoting_refusal (what was asked for is refused), or one of enum quoting_not_made. */
typedef uint32_t quoting_status;

enum quoting_not_made {
    QUOTING_NOT_A_CALL = 256,        /* the arguments are no call of the month: a side that is neither, or bytes that are not one block */
    QUOTING_NOT_A_MONTH = 257,       /* the month's words are not a month's: it was not started, or is damaged */
    QUOTING_MESSAGE_TOO_LONG = 258,  /* start and message have more than QUOTING_MESSAGE_BYTES */
    QUOTING_NOT_THIS_ANSWER = 259    /* the library answered by another kind: header and library differ */
};

/* The most bytes of a quantum's start and a message together, for quoting_month_message. quoting_month_block takes more. */
#define QUOTING_MESSAGE_BYTES 4096
/* As a lapse limit: there is none. */
#define QUOTING_NO_LIMIT 65535
#define QUOTING_RECORD_BYTES 20
#define QUOTING_MOST_ORDERS 64

enum quoting_side { QUOTING_BUY = 1, QUOTING_SELL = 2 };

/* The kinds of event records. */
enum quoting_record {
    QUOTING_RECORD_ADD_BUY = 1,
    QUOTING_RECORD_ADD_SELL = 2,
    QUOTING_RECORD_AMEND = 3,
    QUOTING_RECORD_CANCEL = 4,
    QUOTING_RECORD_DEAL = 5,
    QUOTING_RECORD_TICK = 6
};

/* A month, to be copied and stored as it is. The hints change no answer; they save time. */
struct quoting_month {
    uint32_t words[QUOTING_MONTH_WORDS];
    uint8_t hints[QUOTING_HINT_BYTES];
};

/* A programme's row: length is L in milliseconds, volume M, share p in tenths of a percent. */
struct quoting_row {
    uint32_t expiry, quantum, length, volume, a, b, share;
};

/* A strike's numbers, which are used in place of SP and the row's a and b: a is in tenths. */
struct quoting_strike {
    uint32_t a, difference, days, b;
};

struct quoting_quote {
    bool is_there;
    int32_t price;
};

/* A closed quantum. Charges are in kopecks, lapse_limit may be QUOTING_NO_LIMIT. */
struct quoting_cell {
    uint32_t kept, length, share, lapse_limit, lapses;
    uint64_t active, passive;
    bool is_met;
    uint32_t weight;
};

struct quoting_ticket {
    uint32_t t, id;
    int32_t price;
    uint32_t volume;
    uint64_t count;
};

/* Both best quotes after the amendment, and its ticket. */
struct quoting_asked {
    struct quoting_quote bid, ask;
    struct quoting_ticket ticket;
};

/* The open quantum, the failed quanta of the six series, the fee in kopecks. */
struct quoting_report {
    bool is_open;
    uint32_t time, orders;
    struct quoting_quote bid, ask;
    uint32_t kept, lapses, failed[6];
    uint64_t fee;
};

struct quoting_possible {
    bool is_possible;
    uint32_t milliseconds;
};

enum quoting_lapses_left { QUOTING_LAPSES_NO_LIMIT = 0, QUOTING_LAPSES_OVER = 1, QUOTING_LAPSES_LEFT = 2 };

/* What the open quantum still needs: milliseconds that must still be kept (need), those that remain (left), the latest time until which nothing
   need be kept (by), milliseconds for the full weight (full), and lapses, which is a number where lapses_left is QUOTING_LAPSES_LEFT. */
struct quoting_outlook {
    uint32_t need, left;
    struct quoting_possible by, full;
    enum quoting_lapses_left lapses_left;
    uint32_t lapses;
    bool may_rest, is_lost;
    uint32_t weight_resting, weight_keeping;
};

struct quoting_order {
    uint32_t id;
    enum quoting_side side;
    int32_t price;
    uint32_t volume;
};

/* The open quantum as it is now, with its orders as they were added. Where by_strike is set, sp is 0, else strike is. */
struct quoting_view {
    bool is_open;
    uint32_t day;
    struct quoting_row row;
    bool by_strike;
    int32_t sp;
    struct quoting_strike strike;
    uint32_t lapse_limit, widest;
    enum quoting_state state;
    uint32_t count;
    struct quoting_order orders[QUOTING_MOST_ORDERS];
};

/* The answer to any call: the kind says which of the four is filled in. */
struct quoting_reply {
    enum quoting_answer kind;
    struct quoting_cell cell;
    struct quoting_asked asked;
    struct quoting_report report;
    struct quoting_outlook outlook;
};

/* ---- statuses and words */

/* A short sentence for a status, without a full stop. */
static inline const char *quoting_status_text(quoting_status status) {
    switch (status) {
    case QUOTING_NOT_A_CALL: return "the arguments are no call of a month";
    case QUOTING_NOT_A_MONTH: return "the words are not a month's";
    case QUOTING_MESSAGE_TOO_LONG: return "the start and the message are too long";
    case QUOTING_NOT_THIS_ANSWER: return "the library and its header differ";
    default: return quoting_refusal_text(status);
    }
}

/* A state's word, as accounts print it. */
static inline const char *quoting_state_name(enum quoting_state state) {
    static const char *const names[] = {"kept", "no-bid", "no-ask", "neither", "crossed", "wide"};
    return (uint32_t) state < 6 ? names[state] : "unknown";
}

static inline int32_t quoting_signed(uint32_t word) {
    return word < 2147483648u ? (int32_t) word : (int32_t) (word - 2147483648u) - 2147483647 - 1;
}

static inline uint64_t quoting_long(const uint32_t *words) {
    return words[0] + ((uint64_t) words[1] << 32);
}

static inline struct quoting_quote quoting_quote_of(const uint32_t *words) {
    struct quoting_quote found;
    found.is_there = words[0] != 0;
    found.price = quoting_signed(words[1]);
    return found;
}

static inline struct quoting_possible quoting_possible_of(const uint32_t *words) {
    struct quoting_possible found;
    found.is_possible = words[0] != 0;
    found.milliseconds = words[1];
    return found;
}

/* Words as bytes, the low byte first. */
static inline void quoting_put_words(uint8_t *bytes, const uint32_t *words, size_t count) {
    for (size_t i = 0; i < count; i++) {
        bytes[4 * i] = (uint8_t) words[i];
        bytes[4 * i + 1] = (uint8_t) (words[i] >> 8);
        bytes[4 * i + 2] = (uint8_t) (words[i] >> 16);
        bytes[4 * i + 3] = (uint8_t) (words[i] >> 24);
    }
}

/* ---- answers */

static inline struct quoting_cell quoting_cell_of(const uint32_t *w) {
    struct quoting_cell found;
    found.kept = w[3];
    found.length = w[4];
    found.share = w[5];
    found.lapse_limit = w[6];
    found.lapses = w[7];
    found.active = quoting_long(w + 8);
    found.passive = quoting_long(w + 10);
    found.is_met = w[12] != 0;
    found.weight = w[13];
    return found;
}

static inline struct quoting_asked quoting_asked_of(const uint32_t *w) {
    struct quoting_asked found;
    found.bid = quoting_quote_of(w + 2);
    found.ask = quoting_quote_of(w + 4);
    found.ticket.t = w[6];
    found.ticket.id = w[7];
    found.ticket.price = quoting_signed(w[8]);
    found.ticket.volume = w[9];
    found.ticket.count = quoting_long(w + 10);
    return found;
}

static inline struct quoting_report quoting_report_of(const uint32_t *w) {
    struct quoting_report found;
    found.is_open = w[2] != 0;
    found.time = w[3];
    found.orders = w[4];
    found.bid = quoting_quote_of(w + 5);
    found.ask = quoting_quote_of(w + 7);
    found.kept = w[9];
    found.lapses = w[10];
    for (int i = 0; i < 6; i++) found.failed[i] = w[11 + i];
    found.fee = quoting_long(w + 17);
    return found;
}

static inline struct quoting_outlook quoting_outlook_of(const uint32_t *w) {
    struct quoting_outlook found;
    found.need = w[2];
    found.left = w[3];
    found.by = quoting_possible_of(w + 4);
    found.full = quoting_possible_of(w + 6);
    found.lapses_left = (enum quoting_lapses_left) w[8];
    found.lapses = w[9];
    found.may_rest = w[10] != 0;
    found.is_lost = w[11] != 0;
    found.weight_resting = w[12];
    found.weight_keeping = w[13];
    return found;
}

/* ---- calls */

/* The status of a C call on a month that was not made: 3 at place 1 are the words, any other 3 the call. */
static inline quoting_status quoting_not_made_by(uint64_t answer) {
    if (quoting_refusal_of(answer) != QUOTING_ARGUMENT_OUT_OF_RANGE) return quoting_refusal_of(answer);
    return (answer & 4294967295u) == 1 ? QUOTING_NOT_A_MONTH : QUOTING_NOT_A_CALL;
}

/* Makes one call, of the words of its block or of its bytes, and wants an answer of that kind. `answer` has QUOTING_ANSWER_WORDS words. */
static inline QUOTING_CHECKED quoting_status quoting_month_bytes(struct quoting_month *month, const uint8_t *block, size_t length, uint32_t *answer) {
    memset(answer, 0, QUOTING_ANSWER_WORDS * sizeof *answer);
    answer[0] = QUOTING_ANSWER_REFUSED;
    uint64_t made = quoting_month_call(
        month->words, QUOTING_MONTH_WORDS, month->hints, QUOTING_HINT_BYTES, block, length, answer, QUOTING_ANSWER_WORDS);
    if (quoting_refusal_of(made) != QUOTING_ACCEPTED) return quoting_not_made_by(made);
    return answer[0] == QUOTING_ANSWER_REFUSED ? answer[1] : (quoting_status) QUOTING_ACCEPTED;
}

static inline QUOTING_CHECKED quoting_status quoting_month_words(
    struct quoting_month *month, const uint32_t *words, size_t count, uint32_t kind, uint32_t *answer) {
    uint8_t block[4 * 18];
    quoting_put_words(block, words, count);
    quoting_status status = quoting_month_bytes(month, block, 4 * count, answer);
    return status == QUOTING_ACCEPTED && answer[0] != kind ? (quoting_status) QUOTING_NOT_THIS_ANSWER : status;
}

/* A call that is only accepted or refused. */
static inline QUOTING_CHECKED quoting_status quoting_month_do(struct quoting_month *month, const uint32_t *words, size_t count) {
    uint32_t answer[QUOTING_ANSWER_WORDS];
    return quoting_month_words(month, words, count, QUOTING_ANSWER_ACCEPTED, answer);
}

/* A fresh month, in which no call was made. */
static inline QUOTING_CHECKED quoting_status quoting_month_start(struct quoting_month *month) {
    memset(month->hints, 0, sizeof month->hints);
    return quoting_refusal_of(quoting_month_fresh(month->words, QUOTING_MONTH_WORDS));
}

/* Opens a quantum by a row and SP. */
static inline QUOTING_CHECKED quoting_status quoting_month_open(
    struct quoting_month *month, const struct quoting_row *row, uint32_t day, int32_t sp, uint32_t lapse_limit) {
    const uint32_t words[] = {
        QUOTING_CALL_OPEN, 7, row->expiry, row->quantum, row->length, row->volume, row->a, row->b, row->share, day, (uint32_t) sp, lapse_limit};
    return quoting_month_do(month, words, 12);
}

/* Opens a quantum by a row and a strike's numbers. */
static inline QUOTING_CHECKED quoting_status quoting_month_open_strike(
    struct quoting_month *month, const struct quoting_row *row, uint32_t day, const struct quoting_strike *strike, uint32_t lapse_limit) {
    const uint32_t words[] = {
        QUOTING_CALL_OPEN_STRIKE, 7, row->expiry, row->quantum, row->length, row->volume, row->a, row->b, row->share, day, strike->a,
        strike->difference, strike->days, strike->b, lapse_limit};
    return quoting_month_do(month, words, 15);
}

static inline QUOTING_CHECKED quoting_status quoting_month_add(
    struct quoting_month *month, uint32_t t, uint32_t id, enum quoting_side side, int32_t price, uint32_t volume) {
    const uint32_t words[] = {QUOTING_CALL_ADD, t, id, (uint32_t) side, (uint32_t) price, volume};
    return quoting_month_do(month, words, 6);
}

static inline QUOTING_CHECKED quoting_status quoting_month_amend(
    struct quoting_month *month, uint32_t t, uint32_t id, int32_t price, uint32_t volume) {
    const uint32_t words[] = {QUOTING_CALL_AMEND, t, id, (uint32_t) price, volume};
    return quoting_month_do(month, words, 5);
}

static inline QUOTING_CHECKED quoting_status quoting_month_cancel(struct quoting_month *month, uint32_t t, uint32_t id) {
    const uint32_t words[] = {QUOTING_CALL_CANCEL, t, id};
    return quoting_month_do(month, words, 3);
}

static inline QUOTING_CHECKED quoting_status quoting_month_deal(struct quoting_month *month, uint32_t t, uint32_t id, uint32_t volume) {
    const uint32_t words[] = {QUOTING_CALL_DEAL, t, id, volume};
    return quoting_month_do(month, words, 4);
}

static inline QUOTING_CHECKED quoting_status quoting_month_tick(struct quoting_month *month, uint32_t t) {
    const uint32_t words[] = {QUOTING_CALL_TICK, t};
    return quoting_month_do(month, words, 2);
}

/* Closes the open quantum, with both charges in kopecks. */
static inline QUOTING_CHECKED quoting_status quoting_month_close(struct quoting_month *month, uint64_t active, uint64_t passive) {
    const uint32_t words[] = {QUOTING_CALL_CLOSE, (uint32_t) active, (uint32_t) (active >> 32), (uint32_t) passive, (uint32_t) (passive >> 32)};
    return quoting_month_do(month, words, 5);
}

/* Forgets the open quantum. */
static inline QUOTING_CHECKED quoting_status quoting_month_drop(struct quoting_month *month) {
    const uint32_t words[] = {QUOTING_CALL_DROP};
    return quoting_month_do(month, words, 1);
}

/* Sets a cell's charges, in kopecks. */
static inline QUOTING_CHECKED quoting_status quoting_month_charge(
    struct quoting_month *month, uint32_t day, uint32_t expiry, uint32_t quantum, uint64_t active, uint64_t passive) {
    const uint32_t words[] = {
        QUOTING_CALL_CHARGE, day, expiry, quantum, (uint32_t) active, (uint32_t) (active >> 32), (uint32_t) passive, (uint32_t) (passive >> 32)};
    return quoting_month_do(month, words, 8);
}

/* Blanks a cell. */
static inline QUOTING_CHECKED quoting_status quoting_month_withdraw(struct quoting_month *month, uint32_t day, uint32_t expiry, uint32_t quantum) {
    const uint32_t words[] = {QUOTING_CALL_WITHDRAW, day, expiry, quantum};
    return quoting_month_do(month, words, 4);
}

static inline QUOTING_CHECKED quoting_status quoting_month_look(
    struct quoting_month *month, uint32_t day, uint32_t expiry, uint32_t quantum, struct quoting_cell *cell) {
    const uint32_t words[] = {QUOTING_CALL_LOOK, day, expiry, quantum};
    uint32_t answer[QUOTING_ANSWER_WORDS];
    quoting_status status = quoting_month_words(month, words, 4, QUOTING_ANSWER_CELL, answer);
    memset(cell, 0, sizeof *cell);
    if (status == QUOTING_ACCEPTED) *cell = quoting_cell_of(answer);
    return status;
}

static inline QUOTING_CHECKED quoting_status quoting_month_report(struct quoting_month *month, struct quoting_report *report) {
    const uint32_t words[] = {QUOTING_CALL_REPORT};
    uint32_t answer[QUOTING_ANSWER_WORDS];
    quoting_status status = quoting_month_words(month, words, 1, QUOTING_ANSWER_REPORT, answer);
    memset(report, 0, sizeof *report);
    if (status == QUOTING_ACCEPTED) *report = quoting_report_of(answer);
    return status;
}

static inline QUOTING_CHECKED quoting_status quoting_month_outlook(struct quoting_month *month, struct quoting_outlook *outlook) {
    const uint32_t words[] = {QUOTING_CALL_OUTLOOK};
    uint32_t answer[QUOTING_ANSWER_WORDS];
    quoting_status status = quoting_month_words(month, words, 1, QUOTING_ANSWER_OUTLOOK, answer);
    memset(outlook, 0, sizeof *outlook);
    if (status == QUOTING_ACCEPTED) *outlook = quoting_outlook_of(answer);
    return status;
}

/* The quotes after an amendment, and a ticket for it; the month stays as it is. */
static inline QUOTING_CHECKED quoting_status quoting_month_ask(
    struct quoting_month *month, uint32_t t, uint32_t id, int32_t price, uint32_t volume, struct quoting_asked *asked) {
    const uint32_t words[] = {QUOTING_CALL_ASK, t, id, (uint32_t) price, volume};
    uint32_t answer[QUOTING_ANSWER_WORDS];
    quoting_status status = quoting_month_words(month, words, 5, QUOTING_ANSWER_ASKED, answer);
    memset(asked, 0, sizeof *asked);
    if (status == QUOTING_ACCEPTED) *asked = quoting_asked_of(answer);
    return status;
}

/* Makes the amendment, if the ticket is still good. */
static inline QUOTING_CHECKED quoting_status quoting_month_commit(
    struct quoting_month *month, uint32_t t, uint32_t id, int32_t price, uint32_t volume, const struct quoting_ticket *ticket) {
    const uint32_t words[] = {
        QUOTING_CALL_COMMIT, t, id, (uint32_t) price, volume, ticket->t, ticket->id, (uint32_t) ticket->price, ticket->volume,
        (uint32_t) ticket->count, (uint32_t) (ticket->count >> 32)};
    return quoting_month_do(month, words, 11);
}

/* Takes a FIX message, with the quantum's start in the form of 60 (YYYYMMDD-HH:MM:SS.sss). */
static inline QUOTING_CHECKED quoting_status quoting_month_message(
    struct quoting_month *month, const char *start, size_t start_length, const void *message, size_t length) {
    uint8_t block[12 + QUOTING_MESSAGE_BYTES + 4];
    uint32_t answer[QUOTING_ANSWER_WORDS];
    if (start_length > QUOTING_MESSAGE_BYTES || length > QUOTING_MESSAGE_BYTES - start_length) return QUOTING_MESSAGE_TOO_LONG;
    const uint32_t front[] = {QUOTING_CALL_MESSAGE, (uint32_t) start_length, (uint32_t) length};
    quoting_put_words(block, front, 3);
    if (start_length != 0) memcpy(block + 12, start, start_length);
    if (length != 0) memcpy(block + 12 + start_length, message, length);
    memset(block + 12 + start_length + length, 0, 3); /* the padding, which is not read */
    quoting_status status = quoting_month_bytes(month, block, 12 + (start_length + length + 3) / 4 * 4, answer);
    return status == QUOTING_ACCEPTED && answer[0] != QUOTING_ANSWER_ACCEPTED ? (quoting_status) QUOTING_NOT_THIS_ANSWER : status;
}

/* Any call, by the bytes of its block (docs/FORMATS.md, "A list of calls"). Where it is refused or not made, the reply's kind is
   QUOTING_ANSWER_REFUSED. */
static inline QUOTING_CHECKED quoting_status quoting_month_block(
    struct quoting_month *month, const uint8_t *block, size_t length, struct quoting_reply *reply) {
    uint32_t answer[QUOTING_ANSWER_WORDS];
    quoting_status status = quoting_month_bytes(month, block, length, answer);
    memset(reply, 0, sizeof *reply);
    reply->kind = status == QUOTING_ACCEPTED ? (enum quoting_answer) answer[0] : QUOTING_ANSWER_REFUSED;
    switch (reply->kind) {
    case QUOTING_ANSWER_CELL: reply->cell = quoting_cell_of(answer); break;
    case QUOTING_ANSWER_ASKED: reply->asked = quoting_asked_of(answer); break;
    case QUOTING_ANSWER_REPORT: reply->report = quoting_report_of(answer); break;
    case QUOTING_ANSWER_OUTLOOK: reply->outlook = quoting_outlook_of(answer); break;
    default: break;
    }
    return status;
}

/* The open quantum as it is now; is_open says whether there is one. */
static inline QUOTING_CHECKED quoting_status quoting_month_now(const struct quoting_month *month, struct quoting_view *view) {
    uint32_t w[QUOTING_VIEW_WORDS] = {0};
    uint64_t written = quoting_month_view(month->words, QUOTING_MONTH_WORDS, w, QUOTING_VIEW_WORDS);
    memset(view, 0, sizeof *view);
    if (quoting_refusal_of(written) != QUOTING_ACCEPTED) return quoting_not_made_by(written);
    if (written == 0) return QUOTING_ACCEPTED;
    const struct quoting_row row = {w[1], w[2], w[3], w[4], w[5], w[6], w[7]};
    const struct quoting_strike strike = {w[9], w[10], w[11], w[12]};
    view->is_open = true;
    view->day = w[0];
    view->row = row;
    view->by_strike = w[8] != 0;
    if (view->by_strike) view->strike = strike;
    else view->sp = quoting_signed(w[9]);
    view->lapse_limit = w[13];
    view->widest = w[14];
    view->state = (enum quoting_state) w[15];
    view->count = w[16];
    for (uint32_t i = 0; i < view->count && i < QUOTING_MOST_ORDERS; i++) {
        const uint32_t *o = w + 17 + 4 * i;
        const struct quoting_order order = {o[0], (enum quoting_side) o[1], quoting_signed(o[2]), o[3]};
        view->orders[i] = order;
    }
    return QUOTING_ACCEPTED;
}

/* ---- records */

/* An event's 20 bytes. What the kind does not take is written as 0. */
static inline void quoting_put_record(uint8_t *record, enum quoting_record kind, uint32_t t, uint32_t id, int32_t price, uint32_t volume) {
    const uint32_t words[] = {
        (uint32_t) kind, t, kind == QUOTING_RECORD_TICK ? 0 : id, kind <= QUOTING_RECORD_AMEND ? (uint32_t) price : 0,
        kind <= QUOTING_RECORD_AMEND || kind == QUOTING_RECORD_DEAL ? volume : 0};
    quoting_put_words(record, words, 5);
}

/* Takes event records on a month until one is refused. `taken` is how many were; the status is what refuses the next one, QUOTING_ACCEPTED where
   all were taken. */
static inline QUOTING_CHECKED quoting_status quoting_month_apply(
    struct quoting_month *month, const uint8_t *records, size_t records_length, uint32_t *taken) {
    uint32_t answer[QUOTING_ANSWER_WORDS] = {0};
    uint64_t made = quoting_month_records(
        month->words, QUOTING_MONTH_WORDS, month->hints, QUOTING_HINT_BYTES, records, records_length, answer, QUOTING_ANSWER_WORDS);
    *taken = 0;
    if (quoting_refusal_of(made) != QUOTING_ACCEPTED) return quoting_not_made_by(made);
    *taken = (uint32_t) made;
    return answer[0] == QUOTING_ANSWER_REFUSED ? answer[1] : (quoting_status) QUOTING_ACCEPTED;
}

/* ---- sessions. A refused one sets place to the record, counted from 1, or 0; else it is 0. */

struct quoting_stretch {
    uint32_t offset, length;
    enum quoting_state state;
};

/* What a session kept: K, the weight and the kept stretches, which are in the words lent. */
struct quoting_pairs {
    uint32_t kept, weight, count;
    const uint32_t *words;
};

/* Where the time of a session went: the milliseconds of each state, and the stretches from 0 to L, which are in the words lent. */
struct quoting_times {
    uint32_t totals[6], count;
    const uint32_t *words;
};

static inline void quoting_put_head(uint8_t *head, const struct quoting_row *row, int32_t sp) {
    const uint32_t words[] = {row->expiry, row->quantum, row->length, row->volume, row->a, row->b, row->share, (uint32_t) sp};
    quoting_put_words(head, words, 8);
}

/* The kept milliseconds of a session, by its 32 leading bytes (quoting_put_head) and its records. */
static inline QUOTING_CHECKED quoting_status quoting_session_kept(
    const uint8_t *head, size_t head_length, const uint8_t *records, size_t records_length, uint32_t *kept, uint32_t *place) {
    uint64_t answer = quoting_session(head, head_length, records, records_length);
    quoting_status status = quoting_refusal_of(answer);
    *kept = status == QUOTING_ACCEPTED ? (uint32_t) answer : 0;
    *place = status == QUOTING_ACCEPTED ? 0 : (uint32_t) answer;
    return status;
}

/* The same with the kept stretches. QUOTING_PAIRS_WORDS(records) words are always enough. */
static inline QUOTING_CHECKED quoting_status quoting_session_stretches(
    const uint8_t *head, size_t head_length, const uint8_t *records, size_t records_length, uint32_t *words, size_t words_length,
    struct quoting_pairs *pairs, uint32_t *place) {
    uint64_t answer = quoting_session_pairs(head, head_length, records, records_length, words, words_length);
    quoting_status status = quoting_refusal_of(answer);
    memset(pairs, 0, sizeof *pairs);
    *place = status == QUOTING_ACCEPTED ? 0 : (uint32_t) answer;
    if (status != QUOTING_ACCEPTED) return status;
    pairs->kept = words[0];
    pairs->weight = words[1];
    pairs->count = words[2];
    pairs->words = words + 3;
    return status;
}

static inline struct quoting_stretch quoting_pair_at(const struct quoting_pairs *pairs, uint32_t place) {
    const struct quoting_stretch found = {pairs->words[2 * place], pairs->words[2 * place + 1], QUOTING_STATE_KEPT};
    return found;
}

/* Where the time of a session went, by SP, or by a strike where one is given; `strike` may be null. QUOTING_ACCOUNT_WORDS(records) words are
   always enough. */
static inline QUOTING_CHECKED quoting_status quoting_session_times(
    const struct quoting_row *row, int32_t sp, const struct quoting_strike *strike, const uint8_t *records, size_t records_length, uint32_t *words,
    size_t words_length, struct quoting_times *times, uint32_t *place) {
    const uint32_t given[] = {row->expiry, row->quantum, row->length, row->volume, row->a, row->b, row->share};
    const struct quoting_strike none = {0, 0, 0, 0};
    const struct quoting_strike by = strike ? *strike : none;
    uint64_t answer = quoting_account(
        given, 7, strike ? 1 : 0, (uint32_t) sp, by.a, by.difference, by.days, by.b, records, records_length, words, words_length);
    quoting_status status = quoting_refusal_of(answer);
    memset(times, 0, sizeof *times);
    *place = status == QUOTING_ACCEPTED ? 0 : (uint32_t) answer;
    if (status != QUOTING_ACCEPTED) return status;
    memcpy(times->totals, words, sizeof times->totals);
    times->count = words[6];
    times->words = words + 7;
    return status;
}

static inline struct quoting_stretch quoting_stretch_at(const struct quoting_times *times, uint32_t place) {
    const uint32_t *w = times->words + 3 * place;
    const struct quoting_stretch found = {w[0], w[1], (enum quoting_state) w[2]};
    return found;
}

#if defined(__cplusplus) && defined(__GNUC__)
#pragma GCC diagnostic pop
#endif

#endif
