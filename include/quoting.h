/*
 * The quoting meter for programs in C and C++.
 *
 * What holds of every call
 *   - It answers one number of 64 bits. Below 4294967296 it is the answer; from there on the call is refused, by the refusal
 *     quoting_refusal_of(answer), at the place answer & 4294967295 (a record counted from 1 in a session, a lent buffer counted from 1 in
 *     quoting_month_call, quoting_month_records and quoting_month_view, else 0).
 *   - Of the causes that apply, the refusal is the lowest number, but 16, a buffer too short, comes after all others.
 *   - A refused call leaves every lent buffer as it was. What an accepted call writes is at the front of the buffer; the rest of the
 *     buffer keeps its contents.
 *   - Lent strings, tables and buffers are read only during the call. What is only read may overlap; what is written may overlap
 *     nothing else. A pointer may be null only if its length is 0.
 *   - A length counts what the pointer points to: bytes, words of 32 bits, prices, strikes or records, not bytes alone.
 *   - Nothing is allocated and no state is kept between calls. Threads may call at the same time on different buffers only: while a call
 *     writes to a buffer, a month's words or its hints for one, no other call may read or write it. A month that several threads use needs
 *     a lock of theirs around each call.
 *   - A call works on its thread's stack, with QUOTING_STACK_BYTES at most; but for quoting_standing 16 KB are enough.
 *   - The words of a month are written by quoting_month_fresh, quoting_month_call and quoting_month_records alone: a caller may keep, copy
 *     and store them, and hands these calls and quoting_month_view no others.
 * A caller has no other duties: whatever numbers, bytes and words are passed, each call ends and answers as described here. That is proved
 * of every call but quoting_refusal_text and quoting_version, which are plain C.
 *
 * Words that are not a month's. On entry quoting_month_call, quoting_month_records and quoting_month_view check the few words that the others depend on: the place
 * of the open cell is below 186, L is not 0, and there are 64 orders at most. Words that fail are refused by 3 at place 1 and nothing is written;
 * that, and that a month's words always pass, is proved. Damaged words may pass. What is then answered and left in the words, the hints and
 * the buffer is not specified, but nothing outside the lent buffers is touched, and nothing traps: this is tested (tests/foreign_words.c), not proved.
 *
 * A row is seven words: expiry (1 or 2), quantum (0 to 2), L (a multiple of 1,000 from 1,000 to 86,400,000), M (1 to 100,000), a (0 to
 * 100,000), b (0 to 1,000,000) and p in tenths of a percent (1 to 799): 600 is 60%, and 60 is 6%, which is met with a tenth of the time that
 * 60% needs. A price is signed, in two's complement where it is a word.
 *
 * quoting_typed.h has the month's calls as functions of named arguments and structs, for C; quoting.hpp has them for C++17.
 */
#ifndef QUOTING_H
#define QUOTING_H

#include <stddef.h>
#include <stdint.h>

/* The version of this header, as a text and as a number: 10000 * major + 100 * minor + patch. */
#define QUOTING_VERSION "1.4.0"
#define QUOTING_VERSION_NUMBER 10400

/* The longest FIX message that quoting_fix_write writes, in bytes, and the words of one that quoting_fix reads. */
#define QUOTING_FIX_BYTES 114
#define QUOTING_FIX_WORDS 13

/* The words of a month, the bytes of its hints, and the words of an answer to one of its calls. */
#define QUOTING_MONTH_WORDS 2464
#define QUOTING_HINT_BYTES 2048
#define QUOTING_ANSWER_WORDS 20
/* The most words of a view: 17, and four for each of 64 orders. */
#define QUOTING_VIEW_WORDS 273

/* A cast that is no warning in C++ either. */
#ifdef __cplusplus
#define QUOTING_CAST(type, value) static_cast<type>(value)
#else
#define QUOTING_CAST(type, value) ((type) (value))
#endif

/* Words that are always enough for quoting_session_pairs and for quoting_account of a session with so many records, one cut short included. */
#define QUOTING_PAIRS_WORDS(records) (QUOTING_CAST(size_t, records) + 4)
#define QUOTING_ACCOUNT_WORDS(records) (3 * QUOTING_CAST(size_t, records) + 10)

/* The words of a row that quoting_fix_scan writes for so many tags, the most tags, and what is added to the length of a value whose tag
   occurs again. */
#define QUOTING_SCAN_ROW_WORDS(tags) (4 + 2 * QUOTING_CAST(size_t, tags))
#define QUOTING_SCAN_TAGS 100
#define QUOTING_SCAN_AGAIN 2147483648u

/* The most stack that a call uses, in bytes, as measured on x86-64 (tests/stack.c) and rounded up. What the thread itself needs comes on top.
   BYTES is for every call, STANDING for quoting_standing, MONTH for quoting_calls, OTHERS for the rest, a month's single calls among them. */
#define QUOTING_STACK_BYTES QUOTING_STACK_STANDING
#define QUOTING_STACK_STANDING 69632
#define QUOTING_STACK_MONTH 16384
#define QUOTING_STACK_OTHERS 8192

#ifdef __cplusplus
extern "C" {
#endif

/* The refusals, by their numbers. QUOTING_ACCEPTED, 0, is none. */
enum quoting_refusal {
    QUOTING_ACCEPTED = 0,
    QUOTING_ROW_NOT_SEVEN_WORDS = 1,
    QUOTING_ROW_WORD_OUT_OF_RANGE = 2,
    QUOTING_ARGUMENT_OUT_OF_RANGE = 3,
    QUOTING_CELL_FILLED = 4,
    QUOTING_CELL_BLANK = 5,
    QUOTING_QUANTUM_OPEN = 6,
    QUOTING_NO_QUANTUM_OPEN = 7,
    QUOTING_TIME_BACKWARDS = 8,
    QUOTING_TIME_PAST_END = 9,
    QUOTING_ID_LIVE = 10,
    QUOTING_ID_NOT_LIVE = 11,
    QUOTING_PRICE_OR_VOLUME_OUT_OF_RANGE = 12,
    QUOTING_TOO_MANY_ORDERS = 13,
    QUOTING_DEAL_ABOVE_LEFT = 14,
    QUOTING_BAD_RECORD = 15,
    QUOTING_BUFFER_SHORT = 16,
    QUOTING_LAPSE_LIMIT_OUT_OF_RANGE = 17,
    QUOTING_STRIKES_OUT_OF_RANGE = 18,
    QUOTING_WRONG_TICKET = 19,
    QUOTING_FRAME_WRONG = 20,
    QUOTING_FIELD_WRONG = 21,
    QUOTING_PRICES_NOT_USABLE = 22,
    QUOTING_STANDING_NOT_IN_ORDER = 23,
    QUOTING_MAKER_PRESENT_OR_ABSENT = 24,
    QUOTING_STANDING_FULL = 25,
    QUOTING_ABOVE_SIXTY = 26
};

/* The kinds of a month's calls: the first word of a block (docs/FORMATS.md, "A list of calls"). OPEN_STRIKE is an open with a strike's four
   numbers in place of SP. */
enum quoting_call {
    QUOTING_CALL_OPEN = 1,
    QUOTING_CALL_ADD = 2,
    QUOTING_CALL_AMEND = 3,
    QUOTING_CALL_CANCEL = 4,
    QUOTING_CALL_DEAL = 5,
    QUOTING_CALL_TICK = 6,
    QUOTING_CALL_CLOSE = 7,
    QUOTING_CALL_DROP = 8,
    QUOTING_CALL_CHARGE = 9,
    QUOTING_CALL_WITHDRAW = 10,
    QUOTING_CALL_LOOK = 11,
    QUOTING_CALL_REPORT = 12,
    QUOTING_CALL_OPEN_STRIKE = 13,
    QUOTING_CALL_ASK = 14,
    QUOTING_CALL_COMMIT = 15,
    QUOTING_CALL_MESSAGE = 16,
    QUOTING_CALL_OUTLOOK = 17
};

/* The states of a quantum's orders: CROSSED where D is below 1, WIDE where it is above the spread limit. */
enum quoting_state {
    QUOTING_STATE_KEPT = 0,
    QUOTING_STATE_NO_BID = 1,
    QUOTING_STATE_NO_ASK = 2,
    QUOTING_STATE_NEITHER = 3,
    QUOTING_STATE_CROSSED = 4,
    QUOTING_STATE_WIDE = 5
};

/* The kinds of an answer to a month's call: its word 0. */
enum quoting_answer {
    QUOTING_ANSWER_ACCEPTED = 0,
    QUOTING_ANSWER_REFUSED = 1,
    QUOTING_ANSWER_CELL = 2,
    QUOTING_ANSWER_ASKED = 3,
    QUOTING_ANSWER_REPORT = 4,
    QUOTING_ANSWER_OUTLOOK = 5
};

/* The refusal of an answer, 0 where the call was accepted. */
static inline uint32_t quoting_refusal_of(uint64_t answer) {
    return QUOTING_CAST(uint32_t, answer >> 32);
}

/* A short sentence for a refusal's number, without a full stop; "accepted" for 0, "unknown refusal" above 26. Never null; not to be freed. */
const char *quoting_refusal_text(uint32_t refusal);

/* The version of the library that is linked, as QUOTING_VERSION is that of the header. */
const char *quoting_version(void);

/*
 * Runs one session: opens a quantum on day 1 of a fresh month, sends the events of the records in their order, and closes it with both
 * charges 0; stops at the first refusal.
 *
 * head     the 32 leading bytes: the row's seven words, then SP in two's complement, four bytes each, low byte first. head_length is its
 *          number of bytes.
 * records  the records, 20 bytes each: kind (1 add buy, 2 add sell, 3 amend, 4 cancel, 5 deal, 6 tick), three zero bytes, then t, id, price
 *          (two's complement) and volume, four bytes each, low byte first; fields that the call doesn't take are zero. records_length is
 *          the number of bytes. 1 to 19 bytes after the last full record are one more record, cut short.
 *
 * Answers K, the kept milliseconds below L, or 4294967296 * refusal + place. The place is the record counted from 1, or 0 for the refusals
 * 1, 2 and 3:
 *    1  head_length is not 32
 *    2  a word of the row is outside its range
 *    3  SP is outside its range
 *    8  t is below the last accepted time        9  t is above L
 *   10  add with a live id                      11  amend, cancel or deal on an id that is not live
 *   12  price or volume outside its range       13  add with 64 live orders
 *   14  deal above the order's remaining volume 15  a record cut short, of unknown kind, with a nonzero byte where zero is needed, or the
 *                                                   record after 4,000,000
 */
uint64_t quoting_session(const uint8_t *head, size_t head_length, const uint8_t *records, size_t records_length);

/*
 * Runs the same session and writes its answer to a lent buffer of words: K, the weight w, the number of pairs n, then the n kept stretches
 * as pairs of offset and length in milliseconds, sorted by offset, each as long as it can be, so that no two touch.
 *
 * buffer   buffer_length words.
 *
 * Answers the number of words written, 3 + 2 n, or 4294967296 * refusal + place. The refusals are those of quoting_session and, after all
 * records, at place 0:
 *   16  buffer_length is below 3 + 2 n
 */
uint64_t quoting_session_pairs(
    const uint8_t *head, size_t head_length, const uint8_t *records, size_t records_length, uint32_t *buffer, size_t buffer_length);

/*
 * Where the time of a session went. Runs its records as quoting_session does and writes to a lent buffer of words: the milliseconds of each
 * of the six states, the number n of stretches, then the n stretches of one state, from 0 to L, as triples of offset, length and state, each
 * as long as it can be. The states (enum quoting_state) are 0 kept, 1 no best bid, 2 no best ask, 3 neither quote, 4 locked or crossed (D below 1), 5 too wide (D
 * above the spread limit).
 *
 * row      row_length words, which should be seven: expiry, quantum, L, M, a, b, p.
 * strike   0: the spread limit goes by sp and the row's a and b; a, difference, days and b are unread.
 *          Any other number: it goes by a strike's a (in tenths), difference, days and b; sp and the row's a and b are unread.
 * sp       SP in two's complement.
 * records  records_length bytes.
 * buffer   buffer_length words. It keeps its contents on a refusal, and after what is written.
 *
 * Answers the number of words written, 7 + 3 n, or 4294967296 * refusal + place. The refusals are those of quoting_session, where 1 says
 * that row_length is not 7, and at place 0:
 *   18  a strike's number is outside its range
 *   16  buffer_length is below 7 + 3 n; it comes after all records
 */
uint64_t quoting_account(
    const uint32_t *row, size_t row_length, uint32_t strike, uint32_t sp, uint32_t a, uint32_t difference, uint32_t days, uint32_t b,
    const uint8_t *records, size_t records_length, uint32_t *buffer, size_t buffer_length);

/*
 * The weight w of a quantum with kept milliseconds K, length L and required share p in tenths of a percent, by the share alone, with no
 * lapse limit: 0 where it is failed, else 10,000 to 20,000. Refused by
 *    2  L or p is outside a row's range
 *    3  K is above L
 */
uint64_t quoting_weight(uint32_t kept, uint32_t length, uint32_t share);

/*
 * Chooses the row for an expiry and a quantum and writes its seven words to a lent buffer: on a holiday the first row of the holiday table
 * whose first two words are these; where it has none, or on other days, the first of the usual table. Words are compared as they are:
 * a row that is chosen need not be in range.
 *
 * usual, holiday   the two tables, seven words a row; words after the last full seven are ignored. Lengths are in words.
 * is_holiday       0 for other days, anything else for a holiday.
 * buffer           buffer_length words.
 *
 * Answers the number of words written: 7, or 0 where no table has such a row, and nothing is written. Refused by
 *   16  there is a row, and buffer_length is below 7
 */
uint64_t quoting_choose_row(
    const uint32_t *usual, size_t usual_length, const uint32_t *holiday, size_t holiday_length, uint32_t is_holiday, uint32_t expiry,
    uint32_t quantum, uint32_t *buffer, size_t buffer_length);

/*
 * Reads a FIX 4.4 message, NewOrderSingle (35=D), OrderCancelRequest (F) or OrderCancelReplaceRequest (G), and writes thirteen words to a
 * lent buffer; those that the message doesn't take are 0:
 *    0  kind: 1 D, 2 F, 3 G                 1  id (11)                    2  the id that it refers to (41; F and G)
 *    3  side (54; D and G): 1 buy, 2 sell   4  volume (38; D and G)       5  price (44; D and G), in two's complement
 *    6 to 12  the time (60): year, month, day, hour, minute, second, millisecond
 *
 * bytes    the whole message from 8= to the byte 1 after the checksum, and nothing else.
 * buffer   buffer_length words.
 *
 * Answers the number of words written, 13. Refused by
 *   20  the frame, the body length, the checksum or the type of the message is wrong
 *   21  a used tag is absent, there twice, unreadable, or a number past 32 bits
 *   16  buffer_length is below 13
 */
uint64_t quoting_fix(const uint8_t *bytes, size_t bytes_length, uint32_t *buffer, size_t buffer_length);

/*
 * Writes such a message, with no other tags, to a lent buffer of bytes. What it writes, quoting_fix reads back to the same words.
 *
 * fields   the words 0 to 5 of a message, as quoting_fix writes them; words from the seventh on are not read, nor 41 of a D, nor side,
 *          volume and price of an F.
 * sixty    the bytes of 60, of the form YYYYMMDD-HH:MM:SS.sss.
 * buffer   buffer_length bytes; QUOTING_FIX_BYTES are always enough.
 *
 * Answers the number of bytes written, with no zero byte after them. Refused by
 *    3  fields_length is below 6, the kind is not 1, 2 or 3, or the side of a D or G is not 1 or 2
 *   21  the bytes of 60 are no time of that form, with a Gregorian date from year 0001, hours to 23, minutes and seconds to 59
 *   16  buffer_length is below the length of the message
 */
uint64_t quoting_fix_write(
    const uint32_t *fields, size_t fields_length, const uint8_t *sixty, size_t sixty_length, uint8_t *buffer, size_t buffer_length);

/*
 * Finds the messages of a log, of any type, and in each of them the values of some tags. Fields are separated by the byte 1.
 *
 * bytes  the log, or a piece of it that begins where the scan before stopped; bytes_length below 4294967296.
 * tags   the tags whose values are wanted, tags_length numbers from 1 to 999: none of 8, 9, 10 and 35, none twice, QUOTING_SCAN_TAGS at most.
 * words  words_length words: 2, then as many rows of QUOTING_SCAN_ROW_WORDS(tags_length) words as fit. Written are
 *           0  the number of rows           1  the first byte that was not read
 *        and in each row, in the order of the log:
 *           0  the byte where `8=FIX.` begins
 *           1  the length of the message, 0 where there is none
 *           2  0, or 20 where there is none: the frame, length or checksum is wrong
 *           3  its type (35) of one to four bytes, the first one low; 0 where it is longer, or there is no message
 *           4 + 2 i and 5 + 2 i  of tag i, where its first value begins, counted from the message's first byte, and its length, with
 *              QUOTING_SCAN_AGAIN added where the tag occurs again; 0 and 0 where it does not occur
 *
 * A message begins at `8=FIX.` and is as long as its 9 says (thirteen digits at most, 65,535 at most). After a message the scan goes on at
 * its end, after anything else that begins like one a byte later. It stops at the byte of word 1: where fewer than 26 bytes are left, where
 * a message is longer than what is left, and where the next row does not fit.
 *
 * Answers the number of words written. Refused by
 *    3  a tag that may not be wanted, there twice, or past QUOTING_SCAN_TAGS; or 4294967296 bytes or more
 *   16  words_length is below 2 and one row
 */
uint64_t quoting_fix_scan(
    const uint8_t *bytes, size_t bytes_length, const uint32_t *tags, size_t tags_length, uint32_t *words, size_t words_length);

/*
 * Whether a board of strikes is met: every strike has 100 K at least first * L, and 100 times the sum of K is at least second * L * the
 * number of strikes.
 *
 * strikes        two words a strike, K and L of its closed quantum; strikes_length is the number of strikes, half that of the words.
 * first, second  the two shares in percent, 1 to 100.
 *
 * Answers 1 if it is met, 0 if not. Refused by
 *   18  not 1 to 32 strikes, not all with one L in a row's range, a K above L, or a share outside its range
 */
uint64_t quoting_board(const uint32_t *strikes, size_t strikes_length, uint32_t first, uint32_t second);

/*
 * The sigma of the last price's day, in millionths: how far its last three changes from day to day lie apart.
 *
 * prices  the settlement prices of successive days, oldest first; prices_length is their number. Only the last four count.
 * buffer  buffer_length words, of which the first is written.
 *
 * Answers 1, the words written; or 0, with nothing written, where the day has no sigma: under four prices, or where one of the three changes
 * is from a price of zero or beyond 1,000,000 millionths either way. Refused by
 *   16  buffer_length is 0, and the day has a sigma
 */
uint64_t quoting_sigma(const int32_t *prices, size_t prices_length, uint32_t *buffer, size_t buffer_length);

/*
 * Whether the day after the last price is inside a disturbed period.
 *
 * prices     the settlement prices of successive days, oldest first; prices_length is their number. Under four answer 0.
 * threshold  in millionths, as the changes from day to day.
 *
 * Answers 1 if it is inside, 0 if not. Refused by
 *   22  a previous price of zero, a change beyond 1,000,000 millionths either way, or fewer than 30 earlier sigmas when a period begins
 */
uint64_t quoting_volatile(const int32_t *prices, size_t prices_length, uint32_t threshold);

/*
 * Answers as quoting_volatile, and eases a lent row where the day is inside: M is halved, rounded up, and a and b are doubled, or set to
 * the range's end where they would pass it. A row that isn't seven words in their ranges stays as it is; so does any on a day outside.
 *
 * row     the row's words, altered in place; row_length is their number.
 * strike  0 where the row is for an open by SP. Else it is for a strike's open, which leaves a and b unread: they stay as they are, in
 *         range or not.
 *
 * Refused by 22, as quoting_volatile is, and the row stays as it is.
 */
uint64_t quoting_ease(uint32_t *row, size_t row_length, uint32_t strike, const int32_t *prices, size_t prices_length, uint32_t threshold);

/*
 * Maker against taker: of m minutes, with h doubles at most and a stock of k knocks against him, the minutes that a maker can force to stay
 * unvoided. Refused by
 *   26  a number above 60
 */
uint64_t quoting_safe_minutes(uint32_t m, uint32_t h, uint32_t k);

/*
 * A month lives in words that the caller owns: 2,464 of them, every one fixed by the month, the same on every machine.
 *
 * Writes the fresh month, in which no call was made.
 *
 * words    words_length words; QUOTING_MONTH_WORDS are written.
 *
 * Answers the number of words written, QUOTING_MONTH_WORDS. Refused by
 *   16  words_length is below QUOTING_MONTH_WORDS
 */
uint64_t quoting_month_fresh(uint32_t *words, size_t words_length);

/*
 * Takes one call on a month, leaves the words of the month after it, and writes its answer. A call that the month refuses leaves the words
 * and the hints as they were and is answered like any other: this number says only whether a call was made, and the answer's kind says the
 * rest.
 *
 * words    the words of a month, as quoting_month_fresh or this call left them; those after the first QUOTING_MONTH_WORDS are not read.
 * hints    at least QUOTING_HINT_BYTES bytes, in which the call may leave where an order was found. They may hold anything, at the first
 *          call and later, and change nothing that is answered or left in the words; kept from call to call they save time. Events (kinds
 *          2 to 6), messages, asks and commits that are accepted may change the first QUOTING_HINT_BYTES; what they leave there is not
 *          specified. Every other call, and every refused one, leaves the hints as they were. Bytes after these never change.
 * call     one block of a list of calls (docs/FORMATS.md, "A list of calls"), and nothing more: words of four bytes, low byte first, of
 *          which the first is the kind, of enum quoting_call. call_length is the number of bytes.
 * answer   answer_length words, of which QUOTING_ANSWER_WORDS are written; those that the kind doesn't take are 0:
 *             0  kind, of enum quoting_answer     1  the refusal's number, of a refused call
 *          a cell (of a look), from word 2 on: filled, K, L, p, lapse limit (65535 for none), lapses, active charge (low word, high word),
 *             passive charge (low, high); 12 whether it is met; 13 its weight
 *          what is asked (of an ask): 2 and 3 the best bid (whether there is one, its price), 4 and 5 the best ask; the ticket, 6 to 9 t,
 *             id, price and volume, 10 and 11 its count (low, high)
 *          a report: 2 whether a quantum is open, 3 time, 4 live orders, 5 and 6 the best bid, 7 and 8 the best ask, 9 kept milliseconds,
 *             10 lapses, 11 to 16 the failed quanta of each series, 17 and 18 the fee (low, high)
 *          an outlook: 2 milliseconds that must still be kept, 3 those that remain; 4 and 5 the latest time until which nothing need be
 *             kept (whether there is one, the time), 6 and 7 milliseconds that must still be kept for the full weight (whether that can
 *             be, how many); 8 and 9 lapses left (0 no limit, 1 over it, 2 and how many); 10 whether it is met if nothing more is kept;
 *             11 whether it is failed whatever comes; 12 and 13 the weight if nothing more is kept, and if all the remaining time is
 *
 * Answers the number of words written, QUOTING_ANSWER_WORDS. Refused, with nothing changed, by
 *    3  at place 0, the bytes are not one block of a call: of another kind, cut short, with an add's side other than 1 or 2, or with more
 *       after it; else at place 1, there are QUOTING_MONTH_WORDS words and they are not a month's
 *   16  at place 1, words_length is below QUOTING_MONTH_WORDS; at place 2, hints_length is below QUOTING_HINT_BYTES; at place 3,
 *       answer_length is below QUOTING_ANSWER_WORDS; the first of them that applies
 */
uint64_t quoting_month_call(
    uint32_t *words, size_t words_length, uint8_t *hints, size_t hints_length, const uint8_t *call, size_t call_length, uint32_t *answer,
    size_t answer_length);

/*
 * Takes event records on a month, one after the other, until one is refused: as many event calls of quoting_month_call, at a session's pace.
 *
 * words    as for quoting_month_call.
 * hints    as for quoting_month_call. Where no record is taken they are left as they were.
 * records  the records, 20 bytes each, as quoting_session takes them. records_length is the number of bytes. 1 to 19 bytes after the last
 *          full record are one more record, cut short.
 * answer   answer_length words, of which QUOTING_ANSWER_WORDS are written: the answer of an accepted call where every record was taken, also
 *          where there is none; else that of a refused call, whose number is what refuses the first record that was not taken: 7 with no
 *          quantum open, 8 to 14 as the event call is, 15 for a record cut short, of unknown kind or with a nonzero byte where zero is
 *          needed, or for the record after 4,000,000,000. Of 7 and 15 it is 7.
 *
 * Answers the number n of records that were taken: the words are those after their n event calls, and to go on after a refused record is to
 * pass those from n + 1 on. Refused, with nothing changed, by
 *    3  at place 1, there are QUOTING_MONTH_WORDS words and they are not a month's
 *   16  at place 1, words_length is below QUOTING_MONTH_WORDS; at place 2, hints_length is below QUOTING_HINT_BYTES; at place 3,
 *       answer_length is below QUOTING_ANSWER_WORDS; the first of them that applies, and the 3 comes before places 2 and 3
 */
uint64_t quoting_month_records(
    uint32_t *words, size_t words_length, uint8_t *hints, size_t hints_length, const uint8_t *records, size_t records_length,
    uint32_t *answer, size_t answer_length);

/*
 * The open quantum of a month as it is now. The words are not changed.
 *
 * words   the month's, words_length of them; those after the first QUOTING_MONTH_WORDS are not read.
 * buffer  buffer_length words, of which the first are written: QUOTING_VIEW_WORDS are always enough.
 *            0 the day, 1 to 7 the row, 8 to 12 what the spread limit goes by (0, SP and three zeros, or 1 and a strike's a, difference, days
 *            and b), 13 the lapse limit, 14 the widest D allowed, 15 the state now, of enum
 *            quoting_state, 16 the number of live orders; from 17 on four words for each of them, in the order in which they were added: id, side (1
 *            buy, 2 sell), price, volume
 *
 * Answers the number of words written, 0 with no quantum open. Refused, with nothing changed, by
 *    3  at place 1, there are QUOTING_MONTH_WORDS words and they are not a month's
 *   16  at place 1, words_length is below QUOTING_MONTH_WORDS; at place 2, buffer_length is below 17 and four for each live order
 */
uint64_t quoting_month_view(const uint32_t *words, size_t words_length, uint32_t *buffer, size_t buffer_length);

/*
 * Runs a whole list of calls from a fresh month, each on the month that the one before left, and writes each call's answer, as
 * quoting_month_call does, one after the other. It stops at the first words that are not a call: nothing after them is read, and
 * quoting_calls_words says where that is.
 *
 * calls    the blocks, one directly after the other. calls_length is the number of bytes.
 * answers  answers_length words, QUOTING_ANSWER_WORDS for each call. A block has a word at least, so 5 * calls_length are always enough.
 *
 * Answers the number of calls that were made. Refused by
 *    3  calls_length is 17179869184 or above
 *   16  answers_length is below QUOTING_ANSWER_WORDS times the number of calls
 */
uint64_t quoting_calls(const uint8_t *calls, size_t calls_length, uint32_t *answers, size_t answers_length);

/*
 * The number of words, from the first on, that are calls one after the other. Where four times that is calls_length, all of the bytes are
 * calls; else what follows is not a call. Refused by
 *    3  calls_length is 17179869184 or above
 */
uint64_t quoting_calls_words(const uint8_t *calls, size_t calls_length);

/* A record of the standing: a maker's number and rating. */
struct quoting_maker {
    uint32_t number;
    uint32_t rating;
};

/*
 * Makes a list of calls on the standing of makers, each on the records and the count that the one before left. The used records are the
 * first ones: by rating downwards, equal ratings by lower number, each maker once.
 *
 * records   records_length records, of which the first `count` are used, altered in place. A record past the count may hold anything; the
 *           one that a leave gives up then holds the maker who left, with the rating 0.
 * calls     three words a call: 1 join, 2 change or 3 leave; the maker's number; the rating, 0 for a leave. calls_length is the number of
 *           words.
 * outcomes  outcomes_length words, of which one for each call is written: 0 where it is accepted, else the number that refuses it:
 *             23  count is above records_length, or the used records are out of order or have a maker twice
 *             24  join of a present maker, change or leave of an absent one
 *             25  join with every record used
 *           A refused call leaves the records and the count as they were.
 *
 * Answers the count after the calls, or 4294967295 where it is greater (it can be only with as many records, or where it was before).
 * Refused, with no call made, by
 *    3  the words are not a list of calls: of another kind, a leave with a rating, or not three words a call
 *   16  outcomes_length is below the number of calls
 */
uint64_t quoting_standing(
    struct quoting_maker *records, size_t records_length, size_t count, const uint32_t *calls, size_t calls_length, uint32_t *outcomes,
    size_t outcomes_length);

#ifdef __cplusplus
}
#endif

#endif
