/* The refusals' sentences. Plain C beside the proved archive, since what is proved returns no text. */
#include "quoting.h"

static const char *const texts[] = {
    "accepted",
    "the row is not seven words, or the leading bytes are not 32",
    "a word of the row is outside its range",
    "a day, expiry, quantum, settlement price, charge or other argument is outside its range",
    "the cell is filled already",
    "the cell is blank",
    "a quantum is open already",
    "no quantum is open",
    "the time is before the last accepted one",
    "the time is past the quantum's end",
    "an order with this id is live",
    "no order with this id is live",
    "the price or the volume is outside its range",
    "64 orders are live already",
    "the deal exceeds the order's remaining volume",
    "the record is cut short, of unknown kind, has a nonzero byte where zero is needed, or is past the run's limit",
    "the lent buffer is too short for the answer",
    "the lapse limit is outside its range",
    "the board is empty or too long, its lengths differ, or a strike's number is outside its range",
    "the ticket is for another amendment, or its count of calls is not the present one",
    "the frame, length, checksum or type of the message is wrong",
    "a used tag of the message is absent, there twice, unreadable or past 32 bits",
    "a previous price is zero, a change is too great, or a period begins with fewer than 30 sigmas before it",
    "the count is above the records lent, or the records used are out of order",
    "the maker is present at a join, or absent at a change or leave",
    "every record is used",
    "a number is above 60",
};

const char *quoting_refusal_text(uint32_t refusal) {
    return refusal < sizeof texts / sizeof texts[0] ? texts[refusal] : "unknown refusal";
}
