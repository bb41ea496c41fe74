/* Holds a month in its own memory and prints a line a call, as `replay` does.

     month < CALLS                                        CALLS are blocks of words (docs/FORMATS.md, "A list of calls")
     month view < CALLS                                   the same, and at the end of input the view: the open quantum and its orders
     month START EXPIRY QUANTUM L M A B P DAY SP < LINES  opens a quantum on that row, day and SP; then each line is one FIX message, with
                                                          `|` or the byte 1 after each field, and START is the quantum's start
                                                          (YYYYMMDD-HH:MM:SS.sss). At the end of input it prints a report.

   Each answer is out before more is read, so a program can write a call and wait for its line. */
#include <stdlib.h>

#include "quoting_lines.h"

enum { MOST = 1 << 18 }; /* bytes of the longest block or line that is taken */

static struct quoting_month month;

/* Prints the line of an answer. False where the call was not made. */
static bool print_reply(quoting_status status, const struct quoting_reply *reply) {
    if (status >= QUOTING_NOT_A_CALL) return false;
    quoting_print_reply(stdout, status, reply);
    fflush(stdout);
    return true;
}

static bool run_call(const uint8_t *block, size_t bytes) {
    struct quoting_reply reply;
    quoting_status status = quoting_month_block(&month, block, bytes, &reply);
    return print_reply(status, &reply);
}

/* Blocks, word by word: as soon as the words read are one call, it is run. */
static void run_blocks(void) {
    static uint8_t block[MOST];
    size_t bytes = 0;
    uint64_t done = 0;
    int byte;
    while (bytes < MOST && (byte = getchar()) != EOF) {
        block[bytes++] = (uint8_t) byte;
        if (bytes % 4 == 0 && quoting_calls_words(block, bytes) == bytes / 4 && run_call(block, bytes)) {
            done += bytes / 4;
            bytes = 0;
        }
    }
    if (bytes != 0) printf("stopped at word %" PRIu64 "\n", done + 1);
}

static int print_view(void) {
    struct quoting_view view;
    if (quoting_month_now(&month, &view) != QUOTING_ACCEPTED) return 2;
    quoting_print_view(stdout, &view);
    return 0;
}

static int run_messages(char **words) {
    static char line[MOST];
    uint32_t n[10];
    struct quoting_reply accepted = {.kind = QUOTING_ANSWER_ACCEPTED}, shown = {.kind = QUOTING_ANSWER_REPORT};
    for (int i = 1; i < 10; i++) n[i] = (uint32_t) strtoll(words[i], NULL, 10);
    const struct quoting_row row = {n[1], n[2], n[3], n[4], n[5], n[6], n[7]};
    quoting_status status = quoting_month_open(&month, &row, n[8], quoting_signed(n[9]), QUOTING_NO_LIMIT);
    while (print_reply(status, &accepted) && fgets(line, sizeof line, stdin) != NULL) {
        size_t length = strcspn(line, "\n");
        for (size_t i = 0; i < length; i++) line[i] = line[i] == '|' ? 1 : line[i];
        status = quoting_month_message(&month, words[0], strlen(words[0]), line, length);
    }
    if (status < QUOTING_NOT_A_CALL) status = quoting_month_report(&month, &shown.report);
    if (print_reply(status, &shown)) return 0;
    fprintf(stderr, "month: %s\n", quoting_status_text(status));
    return 2;
}

int main(int count, char **words) {
    bool is_shown = count == 2 && strcmp(words[1], "view") == 0;
    if (count != 1 && count != 11 && !is_shown) {
        fprintf(stderr, "usage: month [view | START EXPIRY QUANTUM L M A B P DAY SP]\n");
        return 2;
    }
    if (quoting_month_start(&month) != QUOTING_ACCEPTED) return 2;
    if (count == 11) return run_messages(words + 1);
    run_blocks();
    return is_shown ? print_view() : 0;
}
