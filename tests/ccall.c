/* Runs many sessions through the C call.

   Standard input, case by case until its end: the length of the leading bytes and the length of the
   record bytes, four bytes each, low byte first, then both. Each answer is a line of its own.
   Each part is in memory of exactly its size, so that a tool that watches memory sees a read
   past its end; an empty part is a null pointer. */

#include <inttypes.h>
#include <stdint.h>
#include <stdio.h>
#include <stdlib.h>

#include "quoting.h"

static void stop(const char *why) {
    fprintf(stderr, "ccall: %s\n", why);
    exit(2);
}

/* Fills `count` bytes; 0 at the end of the input before the first one. */
static int fill(uint8_t *bytes, size_t count) {
    size_t got = fread(bytes, 1, count, stdin);
    if (got == count) return 1;
    if (got != 0) stop("the input ends in the middle of a case");
    return 0;
}

static uint32_t number(const uint8_t *bytes) {
    return (uint32_t)bytes[0] | (uint32_t)bytes[1] << 8 | (uint32_t)bytes[2] << 16 |
           (uint32_t)bytes[3] << 24;
}

static uint8_t *part(uint32_t size) {
    if (size == 0) return NULL;
    uint8_t *bytes = malloc(size);
    if (bytes == NULL) stop("no memory");
    if (!fill(bytes, size)) stop("the input ends in the middle of a case");
    return bytes;
}

int main(void) {
    uint8_t sizes[8];
    while (fill(sizes, sizeof sizes)) {
        uint32_t head_size = number(sizes), records_size = number(sizes + 4);
        uint8_t *head = part(head_size);
        uint8_t *records = part(records_size);
        printf("%" PRIu64 "\n", quoting_session(head, head_size, records, records_size));
        free(head);
        free(records);
    }
    return 0;
}
