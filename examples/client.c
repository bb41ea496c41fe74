/* Reads a session, 32 leading bytes and the records, from a file or from standard input, and prints K or the refusal and its place. */
#include <inttypes.h>
#include <stdio.h>

#include "quoting_typed.h"

enum { HEAD = 32, MOST = HEAD + QUOTING_RECORD_BYTES * 4000001 }; /* a record more than a session may have */

int main(int count, char **words) {
    static uint8_t bytes[MOST];
    FILE *file = count > 1 ? fopen(words[1], "rb") : stdin;
    size_t length = file == NULL ? 0 : fread(bytes, 1, MOST, file), head = length < HEAD ? length : HEAD;
    if (file == NULL || ferror(file)) {
        perror(count > 1 ? words[1] : "standard input");
        return 2;
    }
    uint32_t kept, place;
    quoting_status status = quoting_session_kept(bytes, head, bytes + head, length - head, &kept, &place);
    if (status == QUOTING_ACCEPTED) printf("kept %" PRIu32 "\n", kept);
    else printf("refused %" PRIu32 " at %" PRIu32 "\n", status, place);
    return 0;
}
