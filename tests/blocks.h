/* Blocks of a list of calls, for the tests that make them in C. */
#ifndef TESTS_BLOCKS_H
#define TESTS_BLOCKS_H

#include <stddef.h>
#include <stdint.h>

enum { BLOCK_BYTES = 256 };

struct call {
    const char *name;
    uint8_t bytes[BLOCK_BYTES];
    size_t length;
    int is_records; /* they are event records, not one call's block */
};

static void put(uint8_t *at, uint32_t n) {
    for (int i = 0; i < 4; i++) at[i] = (uint8_t) (n >> 8 * i);
}

static struct call block(const char *name, size_t count, const uint32_t *numbers) {
    struct call c = {.name = name, .length = 4 * count};
    for (size_t i = 0; i < count; i++) put(c.bytes + 4 * i, numbers[i]);
    return c;
}

#define BLOCK(name, ...) block(name, sizeof((uint32_t[]){__VA_ARGS__}) / 4, (uint32_t[]){__VA_ARGS__})

#endif
