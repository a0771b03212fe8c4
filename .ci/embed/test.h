/* What the tests in C share: a check that names its line, a seeded generator of numbers, and the input. */
#ifndef TEST_H
#define TEST_H
#include "sercos.h"

#include <stdio.h>
#include <stdlib.h>
#include <string.h>

#define ENOUGH (1 << 16)
#define MOST_DRIVES 64

#define CHECK(is_so)                                                       \
    do {                                                                   \
        if (!(is_so)) {                                                    \
            fprintf(stderr, "%s:%d: not %s\n", __FILE__, __LINE__, #is_so); \
            exit(1);                                                       \
        }                                                                  \
    } while (0)

static uint64_t seed = 1;

/* xorshift64*, the same numbers in each run. */
static inline uint32_t draw(uint32_t below) {
    seed ^= seed >> 12;
    seed ^= seed << 25;
    seed ^= seed >> 27;
    return (uint32_t)((seed * 0x2545f4914f6cdd1dull) >> 33) % below;
}

/* The bytes of a file in a block of exactly their number, so that a reader beyond its end is found. */
static inline uint8_t *read_file(const char *name, size_t *len) {
    FILE *file = fopen(name, "rb");
    CHECK(file);
    uint8_t *text = malloc(1 << 20);
    CHECK(text);
    *len = fread(text, 1, 1 << 20, file);
    fclose(file);
    text = realloc(text, *len ? *len : 1);
    CHECK(text);
    return text;
}
#endif
