/* A million random calls of the heap of the WebAssembly module, here over an array: no block overlaps another, each keeps its bytes,
 * room that is given back is used again, and a memory that is full refuses. Prints how many requests were made and refused. */
#include <stdint.h>
#include <stdio.h>
#include <stdlib.h>
#include <string.h>

enum { MOST_PAGES = 64, BLOCKS = 400 };
static _Alignas(65536) uint8_t memory[MOST_PAGES * 65536];
static size_t pages = 2;

static _Bool grows(size_t more) {
    return more <= MOST_PAGES - pages ? pages += more, 1 : 0;
}

#define MEMORY_ORIGIN ((size)memory)
#define MEMORY_BEGIN ((size)memory + 1000)
#define MEMORY_PAGES() pages
#define MEMORY_GROW(more) grows(more)
#include "../../library/linear_heap.c"

static struct {
    uint8_t *at;
    size_t length;
    uint8_t mark;
} held[BLOCKS];
static uint64_t state = 88172645463325252u;

static uint64_t drawn(void) {
    state ^= state << 13;
    state ^= state >> 7;
    return state ^= state << 17;
}

static void fail(const char *what) {
    printf("heap: %s\n", what);
    exit(1);
}

static void mark(int place) {
    held[place].mark = (uint8_t)drawn();
    memset(held[place].at, held[place].mark, held[place].length);
}

/* Looks at every 61st byte, and at the last. */
static void look(int place, size_t length) {
    for (size_t at = 0; at < length; at += 61)
        if (held[place].at[at] != held[place].mark) fail("a byte was changed");
    if (length && held[place].at[length - 1] != held[place].mark) fail("the last byte was changed");
}

static void check_place(int place) {
    uint8_t *begin = held[place].at, *end = begin + held[place].length;
    if ((size_t)begin % 16 || begin < memory + 1000 || end > memory + pages * 65536) fail("a block is beyond the memory, or not aligned");
    for (int other = 0; other < BLOCKS; other += 1)
        if (other != place && held[other].at && begin < held[other].at + held[other].length && held[other].at < end)
            fail("two blocks overlap");
}

int main(void) {
    unsigned made = 0, refused = 0;
    for (int round = 0; round < 1000000; round += 1) {
        int place = (int)(drawn() % BLOCKS);
        size_t length = drawn() % 8 ? drawn() % 300 : drawn() % (drawn() % 16 ? 20000 : 600000);
        if (held[place].at && drawn() % 2) {
            look(place, held[place].length);
            rattle_dealloc(held[place].at);
            held[place].at = 0;
            continue;
        }
        struct block found = held[place].at ? rattle_realloc(held[place].at, held[place].length, length, 8) : rattle_alloc(length, 16);
        made += 1;
        refused += !found.ok;
        if (!found.at) fail("a place is NULL");
        if (!found.ok) continue;
        if (held[place].at) {
            held[place].at = found.at;
            look(place, length < held[place].length ? length : held[place].length);
        }
        held[place].at = found.at;
        held[place].length = length;
        check_place(place);
        mark(place);
    }
    size_t left = 0;
    for (int place = 0; place < BLOCKS; place += 1) left += held[place].at != 0;
    if (memory_taken() != left) fail("the blocks are miscounted");
    for (int place = 0; place < BLOCKS; place += 1)
        if (held[place].at) {
            look(place, held[place].length);
            rattle_dealloc(held[place].at);
        }
    if (memory_taken() || !memory_take(3000000)) fail("not all of the memory is free again");
    if (memory_take((size_t)1 << 30) || memory_take(~(size_t)0) || memory_take(~(size_t)15) || rattle_alloc(8, 32).ok)
        fail("more is given than there is");
    printf("%u requests, %u refused\n", made, refused);
    return 0;
}
