/* The memory of the library in a WebAssembly module: the three functions that the proved code calls, and three for the host, over the
 * linear memory above the module's own data.
 *
 * A block has the room of its class, of which there are four to each power of two, and a head of 16 bytes before it. A block that is
 * given back waits in the list of its class; the topmost one goes back to the free end. When no block is left, all memory is free again,
 * so a call that gives back what it took leaves nothing behind. A test gives other memory by the
 * macros MEMORY_..
 */
typedef __SIZE_TYPE__ size;
typedef unsigned char byte;

#ifndef MEMORY_BEGIN
extern byte __heap_base;
#define MEMORY_ORIGIN ((size)0)
#define MEMORY_BEGIN ((size)&__heap_base)
#define MEMORY_PAGES() __builtin_wasm_memory_size(0)
/* A failure is -1 in as many bits as the memory's addresses have: Binaryen's lowering gives the 32 bits of it. */
#define MEMORY_GROW(pages) (__builtin_wasm_memory_grow(0, pages) < 0xffffffff)
#define EXPORTED(name) __asm__(".export_name " #name ", " #name);
#else
#define EXPORTED(name)
#endif

enum { PAGE = 65536, LEAST = 32, CLASSES = 256, STEPS = 4 };
/* No block ends above this. Addresses that were lowered to 32 bits wrap round at 4 GiB: one just below 0 is beyond the memory, and traps. */
static const size MOST = (size)1 << 30;

/* The proved code reads it as the two 64-bit words in which the x86-64 convention returns it. Without memory `at` is still not NULL. */
struct block {
    size ok;
    void *at;
};

struct head {
    size room;
    struct head *next;
};

static struct head *waiting[CLASSES];
/* The free end of the memory, and the end of all of it, as addresses. */
static size top, end;
static size taken;

static size first(void) {
    return (MEMORY_BEGIN + 15) & ~(size)15;
}

/* The class of the least room for n bytes, at most MOST, and that room: 5, 6, 7 or 8 times a power of two. */
static unsigned class_of(size n, size *room) {
    if (n <= LEAST) {
        *room = LEAST;
        return 0;
    }
    n = (n + 15) & ~(size)15;
    unsigned highest = 63 - (unsigned)__builtin_clzll(n - 1), shift = highest - 2;
    size steps = ((n - 1) >> shift) + 1;
    *room = steps << shift;
    return (highest - 5) * STEPS + (unsigned)steps - STEPS;
}

/* Moves the free end up by n bytes. Returns whether there is memory for that. */
static _Bool raise(size n) {
    if (!top) {
        top = first();
        end = MEMORY_ORIGIN + MEMORY_PAGES() * PAGE;
    }
    if (n > MOST - (top - MEMORY_ORIGIN)) {
        return 0;
    }
    if (n > end - top) {
        /* By a quarter at least, so that it seldom grows, or else by what is needed. */
        size pages = (n - (end - top) + PAGE - 1) / PAGE, quarter = MEMORY_PAGES() / 4;
        if (pages < quarter && MEMORY_GROW(quarter)) {
            pages = quarter;
        } else if (!MEMORY_GROW(pages)) {
            return 0;
        }
        end += pages * PAGE;
    }
    top += n;
    return 1;
}

static struct head *head_of(void *at) {
    return (struct head *)at - 1;
}

static size end_of(struct head *it) {
    return (size)(it + 1) + it->room;
}

static struct head *take(size n) {
    size room;
    if (n > MOST) {
        return 0;
    }
    unsigned class = class_of(n, &room);
    struct head *found = waiting[class];
    if (found) {
        waiting[class] = found->next;
    } else if (raise(room + sizeof *found)) {
        found = (struct head *)(top - room) - 1;
        found->room = room;
    } else {
        return 0;
    }
    taken += 1;
    return found;
}

static void give(struct head *it) {
    taken -= 1;
    if (!taken) {
        top = first();
        for (unsigned class = 0; class < CLASSES; class += 1) {
            waiting[class] = 0;
        }
    } else if (end_of(it) == top) {
        top = (size)it;
    } else {
        size room;
        unsigned class = class_of(it->room, &room);
        it->next = waiting[class];
        waiting[class] = it;
    }
}

static struct block block_at(struct head *it) {
    return (struct block){it != 0, it ? (void *)(it + 1) : (void *)16};
}

/* No type of the library is aligned to more than 16 bytes. */
struct block rattle_alloc(size n, size align) {
    return block_at(align <= 16 ? take(n) : 0);
}

struct block rattle_realloc(void *old, size old_size, size n, size align) {
    struct head *it = head_of(old);
    if (align > 16 || n > MOST) {
        return block_at(0);
    }
    if (n <= it->room) {
        return block_at(it);
    }
    if (end_of(it) == top) {
        size room;
        class_of(n, &room);
        if (raise(room - it->room)) {
            it->room = room;
            return block_at(it);
        }
    }
    struct head *next = take(n);
    if (next) {
        __builtin_memcpy(next + 1, old, old_size < n ? old_size : n);
        give(it);
    }
    return block_at(next);
}

void rattle_dealloc(void *at) {
    give(head_of(at));
}

/* For the host: room for words, documents, answers and handles, NULL without memory; how many blocks are taken. The attribute
 * export_name would have the linker add a table of functions with 64-bit places, which not every engine takes. */
EXPORTED(memory_take)
void *memory_take(size n) {
    struct head *it = take(n);
    return it ? it + 1 : 0;
}

EXPORTED(memory_give)
void memory_give(void *at) {
    give(head_of(at));
}

EXPORTED(memory_taken)
size memory_taken(void) {
    return taken;
}
