/* The memory of the library: the program's malloc, realloc and free, in the three forms that the proved code calls. */
#include <stddef.h>
#include <stdlib.h>

/* Whether memory was found, and where it is. Without any, `at` is still not NULL. */
struct block {
    _Bool ok;
    void *at;
};

static max_align_t nothing;

static struct block block_at(void *at) {
    return (struct block){at != NULL, at ? at : &nothing};
}

/* malloc returns memory for each type of C. No type of the library is aligned to more. */
static _Bool is_aligned(size_t align) {
    return align <= _Alignof(max_align_t);
}

/* An empty block has a place of its own, too. */
static size_t room_for(size_t size, size_t align) {
    return size ? size : align;
}

struct block rattle_alloc(size_t size, size_t align) {
    return block_at(is_aligned(align) ? malloc(room_for(size, align)) : NULL);
}

struct block rattle_realloc(void *old, size_t old_size, size_t size, size_t align) {
    (void)old_size;
    return block_at(is_aligned(align) ? realloc(old, room_for(size, align)) : NULL);
}

void rattle_dealloc(void *at) {
    free(at);
}
