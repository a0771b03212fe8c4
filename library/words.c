/* What the proved programs call beside library/heap.c: the words of the command line, and the number of the last error. A release is
 * linked with it, for every processor and C library alike. */
#include <errno.h>
#include <stddef.h>
#include <stdint.h>

static int count;
static char **words;

/* glibc passes main's parameters to what is called before main. musl doesn't: there main itself is wrapped, by the linker's --wrap. */
#ifndef WRAP_MAIN
__attribute__((constructor)) static void keep_words(int argc, char **argv) {
    count = argc;
    words = argv;
}
#else
int __real_main(int argc, char **argv);
int __wrap_main(int argc, char **argv);

int __wrap_main(int argc, char **argv) {
    count = argc;
    words = argv;
    return __real_main(argc, argv);
}
#endif

size_t rattle_arg_count(void) {
    return (size_t)count;
}

/* Writes a word to `to`, which has room for `room` bytes, and returns its length: -1 if there is no such word, -2 if it has no room. */
intptr_t rattle_arg(size_t place, char *to, size_t room) {
    if (place >= (size_t)count || !words[place]) return -1;
    size_t len = 0;
    for (; words[place][len]; len++) {
        if (len == room) return -2;
        to[len] = words[place][len];
    }
    return (intptr_t)len;
}

int rattle_errno(void) {
    return errno;
}

void rattle_set_errno(int error) {
    errno = error;
}
