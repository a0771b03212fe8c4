/* embed PROGRAM WORDS FILE RUNS: prints the microseconds of the fastest and of the middle run of a command on a file, by `sercos_call` in
 * this process, and by starting the program. WORDS has one word a line. A cycle of a drive and of a master: embed FILE RUNS. */
#define _GNU_SOURCE
#include "sercos.h"

#include <fcntl.h>
#include <spawn.h>
#include <stdio.h>
#include <stdlib.h>
#include <string.h>
#include <sys/wait.h>
#include <time.h>
#include <unistd.h>

extern char **environ;

static uint8_t input[1 << 20], output[1 << 26];
static size_t input_len;
static double times[1000000];

static void must(bool is_so, const char *what) {
    if (!is_so) {
        fprintf(stderr, "embed: %s\n", what);
        exit(1);
    }
}

static double now(void) {
    struct timespec at;
    clock_gettime(CLOCK_MONOTONIC, &at);
    return (double)at.tv_sec * 1e6 + (double)at.tv_nsec / 1e3;
}

static int is_greater(const void *one, const void *other) {
    const double *a = one, *b = other;
    return (*a > *b) - (*a < *b);
}

static void print_times(long runs) {
    qsort(times, (size_t)runs, sizeof times[0], is_greater);
    printf("%.3f %.3f\n", times[0], times[runs / 2]);
}

static void call(const char *words) {
    size_t written;
    uint8_t status = sercos_call((const uint8_t *)words, strlen(words), input, input_len, output, sizeof output, &written);
    must(status <= SERCOS_NO, "the call failed");
}

/* Starts the program on the file, and waits for its end. Its output is dropped. */
static void start(char *program, const char *words, const char *file) {
    char *text = strdup(words), *list[8] = {program};
    int count = 1, status;
    for (char *word = strtok(text, "\n"); word && count < 7; word = strtok(NULL, "\n"))
        list[count++] = word;
    posix_spawn_file_actions_t actions;
    posix_spawn_file_actions_init(&actions);
    posix_spawn_file_actions_addopen(&actions, 0, file, O_RDONLY, 0);
    posix_spawn_file_actions_addopen(&actions, 1, "/dev/null", O_WRONLY, 0);
    posix_spawn_file_actions_addopen(&actions, 2, "/dev/null", O_WRONLY, 0);
    pid_t pid;
    must(posix_spawn(&pid, program, &actions, NULL, list, environ) == 0, "the program doesn't start");
    must(waitpid(pid, &status, 0) == pid && WIFEXITED(status) && WEXITSTATUS(status) <= SERCOS_NO, "the program failed");
    posix_spawn_file_actions_destroy(&actions);
    free(text);
}

/* A drive and a master, each with what it gets in a cycle of phase 0. */
static void time_cycles(long runs) {
    uint8_t mst[2] = {0xff, 0}, out[SERCOS_MOST_CONTENT];
    size_t written;
    uint16_t at;
    sercos_drive drive = {0};
    sercos_master master = {0};
    must(sercos_drive_open(input, input_len, 0, &drive) == SERCOS_DONE, "the document is refused");
    for (long k = 0; k < runs; k++) {
        double begin = now();
        for (uint32_t cycle = 0; cycle < 1000; cycle++) {
            sercos_drive_hear_mst(&drive, (uint32_t)k * 1000 + cycle, true, mst, 2);
            sercos_drive_at(&drive, out, sizeof out, &written, &at);
            sercos_drive_hear_mdt(&drive, false, mst, 0);
        }
        times[k] = (now() - begin) / 1000;
    }
    print_times(runs);
    must(sercos_master_open(input, input_len, &master) == SERCOS_DONE, "the document is refused");
    for (long k = 0; k < runs; k++) {
        double begin = now();
        for (int cycle = 0; cycle < 1000; cycle++) {
            sercos_master_mst(&master, mst, sizeof mst, &written);
            sercos_master_hear_mst(&master, true, mst, 2);
            sercos_master_mdt(&master, out, sizeof out, &written, &at);
            sercos_master_end_cycle(&master);
        }
        times[k] = (now() - begin) / 1000;
    }
    print_times(runs);
    sercos_drive_close(&drive);
    sercos_master_close(&master);
}

int main(int count, char **words) {
    must(count == 3 || count == 5, "use bench/embed");
    const char *name = words[count - 2];
    long runs = atol(words[count - 1]);
    must(runs > 0 && runs <= 1000000, "the number of runs");
    FILE *file = fopen(name, "rb");
    must(file != NULL, "there is no such file");
    input_len = fread(input, 1, sizeof input, file);
    fclose(file);
    if (count == 3) {
        time_cycles(runs);
        return 0;
    }
    for (long k = 0; k < runs; k++) {
        double begin = now();
        call(words[2]);
        times[k] = now() - begin;
    }
    print_times(runs);
    for (long k = 0; k < runs; k++) {
        double begin = now();
        start(words[1], words[2], name);
        times[k] = now() - begin;
    }
    print_times(runs);
    return 0;
}
