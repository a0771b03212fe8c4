/* A master and its drives in this program's own process, coupled without bits: what one sends is handed to the others as it is.
 * Runs 300 cycles of a ring document, and prints what the master reports: the plan, the slots, and how its requests end.
 *
 * At the top of the repository, after tools/library, or in the folder of a release, which has the library in lib/:
 *
 *   mkdir -p build && cc -Iinclude -o build/ring_c examples/embed/ring.c -Lbuild -Llib -l:libsercos.a
 *   build/ring_c examples/one_read.toml
 */
#include "sercos.h"

#include <stdio.h>
#include <stdlib.h>

#define DRIVES 64

static uint8_t document[1 << 20];

/* An AT on the ring: who sent it comes second, so that ATs are sorted by their start and then in the order of the ring. */
struct at {
    uint16_t start;
    size_t place, len;
    uint8_t content[SERCOS_MOST_CONTENT];
};

static sercos_drive drives[DRIVES];
static struct at ats[DRIVES];

static void must(uint8_t status, const char *what) {
    if (status != SERCOS_DONE) {
        fprintf(stderr, "%s: status %u\n", what, status);
        exit(1);
    }
}

/* Opens each drive of the document, and returns their number. */
static size_t open_drives(size_t len) {
    size_t count = 0;
    uint8_t status = SERCOS_DONE;
    while (count < DRIVES && (status = sercos_drive_open(document, len, count, &drives[count])) == SERCOS_DONE)
        count++;
    must(status == SERCOS_NO ? SERCOS_DONE : status, "the document");
    return count;
}

static int is_later(const void *one, const void *other) {
    const struct at *a = one, *b = other;
    return a->start != b->start ? (a->start > b->start) - (a->start < b->start) : (a->place > b->place) - (a->place < b->place);
}

/* The MST goes round the ring: each drive hears it, and so does the master. */
static void send_mst(sercos_master *master, size_t count, uint32_t cycle) {
    uint8_t mst[2];
    size_t len;
    must(sercos_master_mst(master, mst, sizeof mst, &len), "the MST");
    for (size_t place = 0; place < count; place++)
        must(sercos_drive_hear_mst(&drives[place], cycle, true, mst, len), "hear_mst");
    must(sercos_master_hear_mst(master, true, mst, len), "hear_mst of the master");
}

/* The ATs arrive at the master in the order in which they start. */
static void send_ats(sercos_master *master, size_t count) {
    size_t sent = 0;
    for (size_t place = 0; place < count; place++) {
        struct at *at = &ats[sent];
        at->place = place;
        uint8_t status = sercos_drive_at(&drives[place], at->content, sizeof at->content, &at->len, &at->start);
        if (status != SERCOS_NO) {
            must(status, "the AT");
            sent++;
        }
    }
    qsort(ats, sent, sizeof ats[0], is_later);
    for (size_t k = 0; k < sent; k++)
        must(sercos_master_hear_at(master, ats[k].content, ats[k].len), "hear_at");
}

/* The MDT, if one is sent, passes each drive. */
static void send_mdt(sercos_master *master, size_t count) {
    uint8_t mdt[SERCOS_MOST_CONTENT];
    size_t len = 0;
    uint16_t start;
    uint8_t status = sercos_master_mdt(master, mdt, sizeof mdt, &len, &start);
    bool is_sent = status != SERCOS_NO;
    if (is_sent)
        must(status, "the MDT");
    for (size_t place = 0; place < count; place++)
        must(sercos_drive_hear_mdt(&drives[place], is_sent, mdt, is_sent ? len : 0), "hear_mdt");
}

int main(int words_count, char **words) {
    static uint8_t events[1 << 16];
    FILE *file = words_count == 2 ? fopen(words[1], "rb") : NULL;
    if (!file) {
        fprintf(stderr, "usage: ring_c RING.toml\n");
        return 2;
    }
    size_t len = fread(document, 1, sizeof document, file), written;
    fclose(file);
    sercos_master master = {0};
    must(sercos_master_open(document, len, &master), "the document");
    size_t count = open_drives(len);
    for (uint32_t cycle = 0; cycle < 300; cycle++) {
        send_mst(&master, count, cycle);
        send_ats(&master, count);
        send_mdt(&master, count);
        must(sercos_master_end_cycle(&master), "the end of the cycle");
        must(sercos_master_events(&master, events, sizeof events, &written), "the events");
        fwrite(events, 1, written, stdout);
    }
    uint8_t phase;
    must(sercos_master_command(&master, &phase), "the phase");
    printf("phase %u after 300 cycles\n", phase);
    sercos_master_close(&master);
    for (size_t place = 0; place < count; place++)
        sercos_drive_close(&drives[place]);
    return 0;
}
