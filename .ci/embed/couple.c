/* couple FILE..: couples the master and the drives of each ring document without bits, and writes the lines of the trace that their
 * contents, starts, phases and events have. Cycle by cycle they must be the lines of the ring of this document, which has bits. So the
 * documents have no faults. */
#include "test.h"

static sercos_master master;
static sercos_drive drives[MOST_DRIVES];
static uint8_t addresses[MOST_DRIVES], phases[MOST_DRIVES];
static size_t count;
static unsigned rate;
static char text[1 << 20];
static size_t text_len;

static void append_hex(const uint8_t *bytes, size_t len) {
    for (size_t k = 0; k < len; k++)
        text_len += (size_t)sprintf(text + text_len, "%02x", bytes[k]);
    text_len += (size_t)sprintf(text + text_len, "\n");
}

/* The line of a telegram. Its bits are those of the frame of its content. An MST ends where the others count from. */
static void append_telegram(char kind, uint32_t cycle, long start, const uint8_t *content, size_t len) {
    uint8_t bits[SERCOS_MOST_FRAME];
    uint32_t number;
    CHECK(sercos_frame(content, len, bits, sizeof bits, &number) == SERCOS_DONE);
    long begin = kind == 'm' ? -(long)number : start * (long)rate;
    text_len += (size_t)sprintf(text + text_len, "%c %u %ld %u ", kind, cycle, begin, number);
    append_hex(content, len);
}

static void append_phases(uint32_t cycle) {
    for (size_t place = 0; place < count; place++) {
        uint8_t phase;
        CHECK(sercos_drive_phase(&drives[place], &phase) == SERCOS_DONE);
        if (phase != phases[place])
            text_len += (size_t)sprintf(text + text_len, "p %u %u %u\n", cycle, addresses[place], phase);
        phases[place] = phase;
    }
}

static void couple_mst(uint32_t cycle) {
    uint8_t mst[2];
    size_t len;
    CHECK(sercos_master_mst(&master, mst, 1, &len) == SERCOS_WRITE_FAULT);
    CHECK(sercos_master_mst(&master, mst, sizeof mst, &len) == SERCOS_DONE);
    append_telegram('m', cycle, 0, mst, len);
    for (size_t place = 0; place < count; place++)
        CHECK(sercos_drive_hear_mst(&drives[place], cycle, true, mst, len) == SERCOS_DONE);
    CHECK(sercos_master_hear_mst(&master, true, mst, len) == SERCOS_DONE);
    append_phases(cycle);
}

struct at {
    uint16_t start;
    size_t len;
    uint8_t content[SERCOS_MOST_CONTENT];
};

static void couple_ats(uint32_t cycle) {
    static struct at ats[MOST_DRIVES];
    bool is_open[MOST_DRIVES];
    for (size_t place = 0; place < count; place++) {
        struct at *at = &ats[place];
        uint8_t status = sercos_drive_at(&drives[place], at->content, sizeof at->content, &at->len, &at->start);
        CHECK(status == SERCOS_DONE || status == SERCOS_NO);
        is_open[place] = status == SERCOS_DONE;
    }
    for (;;) {
        size_t next = count;
        for (size_t place = 0; place < count; place++)
            if (is_open[place] && (next == count || ats[place].start < ats[next].start))
                next = place;
        if (next == count)
            return;
        is_open[next] = false;
        append_telegram('a', cycle, ats[next].start, ats[next].content, ats[next].len);
        CHECK(sercos_master_hear_at(&master, ats[next].content, ats[next].len) == SERCOS_DONE);
    }
}

static void couple_mdt(uint32_t cycle) {
    uint8_t mdt[SERCOS_MOST_CONTENT];
    size_t len = 0;
    uint16_t start;
    CHECK(sercos_master_mdt(&master, mdt, sizeof mdt - 1, &len, &start) == SERCOS_WRITE_FAULT);
    uint8_t status = sercos_master_mdt(&master, mdt, sizeof mdt, &len, &start);
    CHECK(status == SERCOS_DONE || status == SERCOS_NO);
    bool is_sent = status == SERCOS_DONE;
    if (is_sent)
        append_telegram('d', cycle, start, mdt, len);
    for (size_t place = 0; place < count; place++)
        CHECK(sercos_drive_hear_mdt(&drives[place], is_sent, mdt, is_sent ? len : 0) == SERCOS_DONE);
    append_phases(cycle);
}

static void couple_cycle(uint32_t cycle) {
    text_len = 0;
    couple_mst(cycle);
    couple_ats(cycle);
    couple_mdt(cycle);
    CHECK(sercos_master_end_cycle(&master) == SERCOS_DONE);
    size_t written;
    CHECK(sercos_master_events(&master, (uint8_t *)text + text_len, sizeof text - text_len, &written) == SERCOS_DONE);
    text_len += written;
}

/* Reads the rate and the addresses from the head of the trace. */
static void read_head(sercos_ring *ring) {
    static char head[ENOUGH];
    size_t len;
    CHECK(sercos_ring_head(ring, (uint8_t *)head, sizeof head - 1, &len) == SERCOS_DONE);
    head[len] = 0;
    CHECK(sscanf(head, "sercos 1\nring %u", &rate) == 1);
    const char *at = head;
    for (count = 0; (at = strstr(at, "\ndrive ")) != NULL; count++, at++) {
        unsigned address;
        CHECK(sscanf(at, "\ndrive %u", &address) == 1);
        addresses[count] = (uint8_t)address;
    }
}

static uint32_t couple(const uint8_t *document, size_t len) {
    static uint8_t lines[1 << 20];
    sercos_ring ring = {0};
    size_t lines_len;
    uint32_t cycle = 0;
    uint8_t status;
    CHECK(sercos_ring_open(document, len, &ring) == SERCOS_DONE);
    CHECK(sercos_ring_lines(&ring, lines, sizeof lines, &lines_len) == SERCOS_DONE && lines_len == 0);
    read_head(&ring);
    CHECK(sercos_master_open(document, len, &master) == SERCOS_DONE);
    for (size_t place = 0; place < count; place++) {
        CHECK(sercos_drive_open(document, len, place, &drives[place]) == SERCOS_DONE);
        phases[place] = 0;
    }
    sercos_drive other = {0};
    CHECK(sercos_drive_open(document, len, count, &other) == SERCOS_NO && !other.is_open);
    while ((status = sercos_ring_cycle(&ring)) == SERCOS_DONE) {
        couple_cycle(cycle);
        CHECK(sercos_ring_lines(&ring, lines, sizeof lines, &lines_len) == SERCOS_DONE);
        if (lines_len != text_len || memcmp(lines, text, text_len) != 0) {
            fprintf(stderr, "cycle %u\n%.*s\nof the ring:\n%.*s", cycle, (int)text_len, text, (int)lines_len, (char *)lines);
            exit(1);
        }
        cycle++;
    }
    CHECK(status == SERCOS_NO);
    for (size_t place = 0; place < count; place++)
        sercos_drive_close(&drives[place]);
    sercos_master_close(&master);
    sercos_ring_close(&ring);
    return cycle;
}

int main(int words_count, char **words) {
    for (int k = 1; k < words_count; k++) {
        size_t len;
        uint8_t *document = read_file(words[k], &len);
        printf("%u cycles\n", couple(document, len));
        free(document);
    }
    return 0;
}
