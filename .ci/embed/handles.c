/* handles FILE TIMES: what each call does to a handle that is closed, that handles opened and closed TIMES times keep no memory, and that
 * two threads with handles of their own have the same results as one. */
#include "test.h"

#include <malloc.h>
#include <pthread.h>

static uint8_t *document;
static size_t document_len;

/* Each call of a handle that holds nothing: nothing was done, so the bytes that it could have written to are as they were. */
static void test_closed(void) {
    uint8_t none[1] = {0}, out[SERCOS_MOST_CONTENT], before[SERCOS_MOST_CONTENT], phase = 77;
    size_t written = 12345;
    uint16_t start = 12345, code = 12345;
    sercos_bad_frame why = {77, 77, 77};
    sercos_deframer deframer = {0};
    sercos_drive drive = {0};
    sercos_master master = {0};
    sercos_ring ring = {0};
    sercos_links links = {0};
    uint32_t arrived = 12345;
    uint8_t how = 77;
    bool restarts = true;
    memset(out, 0xa5, sizeof out);
    memcpy(before, out, sizeof out);
    for (int round = 0; round < 2; round++) {
        CHECK(sercos_deframer_feed(&deframer, none, 0, 0) == SERCOS_CLOSED);
        CHECK(sercos_deframer_finish(&deframer, out, sizeof out, &written, &why) == SERCOS_CLOSED);
        CHECK(sercos_drive_hear_mst(&drive, 0, false, none, 0) == SERCOS_CLOSED);
        CHECK(sercos_drive_at(&drive, out, sizeof out, &written, &start) == SERCOS_CLOSED);
        CHECK(sercos_drive_hear_mdt(&drive, false, none, 0) == SERCOS_CLOSED);
        CHECK(sercos_drive_restart(&drive) == SERCOS_CLOSED);
        CHECK(sercos_drive_phase(&drive, &phase) == SERCOS_CLOSED);
        CHECK(sercos_drive_element(&drive, 3, 7, out, sizeof out, &written, &code) == SERCOS_CLOSED);
        CHECK(sercos_master_mst(&master, out, sizeof out, &written) == SERCOS_CLOSED);
        CHECK(sercos_master_hear_mst(&master, false, none, 0) == SERCOS_CLOSED);
        CHECK(sercos_master_hear_at(&master, none, 0) == SERCOS_CLOSED);
        CHECK(sercos_master_mdt(&master, out, sizeof out, &written, &start) == SERCOS_CLOSED);
        CHECK(sercos_master_end_cycle(&master) == SERCOS_CLOSED);
        CHECK(sercos_master_events(&master, out, sizeof out, &written) == SERCOS_CLOSED);
        CHECK(sercos_master_command(&master, &phase) == SERCOS_CLOSED);
        CHECK(sercos_master_restart(&master) == SERCOS_CLOSED);
        CHECK(sercos_ring_head(&ring, out, sizeof out, &written) == SERCOS_CLOSED);
        CHECK(sercos_ring_cycle(&ring) == SERCOS_CLOSED);
        CHECK(sercos_ring_lines(&ring, out, sizeof out, &written) == SERCOS_CLOSED);
        CHECK(sercos_ring_end(&ring, out, sizeof out, &written) == SERCOS_CLOSED);
        CHECK(sercos_links_pass(&links, 0, SERCOS_MST, 0, 1, none, 1, 8, out, sizeof out, &arrived, &how) == SERCOS_CLOSED);
        CHECK(sercos_links_restart(&links, 0, 0, &restarts) == SERCOS_CLOSED && restarts && arrived == 12345 && how == 77);
        CHECK(memcmp(out, before, sizeof out) == 0);
        CHECK(!deframer.is_open && !drive.is_open && !master.is_open && !ring.is_open && !links.is_open);
        /* The second round is after an open and two closes. */
        CHECK(sercos_deframer_open(&deframer) == SERCOS_DONE && deframer.is_open);
        CHECK(sercos_drive_open(document, document_len, 0, &drive) == SERCOS_DONE && drive.is_open);
        CHECK(sercos_master_open(document, document_len, &master) == SERCOS_DONE && master.is_open);
        CHECK(sercos_ring_open(document, document_len, &ring) == SERCOS_DONE && ring.is_open);
        CHECK(sercos_links_open(document, document_len, &links) == SERCOS_DONE && links.is_open);
        for (int k = 0; k < 2; k++) {
            sercos_deframer_close(&deframer);
            sercos_drive_close(&drive);
            sercos_master_close(&master);
            sercos_ring_close(&ring);
            sercos_links_close(&links);
        }
    }
}

/* After a status that isn't DONE an open handle holds nothing, and what it held is given back. */
static void test_refused(void) {
    const uint8_t bad[] = "ring = 1";
    sercos_drive drive = {0};
    sercos_master master = {0};
    sercos_ring ring = {0};
    CHECK(sercos_drive_open(document, document_len, 0, &drive) == SERCOS_DONE);
    CHECK(sercos_drive_open(bad, sizeof bad - 1, 0, &drive) == SERCOS_REFUSED && !drive.is_open);
    CHECK(sercos_drive_open(document, document_len, 0, &drive) == SERCOS_DONE);
    CHECK(sercos_drive_open(document, document_len, MOST_DRIVES, &drive) == SERCOS_NO && !drive.is_open);
    CHECK(sercos_master_open(document, document_len, &master) == SERCOS_DONE);
    CHECK(sercos_master_open(bad, sizeof bad - 1, &master) == SERCOS_REFUSED && !master.is_open);
    CHECK(sercos_ring_open(document, document_len, &ring) == SERCOS_DONE);
    CHECK(sercos_ring_open(bad, 0, &ring) == SERCOS_REFUSED && !ring.is_open);
    /* Links take bits up to the last bit of their room, and no kind but the three. */
    uint8_t bits[2462] = {0}, out[2462], how = 77;
    uint32_t arrived = 12345;
    sercos_links links = {0};
    CHECK(sercos_links_open(document, document_len, &links) == SERCOS_DONE);
    CHECK(sercos_links_pass(&links, 0, SERCOS_MDT + 1, 0, 1, bits, 2, 16, out, sizeof out, &arrived, &how) == SERCOS_REFUSED);
    CHECK(arrived == 0 && how == SERCOS_NOTHING);
    CHECK(sercos_links_pass(&links, 0, SERCOS_MST, 0, 1, bits, 2, 17, out, sizeof out, &arrived, &how) == SERCOS_REFUSED);
    CHECK(sercos_links_pass(&links, 0, SERCOS_MST, 0, 1, bits, 2, 16, out, sizeof out - 1, &arrived, &how) == SERCOS_WRITE_FAULT);
    CHECK(sercos_links_pass(&links, 0, SERCOS_MST, 0, 1, bits, sizeof bits, 19696, out, sizeof out, &arrived, &how) == SERCOS_DONE);
    CHECK(arrived == 19696 && how == SERCOS_AS_SENT && memcmp(bits, out, sizeof out) == 0);
    CHECK(sercos_links_open(bad, sizeof bad - 1, &links) == SERCOS_REFUSED && !links.is_open);
}

/* Opens, opens again over what is held, works a little, and closes. */
static void open_and_close(void) {
    sercos_deframer deframer = {0};
    sercos_drive drive = {0};
    sercos_master master = {0};
    const uint8_t flag[1] = {0x7e}, mst[2] = {0xff, 0};
    uint8_t out[SERCOS_MOST_CONTENT];
    size_t written;
    CHECK(sercos_deframer_open(&deframer) == SERCOS_DONE);
    CHECK(sercos_deframer_feed(&deframer, flag, 1, 8) == SERCOS_DONE);
    CHECK(sercos_drive_open(document, document_len, 0, &drive) == SERCOS_DONE);
    CHECK(sercos_drive_hear_mst(&drive, 0, true, mst, 2) == SERCOS_DONE);
    CHECK(sercos_master_open(document, document_len, &master) == SERCOS_DONE);
    CHECK(sercos_master_mst(&master, out, sizeof out, &written) == SERCOS_DONE);
    sercos_links links = {0};
    uint8_t room[2462], how;
    uint32_t arrived;
    bool restarts;
    CHECK(sercos_links_open(document, document_len, &links) == SERCOS_DONE);
    CHECK(sercos_links_pass(&links, 0, SERCOS_MST, 0, 0, flag, 1, 8, room, sizeof room, &arrived, &how) == SERCOS_DONE);
    CHECK(sercos_links_restart(&links, 0, 0, &restarts) == SERCOS_DONE);
    if (draw(2)) {
        CHECK(sercos_links_open(document, document_len, &links) == SERCOS_DONE);
        CHECK(sercos_deframer_open(&deframer) == SERCOS_DONE);
        CHECK(sercos_drive_open(document, document_len, 0, &drive) == SERCOS_DONE);
        CHECK(sercos_master_open(document, document_len, &master) == SERCOS_DONE);
    }
    sercos_deframer_close(&deframer);
    sercos_drive_close(&drive);
    sercos_master_close(&master);
    sercos_links_close(&links);
}

/* The bytes that are taken: from the heap, and as blocks of their own. */
static size_t bytes_taken(void) {
    struct mallinfo2 info = mallinfo2();
    return info.uordblks + info.hblkhd;
}

static void test_memory(long times) {
    open_and_close();
    size_t before = bytes_taken();
    for (long k = 0; k < times; k++)
        open_and_close();
    for (long k = 0; k < times / 100; k++) {
        sercos_ring ring = {0};
        CHECK(sercos_ring_open(document, document_len, &ring) == SERCOS_DONE);
        CHECK(sercos_ring_cycle(&ring) == SERCOS_DONE);
        sercos_ring_close(&ring);
    }
    size_t after = bytes_taken();
    if (after > before + (1 << 18))
        fprintf(stderr, "%zu bytes in use before, %zu after\n", before, after);
    /* Up to 256 KiB of what was freed is kept at hand by malloc, and counts. One byte lost each time would be far more. Sanitizers count
     * otherwise, and find leaks themselves. */
    CHECK(after <= before + (1 << 18));
}

/* A sum of all lines of the ring. */
static void *sum_of_run(void *result) {
    static const size_t room = 1 << 20;
    uint8_t *out = malloc(room);
    uint64_t sum = 0;
    size_t written;
    sercos_ring ring = {0};
    CHECK(out);
    CHECK(sercos_ring_open(document, document_len, &ring) == SERCOS_DONE);
    while (sercos_ring_cycle(&ring) == SERCOS_DONE) {
        CHECK(sercos_ring_lines(&ring, out, room, &written) == SERCOS_DONE);
        for (size_t k = 0; k < written; k++)
            sum = 1099511628211u * (sum ^ out[k]);
    }
    sercos_ring_close(&ring);
    free(out);
    *(uint64_t *)result = sum;
    return NULL;
}

static void test_threads(void) {
    uint64_t wanted, sums[2];
    pthread_t threads[2];
    sum_of_run(&wanted);
    for (int k = 0; k < 2; k++)
        CHECK(pthread_create(&threads[k], NULL, sum_of_run, &sums[k]) == 0);
    for (int k = 0; k < 2; k++)
        CHECK(pthread_join(threads[k], NULL) == 0 && sums[k] == wanted);
}

int main(int count, char **words) {
    CHECK(count == 3);
    document = read_file(words[1], &document_len);
    test_closed();
    test_refused();
    test_memory(atol(words[2]));
    test_threads();
    free(document);
    printf("done\n");
    return 0;
}
