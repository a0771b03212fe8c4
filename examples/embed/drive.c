/* A drive in this program's own process: opens drive 1 of a ring document, sends it the telegrams of a master from phase 0 to
 * phase 2, and reads its T1min (S-0-0003) over the service channel.
 *
 * At the top of the repository, after tools/library, or in the folder of a release, which has the library in lib/:
 *
 *   mkdir -p build && cc -Iinclude -o build/drive_c examples/embed/drive.c -Lbuild -Llib -l:libsercos.a
 *   build/drive_c examples/one_read.toml
 */
#include "sercos.h"

#include <stdio.h>
#include <stdlib.h>

static uint8_t document[1 << 20];

/* Ends the program where a call has another status than 0. Any status above 1 is a mistake of this program or its input. */
static void must(uint8_t status, const char *what) {
    if (status != SERCOS_DONE) {
        fprintf(stderr, "%s: status %u\n", what, status);
        exit(1);
    }
}

/* The phase that the master commands, and the step of the service channel that it sends, as in docs/PROTOCOL.md. */
struct cycle {
    uint8_t phase;
    bool has_mdt;
    sercos_record record;
};

static const struct cycle cycles[] = {
    {0, false, {0}},
    {1, true, {0}},
    {2, true, {.mhs = true, .write = true, .last = true, .element = 1, .info = 0x0003}}, /* open S-0-0003 */
    {2, true, {.mhs = false, .last = true, .element = 7}},                               /* read its operation data */
    {2, true, {.mhs = false}},
};

static void play(sercos_drive *drive, uint32_t number, const struct cycle *cycle) {
    uint8_t content[SERCOS_MOST_CONTENT], phase;
    size_t len;
    uint16_t start;
    sercos_mst mst = {cycle->phase};
    must(sercos_mst_write(&mst, content, sizeof content, &len), "the MST");
    must(sercos_drive_hear_mst(drive, number, true, content, len), "hear_mst");
    must(sercos_drive_phase(drive, &phase), "the phase");
    printf("cycle %u phase %u", number, phase);
    if (sercos_drive_at(drive, content, sizeof content, &len, &start) == SERCOS_DONE) {
        sercos_at at;
        sercos_layout why;
        must(sercos_at_read(1, 4, content, len, &at, &why), "the AT");
        printf(" AT at %u ahs %d info %u", start, at.ahs, at.info);
    }
    printf("\n");
    len = 0;
    if (cycle->has_mdt)
        must(sercos_single_write(1, &cycle->record, content, sizeof content, &len), "the MDT");
    must(sercos_drive_hear_mdt(drive, cycle->has_mdt, content, len), "hear_mdt");
}

int main(int count, char **words) {
    FILE *file = count == 2 ? fopen(words[1], "rb") : NULL;
    if (!file) {
        fprintf(stderr, "usage: drive_c RING.toml\n");
        return 2;
    }
    size_t len = fread(document, 1, sizeof document, file);
    fclose(file);
    sercos_drive drive = {0};
    must(sercos_drive_open(document, len, 0, &drive), "the document");
    for (uint32_t number = 0; number < sizeof cycles / sizeof cycles[0]; number++)
        play(&drive, number, &cycles[number]);
    sercos_drive_close(&drive);
    return 0;
}
