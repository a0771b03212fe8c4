/* mutated FRAMES CALLS FILE..: a number of calls of the frame functions on changed frames, and a number of calls of `sercos_call`
 * on changed parts of the files. Each call must return a status that it may have, write only where it may, and write the same again. */
#include "test.h"

static const char *const commands[] = {"show", "plan", "margin", "check", "replay\n0", "replay\n1", "backup", "restore", "run", "gen\n1"};
static uint64_t frames_found, done, refused;

static uint8_t *exactly(size_t len) {
    uint8_t *room = malloc(len ? len : 1);
    CHECK(room);
    memset(room, 0xa5, len ? len : 1);
    return room;
}

/* Complements bits, overwrites a byte, or cuts the bits or makes them longer. */
static size_t change(uint8_t *bits, size_t room, size_t count) {
    switch (draw(4)) {
    case 0:
        return draw((uint32_t)(8 * room) + 1);
    case 1:
        bits[draw((uint32_t)room)] = (uint8_t)draw(256);
        return count;
    default:
        for (uint32_t k = draw(4); k > 0; k--)
            bits[draw((uint32_t)count / 8 + 1)] ^= (uint8_t)(1 << draw(8));
        return count;
    }
}

/* What unframe says is a frame is the one frame of its content, and a deframer says the same of the bits in two pieces. */
static void test_frame(sercos_deframer *deframer) {
    uint8_t content[40], bits[80] = {0}, out[SERCOS_MOST_CONTENT], again[80] = {0}, twice[SERCOS_MOST_CONTENT];
    size_t len = 1 + draw(sizeof content), written, other_written;
    uint32_t count32;
    for (size_t k = 0; k < len; k++)
        content[k] = draw(3) ? 0xff : (uint8_t)draw(256);
    CHECK(sercos_frame(content, len, bits, sizeof bits, &count32) == SERCOS_DONE);
    size_t count = draw(8) ? change(bits, sizeof bits, count32) : count32;
    sercos_bad_frame why = {0}, other_why = {0};
    uint8_t status = sercos_unframe(bits, sizeof bits, count, out, sizeof out, &written, &why);
    CHECK(status == SERCOS_DONE || (status == SERCOS_NO && why.kind >= SERCOS_NO_OPEN && why.kind <= SERCOS_AFTER));
    if (status == SERCOS_DONE) {
        frames_found++;
        CHECK(why.kind == 0 && sercos_frame(out, written, again, sizeof again, &count32) == SERCOS_DONE && count32 == count);
        for (size_t k = 0; k < count; k++)
            CHECK((bits[k / 8] >> k % 8 & 1) == (again[k / 8] >> k % 8 & 1));
        CHECK(sercos_unframe(bits, sizeof bits, count, out, written - 1, &other_written, &why) == SERCOS_WRITE_FAULT);
    }
    size_t cut = count < 8 ? 0 : 8 * draw((uint32_t)count / 8);
    CHECK(sercos_deframer_feed(deframer, bits, cut / 8, cut) == SERCOS_DONE);
    CHECK(sercos_deframer_feed(deframer, bits + cut / 8, sizeof bits - cut / 8, count - cut) == SERCOS_DONE);
    CHECK(sercos_deframer_finish(deframer, twice, sizeof twice, &other_written, &other_why) == status);
    if (status == SERCOS_DONE)
        CHECK(other_written == written && memcmp(out, twice, written) == 0);
    else
        CHECK(other_why.kind == why.kind && other_why.found == why.found && other_why.wanted == why.wanted);
}

/* Telegrams of any bytes: read, written again, the same. */
static void test_telegrams(void) {
    uint8_t content[16], out[16];
    size_t len = draw(sizeof content + 1), written;
    for (size_t k = 0; k < sizeof content; k++)
        content[k] = draw(4) ? (uint8_t)draw(6) : (uint8_t)draw(256);
    sercos_layout why;
    sercos_mst mst;
    sercos_at at;
    sercos_record record;
    uint8_t address = (uint8_t)draw(4);
    if (sercos_mst_read(content, len, &mst, &why) == SERCOS_DONE) {
        CHECK(sercos_mst_write(&mst, out, sizeof out, &written) == SERCOS_DONE);
        CHECK(written == len && memcmp(out, content, len) == 0);
    }
    if (address > 0 && sercos_at_read(address, (uint16_t)(4 + draw(4)), content, len, &at, &why) == SERCOS_DONE) {
        CHECK(sercos_at_write(&at, content + 5, len - 5, out, sizeof out, &written) == SERCOS_DONE);
        CHECK(written == len && memcmp(out, content, len) == 0);
    }
    if (address > 0 && sercos_single_read(address, content, len, &record, &why) == SERCOS_DONE) {
        CHECK(sercos_single_write(address, &record, out, sizeof out, &written) == SERCOS_DONE);
        CHECK(written == len && memcmp(out, content, len) == 0);
    }
    uint16_t position = (uint16_t)draw(16), record_len = (uint16_t)draw(16), mdt_len = (uint16_t)draw(16);
    sercos_joint_read(mdt_len, position, record_len, content, len, &record, &why);
}

/* A part of a text with some bytes changed, in a block of its own. */
static uint8_t *changed(const uint8_t *text, size_t text_len, size_t *len) {
    size_t from = draw(4) ? 0 : draw((uint32_t)text_len + 1);
    *len = draw(4) ? text_len - from : draw((uint32_t)(text_len - from) + 1);
    uint8_t *part = exactly(*len);
    memcpy(part, text + from, *len);
    for (uint32_t k = draw(5); k > 0 && *len > 0; k--)
        part[draw((uint32_t)*len)] = draw(2) ? (uint8_t)draw(256) : text[draw((uint32_t)text_len)];
    return part;
}

static void test_call(const uint8_t *text, size_t text_len) {
    const char *words = commands[draw(sizeof commands / sizeof *commands)];
    static uint8_t whole[1 << 26];
    size_t len, wanted = 0, written = 0;
    uint8_t *input = changed(text, text_len, &len);
    uint8_t status = sercos_call((const uint8_t *)words, strlen(words), input, len, whole, sizeof whole, &wanted);
    CHECK(status <= SERCOS_REFUSED && status != SERCOS_BAD_WORDS && wanted < sizeof whole);
    done += status == SERCOS_DONE;
    refused += status == SERCOS_REFUSED;
    uint8_t *output = exactly(wanted);
    CHECK(sercos_call((const uint8_t *)words, strlen(words), input, len, output, wanted, &written) == status);
    CHECK(written == wanted && memcmp(output, whole, wanted) == 0);
    if (wanted > 0) {
        size_t room = draw((uint32_t)wanted);
        uint8_t *less = exactly(room);
        uint8_t other = sercos_call((const uint8_t *)words, strlen(words), input, len, less, room, &written);
        CHECK(other == SERCOS_WRITE_FAULT || (other == SERCOS_REFUSED && status == SERCOS_REFUSED));
        CHECK(written == room && memcmp(less, output, written) == 0);
        free(less);
    }
    free(output);
    free(input);
}

int main(int count, char **words) {
    CHECK(count > 3);
    sercos_deframer deframer = {0};
    CHECK(sercos_deframer_open(&deframer) == SERCOS_DONE);
    for (long k = atol(words[1]); k > 0; k--) {
        test_frame(&deframer);
        test_telegrams();
    }
    sercos_deframer_close(&deframer);
    for (int file = 3; file < count; file++) {
        size_t len;
        uint8_t *text = read_file(words[file], &len);
        for (long k = atol(words[2]) / (count - 3); k > 0; k--)
            test_call(text, len);
        free(text);
    }
    printf("%llu frames, %llu done, %llu refused\n", (unsigned long long)frames_found, (unsigned long long)done,
           (unsigned long long)refused);
    return 0;
}
