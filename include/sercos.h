/* Lokbrez: the verified ends of a SERCOS ring (IEC 61491:1995), in a program's own process.
 *
 * Each function is proved: called as below, it returns, reads and writes only what it is handed, and its result is what the
 * contracts of the same part say (docs/PROVED.md). Nothing checks the caller. The caller owes:
 *
 * - Pointers: none is NULL, not even with length 0, and each has the length that comes after it.
 * - No overlap: what a call writes to (`out`, `written`, a handle, a struct) overlaps nothing else that is handed to it.
 * - Handles: all bytes 0 before the first call; never copied; changed by the library's calls alone.
 * - Threads: one call at a time on a handle, and none from a signal handler. Calls on different handles, and those without one,
 *   may run in several threads at once: the library has no state of its own.
 * - Stack: free for the call are 128 KiB for frames, telegrams, identifier numbers, `sercos_plan`, deframers and drives; 1 MiB for
 *   masters; 2 MiB for rings and `sercos_call`; 2.5 MiB where a document may be nested a thousand tables deep. (Measured: at most
 *   48, 512 and 768 KiB; nested so deep, 1.5 MiB on x86-64 and 2.4 MiB on aarch64.)
 *
 * Memory is the program's malloc, realloc and free, and only the functions whose comments say so take any. A text or content is
 * written to the front of `out`. If it has no room there, the status is SERCOS_WRITE_FAULT, nothing is lost, and the call can be
 * made again with more room. What lies in `out` after what was written is unspecified.
 */
#ifndef SERCOS_H
#define SERCOS_H

#include <stdbool.h>
#include <stddef.h>
#include <stdint.h>

#ifdef __cplusplus
extern "C" {
#endif

/* The statuses that the calls return. */
enum sercos_status {
    SERCOS_DONE = 0,
    SERCOS_NO = 1,          /* the answer is no: no plan, no frame, no telegram, no such drive, .. */
    SERCOS_BAD_WORDS = 2,   /* the words are not a command */
    SERCOS_REFUSED = 3,     /* the input is refused */
    SERCOS_WRITE_FAULT = 5, /* the output has too little room */
    SERCOS_MEMORY = 6,      /* no memory was found */
    SERCOS_TOO_LONG = 7,    /* the input is too long */
    SERCOS_CLOSED = 8       /* the handle holds nothing of this kind: nothing was done */
};

/* ---- Commands ---- */

/* Runs a command over an input: `words` are its words, one a line ("plan", "gen\n3", "replay\n0"). The status is that of the
 * program, never 4. `*written` is the number of bytes written to `output`. It is 0 after SERCOS_BAD_WORDS, SERCOS_MEMORY and
 * SERCOS_TOO_LONG. After SERCOS_WRITE_FAULT, and after SERCOS_REFUSED with too little room, it is `output_len`, and `output` has as
 * much of the text as fits. `sercos_call` takes memory, and gives all of it back. The trace of a long `run` can be had cycle by
 * cycle: `sercos_ring` below. */
uint8_t sercos_call(const uint8_t *words, size_t words_len, const uint8_t *input, size_t input_len,
                    uint8_t *output, size_t output_len, size_t *written);

/* ---- Frames (ISO/IEC 3309) ----
 *
 * Bits are packed into bytes: bit n is bit n % 8 of byte n / 8, the first bit of a byte being its lowest. A content has 1 to
 * 2,048 bytes, its frame at most 19,696 bits, 2,462 bytes. */
#define SERCOS_MOST_CONTENT 2048
#define SERCOS_MOST_FRAME 2462

/* The frame check sequence of a content of any length. */
uint16_t sercos_fcs(const uint8_t *content, size_t len);

/* Writes the frame of a content, from the first bit of its opening flag to the last bit of its closing flag, and zeros up to a
 * whole byte. `*bits` is the number of its bits. SERCOS_REFUSED: the content has not 1 to 2,048 bytes. */
uint8_t sercos_frame(const uint8_t *content, size_t len, uint8_t *out, size_t out_len, uint32_t *bits);

/* Why bits are not a frame: the first of these that holds, in the order NO_OPEN, NO_CLOSE, ABORT, RAGGED, SHORT, LONG, CHECK,
 * AFTER. */
enum sercos_bad_frame_kind {
    SERCOS_NO_OPEN = 1,  /* they don't begin with a flag */
    SERCOS_NO_CLOSE = 2, /* there is no closing flag; `found`: the number of bits */
    SERCOS_ABORT = 3,    /* `found`: the place of six ones where no flag may be */
    SERCOS_RAGGED = 4,   /* `found`: the number of bits between the flags, not a multiple of eight */
    SERCOS_SHORT = 5,    /* `found`: the number of bytes between the flags, fewer than three */
    SERCOS_LONG = 6,     /* `found`: the number of bytes between the flags, more than 2,050 */
    SERCOS_CHECK = 7,    /* `found` and `wanted`: check sequences */
    SERCOS_AFTER = 8     /* `found`: the place of the first bit after the closing flag */
};
typedef struct sercos_bad_frame {
    uint8_t kind; /* 0: the bits are a frame */
    uint32_t found;
    uint32_t wanted;
} sercos_bad_frame;

/* Writes the content of the frame that the first `count` bits are. SERCOS_NO: they are not a frame, and `*why` says why.
 * SERCOS_REFUSED: there are fewer than `count` bits. SERCOS_TOO_LONG: more than 2^31 bits. */
uint8_t sercos_unframe(const uint8_t *bits, size_t len, size_t count, uint8_t *out, size_t out_len, size_t *written,
                       sercos_bad_frame *why);

/* ---- Telegrams ---- */

/* Why a content is not the telegram: 1, its length, 2, its address, 3, a byte that has no meaning, at the place `found`. */
typedef struct sercos_layout {
    uint8_t kind; /* 0: it is */
    size_t found;
    size_t wanted;
} sercos_layout;

/* An MST: the phase that the master commands, 0 to 4. */
typedef struct sercos_mst {
    uint8_t phase;
} sercos_mst;

/* The record of an MDT: its control word and its information word. The command values follow them in the content. */
typedef struct sercos_record {
    bool mhs;
    bool write;
    bool last;
    uint8_t element; /* 0 to 7 */
    uint16_t cyclic; /* bits 15 to 6 of the control word, at their places */
    uint16_t info;
} sercos_record;

/* An AT: its address, its status word and its information word. The feedback values follow them in the content. */
typedef struct sercos_at {
    uint8_t address;
    bool ahs;
    bool busy;
    bool error;
    bool change;
    uint16_t cyclic; /* bits 3, 4 and 15 to 6 of the status word, at their places */
    uint16_t info;
} sercos_at;

/* SERCOS_NO: the content is not such a telegram, and `*why` says why. */
uint8_t sercos_mst_read(const uint8_t *content, size_t len, sercos_mst *mst, sercos_layout *why);
/* The AT of an address with `at_len` bytes after the address, at least 4 (else SERCOS_REFUSED). Its values are at 5 and after. */
uint8_t sercos_at_read(uint8_t address, uint16_t at_len, const uint8_t *content, size_t len, sercos_at *at, sercos_layout *why);
/* The MDT of phases 1 and 2 to an address. */
uint8_t sercos_single_read(uint8_t address, const uint8_t *content, size_t len, sercos_record *record, sercos_layout *why);
/* The record of `record_len` bytes at a position of the MDT of phases 3 and 4, which has `mdt_len` bytes after its address. The
 * first position is 1; its values are at position + 4 and after. SERCOS_REFUSED: there is no such record (position 0, fewer than
 * 4 bytes, or beyond the end). */
uint8_t sercos_joint_read(uint16_t mdt_len, uint16_t position, uint16_t record_len, const uint8_t *content, size_t len,
                          sercos_record *record, sercos_layout *why);

/* Writes a telegram. SERCOS_REFUSED: a field is out of its range, or an AT has more than 64 bytes of values. */
uint8_t sercos_mst_write(const sercos_mst *mst, uint8_t *out, size_t out_len, size_t *written);
uint8_t sercos_at_write(const sercos_at *at, const uint8_t *values, size_t values_len, uint8_t *out, size_t out_len,
                        size_t *written);
uint8_t sercos_single_write(uint8_t address, const sercos_record *record, uint8_t *out, size_t out_len, size_t *written);
/* The bytes of one record of the MDT of phases 3 and 4: 4 and its values, at most 2,047. The MDT is 255, and then its records. */
uint8_t sercos_record_write(const sercos_record *record, const uint8_t *values, size_t values_len, uint8_t *out, size_t out_len,
                            size_t *written);

/* ---- Identifier numbers ---- */

/* The number that a text spells, as "S-0-0127". SERCOS_NO: it spells none; `*place` is the first byte that doesn't fit. */
uint8_t sercos_idn_parse(const uint8_t *text, size_t len, uint16_t *idn, size_t *place);
/* The eight bytes of the text of a number, without a zero after them. */
uint8_t sercos_idn_text(uint16_t idn, uint8_t *out, size_t out_len);

/* ---- Time slots ---- */

/* A ring: its rate in Mbit/s (2, 4, 8, 16), and its cycle time, the control unit's, and the gap, in microseconds. */
typedef struct sercos_ring_times {
    uint8_t rate;
    uint16_t cycle;
    uint16_t control;
    uint16_t gap;
} sercos_ring_times;

/* What a drive declares: its address, the slave that it belongs to, its times in microseconds, and the bytes of its AT after the
 * address and of its record. */
typedef struct sercos_wish {
    uint8_t address;
    uint8_t slave;
    uint16_t t1min;
    uint16_t tatmt;
    uint16_t t4min;
    uint16_t tatat;
    uint16_t tmtsy;
    uint16_t tmtsg;
    uint16_t at_len;
    uint16_t record_len;
} sercos_wish;

/* A plan: times in microseconds after the MST's end, and the bytes of the MDT after its address. */
typedef struct sercos_plan_times {
    uint16_t t2;
    uint16_t t3;
    uint16_t t4;
    uint16_t mdt_len;
} sercos_plan_times;

/* The slot of a drive: when its AT starts (T1), and the position of its record in the MDT. */
typedef struct sercos_slot {
    uint16_t t1;
    uint16_t position;
} sercos_slot;

/* A step of a chain: the number of an inequality, the address of its drive, and the bit time that it requires. */
typedef struct sercos_link {
    uint8_t rule;
    uint8_t drive;
    uint32_t at;
} sercos_link;

/* The inequality that the chain ends at: its number, the address of its drive, what it requires and what there is room for, in bit
 * times. `links` is the number of links before it. */
typedef struct sercos_chain {
    uint8_t rule;
    uint8_t drive;
    uint32_t sum;
    uint32_t bound;
    size_t links;
} sercos_chain;

/* The least plan of a ring with 1 to 64 drives in the order of the ring; `order` has the places of the drives, from 0 on, in the order
 * of their ATs. The slots are in the order of the ring. SERCOS_NO: no plan fits, and the chain proves it. SERCOS_REFUSED: the ring, a
 * drive or the order is not valid. SERCOS_WRITE_FAULT: `slots` has fewer than `drives_len` items, or `links` fewer than 66. */
uint8_t sercos_plan(const sercos_ring_times *ring, const sercos_wish *drives, size_t drives_len, const uint8_t *order,
                    size_t order_len, sercos_plan_times *plan, sercos_slot *slots, size_t slots_len, sercos_chain *chain,
                    sercos_link *links, size_t links_len);

/* ---- Handles ----
 *
 * A handle is all zeros while it holds nothing. `open` takes memory, gives back what was held before, and after any status but
 * SERCOS_DONE nothing is held; `close` gives it back, and may be called at any time, also twice. No other call takes memory. Each
 * call returns SERCOS_CLOSED, and does nothing, if the handle isn't open. */

/* Bits of a frame that arrive in pieces. */
typedef struct sercos_deframer {
    bool is_open;
    void *at;
} sercos_deframer;

uint8_t sercos_deframer_open(sercos_deframer *deframer);
/* Takes the first `count` bits. A frame may be cut anywhere. SERCOS_REFUSED: there are fewer than `count` bits. SERCOS_TOO_LONG:
 * more than 2^31 bits since it began; after both none are taken. */
uint8_t sercos_deframer_feed(sercos_deframer *deframer, const uint8_t *bits, size_t len, size_t count);
/* As `sercos_unframe` of all bits so far; then it begins anew, except after SERCOS_WRITE_FAULT: `out` has fewer than 2,048 bytes. */
uint8_t sercos_deframer_finish(sercos_deframer *deframer, uint8_t *out, size_t out_len, size_t *written, sercos_bad_frame *why);
void sercos_deframer_close(sercos_deframer *deframer);

/* A drive. In each cycle: hear_mst, then at, then hear_mdt; restart between two cycles. */
typedef struct sercos_drive {
    bool is_open;
    void *at;
} sercos_drive;

/* Opens the drive at a place of a ring document, the first at 0, in phase 0. SERCOS_NO: there is no such drive; SERCOS_REFUSED: the
 * document is refused (`sercos_call` with "plan" says why). */
uint8_t sercos_drive_open(const uint8_t *document, size_t len, size_t place, sercos_drive *drive);
/* Takes what arrived at the MST's place of a cycle: the content of a frame, if one arrived. The cycle isn't below an earlier one. */
uint8_t sercos_drive_hear_mst(sercos_drive *drive, uint32_t cycle, bool arrived, const uint8_t *content, size_t len);
/* The content of this cycle's AT, and its start in microseconds after the MST's end. SERCOS_NO: the drive sends none: without this cycle's
 * MST, in phase 0, and in phases 1 and 2 if it accepted no MDT in the cycle before. Then `*start` stays as it
 * was; after SERCOS_WRITE_FAULT it is written anyway. */
uint8_t sercos_drive_at(sercos_drive *drive, uint8_t *out, size_t out_len, size_t *written, uint16_t *start);
/* Takes what arrived at the MDT's place. */
uint8_t sercos_drive_hear_mdt(sercos_drive *drive, bool arrived, const uint8_t *content, size_t len);
uint8_t sercos_drive_restart(sercos_drive *drive);
/* The phase of the drive, 0 to 4. */
uint8_t sercos_drive_phase(sercos_drive *drive, uint8_t *phase);
/* The bytes of an element of a data block, 2 to 7 (name, attribute, unit, minimum, maximum, operation data), at most 1,024. A
 * number has its low byte first. The operation data of a block with a step are those of cycle 0. SERCOS_NO: the drive has no such block, or
 * the block no such element, and `*code` is the error that a service transfer gets (0x1001, 0x2001, 0x4001, 0x5001, 0x6001).
 * SERCOS_REFUSED: `element` isn't 2 to 7. Unless the status is SERCOS_NO or SERCOS_CLOSED, `*code` is 0. */
uint8_t sercos_drive_element(sercos_drive *drive, uint16_t idn, uint8_t element, uint8_t *out, size_t out_len, size_t *written,
                             uint16_t *code);
void sercos_drive_close(sercos_drive *drive);

/* A master. In each cycle: mst, hear_mst, hear_at for each AT, mdt, end_cycle; restart between two cycles, before mst. */
typedef struct sercos_master {
    bool is_open;
    void *at;
} sercos_master;

/* Opens the master of a ring document with its requests, in phase 0. SERCOS_REFUSED: the document is refused. */
uint8_t sercos_master_open(const uint8_t *document, size_t len, sercos_master *master);
/* The content of this cycle's MST. */
uint8_t sercos_master_mst(sercos_master *master, uint8_t *out, size_t out_len, size_t *written);
/* Takes its own MST as it came back round the ring, or that none did. */
uint8_t sercos_master_hear_mst(sercos_master *master, bool arrived, const uint8_t *content, size_t len);
/* Takes the content of a frame at a place of ATs. */
uint8_t sercos_master_hear_at(sercos_master *master, const uint8_t *content, size_t len);
/* The content of this cycle's MDT, and its start in microseconds after the MST's end. SERCOS_NO: none is sent: in phase 0, in 1 if each
 * drive is identified, in 2 if no step is open, and in 3 and 4 without a plan. SERCOS_WRITE_FAULT: `out` has fewer than 2,048 bytes, and
 * nothing was done. */
uint8_t sercos_master_mdt(sercos_master *master, uint8_t *out, size_t out_len, size_t *written, uint16_t *start);
/* Ends the cycle: the master falls, stays, or rises. */
uint8_t sercos_master_end_cycle(sercos_master *master);
/* What the master reported in the cycle that ended last, or in a restart since: the lines of the trace that these events have (plan,
 * slots, chain, stop, fall, complete, refused, broken), or none. */
uint8_t sercos_master_events(sercos_master *master, uint8_t *out, size_t out_len, size_t *written);
/* The phase that is commanded, 0 to 4. */
uint8_t sercos_master_command(sercos_master *master, uint8_t *phase);
uint8_t sercos_master_restart(sercos_master *master);
void sercos_master_close(sercos_master *master);

/* A ring under its document's script: the trace of `run`, cycle by cycle. The trace is the text of `head`, the text of `lines` after
 * each `cycle` that returned SERCOS_DONE, and the text of `end`. */
typedef struct sercos_ring {
    bool is_open;
    void *at;
} sercos_ring;

/* Opens the ring of a document. SERCOS_REFUSED: the document is refused. */
uint8_t sercos_ring_open(const uint8_t *document, size_t len, sercos_ring *ring);
/* The first lines of the trace: version, ring, drives, order. */
uint8_t sercos_ring_head(sercos_ring *ring, uint8_t *out, size_t out_len, size_t *written);
/* Makes the next cycle. SERCOS_NO: all cycles of the document have been made. */
uint8_t sercos_ring_cycle(sercos_ring *ring);
/* The lines of the cycle made last; none before the first. */
uint8_t sercos_ring_lines(sercos_ring *ring, uint8_t *out, size_t out_len, size_t *written);
/* The last line: the totals of the cycles made so far. */
uint8_t sercos_ring_end(sercos_ring *ring, uint8_t *out, size_t out_len, size_t *written);
void sercos_ring_close(sercos_ring *ring);

/* The links of a document's ring under its script: what arrives of a telegram at a station, and which stations restart. Station 0 is
 * the master, station k + 1 the drive at place k. A trace has what was sent; with the links it is known what each station received. */
typedef struct sercos_links {
    bool is_open;
    void *at;
} sercos_links;

/* The kinds of telegrams. */
enum sercos_kind {
    SERCOS_MST = 0,
    SERCOS_AT = 1,
    SERCOS_MDT = 2
};

/* How the bits of a telegram arrive. */
enum sercos_arrival {
    SERCOS_AS_SENT = 0,
    SERCOS_OTHER_FRAME = 1, /* damaged, and a frame all the same: the check sequence doesn't tell */
    SERCOS_DAMAGED = 2,     /* damaged, and no frame: it is discarded */
    SERCOS_NOTHING = 3      /* none arrive */
};

/* Opens the links of the ring of a document. SERCOS_REFUSED: the document is refused. */
uint8_t sercos_links_open(const uint8_t *document, size_t len, sercos_links *links);
/* Passes the first `count` bits of a telegram of `kind` from one station to another in a cycle. The bits that arrive are written to `out`
 * with zeros up to a whole byte, their number to `*arrived`, and to `*how` one of `sercos_arrival`. The master receives its own MST: from
 * 0 to 0. SERCOS_REFUSED: no such kind, or fewer than `count` bits; SERCOS_TOO_LONG: more than 19,696 bits; SERCOS_WRITE_FAULT: `out`
 * has fewer than 2,462 bytes. After these three `*arrived` is 0, and `*how` SERCOS_NOTHING. */
uint8_t sercos_links_pass(sercos_links *links, uint32_t cycle, uint8_t kind, uint8_t from, uint8_t to, const uint8_t *bits, size_t len,
                          size_t count, uint8_t *out, size_t out_len, uint32_t *arrived, uint8_t *how);
/* Whether a station restarts in a cycle, before its MST. */
uint8_t sercos_links_restart(sercos_links *links, uint32_t cycle, uint8_t station, bool *restarts);
void sercos_links_close(sercos_links *links);

#ifdef __cplusplus
}
#endif
#endif
