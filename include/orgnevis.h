/* orgnevis.h: frames the byte stream of a u-blox receiver: UBX, RTCM and NMEA; and writes UBX frames
 * to be sent to one (at the end of this page).
 *
 * You lend all memory and keep all of it. The library has no heap, no globals, no clock and no
 * threads of its own; a call reads and writes what it is lent, and never past the lengths given.
 *
 *   state   24 words, one array per stream. Yours to copy, save and restore between calls.
 *   carry   0 to 16,384 bytes that live as long as the state: what is unfinished waits here.
 *   chunk   0 to 16,384 new bytes, as they came off the line. Only ever read.
 *
 * One stream, one life:
 *
 *   start   once.                                   An idle state over the carry.
 *   open    a chunk has come.                       The state is open on it.
 *   step    again and again, until need more.       Each step says one thing.
 *   close   the chunk is done with.                 Its rest moves to the carry; the state is idle.
 *
 * From open to close, lend the same chunk, unchanged, to every call. The carry's bytes are the
 * framer's from start on: read them, but don't write them. With C of at least MAX + 7 (and at least
 * 1,026 with RTCM, 1,029 with parity) modes one and two lose nothing, however the line cuts the
 * stream.
 *
 * No input does harm. A state of any 24 words, lengths that don't fit it, calls in a wrong order:
 * such a call is refused by number, and then no word of the state and no lent byte has changed.
 * Where a length is 0 the pointer beside it is not read. No two of the arrays may overlap.
 */
#ifndef ORGNEVIS_H
#define ORGNEVIS_H

#include <stddef.h>
#include <stdint.h>

#ifdef __cplusplus
extern "C" {
#endif

/* The modes: which frames are looked for. MAX, 0 to 65,535, is the longest UBX payload handed out;
 * a longer one is passed over in silence. */
enum { ORGNEVIS_UBX = 1, ORGNEVIS_UBX_RTCM = 2, ORGNEVIS_UBX_RTCM_NMEA = 3 };

/* Added to a mode, it has RTCM frames read with their three parity bytes, and checked by them: one
 * that is whole is handed out only if its parity (CRC-24Q) is right, so that a stray D3 takes no
 * frame with it but by a chance of 24 bits. Without it a frame ends before its parity, which is
 * passed over as noise. ORGNEVIS_UBX, which reads no RTCM frames, is the same with it. */
enum { ORGNEVIS_PARITY = 16 };

/* The words of a state. Words 9 to 23 are kept for later and left as they are. */
enum {
    ORGNEVIS_MODE = 0,         /* one of the modes, with ORGNEVIS_PARITY or without */
    ORGNEVIS_MAX = 1,          /* the payload limit */
    ORGNEVIS_C = 2,            /* the carry's length */
    ORGNEVIS_LIVE = 3,         /* so many first bytes of the carry hold data */
    ORGNEVIS_OFF = 4,          /* and so many first ones of these are used up */
    ORGNEVIS_USED = 5,         /* bytes used up since open */
    ORGNEVIS_OPEN = 6,         /* 1 open, 0 idle */
    ORGNEVIS_CHUNK_LENGTH = 7, /* the length of the chunk it was opened on */
    ORGNEVIS_PART_USED = 8,    /* so many first bytes of the chunk are used up or copied */
    ORGNEVIS_STATE_WORDS = 24
};

/* What a step says: word 0 of its `out`. The other words, 0 where nothing is named:
 *
 *   out[0]                 [1]       [2]      [3]   [4]   [5]    [6]
 *   ORGNEVIS_UBX_FRAME     position  class    id    side  start  length   payload, 2 check bytes
 *   ORGNEVIS_RTCM_FRAME    position                 side  start  length   from D3 on, see PARITY
 *   ORGNEVIS_SENTENCE      position                 side  start  length   from $ to CR LF
 *   ORGNEVIS_WRONG_SUM     position  expect   got   class id     n        the received, the true sum
 *   ORGNEVIS_NO_ROOM       position  size                                 the carry is too small
 *   ORGNEVIS_NEED_MORE                                                    close, and read on
 *   ORGNEVIS_REFUSAL                 number                               nothing has changed
 *   ORGNEVIS_WRONG_PARITY  position  expect   got                         received, and true parity
 *
 * The position is that of the sync byte, counted from open; add the `used` of all earlier closes and
 * it is a position in the stream.
 *
 * Side, start and length are a place: the body lies whole in the carry or in the chunk, at
 * (side == ORGNEVIS_CARRY ? carry : chunk) + start. It is not a copy, and a place is good until the
 * next step or close. Copy the bytes if you need them longer.
 *
 * A wrong sum names the head that stands at its position: class, id, and n, the payload's length. */
enum {
    ORGNEVIS_UBX_FRAME = 1,
    ORGNEVIS_RTCM_FRAME = 2,
    ORGNEVIS_SENTENCE = 3,
    ORGNEVIS_WRONG_SUM = 4,
    ORGNEVIS_NO_ROOM = 5,
    ORGNEVIS_NEED_MORE = 6,
    ORGNEVIS_REFUSAL = 7,
    ORGNEVIS_WRONG_PARITY = 8
};

enum { ORGNEVIS_CARRY = 0, ORGNEVIS_CHUNK = 1 };

/* The refusals, tested in this order: 2, then 3 or 4, then 5 or 6. Start knows 1 and 8, view 7. */
enum {
    ORGNEVIS_CARRY_TOO_BIG = 1,  /* start: a carry of over 16,384 bytes */
    ORGNEVIS_BAD_STATE = 2,      /* words that no state has, or a carry of another length */
    ORGNEVIS_ALREADY_OPEN = 3,   /* open: the state is open */
    ORGNEVIS_NOT_OPEN = 4,       /* step, close: the state is idle */
    ORGNEVIS_CHUNK_TOO_LONG = 5, /* open: a chunk of over 16,384 bytes */
    ORGNEVIS_OTHER_CHUNK = 6,    /* step, close: not the length of the chunk it was opened on */
    ORGNEVIS_BAD_PLACE = 7,      /* view: start + length passes the end of its side */
    ORGNEVIS_NO_SUCH_MODE = 8    /* start: a mode that is not 1, 2, 3, 17, 18 or 19 */
};

/* An idle state with C the carry's length, nothing live. Answers 0 or a refusal: after 1 the state is
 * idle with C = 0, after 8 it is as it was. The carry is not written. */
uint64_t orgnevis_start(uint64_t state[24], const uint8_t *carry, size_t carry_len,
                        uint64_t mode, uint16_t max);

/* Opens an idle state on a chunk, and uses up what stands before the first sync byte. Answers 0 or a
 * refusal (2, 3, 5). Neither the carry nor the chunk is written. */
uint64_t orgnevis_open(uint64_t state[24], const uint8_t *carry, size_t carry_len,
                       const uint8_t *chunk, size_t chunk_len);

/* The next answer, in `out` as above; out[7] is 0. Refusals: 2, 4, 6. */
void orgnevis_step(uint64_t state[24], uint8_t *carry, size_t carry_len,
                   const uint8_t *chunk, size_t chunk_len, uint64_t out[8]);

/* Keeps what is unfinished in the carry, as much as fits. out[0] is 0 or a refusal (2, 4, 6); out[1]
 * bytes used since open, out[2] bytes kept in the carry, out[3] bytes lost because they did not fit;
 * the rest is 0. May be called before need more: the next open goes on from there. */
void orgnevis_close(uint64_t state[24], uint8_t *carry, size_t carry_len,
                    const uint8_t *chunk, size_t chunk_len, uint64_t out[16]);

/* Whether a place lies within its side: 0, or 7. Places that step hands out always do. */
uint64_t orgnevis_view(const uint8_t *carry, size_t carry_len, const uint8_t *chunk,
                       size_t chunk_len, uint64_t side, uint64_t start, uint64_t len);

/* ---- Writing frames
 *
 * A UBX frame built in memory of yours, from class, id and a payload that comes in pieces; the length
 * is named first. The memory may be of any length, and the frame takes its first length + 8 bytes:
 * the bytes behind it stay as they are, and so do all of them in a call that is refused.
 *
 *   begin   once, with the payload's length.        The head: B5 62, class, id, length.
 *   piece   again and again, also with 0 bytes.     The next bytes of the payload.
 *   finish  when all of it is written.              The sum, taken over the bytes in the memory.
 *
 * Lend the same memory, unchanged, to every call. The frame is then the one that class, id and the
 * payload make, however it came in pieces, and length + 8 bytes from memory on are to be sent. */

/* The words of a writer: 8, one array per frame. Words 3 to 7 are kept for later and left as they are. */
enum {
    ORGNEVIS_WRITER_ROOM = 0,    /* the memory's length */
    ORGNEVIS_WRITER_LENGTH = 1,  /* the payload's length */
    ORGNEVIS_WRITER_WRITTEN = 2, /* so many bytes of the payload are written */
    ORGNEVIS_WRITER_WORDS = 8
};

/* The writer's refusals, tested in this order; 0 where there is none. */
enum {
    ORGNEVIS_WRITER_TOO_LONG = 1,       /* begin: a payload of over 16,376 bytes */
    ORGNEVIS_WRITER_NO_ROOM = 2,        /* begin: memory under length + 8 bytes; poll: under 8 */
    ORGNEVIS_WRITER_BAD_STATE = 3,      /* piece, finish: memory of another length, words that begin would
                                           have refused, or more written than the length */
    ORGNEVIS_WRITER_PIECE_TOO_LONG = 4, /* piece: it passes the payload's length */
    ORGNEVIS_WRITER_EARLY = 5           /* finish: not all of the payload is written */
};

/* Begins a frame. Answers 0, 1 or 2. Refused, words 0 to 2 are 0, which piece and finish refuse. */
uint64_t orgnevis_begin(uint64_t writer[8], uint8_t *memory, size_t memory_len, uint8_t class_,
                        uint8_t id, uint64_t length);

/* Writes the next piece of the payload. Answers 0, 3 or 4; refused, no word and no byte has changed. */
uint64_t orgnevis_piece(uint64_t writer[8], uint8_t *memory, size_t memory_len, const uint8_t *bytes,
                        size_t bytes_len);

/* Writes the sum. Answers 0, 3 or 5; refused, no word and no byte has changed. */
uint64_t orgnevis_finish(uint64_t writer[8], uint8_t *memory, size_t memory_len);

/* Writes the MON-VER poll, B5 62 0A 04 00 00 0E 34, at the front of the memory. Answers 0 or 2. */
uint64_t orgnevis_poll(uint8_t *memory, size_t memory_len);

#ifdef __cplusplus
}
#endif

#endif
