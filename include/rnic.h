/* A receiver for iWARP (RDMA over TCP), for C and C++ programs.
 *
 * A program keeps its TCP connections and gives what comes on them to a device. The device checks each frame and places what
 * peers write in the store, a block of bytes of the program's. It says what came, and what is wrong where something is. There is
 * no I/O, no allocation and no thread here, and no state besides `struct rnic`, which the caller holds, and the bytes that
 * streams hold in the rooms (below).
 *
 * examples/hello.c is a whole program. `./build FOLDER` writes the library, this header and a pkg-config file; link with
 * `pkg-config --cflags --libs rnic`, or with -lrnic. Most programs use the typed functions at the end of this file, rnic_open and
 * those after it. They make the calls by number that stand before them, and nothing else.
 *
 * Every function answers whatever the numbers and the bytes are. Each is proved to do what the device's call does by value
 * (crates/rnic_c): the device, the answer's words, the whole store and all of the rooms after it.
 *
 * What a caller must know:
 *
 * - Domains. A device has four protection domains, 0 to 3. Each has a part of the store to itself, and what it sees does not turn
 *   on what the others do. Stream s, 0 to 15, is domain s / 4's; window w, 0 to 63, is domain w / 16's. So domain 0 has streams 0
 *   to 3 and windows 0 to 15, domain 1 streams 4 to 7 and windows 16 to 31, and so on.
 * - The store has 1 to 16,777,216 bytes. It is lent whole at each call that places bytes. All places in it are offsets from its
 *   start, also those of a domain's windows and buffers.
 * - A stream is one connection, from behind its startup frames on, which open it ("How a connection opens", below). It is opened
 *   with the CRC on or off, as the two sides agreed.
 * - A window lets peers on its domain's streams write to a range of the domain's part, read from it, or both. It has a key, 1 to
 *   255, which is not the one that it had last; a base, the tagged offset (TO) by which peers name its first byte; a length, from
 *   1; a place in the store; and rights: RNIC_RIGHT_WRITE (1), RNIC_RIGHT_READ (2) or both (3). Base + length is at most
 *   2^64 - 1. Peers name a window by its STag, which is its number * 256 + its key: rnic_stag.
 * - A Send goes to the buffer that was posted first on its stream. Up to eight wait on a stream. Each has at least one byte, in
 *   the domain's part. A buffer that a Send has completed does not count any more.
 * - A Read Request is queued, up to eight on a stream. It answers as a Write does: RNIC_TAKEN. To see it, take (rnic_take) after
 *   what was received, until the answer is refusal 11. To answer it is the program's business.
 * - A frame (FPDU) has at most 8,200 bytes, of which 8,192 are the ULPDU. RNIC_WAIT says the frame's total, not how many bytes
 *   are missing; it is 2 as long as the frame's length is not there.
 * - A refused opening leaves an empty device: for a store of no bytes, with no window live and no stream open. A refusal of any
 *   other call changes nothing. Where the peer's bytes are refused, that stream ends, and nothing else changes.
 * - A device is a block of words. Any words are a device, so that no call can be made on a wrong one. All zeros is the empty one.
 *   A call reads what it needs of the block and writes back what it changed, and no word beside it.
 * - A device can be copied, moved, saved and read back as its words, with its rooms where a stream holds bytes, and goes on as
 *   it was. From zeros, or from an opening on, its words turn on the calls alone: two such devices are the same where their
 *   words are the same, so that memcmp compares them, and the bytes that their streams hold. Words that no call made may be other
 *   words of the same device.
 * - Threads: a device, its store and its rooms are used by one thread at a time. Two devices are independent. A function that
 *   takes a `const struct rnic *` writes nothing to it, so that several threads may ask at once, while nobody makes another call.
 * - Alignment: a device, arguments and answers are aligned as uint64_t is; the store, the rooms and bytes lie anywhere.
 * - Stack: RNIC_C_CALL_STACK and those beside it say how much each function takes.
 * - Pointers: the caller owes what a Rust reference means. The device, the store, the rooms, the bytes and the answer do not
 *   overlap (the arguments and the bytes may), each pointer is good for its length, and none is null. A slice of no bytes takes
 *   any pointer but null. */
#ifndef RNIC_H
#define RNIC_H

#include <stddef.h>
#include <stdint.h>
#include <string.h>

#ifdef __cplusplus
extern "C" {
#endif

/* The version of this header and of the library that it was written with. */
#define RNIC_VERSION_MAJOR 0
#define RNIC_VERSION_MINOR 1
#define RNIC_VERSION_PATCH 0
#define RNIC_VERSION "0.1.0"

/* The same for a program that calls and does not read macros. */
static inline const char *rnic_version(void) {
    return RNIC_VERSION;
}

/* How much there is of everything. */
#define RNIC_DOMAINS 4
#define RNIC_STREAMS 16
#define RNIC_WINDOWS 64
#define RNIC_DOMAIN_STREAMS 4  /* of each domain */
#define RNIC_DOMAIN_WINDOWS 16 /* of each domain */
#define RNIC_MAX_STORE 16777216
#define RNIC_MAX_BUFFERS 8 /* that wait on a stream */
#define RNIC_MAX_READS 8   /* that wait on a stream */
#define RNIC_MAX_ULPDU 8192
#define RNIC_MAX_FPDU 8200
#define RNIC_MIN_LIMIT 19 /* of the ULPDUs that a message is cut into */

/* A window's rights; added, they are both. */
enum rnic_right { RNIC_RIGHT_WRITE = 1, RNIC_RIGHT_READ = 2 };

/* The opcodes of Sends. */
enum rnic_opcode {
    RNIC_OPCODE_SEND = 3,
    RNIC_OPCODE_SEND_INVALIDATE = 4,   /* and one of the receiver's windows is dropped, by its STag */
    RNIC_OPCODE_SEND_SE = 5,           /* with a solicited event: the receiver is to be woken */
    RNIC_OPCODE_SEND_SE_INVALIDATE = 6 /* both */
};

/* The STag by which peers name a window, 0 to 63, with its key, 1 to 255. */
static inline uint32_t rnic_stag(uint32_t window, uint32_t key) {
    return window * 256 + key;
}

/* How many words a device has. */
#define RNIC_C_DEVICE_WORDS 945

/* A device. What each word means is nobody's business. */
struct rnic {
    uint64_t words[RNIC_C_DEVICE_WORDS];
};

/* The most bytes of stack that each function takes, with its return address and the arguments that go by the stack: measured
 * over random calls of every kind, of the library as the kit compiles it for x86-64. */
#define RNIC_C_CALL_STACK 12288
#define RNIC_C_RECEIVE_STACK 12288
#define RNIC_C_OFFER_STACK 12288
#define RNIC_C_HELD_STACK 1024
#define RNIC_C_CRC32C_STACK 12288
#define RNIC_C_CRC32C_UPDATE_STACK 12288
#define RNIC_C_CRC32C_JOIN_STACK 4096
#define RNIC_C_MESSAGE_STACK 1024
#define RNIC_C_MESSAGE_NEXT_STACK 2048
#define RNIC_C_FPDU_WRITE_STACK 12288
#define RNIC_C_FPDU_READ_STACK 12288
#define RNIC_C_STARTUP_READ_STACK 1024
#define RNIC_C_STARTUP_WRITE_STACK 1024
#define RNIC_C_AGREE_STACK 1024

/* How many numbers a call takes, and how many words its answer has. */
#define RNIC_C_ARGUMENTS 9
#define RNIC_C_WORDS 8

/* How many bytes a stream's room has, that of the longest FPDU, and the rooms of all sixteen streams, one after the other. */
#define RNIC_C_ROOM 8200
#define RNIC_C_ROOMS 131200

/* The calls, with the numbers that each takes of a[0] to a[8]; it looks at no other.
 *
 * Each domain has a gauge of how busy it is. RNIC_TICK makes the count of the bytes that Writes and Sends placed for the domain
 * since its last tick, at most 2^32 - 1, a sample. The first sample sets level and peak; from then on the level goes an eighth of
 * the way to each sample, and the peak is the highest level so far. */
enum rnic_call {
    RNIC_OPEN = 0,         /* store length, then start and end of each domain's part: s0 e0 s1 e1 s2 e2 s3 e3 */
    RNIC_OPEN_STREAM = 1,  /* stream, CRC: 0 off, anything else on */
    RNIC_CLOSE_STREAM = 2, /* stream */
    RNIC_REGISTER = 3,     /* window, key, base, length, place, rights: with the write right, 19 as for RNIC_POST */
    RNIC_DROP_WINDOW = 4,  /* window */
    RNIC_POST = 5,         /* stream, start, length: 19 where it shares a byte with a live window of its domain that has
                              the write right, or with a buffer that waits on a stream of that domain */
    RNIC_TAKE = 6,         /* stream */
    RNIC_LIVE_COUNT = 7,   /* domain */
    RNIC_LOWEST_FREE = 8,  /* domain */
    RNIC_RECEIVE = 9,      /* stream; it alone looks at the bytes and the store: 16 while the stream holds bytes of an offer */
    RNIC_TICK = 10,        /* domain */
    RNIC_READING = 11,     /* domain */
    RNIC_STATE = 12        /* stream */
    /* any other number answers RNIC_REFUSED 1 and changes nothing */
};

/* Word 0 of an answer, and the words after it; those that are left are 0. */
enum rnic_answer {
    RNIC_REFUSED = 0,           /* a local refusal's number; nothing changed, but RNIC_OPEN leaves an empty device */
    RNIC_DONE = 1,              /* nothing more */
    RNIC_CLOSED = 2,            /* buffers not finished, reads not taken */
    RNIC_READ = 3,              /* sink STag, sink TO, size, source STag, source TO */
    RNIC_COUNTED = 4,           /* the count */
    RNIC_WAIT = 5,              /* the total: how many bytes are needed, with those that are there */
    RNIC_TAKEN = 6,             /* the FPDU's total: of a Write, a Read Request, or a Send that goes on */
    RNIC_SENT = 7,              /* the FPDU's total, the buffer's start, the message's length, the opcode */
    RNIC_SENT_INVALIDATING = 8, /* the same, and the STag that it invalidated */
    RNIC_TERMINATED = 9,        /* the FPDU's total, layer, error type, error code */
    RNIC_ENDED = 10,            /* a refusal of the peer's bytes, which ended the stream: number, layer, type, code */
    RNIC_KEPT = 11,             /* of an offer alone: no FPDU is whole, and the stream holds all of the bytes */
    RNIC_QUIET = 12,            /* of RNIC_READING, as the two below: before the first tick, or a level under 1 */
    RNIC_STEADY = 13,           /* the gauge's level: its bits, as an IEEE 754 binary64 has them */
    RNIC_FALLING = 14,          /* level and peak, in the same way: the level is under half the peak */
    RNIC_STATED = 15            /* of RNIC_STATE: enum rnic_stream_state, buffers and reads that wait; then of a stream that a
                                   refusal ended its number, layer, type and code */
    /* of an offer, word RNIC_C_OFFER_TAKEN of the kinds 6 to 9 and 11 says how many bytes of this call were taken */
};

/* What a stream is, as RNIC_STATE answers. */
enum rnic_stream_state {
    RNIC_STREAM_CLOSED = 0,    /* not open, and nothing waits on it */
    RNIC_STREAM_OPEN = 1,      /* open, and takes bytes */
    RNIC_STREAM_ENDED = 2,     /* ended by a refusal of the peer's bytes, and not yet closed */
    RNIC_STREAM_TERMINATED = 3 /* ended by the peer's Terminate, and not yet closed */
};

/* The word of an offer's answer that says how many bytes of this call were taken: these need not be offered again. */
#define RNIC_C_OFFER_TAKEN 6

/* ---- Refusals: this part is written by docs/refusals from docs/refusals.tsv. */

/* What a refusal says. The numbers up to 19, and those from 40 on, are local: the call was refused, and nothing changed (but
 * RNIC_OPEN, see there). Those from 20 to 38 are of the peer: its bytes were refused, and the stream has ended. What to do
 * about each is in docs/REFUSALS.md. */
enum rnic_refusal {
    RNIC_REFUSAL_NONE = 0, /* not refused */
    RNIC_REFUSAL_OUT_OF_RANGE = 1, /* a number, key, right or length is out of its range */
    RNIC_REFUSAL_OTHER_LENGTH = 2, /* the store or the rooms that were lent have a wrong length */
    RNIC_REFUSAL_NOT_OPEN = 3, /* the stream is not open */
    RNIC_REFUSAL_ALREADY_OPEN = 4, /* the stream is open already */
    RNIC_REFUSAL_STREAM_ENDED = 5, /* the stream has ended */
    RNIC_REFUSAL_WINDOW_LIVE = 6, /* the window is live already */
    RNIC_REFUSAL_WINDOW_NOT_LIVE = 7, /* the window is not live */
    RNIC_REFUSAL_KEY_AGAIN = 8, /* the key is the last one that this window had */
    RNIC_REFUSAL_BAD_PLACE = 9, /* a part, a place, a length or a base breaks a rule */
    RNIC_REFUSAL_BUFFERS_FULL = 10, /* eight buffers wait on the stream already */
    RNIC_REFUSAL_NO_READ_WAITS = 11, /* no Read Request waits on the stream */
    RNIC_REFUSAL_OVER_LIMIT = 12, /* a ULPDU or private data is over its limit */
    RNIC_REFUSAL_NO_ROOM = 13, /* the output is too short for what is to be written */
    RNIC_REFUSAL_BAD_STARTUP = 14, /* the bytes are not the startup frame that is expected */
    RNIC_REFUSAL_MARKERS = 15, /* the peer asks for markers, which this receiver does not have */
    RNIC_REFUSAL_HOLDS_BYTES = 16, /* the stream holds bytes of an offer, so receive cannot be used */
    RNIC_REFUSAL_SHARED_BYTE = 19, /* a byte is also a write window's or a waiting buffer's */
    RNIC_REFUSAL_ULPDU_TOO_LONG = 20, /* the FPDU says a length over 8,192 bytes */
    RNIC_REFUSAL_CRC_ERROR = 21, /* the FPDU's CRC is wrong */
    RNIC_REFUSAL_SEGMENT_TOO_SHORT = 22, /* the segment is shorter than its header */
    RNIC_REFUSAL_DDP_VERSION = 23, /* the segment's DDP version is not 1 */
    RNIC_REFUSAL_STAG_NOT_ASSOCIATED = 24, /* the Write's STag is that of another domain's window */
    RNIC_REFUSAL_INVALID_STAG = 25, /* the Write's STag names no live window, or has another key */
    RNIC_REFUSAL_TO_WRAP = 26, /* the Write ends past 2^64 */
    RNIC_REFUSAL_BOUNDS_VIOLATION = 27, /* the Write does not lie inside the window */
    RNIC_REFUSAL_INVALID_QN = 28, /* the segment's queue number is over 2 */
    RNIC_REFUSAL_INVALID_MSN = 29, /* the message number is not the next one of its queue */
    RNIC_REFUSAL_NO_BUFFER = 30, /* no buffer waits for the Send, or eight Read Requests wait already */
    RNIC_REFUSAL_INVALID_MO = 31, /* the message offset is not where the message goes on */
    RNIC_REFUSAL_MESSAGE_TOO_LONG = 32, /* the message is longer than the buffer that waits for it */
    RNIC_REFUSAL_RDMAP_VERSION = 33, /* the segment's RDMAP version is not 1 */
    RNIC_REFUSAL_UNEXPECTED_OPCODE = 34, /* the opcode does not fit the segment or the message's earlier ones */
    RNIC_REFUSAL_NO_WRITE_RIGHT = 35, /* the Write's window has no write right */
    RNIC_REFUSAL_INVALIDATE_STAG = 36, /* the STag that the Send is to invalidate is not a live one of its domain */
    RNIC_REFUSAL_MALFORMED = 37, /* the Read Request or the Terminate has a wrong length or no end */
    RNIC_REFUSAL_READ_SOURCE = 38, /* the Read Request asks for bytes that the peer may not read */
    RNIC_REFUSAL_IRD_TOO_SMALL = 40, /* our IRD is under the peer's ORD */
    RNIC_REFUSAL_NO_KIND = 41 /* there is no kind of first message that both sides can do */
};

/* The number and its text, in one line: "27: the Write does not lie inside the window". Of any other number, that it is none. */
static inline const char *rnic_refusal_text(uint64_t number) {
    switch (number) {
    case RNIC_REFUSAL_NONE:
        return "0: not refused";
    case RNIC_REFUSAL_OUT_OF_RANGE:
        return "1: a number, key, right or length is out of its range";
    case RNIC_REFUSAL_OTHER_LENGTH:
        return "2: the store or the rooms that were lent have a wrong length";
    case RNIC_REFUSAL_NOT_OPEN:
        return "3: the stream is not open";
    case RNIC_REFUSAL_ALREADY_OPEN:
        return "4: the stream is open already";
    case RNIC_REFUSAL_STREAM_ENDED:
        return "5: the stream has ended";
    case RNIC_REFUSAL_WINDOW_LIVE:
        return "6: the window is live already";
    case RNIC_REFUSAL_WINDOW_NOT_LIVE:
        return "7: the window is not live";
    case RNIC_REFUSAL_KEY_AGAIN:
        return "8: the key is the last one that this window had";
    case RNIC_REFUSAL_BAD_PLACE:
        return "9: a part, a place, a length or a base breaks a rule";
    case RNIC_REFUSAL_BUFFERS_FULL:
        return "10: eight buffers wait on the stream already";
    case RNIC_REFUSAL_NO_READ_WAITS:
        return "11: no Read Request waits on the stream";
    case RNIC_REFUSAL_OVER_LIMIT:
        return "12: a ULPDU or private data is over its limit";
    case RNIC_REFUSAL_NO_ROOM:
        return "13: the output is too short for what is to be written";
    case RNIC_REFUSAL_BAD_STARTUP:
        return "14: the bytes are not the startup frame that is expected";
    case RNIC_REFUSAL_MARKERS:
        return "15: the peer asks for markers, which this receiver does not have";
    case RNIC_REFUSAL_HOLDS_BYTES:
        return "16: the stream holds bytes of an offer, so receive cannot be used";
    case RNIC_REFUSAL_SHARED_BYTE:
        return "19: a byte is also a write window's or a waiting buffer's";
    case RNIC_REFUSAL_ULPDU_TOO_LONG:
        return "20: the FPDU says a length over 8,192 bytes";
    case RNIC_REFUSAL_CRC_ERROR:
        return "21: the FPDU's CRC is wrong";
    case RNIC_REFUSAL_SEGMENT_TOO_SHORT:
        return "22: the segment is shorter than its header";
    case RNIC_REFUSAL_DDP_VERSION:
        return "23: the segment's DDP version is not 1";
    case RNIC_REFUSAL_STAG_NOT_ASSOCIATED:
        return "24: the Write's STag is that of another domain's window";
    case RNIC_REFUSAL_INVALID_STAG:
        return "25: the Write's STag names no live window, or has another key";
    case RNIC_REFUSAL_TO_WRAP:
        return "26: the Write ends past 2^64";
    case RNIC_REFUSAL_BOUNDS_VIOLATION:
        return "27: the Write does not lie inside the window";
    case RNIC_REFUSAL_INVALID_QN:
        return "28: the segment's queue number is over 2";
    case RNIC_REFUSAL_INVALID_MSN:
        return "29: the message number is not the next one of its queue";
    case RNIC_REFUSAL_NO_BUFFER:
        return "30: no buffer waits for the Send, or eight Read Requests wait already";
    case RNIC_REFUSAL_INVALID_MO:
        return "31: the message offset is not where the message goes on";
    case RNIC_REFUSAL_MESSAGE_TOO_LONG:
        return "32: the message is longer than the buffer that waits for it";
    case RNIC_REFUSAL_RDMAP_VERSION:
        return "33: the segment's RDMAP version is not 1";
    case RNIC_REFUSAL_UNEXPECTED_OPCODE:
        return "34: the opcode does not fit the segment or the message's earlier ones";
    case RNIC_REFUSAL_NO_WRITE_RIGHT:
        return "35: the Write's window has no write right";
    case RNIC_REFUSAL_INVALIDATE_STAG:
        return "36: the STag that the Send is to invalidate is not a live one of its domain";
    case RNIC_REFUSAL_MALFORMED:
        return "37: the Read Request or the Terminate has a wrong length or no end";
    case RNIC_REFUSAL_READ_SOURCE:
        return "38: the Read Request asks for bytes that the peer may not read";
    case RNIC_REFUSAL_IRD_TOO_SMALL:
        return "40: our IRD is under the peer's ORD";
    case RNIC_REFUSAL_NO_KIND:
        return "41: there is no kind of first message that both sides can do";
    default:
        return "no refusal has this number";
    }
}

/* ---- The end of that part. */

/* The call of a number. RNIC_OPEN makes *device anew, whatever words it held. */
void rnic_c_call(struct rnic *device, uint8_t *store, size_t store_length, uint64_t number,
                 const uint64_t a[RNIC_C_ARGUMENTS], const uint8_t *bytes, size_t bytes_length,
                 uint64_t answer[RNIC_C_WORDS]);

/* RNIC_RECEIVE by itself, for the path that has to be fast: the first FPDU of bytes for a stream. For a caller that keeps what
 * came of an FPDU itself: where not all of it is there the answer is RNIC_WAIT, nothing changes, and the caller gives the same
 * bytes again with more behind them. */
void rnic_c_receive(struct rnic *device, uint8_t *store, size_t store_length, uint64_t stream, const uint8_t *bytes,
                    size_t bytes_length, uint64_t answer[RNIC_C_WORDS]);

/* The same for bytes that are cut anywhere, as TCP cuts them: the stream keeps what came of an FPDU. For a caller that gives
 * each byte once, in the order in which they came, and keeps none:
 *
 *     while ((n = recv(socket, buffer, sizeof buffer, 0)) > 0) {
 *         const uint8_t *rest = buffer;
 *         while (n > 0) {
 *             rnic_c_offer(&device, store, sizeof store, rooms, sizeof rooms, stream, rest, (size_t)n, answer);
 *             if (answer[0] == RNIC_REFUSED || answer[0] == RNIC_ENDED) {
 *                 goto close;
 *             }
 *             report(answer);
 *             rest += answer[RNIC_C_OFFER_TAKEN];
 *             n -= (ssize_t)answer[RNIC_C_OFFER_TAKEN];
 *         }
 *     }
 *
 * A call takes bytes up to the end of the first FPDU that they complete, and answers as receive does with that FPDU's total in
 * word 1; or it takes all of them, which may be none, and answers RNIC_KEPT. However the bytes are cut, the events, the store
 * and the device are the same. An FPDU that lies whole in the bytes, with nothing held before it, is received where it lies;
 * any other is gathered in the stream's room first.
 *
 * The rooms are one block of RNIC_C_ROOMS bytes for a device, lent at each offer as the last one left them. Only the bytes that
 * a stream holds count: at first the rooms may hold anything. An offer writes to its own stream's room alone, and no other call
 * looks at them. A refusal of the peer's bytes, a Terminate, RNIC_CLOSE_STREAM and RNIC_OPEN empty what is held: then the
 * bytes are gone. Offers that follow the first two are refused with 5 and keep nothing.
 *
 * RNIC_REFUSED: 1 for a stream over 15, 2 for a store of another length than the device was opened over or rooms of another
 * length than RNIC_C_ROOMS, 3 for a stream that is not open, 5 for one that has ended. While a stream holds bytes, receive is
 * refused with 16 on it: where nothing is held the two may be mixed. */
void rnic_c_offer(struct rnic *device, uint8_t *store, size_t store_length, uint8_t *rooms, size_t rooms_length,
                  uint64_t stream, const uint8_t *bytes, size_t bytes_length, uint64_t answer[RNIC_C_WORDS]);

/* How many bytes a stream holds, from the start of its room; 0 where it is closed or has ended, and for a number over 15. */
uint32_t rnic_c_held(const struct rnic *device, uint64_t stream);

/* The CRC-32C of bytes. A frame has it after its pad, the least significant byte first. */
uint32_t rnic_c_crc32c(const uint8_t *bytes, size_t bytes_length);

/* The same in pieces. A running value starts as 0xFFFFFFFF, is carried on over each piece in turn, and is inverted (~) at the
 * end: that is the CRC-32C of all the pieces. To go on from a CRC, start with its inverse. */
uint32_t rnic_c_crc32c_update(uint32_t running, const uint8_t *bytes, size_t bytes_length);

/* The CRC-32C of two pieces together, from the CRC-32C of each, the first's first, and the second's length in bytes. */
uint32_t rnic_c_crc32c_join(uint32_t first, uint32_t second, uint32_t second_length);

/* ---- What the caller sends. A message, a Write or one of the four Sends, is begun, and asked for one segment after the
 * other; a segment is a ULPDU, which goes out as an FPDU. None of this looks at a device. */

/* How many words a message under way has, and how many an answer of the writers. */
#define RNIC_C_MESSAGE_WORDS 9
#define RNIC_C_WRITTEN_WORDS 2

/* A message under way, without its bytes, which the caller keeps as they are until its last segment is written. Any words are
 * a message, and it can be copied, saved and read back as a device can. */
struct rnic_message {
    uint64_t words[RNIC_C_MESSAGE_WORDS];
};

/* Word 0 of a writer's answer, and word 1. */
enum rnic_written {
    RNIC_NOT_WRITTEN = 0, /* a refusal's number; the output keeps its bytes, and a segment stays next */
    RNIC_WROTE = 1,       /* how many bytes, from the start of the output; the others stay */
    RNIC_NO_MORE = 2      /* 0: the message's last segment was written before */
};

/* Begins a Write of so many bytes to an STag and a tagged offset, in ULPDUs of at most limit bytes. It answers 0, or a
 * refusal's number, and then *message stays: 1 for a limit below 19, an STag or a length over 2^32 - 1, or an end past 2^64;
 * 12 for a limit above 8,192. */
uint32_t rnic_c_message_write(struct rnic_message *message, uint64_t limit, uint64_t stag, uint64_t to, uint64_t length);

/* Begins a Send: opcode 3, 4 with Invalidate, 5 with Solicited Event, 6 with both. The STag is the one to invalidate, and is
 * looked at for 4 and 6 alone; the other two are written with 0. It answers as above, and 1 for an opcode that is no Send's
 * and an MSN over 2^32 - 1, too. */
uint32_t rnic_c_message_send(struct rnic_message *message, uint64_t limit, uint64_t opcode, uint64_t msn, uint64_t stag,
                             uint64_t length);

/* Writes the next segment of a message to the start of out, lent all of the message's bytes at each call. Refused: 1 where
 * they are not as many as it was begun with, 13 where out is too short for the segment. */
void rnic_c_message_next(struct rnic_message *message, const uint8_t *bytes, size_t bytes_length, uint8_t *out,
                         size_t out_length, uint64_t answer[RNIC_C_WRITTEN_WORDS]);

/* Writes the FPDU of a ULPDU to the start of out: its length, the ULPDU, the pad and the CRC. Refused: 12 for a ULPDU over
 * 8,192 bytes, 13 where out is too short. */
void rnic_c_fpdu_write(const uint8_t *ulpdu, size_t ulpdu_length, uint8_t *out, size_t out_length,
                       uint64_t answer[RNIC_C_WRITTEN_WORDS]);

/* How many words the reader of FPDUs answers. */
#define RNIC_C_FPDU_WORDS 4

/* Reads the first FPDU of bytes, with the CRC off where crc is 0, else on. A device reads its own frames (rnic_c_receive): this is
 * for who has frames to look at. The words are RNIC_REFUSED with 20 for a ULPDU over 8,192 bytes or 21 for a wrong CRC; RNIC_WAIT
 * with the number of bytes needed; or RNIC_TAKEN with the FPDU's total, and where its ULPDU starts and how long it is. */
void rnic_c_fpdu_read(uint64_t crc, const uint8_t *bytes, size_t bytes_length, uint64_t answer[RNIC_C_FPDU_WORDS]);

/* ---- How a connection opens. Each side sends one startup frame before its first FPDU: the initiator a request, the responder a
 * reply. Revision 1 is RFC 5044's, revision 2 RFC 6581's. A frame of revision 2 may have the flag S, and then the side's terms:
 * how many reads it takes at a time and makes at a time, and which message may come first. None of this looks at a device.
 *
 * A responder reads the request, answers its terms, and writes a reply in the form that the request has: revision 1 to revision
 * 1, revision 2 to revision 2, with S to one with S, and without S to one without.
 *
 *     rnic_c_startup_read(0, bytes, count, &request); // again with more bytes, as long as it is RNIC_STARTUP_WAIT
 *     if (request.kind == RNIC_STARTUP_REFUSED) {
 *         goto close;
 *     }
 *     reply.kind = request.kind;
 *     reply.crc = request.crc || own_crc; // the CRC is on, both ways, where either frame has it
 *     reply.declined = 0;
 *     if (request.kind == RNIC_STARTUP_ENHANCED) {
 *         reply.declined = rnic_c_agree_answer(&own, &request.terms, &reply.terms, &kept) != 0;
 *         if (reply.declined) {
 *             reply.terms = own; // what we can do
 *             reply.terms.peer = request.terms.peer;
 *         }
 *     }
 *     rnic_c_startup_write(1, &reply, data, data_length, out, sizeof out, answer);
 *
 * An initiator writes a request with its own terms, reads the reply, and settles by the reply's terms:
 *
 *     request.kind = RNIC_STARTUP_ENHANCED;
 *     request.crc = own_crc;
 *     request.declined = 0;
 *     request.terms = own;
 *     rnic_c_startup_write(0, &request, data, data_length, out, sizeof out, answer);
 *     rnic_c_startup_read(1, bytes, count, &reply); // as above
 *     if (reply.kind != request.kind || reply.declined || rnic_c_agree_settle(&own, &reply.terms, &kept) != 0) {
 *         goto close;
 *     }
 *
 * The bytes behind a frame's total are the other side's first FPDU's: they may come with the frame. A responder sends no FPDU
 * before the first one has come from the initiator. In the peer-to-peer model that one is an empty message of the kind agreed.
 *
 * Every refusal is local: nothing goes to the peer, unless the host sends a reply that is declined, or closes the connection.
 *
 *      1  a kind that is no frame's, a request that is declined, a depth over 16,383, or kinds over 7
 *     12  more than 512 bytes of private data; the terms count for four
 *     13  the output is too short
 *     14  no startup frame: not the key of this side's, a revision that is neither 1 nor 2, a length over 512, or one under four
 *         with S
 *     15  the peer asks for markers, which this receiver does not have
 *     40  our IRD is under the peer's ORD; a Terminate says 2/0/06 of it
 *     41  no kind of first message that both sides can do; 2/0/07
 *
 * Linux's software iWARP (siw) opens with revision 2 and S. It rejects a reply of revision 1 to that, and one with M, which is
 * never written here. For perftest's reads it asks for an ORD of 128: our IRD must be at least that, or 40 is the answer. An FPDU
 * that reaches it together with the startup may lie unread there until more bytes come: an initiator does well to wait a
 * moment before its first. */

/* A depth that is not negotiated. In the other side's terms it says so: our own depth then stays, whatever it is, and a reply
 * says the same of it. In our own terms it is the number 16,383. */
#define RNIC_DEPTH_UNSAID 0x3FFF

/* What a side says of itself, as four words. */
struct rnic_terms {
    uint64_t peer;  /* A: 0 client-server, anything else the peer-to-peer model; a responder's own is not looked at */
    uint64_t ird;   /* how many reads it takes at a time, at most 16,383 */
    uint64_t ord;   /* how many it makes at a time, at most 16,383 */
    uint64_t kinds; /* enum rnic_kind, added; they count in the peer-to-peer model alone */
};

/* The kinds of a first message: flags B, C and D. */
enum rnic_kind { RNIC_KIND_SEND = 4, RNIC_KIND_WRITE = 2, RNIC_KIND_READ = 1 };

/* A startup frame, as nine words. A frame that was read can be written. */
struct rnic_startup {
    uint64_t kind;           /* enum rnic_startup_kind */
    uint64_t total;          /* read: the frame's length, or what its kind says; written: not looked at */
    uint64_t start;          /* read: the private data is bytes[start] up to bytes[total - 1]; written: not looked at */
    uint64_t crc;            /* C: 0 or 1; written: anything but 0 */
    uint64_t declined;       /* R, of a reply alone, in the same way */
    struct rnic_terms terms; /* of RNIC_STARTUP_ENHANCED alone; else read as 0 and not written */
};

/* Word 0 of a startup frame. The words that a kind does not use are 0 where it is read. */
enum rnic_startup_kind {
    RNIC_STARTUP_REFUSED = 0,  /* no frame: total is the refusal's number */
    RNIC_STARTUP_FIRST = 1,    /* revision 1 */
    RNIC_STARTUP_SECOND = 2,   /* revision 2 with S clear */
    RNIC_STARTUP_ENHANCED = 3, /* revision 2 with S: the private data has the terms before it */
    RNIC_STARTUP_WAIT = 5      /* the frame is not whole: total is how many bytes are needed */
};

/* Reads the startup frame at the start of bytes: a request where reply is 0, else a reply. Refused: 14 and 15. */
void rnic_c_startup_read(uint64_t reply, const uint8_t *bytes, size_t bytes_length, struct rnic_startup *found);

/* Writes a startup frame with its private data to the start of out: a request where reply is 0, else a reply. The answer is as
 * that of rnic_c_fpdu_write. Refused: 1, 12 and 13, in this order. A frame has at most 532 bytes. */
void rnic_c_startup_write(uint64_t reply, const struct rnic_startup *frame, const uint8_t *private_data,
                          size_t private_data_length, uint8_t *out, size_t out_length,
                          uint64_t answer[RNIC_C_WRITTEN_WORDS]);

/* Answers a request's terms with a responder's own: 0, with the terms for the reply and those to keep to, or a refusal's number,
 * 1, 40 or 41 in this order, and then *reply and *kept stay. The reply has the request's A, and with it exactly one kind, the
 * first of Send, Write and Read that both have. Kept are that A and kind, our own IRD, and our ORD, at most the request's IRD. */
uint32_t rnic_c_agree_answer(const struct rnic_terms *own, const struct rnic_terms *request, struct rnic_terms *reply,
                             struct rnic_terms *kept);

/* Settles an initiator's own terms, those of its request, by a reply's: 0, with the terms to keep to, or a refusal's number as
 * above, and then *kept stays. Kept are our A, our IRD, our ORD, at most the reply's IRD, and the kind of our first message, 0
 * where neither side says A. */
uint32_t rnic_c_agree_settle(const struct rnic_terms *own, const struct rnic_terms *reply, struct rnic_terms *kept);
/* ---- Typed functions. Each makes one of the calls above. A refusal is RNIC_REFUSAL_NONE, 0, where the call was not refused;
 * where it was, the other fields of an answer are 0. Questions take a const device: they change nothing. */

/* A part of the store, from its start up to, not with, its end. */
struct rnic_part {
    uint64_t start;
    uint64_t end;
};

/* What a window is registered with. */
struct rnic_window {
    uint64_t key;    /* 1 to 255, not the last one that the window had */
    uint64_t base;   /* the tagged offset of its first byte */
    uint64_t length; /* at least 1 */
    uint64_t place;  /* of its first byte in the store, in its domain's part */
    uint64_t rights; /* RNIC_RIGHT_WRITE, RNIC_RIGHT_READ or both */
};

/* What was left on a stream that was closed. */
struct rnic_closed {
    enum rnic_refusal refusal;
    uint32_t buffers; /* posted and not completed */
    uint32_t reads;   /* not taken */
};

/* A peer's Read Request: so many bytes from the source, a window of this device's, are to be written to the sink, the peer's. */
struct rnic_read_request {
    enum rnic_refusal refusal;
    uint32_t sink_stag;
    uint64_t sink_to;
    uint32_t size;
    uint32_t source_stag;
    uint64_t source_to;
};

/* A count of windows, or a slot. */
struct rnic_count {
    enum rnic_refusal refusal;
    uint32_t count;
};

/* What a domain's gauge reads as. */
struct rnic_gauge {
    enum rnic_refusal refusal;
    enum rnic_answer kind; /* RNIC_QUIET, RNIC_STEADY or RNIC_FALLING; or RNIC_REFUSED */
    double level;          /* 0 where it is quiet */
    double peak;           /* of RNIC_FALLING alone, else 0 */
};

/* What a stream is, and what waits on it. */
struct rnic_stream {
    enum rnic_refusal refusal; /* of the question itself */
    enum rnic_stream_state state;
    uint32_t buffers;        /* that wait, the one in fill with them */
    uint32_t reads;          /* that wait to be taken */
    enum rnic_refusal ended; /* of RNIC_STREAM_ENDED why, else none; and what there is to say to the peer: */
    uint32_t layer;          /* the layer, */
    uint32_t etype;          /* the error type */
    uint32_t code;           /* and the error code */
};

/* What came of bytes. */
struct rnic_event {
    enum rnic_answer kind;     /* RNIC_WAIT or RNIC_KEPT, RNIC_TAKEN, RNIC_SENT, RNIC_SENT_INVALIDATING, RNIC_TERMINATED,
                                  RNIC_ENDED; or RNIC_REFUSED */
    enum rnic_refusal refusal; /* of RNIC_REFUSED why the call was refused, of RNIC_ENDED why the peer's bytes were; else none */
    size_t taken;              /* how many of the bytes are used up: the next call goes on behind them */
    size_t total;              /* the FPDU's length; of RNIC_WAIT how many bytes are needed in all */
    uint32_t start;            /* of the two kinds of Sends: the buffer's start, */
    uint32_t length;           /* the message's length, */
    uint32_t opcode;           /* its opcode, */
    uint32_t invalidated;      /* and of RNIC_SENT_INVALIDATING the STag whose window is dropped */
    uint32_t layer;            /* of RNIC_TERMINATED what the peer said, of RNIC_ENDED what there is to say to the peer: */
    uint32_t etype;            /* the layer, the error type */
    uint32_t code;             /* and the error code */
};

/* What a writer wrote. */
struct rnic_output {
    enum rnic_refusal refusal;
    int no_more;   /* 1 where the message's last segment was written before, else 0 */
    size_t length; /* how many bytes, from the start of the output */
};

/* The call of a number that looks at neither store nor bytes. */
static inline void rnic_call_alone(struct rnic *device, uint64_t number, const uint64_t a[RNIC_C_ARGUMENTS],
                                   uint64_t answer[RNIC_C_WORDS]) {
    uint8_t store[1] = {0};
    const uint8_t bytes[1] = {0};
    rnic_c_call(device, store, 0, number, a, bytes, 0, answer);
}

/* The refusal that an answer has, or none. */
static inline enum rnic_refusal rnic_refusal_of(const uint64_t answer[RNIC_C_WORDS]) {
    return answer[0] == RNIC_REFUSED || answer[0] == RNIC_ENDED ? (enum rnic_refusal)answer[1] : RNIC_REFUSAL_NONE;
}

/* The binary64 of an answer's word. */
static inline double rnic_float(uint64_t bits) {
    double number;
    memcpy(&number, &bits, sizeof number);
    return number;
}

/* The count that a question about a domain answers. */
static inline struct rnic_count rnic_counted(const struct rnic *device, uint64_t number, uint64_t domain) {
    const uint64_t a[RNIC_C_ARGUMENTS] = {domain, 0, 0, 0, 0, 0, 0, 0, 0};
    uint64_t answer[RNIC_C_WORDS];
    struct rnic_count found = {RNIC_REFUSAL_NONE, 0};
    rnic_call_alone((struct rnic *)device, number, a, answer);
    found.refusal = rnic_refusal_of(answer);
    if (answer[0] == RNIC_COUNTED) {
        found.count = (uint32_t)answer[1];
    }
    return found;
}

/* What an answer of receive or of an offer says, whose bytes taken the caller adds. */
static inline struct rnic_event rnic_event_of(const uint64_t answer[RNIC_C_WORDS]) {
    struct rnic_event event = {RNIC_REFUSED, RNIC_REFUSAL_NONE, 0, 0, 0, 0, 0, 0, 0, 0, 0};
    event.kind = (enum rnic_answer)answer[0];
    event.refusal = rnic_refusal_of(answer);
    switch (answer[0]) {
    case RNIC_WAIT:
    case RNIC_TAKEN:
        event.total = (size_t)answer[1];
        break;
    case RNIC_SENT:
    case RNIC_SENT_INVALIDATING:
        event.total = (size_t)answer[1];
        event.start = (uint32_t)answer[2];
        event.length = (uint32_t)answer[3];
        event.opcode = (uint32_t)answer[4];
        event.invalidated = (uint32_t)answer[5];
        break;
    case RNIC_TERMINATED:
        event.total = (size_t)answer[1];
        event.layer = (uint32_t)answer[2];
        event.etype = (uint32_t)answer[3];
        event.code = (uint32_t)answer[4];
        break;
    case RNIC_ENDED:
        event.layer = (uint32_t)answer[2];
        event.etype = (uint32_t)answer[3];
        event.code = (uint32_t)answer[4];
        break;
    default:
        break;
    }
    return event;
}

/* What a writer's answer says. */
static inline struct rnic_output rnic_output_of(const uint64_t answer[RNIC_C_WRITTEN_WORDS]) {
    struct rnic_output output = {RNIC_REFUSAL_NONE, 0, 0};
    switch (answer[0]) {
    case RNIC_NOT_WRITTEN:
        output.refusal = (enum rnic_refusal)answer[1];
        break;
    case RNIC_WROTE:
        output.length = (size_t)answer[1];
        break;
    default:
        output.no_more = 1;
        break;
    }
    return output;
}

/* Opens a device anew over a store of a length, whatever its words were, with a part for each domain: in order, apart, and inside
 * the store; a part may be empty. Refused, 1 or 9, the device is empty. */
static inline enum rnic_refusal rnic_open(struct rnic *device, uint64_t length, const struct rnic_part parts[RNIC_DOMAINS]) {
    const uint64_t a[RNIC_C_ARGUMENTS] = {length,         parts[0].start, parts[0].end,   parts[1].start, parts[1].end,
                                          parts[2].start, parts[2].end,   parts[3].start, parts[3].end};
    uint64_t answer[RNIC_C_WORDS];
    rnic_call_alone(device, RNIC_OPEN, a, answer);
    return rnic_refusal_of(answer);
}

/* Opens a stream; crc: 0 off, anything else on. Refused: 1, 4. */
static inline enum rnic_refusal rnic_open_stream(struct rnic *device, uint64_t stream, int crc) {
    const uint64_t a[RNIC_C_ARGUMENTS] = {stream, crc != 0, 0, 0, 0, 0, 0, 0, 0};
    uint64_t answer[RNIC_C_WORDS];
    rnic_call_alone(device, RNIC_OPEN_STREAM, a, answer);
    return rnic_refusal_of(answer);
}

/* Closes a stream, also one that has ended, and drops what waits on it. Refused: 1, 3. */
static inline struct rnic_closed rnic_close_stream(struct rnic *device, uint64_t stream) {
    const uint64_t a[RNIC_C_ARGUMENTS] = {stream, 0, 0, 0, 0, 0, 0, 0, 0};
    uint64_t answer[RNIC_C_WORDS];
    struct rnic_closed closed = {RNIC_REFUSAL_NONE, 0, 0};
    rnic_call_alone(device, RNIC_CLOSE_STREAM, a, answer);
    closed.refusal = rnic_refusal_of(answer);
    if (answer[0] == RNIC_CLOSED) {
        closed.buffers = (uint32_t)answer[1];
        closed.reads = (uint32_t)answer[2];
    }
    return closed;
}

/* Registers a window under its number; its STag is rnic_stag(number, window->key). Refused: 1, 6, 8, 9, 19. */
static inline enum rnic_refusal rnic_register(struct rnic *device, uint64_t number, const struct rnic_window *window) {
    const uint64_t a[RNIC_C_ARGUMENTS] = {number,        window->key,    window->base, window->length,
                                          window->place, window->rights, 0,            0,
                                          0};
    uint64_t answer[RNIC_C_WORDS];
    rnic_call_alone(device, RNIC_REGISTER, a, answer);
    return rnic_refusal_of(answer);
}

/* Drops a window. Refused: 1, 7. */
static inline enum rnic_refusal rnic_drop_window(struct rnic *device, uint64_t window) {
    const uint64_t a[RNIC_C_ARGUMENTS] = {window, 0, 0, 0, 0, 0, 0, 0, 0};
    uint64_t answer[RNIC_C_WORDS];
    rnic_call_alone(device, RNIC_DROP_WINDOW, a, answer);
    return rnic_refusal_of(answer);
}

/* Posts a buffer for Sends behind those that wait on a stream. Refused: 1, 3, 5, 9, 10, 19. */
static inline enum rnic_refusal rnic_post(struct rnic *device, uint64_t stream, uint64_t start, uint64_t length) {
    const uint64_t a[RNIC_C_ARGUMENTS] = {stream, start, length, 0, 0, 0, 0, 0, 0};
    uint64_t answer[RNIC_C_WORDS];
    rnic_call_alone(device, RNIC_POST, a, answer);
    return rnic_refusal_of(answer);
}

/* Takes the Read Request that waits longest on a stream. Refused: 1, 3, 5; 11 where none waits. */
static inline struct rnic_read_request rnic_take(struct rnic *device, uint64_t stream) {
    const uint64_t a[RNIC_C_ARGUMENTS] = {stream, 0, 0, 0, 0, 0, 0, 0, 0};
    uint64_t answer[RNIC_C_WORDS];
    struct rnic_read_request read = {RNIC_REFUSAL_NONE, 0, 0, 0, 0, 0};
    rnic_call_alone(device, RNIC_TAKE, a, answer);
    read.refusal = rnic_refusal_of(answer);
    if (answer[0] == RNIC_READ) {
        read.sink_stag = (uint32_t)answer[1];
        read.sink_to = answer[2];
        read.size = (uint32_t)answer[3];
        read.source_stag = (uint32_t)answer[4];
        read.source_to = answer[5];
    }
    return read;
}

/* How many windows of a domain are live. Refused: 1. */
static inline struct rnic_count rnic_live_count(const struct rnic *device, uint64_t domain) {
    return rnic_counted(device, RNIC_LIVE_COUNT, domain);
}

/* The lowest free one of a domain's sixteen slots, 16 where none is: window number domain * 16 + slot. Refused: 1. */
static inline struct rnic_count rnic_lowest_free(const struct rnic *device, uint64_t domain) {
    return rnic_counted(device, RNIC_LOWEST_FREE, domain);
}

/* Takes the count of the bytes placed for a domain since its last tick as a sample of its gauge. Refused: 1. */
static inline enum rnic_refusal rnic_tick(struct rnic *device, uint64_t domain) {
    const uint64_t a[RNIC_C_ARGUMENTS] = {domain, 0, 0, 0, 0, 0, 0, 0, 0};
    uint64_t answer[RNIC_C_WORDS];
    rnic_call_alone(device, RNIC_TICK, a, answer);
    return rnic_refusal_of(answer);
}

/* What a domain's gauge reads as. Refused: 1. */
static inline struct rnic_gauge rnic_reading(const struct rnic *device, uint64_t domain) {
    const uint64_t a[RNIC_C_ARGUMENTS] = {domain, 0, 0, 0, 0, 0, 0, 0, 0};
    uint64_t answer[RNIC_C_WORDS];
    struct rnic_gauge gauge = {RNIC_REFUSAL_NONE, RNIC_REFUSED, 0, 0};
    rnic_call_alone((struct rnic *)device, RNIC_READING, a, answer);
    gauge.refusal = rnic_refusal_of(answer);
    gauge.kind = (enum rnic_answer)answer[0];
    if (answer[0] == RNIC_STEADY || answer[0] == RNIC_FALLING) {
        gauge.level = rnic_float(answer[1]);
    }
    if (answer[0] == RNIC_FALLING) {
        gauge.peak = rnic_float(answer[2]);
    }
    return gauge;
}

/* What a stream is, closed, open, or ended and by what, with the buffers and the reads that wait on it. Refused: 1. */
static inline struct rnic_stream rnic_state(const struct rnic *device, uint64_t stream) {
    const uint64_t a[RNIC_C_ARGUMENTS] = {stream, 0, 0, 0, 0, 0, 0, 0, 0};
    uint64_t answer[RNIC_C_WORDS];
    struct rnic_stream found = {RNIC_REFUSAL_NONE, RNIC_STREAM_CLOSED, 0, 0, RNIC_REFUSAL_NONE, 0, 0, 0};
    rnic_call_alone((struct rnic *)device, RNIC_STATE, a, answer);
    found.refusal = rnic_refusal_of(answer);
    if (answer[0] == RNIC_STATED) {
        found.state = (enum rnic_stream_state)answer[1];
        found.buffers = (uint32_t)answer[2];
        found.reads = (uint32_t)answer[3];
        found.ended = (enum rnic_refusal)answer[4];
        found.layer = (uint32_t)answer[5];
        found.etype = (uint32_t)answer[6];
        found.code = (uint32_t)answer[7];
    }
    return found;
}

/* Takes the first FPDU of bytes for a stream, as rnic_c_receive does. Refused: 1, 2, 3, 5, 16. */
static inline struct rnic_event rnic_receive(struct rnic *device, uint8_t *store, size_t store_length, uint64_t stream,
                                             const uint8_t *bytes, size_t bytes_length) {
    uint64_t answer[RNIC_C_WORDS];
    struct rnic_event event;
    rnic_c_receive(device, store, store_length, stream, bytes, bytes_length, answer);
    event = rnic_event_of(answer);
    event.taken = answer[0] == RNIC_WAIT ? 0 : event.total;
    return event;
}

/* Takes bytes that are cut anywhere for a stream, as rnic_c_offer does. Refused: 1, 2, 3, 5. */
static inline struct rnic_event rnic_offer(struct rnic *device, uint8_t *store, size_t store_length, uint8_t *rooms,
                                           size_t rooms_length, uint64_t stream, const uint8_t *bytes, size_t bytes_length) {
    uint64_t answer[RNIC_C_WORDS];
    struct rnic_event event;
    rnic_c_offer(device, store, store_length, rooms, rooms_length, stream, bytes, bytes_length, answer);
    event = rnic_event_of(answer);
    event.taken = (size_t)answer[RNIC_C_OFFER_TAKEN];
    return event;
}

/* Begins a Write, as rnic_c_message_write does. Refused: 1, 12. */
static inline enum rnic_refusal rnic_message_write(struct rnic_message *message, uint64_t limit, uint64_t stag, uint64_t to,
                                                   uint64_t length) {
    return (enum rnic_refusal)rnic_c_message_write(message, limit, stag, to, length);
}

/* Begins a Send, as rnic_c_message_send does. Refused: 1, 12. */
static inline enum rnic_refusal rnic_message_send(struct rnic_message *message, uint64_t limit, uint64_t opcode, uint64_t msn,
                                                  uint64_t stag, uint64_t length) {
    return (enum rnic_refusal)rnic_c_message_send(message, limit, opcode, msn, stag, length);
}

/* Writes the next segment of a message, as rnic_c_message_next does. Refused: 1, 13. */
static inline struct rnic_output rnic_message_next(struct rnic_message *message, const uint8_t *bytes, size_t bytes_length,
                                                   uint8_t *out, size_t out_length) {
    uint64_t answer[RNIC_C_WRITTEN_WORDS];
    rnic_c_message_next(message, bytes, bytes_length, out, out_length, answer);
    return rnic_output_of(answer);
}

/* Writes the FPDU of a ULPDU, as rnic_c_fpdu_write does. Refused: 12, 13. */
static inline struct rnic_output rnic_fpdu_write(const uint8_t *ulpdu, size_t ulpdu_length, uint8_t *out, size_t out_length) {
    uint64_t answer[RNIC_C_WRITTEN_WORDS];
    rnic_c_fpdu_write(ulpdu, ulpdu_length, out, out_length, answer);
    return rnic_output_of(answer);
}

/* What the reader of FPDUs found: a refusal, 20 or 21; or a number of bytes to wait for, else 0; or a whole FPDU, with its total and
 * where its ULPDU lies in the bytes. */
struct rnic_fpdu {
    enum rnic_refusal refusal;
    size_t wait;
    size_t total;
    size_t start;
    size_t length;
};

/* Reads the first FPDU of bytes, as rnic_c_fpdu_read does. Refused: 20, 21. */
static inline struct rnic_fpdu rnic_fpdu_read(int crc, const uint8_t *bytes, size_t bytes_length) {
    struct rnic_fpdu found = {RNIC_REFUSAL_NONE, 0, 0, 0, 0};
    uint64_t answer[RNIC_C_FPDU_WORDS];
    rnic_c_fpdu_read(crc != 0, bytes, bytes_length, answer);
    switch (answer[0]) {
    case RNIC_REFUSED:
        found.refusal = (enum rnic_refusal)answer[1];
        break;
    case RNIC_WAIT:
        found.wait = (size_t)answer[1];
        break;
    default:
        found.total = (size_t)answer[1];
        found.start = (size_t)answer[2];
        found.length = (size_t)answer[3];
        break;
    }
    return found;
}

/* Reads a startup frame, a request where reply is 0, as rnic_c_startup_read does. Where its kind is RNIC_STARTUP_REFUSED, its
 * total is the refusal: 14, 15. */
static inline struct rnic_startup rnic_startup_read(int reply, const uint8_t *bytes, size_t bytes_length) {
    struct rnic_startup found;
    rnic_c_startup_read(reply != 0, bytes, bytes_length, &found);
    return found;
}

/* Writes a startup frame, a request where reply is 0, as rnic_c_startup_write does. Refused: 1, 12, 13. */
static inline struct rnic_output rnic_startup_write(int reply, const struct rnic_startup *frame, const uint8_t *private_data,
                                                    size_t private_data_length, uint8_t *out, size_t out_length) {
    uint64_t answer[RNIC_C_WRITTEN_WORDS];
    rnic_c_startup_write(reply != 0, frame, private_data, private_data_length, out, out_length, answer);
    return rnic_output_of(answer);
}

/* Answers a request's terms, as rnic_c_agree_answer does. Refused: 1, 40, 41. */
static inline enum rnic_refusal rnic_agree_answer(const struct rnic_terms *own, const struct rnic_terms *request,
                                                  struct rnic_terms *reply, struct rnic_terms *kept) {
    return (enum rnic_refusal)rnic_c_agree_answer(own, request, reply, kept);
}

/* Settles an initiator's terms by a reply's, as rnic_c_agree_settle does. Refused: 1, 40, 41. */
static inline enum rnic_refusal rnic_agree_settle(const struct rnic_terms *own, const struct rnic_terms *reply,
                                                  struct rnic_terms *kept) {
    return (enum rnic_refusal)rnic_c_agree_settle(own, reply, kept);
}

#ifdef __cplusplus
}
#endif

#endif
