/* Checks rnic.h against the library: the words of a device, an answer of each call, and the functions without a device.
 * It writes `ok` and ends with 0, or says what differs and ends with 1. */
#include "rnic.h"

#include <stdio.h>
#include <string.h>

#define STORE 4096

static uint8_t store[STORE];
static int wrong;

static void expect(const char *what, const uint64_t *got, uint64_t kind, uint64_t first, uint64_t second) {
    if (got[0] != kind || got[1] != first || got[2] != second) {
        printf("%s: %llu %llu %llu\n", what, (unsigned long long)got[0], (unsigned long long)got[1],
               (unsigned long long)got[2]);
        wrong = 1;
    }
}

_Static_assert(sizeof(struct rnic) == 8 * RNIC_C_DEVICE_WORDS, "a device is its words");

/* Says what is wrong where some words are not all the same as one. */
static void expect_words(const char *what, const struct rnic *words, uint64_t word) {
    for (size_t i = 0; i < RNIC_C_DEVICE_WORDS; ++i) {
        if (words->words[i] != word) {
            printf("%s: word %zu is %llx\n", what, i, (unsigned long long)words->words[i]);
            wrong = 1;
            return;
        }
    }
}

/* Opens the middle one of three devices that are filled with a pattern, over a store of a length: the others stay. */
static void open_between(struct rnic three[3], int pattern, uint64_t length, uint64_t kind, uint64_t first) {
    uint64_t a[RNIC_C_ARGUMENTS] = {length, 0, 1024, 1024, 2048, 2048, 3072, 3072, STORE};
    uint64_t answer[RNIC_C_WORDS], word;
    memset(three, pattern, 3 * sizeof three[0]);
    memset(&word, pattern, sizeof word);
    rnic_c_call(&three[1], store, STORE, RNIC_OPEN, a, store, 0, answer);
    expect("open", answer, kind, first, 0);
    expect_words("before the device that was opened", &three[0], word);
    expect_words("behind the device that was opened", &three[2], word);
}

/* An opening makes every word of a device anew, whatever it held, and a refused one leaves zeros. */
static void check_words(void) {
    static struct rnic one[3], other[3];
    open_between(one, 0xA5, STORE, RNIC_DONE, 0);
    open_between(other, 0x5A, STORE, RNIC_DONE, 0);
    if (memcmp(&one[1], &other[1], sizeof one[1]) != 0) {
        puts("two devices that were opened in the same way have other words");
        wrong = 1;
    }
    open_between(one, 0xA5, 0, RNIC_REFUSED, 1);
    expect_words("a refused opening", &one[1], 0);
}

static struct rnic device;

static void call(const char *what, uint64_t number, uint64_t a0, uint64_t a1, uint64_t a2, uint64_t a3, uint64_t a4,
                 uint64_t a5, uint64_t kind, uint64_t first, uint64_t second) {
    uint64_t a[RNIC_C_ARGUMENTS] = {a0, a1, a2, a3, a4, a5, 0, 0, 0};
    uint64_t answer[RNIC_C_WORDS];
    rnic_c_call(&device, store, STORE, number, a, store, 0, answer);
    expect(what, answer, kind, first, second);
}

static uint8_t rooms[RNIC_C_ROOMS + 1];

_Static_assert(RNIC_C_ROOMS == 16 * RNIC_C_ROOM, "a room for each stream");

/* Offers bytes to stream 0 of the middle one of three devices: the others stay. */
static void offer(const char *what, struct rnic three[3], const uint8_t *bytes, size_t length, uint64_t kind,
                  uint64_t total, uint64_t taken) {
    uint64_t answer[RNIC_C_WORDS];
    memset(&three[0], 0xA5, sizeof three[0]);
    memset(&three[2], 0xA5, sizeof three[2]);
    rnic_c_offer(&three[1], store, STORE, rooms, RNIC_C_ROOMS, 0, bytes, length, answer);
    expect(what, answer, kind, total, 0);
    if (answer[RNIC_C_OFFER_TAKEN] != taken) {
        printf("%s: %llu taken\n", what, (unsigned long long)answer[RNIC_C_OFFER_TAKEN]);
        wrong = 1;
    }
    expect_words("before the device that was offered bytes", &three[0], 0xA5A5A5A5A5A5A5A5);
    expect_words("behind the device that was offered bytes", &three[2], 0xA5A5A5A5A5A5A5A5);
}

/* Says what is wrong where stream 0 of a device does not hold so many bytes, or not these. */
static void expect_held(const struct rnic *held, const uint8_t *bytes, uint32_t count) {
    if (rnic_c_held(held, 0) != count || memcmp(rooms, bytes, count) != 0) {
        printf("held: %u\n", (unsigned)rnic_c_held(held, 0));
        wrong = 1;
    }
}

/* Says what is wrong where a byte behind the first room is not as it was at first. */
static void expect_rooms(void) {
    for (size_t i = RNIC_C_ROOM; i < sizeof rooms; ++i) {
        if (rooms[i] != 0x5A) {
            printf("offer: byte %zu of the rooms\n", i);
            wrong = 1;
            return;
        }
    }
}

/* The same Write as below in three pieces, the last with the front of the next: on a copy of the device. */
static void check_offer(void) {
    static struct rnic three[3], received;
    const uint8_t f[] = {0, 18, 0xC1, 0x40, 0, 0, 0, 7, 0, 0, 0, 0, 0, 0, 0, 8, 'o', 'f', 'e', 'r', 0, 0, 0, 0, 0, 18};
    uint64_t a[RNIC_C_ARGUMENTS] = {0}, answer[RNIC_C_WORDS];
    memset(rooms, 0x5A, sizeof rooms);
    three[1] = device;
    offer("offer of nothing", three, f, 0, RNIC_KEPT, 0, 0);
    offer("offer of a byte", three, f, 1, RNIC_KEPT, 0, 1);
    offer("offer of more", three, f + 1, 18, RNIC_KEPT, 0, 18);
    expect_held(&three[1], f, 19);
    rnic_c_receive(&three[1], store, STORE, 0, f, sizeof f, answer);
    expect("receive while bytes are held", answer, RNIC_REFUSED, 16, 0);
    rnic_c_call(&three[1], store, STORE, RNIC_RECEIVE, a, f, sizeof f, answer);
    expect("receive by its number while bytes are held", answer, RNIC_REFUSED, 16, 0);
    rnic_c_offer(&three[1], store, STORE, rooms, RNIC_C_ROOMS + 1, 0, f, sizeof f, answer);
    expect("offer with other rooms", answer, RNIC_REFUSED, 2, 0);
    rnic_c_offer(&three[1], store, STORE, rooms, RNIC_C_ROOMS, 16, f, sizeof f, answer);
    expect("offer to no stream", answer, RNIC_REFUSED, 1, 0);
    offer("offer of the rest", three, f + 19, 7, RNIC_TAKEN, 24, 5);
    expect_held(&three[1], f, 0);
    if (memcmp(store + 108, "ofer", 4) != 0) {
        puts("offer: the payload is not in its place");
        wrong = 1;
    }
    received = device;
    rnic_c_receive(&received, store, STORE, 0, f, 24, answer);
    if (memcmp(&three[1], &received, sizeof received) != 0) {
        puts("offer: the device is another than after the same bytes received");
        wrong = 1;
    }
    offer("offer of what is left", three, f + 24, 2, RNIC_KEPT, 0, 2);
    expect_held(&three[1], f, 2);
    if (rnic_c_held(&three[1], 1) != 0 || rnic_c_held(&three[1], 16) != 0) {
        puts("held: another stream's bytes");
        wrong = 1;
    }
    rnic_c_call(&three[1], store, STORE, RNIC_CLOSE_STREAM, a, f, 0, answer);
    expect("close_stream, which empties", answer, RNIC_CLOSED, 1, 0);
    expect_held(&three[1], f, 0);
    expect_rooms();
}

/* A Write of four bytes to TO 8 of the window with STag 7, the CRC off: to stream 0 by each of the two entries of receive. */
static void check_write(void) {
    uint8_t f[] = {0, 18, 0xC1, 0x40, 0, 0, 0, 7, 0, 0, 0, 0, 0, 0, 0, 8, 'a', 'b', 'c', 'd', 0, 0, 0, 0};
    uint64_t a[RNIC_C_ARGUMENTS] = {0}, answer[RNIC_C_WORDS];
    rnic_c_receive(&device, store, STORE, 0, f, sizeof f, answer);
    expect("receive", answer, RNIC_TAKEN, sizeof f, 0);
    if (memcmp(store + 108, "abcd", 4) != 0) {
        puts("receive: the payload is not in its place");
        wrong = 1;
    }
    f[16] = 'x';
    rnic_c_call(&device, store, STORE, RNIC_RECEIVE, a, f, sizeof f, answer);
    expect("receive by its number", answer, RNIC_TAKEN, sizeof f, 0);
    if (memcmp(store + 108, "xbcd", 4) != 0) {
        puts("receive by its number: the payload is not in its place");
        wrong = 1;
    }
    rnic_c_receive(&device, store, STORE, 0, f, 5, answer);
    expect("receive of a part", answer, RNIC_WAIT, 24, 0);
    rnic_c_receive(&device, store, STORE - 1, 0, f, sizeof f, answer);
    expect("receive with another store", answer, RNIC_REFUSED, 2, 0);
    f[2] = 0xC0;
    rnic_c_receive(&device, store, STORE, 0, f, sizeof f, answer);
    expect("receive of a bad version", answer, RNIC_ENDED, 23, 1);
}

/* The gauge of domain 0, for which Writes placed eight bytes: a first sample of 8, and then of 0. */
static void check_gauge(void) {
    const uint64_t eight = 0x4020000000000000, below = 0x400CB91000000000; /* 8, and 8 * (7 / 8)^6 */
    call("reading before a tick", RNIC_READING, 0, 0, 0, 0, 0, 0, RNIC_QUIET, 0, 0);
    call("tick", RNIC_TICK, 0, 0, 0, 0, 0, 0, RNIC_DONE, 0, 0);
    call("reading", RNIC_READING, 0, 0, 0, 0, 0, 0, RNIC_STEADY, eight, 0);
    for (int i = 0; i < 6; ++i) {
        call("tick with nothing placed", RNIC_TICK, 0, 0, 0, 0, 0, 0, RNIC_DONE, 0, 0);
    }
    call("reading under half the peak", RNIC_READING, 0, 0, 0, 0, 0, 0, RNIC_FALLING, below, eight);
    call("reading of another domain", RNIC_READING, 1, 0, 0, 0, 0, 0, RNIC_QUIET, 0, 0);
    call("tick of no domain", RNIC_TICK, 4, 0, 0, 0, 0, 0, RNIC_REFUSED, 1, 0);
    call("reading of no domain", RNIC_READING, 4, 0, 0, 0, 0, 0, RNIC_REFUSED, 1, 0);
}

/* The check value, whole, and cut at each place: carried on, and joined. */
static void check_crc(void) {
    const uint8_t *bytes = (const uint8_t *)"123456789";
    if (rnic_c_crc32c(bytes, 9) != 0xE3069283) {
        puts("crc32c: not the check value");
        wrong = 1;
    }
    for (size_t cut = 0; cut <= 9; ++cut) {
        uint32_t running = rnic_c_crc32c_update(0xFFFFFFFF, bytes, cut);
        uint32_t first = rnic_c_crc32c(bytes, cut), second = rnic_c_crc32c(bytes + cut, 9 - cut);
        if (~rnic_c_crc32c_update(running, bytes + cut, 9 - cut) != 0xE3069283) {
            printf("crc32c_update: not the check value, cut at %zu\n", cut);
            wrong = 1;
        }
        if (rnic_c_crc32c_join(first, second, (uint32_t)(9 - cut)) != 0xE3069283) {
            printf("crc32c_join: not the check value, cut at %zu\n", cut);
            wrong = 1;
        }
    }
}

_Static_assert(sizeof(struct rnic_message) == 8 * RNIC_C_MESSAGE_WORDS, "a message is its words");

/* Says what is wrong where a number is not the one expected. */
static void expect_number(const char *what, uint64_t got, uint64_t number) {
    if (got != number) {
        printf("%s: %llu\n", what, (unsigned long long)got);
        wrong = 1;
    }
}

/* Asks for the next segment, in so much room. */
static void next(const char *what, struct rnic_message *message, const uint8_t *bytes, size_t length, uint8_t *out,
                 size_t room, uint64_t kind, uint64_t first) {
    uint64_t answer[RNIC_C_WRITTEN_WORDS];
    rnic_c_message_next(message, bytes, length, out, room, answer);
    expect_number(what, answer[0], kind);
    expect_number(what, answer[1], first);
}

/* A Send of 2,048 bytes at 1,500: 1,482 and 566. Refusals leave the message before, and the output as it is. */
static void check_message(void) {
    static uint8_t bytes[2048], out[2048], longest[8192], frame[RNIC_C_ROOM];
    struct rnic_message three[3], *message = &three[1], kept;
    uint64_t answer[RNIC_C_WRITTEN_WORDS];
    memset(three, 0xA5, sizeof three);
    memset(bytes, 'm', sizeof bytes);
    memset(out, 0xA5, sizeof out);
    expect_number("message_send", rnic_c_message_send(message, 1500, 3, 1, ~0ull, sizeof bytes), 0);
    if (three[0].words[8] != three[2].words[0] || three[0].words[8] != 0xA5A5A5A5A5A5A5A5) {
        puts("message_send: words beside the message");
        wrong = 1;
    }
    kept = *message;
    expect_number("message_send, opcode", rnic_c_message_send(message, 1500, 7, 1, 0, 5), 1);
    expect_number("message_write, limit", rnic_c_message_write(message, 18, 0, 0, 5), 1);
    expect_number("message_write, end", rnic_c_message_write(message, 40, 0, ~0ull, 2), 1);
    expect_number("message_write, above", rnic_c_message_write(message, 8193, 0, 0, 5), 12);
    next("message_next, length", message, bytes, 2047, out, sizeof out, RNIC_NOT_WRITTEN, 1);
    next("message_next, room", message, bytes, 2048, out, 1499, RNIC_NOT_WRITTEN, 13);
    if (memcmp(&kept, message, sizeof kept) != 0 || out[0] != 0xA5) {
        puts("a refusal changed the message or the output");
        wrong = 1;
    }
    next("message_next", message, bytes, 2048, out, 1500, RNIC_WROTE, 1500);
    rnic_c_fpdu_write(out, 1500, frame, sizeof frame, answer);
    expect_number("fpdu_write", answer[0], RNIC_WROTE);
    expect_number("fpdu_write, length", answer[1], 1508);
    if (out[0] != 0x01 || out[1] != 0x43 || out[5] != 0 || out[13] != 1 || out[1499] != 'm' || out[1500] != 0xA5) {
        puts("message_next: not the segment");
        wrong = 1;
    }
    next("message_next, last", message, bytes, 2048, out, 584, RNIC_WROTE, 584);
    if (out[0] != 0x41 || out[16] != 1482 / 256 || out[17] != 1482 % 256) {
        puts("message_next: not the last segment");
        wrong = 1;
    }
    next("message_next, after", message, bytes, 2048, out, 0, RNIC_NO_MORE, 0);
    rnic_c_fpdu_write(frame, sizeof longest + 1, out, 0, answer);
    expect_number("fpdu_write, too long", answer[1], 12);
    rnic_c_fpdu_write(longest, sizeof longest, frame, sizeof frame - 1, answer);
    expect_number("fpdu_write, room", answer[1], 13);
    rnic_c_fpdu_write(longest, sizeof longest, frame, sizeof frame, answer);
    expect_number("fpdu_write, the longest", answer[0], RNIC_WROTE);
    expect_number("fpdu_write, the longest one's length", answer[1], RNIC_C_ROOM);
    expect_number("message_write", rnic_c_message_write(message, 19, 7, 8, 0), 0);
    next("message_next, empty", message, bytes, 0, out, 14, RNIC_WROTE, 14);
    expect_number("message_next, empty", out[0], 0xC1);
}

_Static_assert(sizeof(struct rnic_terms) == 8 * 4, "terms are their words");
_Static_assert(sizeof(struct rnic_startup) == 8 * 9, "a startup frame is its words");
_Static_assert(offsetof(struct rnic_startup, terms) == 8 * 5, "the terms stand behind five words");

/* Says what is wrong where terms are not those expected. */
static void expect_terms(const char *what, struct rnic_terms got, uint64_t peer, uint64_t ird, uint64_t ord,
                         uint64_t kinds) {
    if (got.peer != peer || got.ird != ird || got.ord != ord || got.kinds != kinds) {
        printf("%s: %llu %llu %llu %llu\n", what, (unsigned long long)got.peer, (unsigned long long)got.ird,
               (unsigned long long)got.ord, (unsigned long long)got.kinds);
        wrong = 1;
    }
}

/* Writes a startup frame with three bytes of private data into so much room. */
static void write_startup(const char *what, uint64_t reply, const struct rnic_startup *frame, uint8_t *out, size_t room,
                          uint64_t kind, uint64_t first) {
    uint64_t answer[RNIC_C_WRITTEN_WORDS];
    rnic_c_startup_write(reply, frame, (const uint8_t *)"abc", 3, out, room, answer);
    expect_number(what, answer[0], kind);
    expect_number(what, answer[1], first);
}

/* Reads a startup frame into the middle one of three, all words set before: the others stay. */
static struct rnic_startup read_startup(const char *what, uint64_t reply, const uint8_t *bytes, size_t length,
                                        uint64_t kind, uint64_t total, uint64_t start) {
    struct rnic_startup three[3];
    memset(three, 0xA5, sizeof three);
    rnic_c_startup_read(reply, bytes, length, &three[1]);
    expect_number(what, three[1].kind, kind);
    expect_number(what, three[1].total, total);
    expect_number(what, three[1].start, start);
    expect_number(what, three[0].terms.kinds, 0xA5A5A5A5A5A5A5A5);
    expect_number(what, three[2].kind, 0xA5A5A5A5A5A5A5A5);
    return three[1];
}

/* A frame of each kind is written, read, and written from what was read: the same bytes, and none behind them. */
static void check_frames(void) {
    const uint64_t totals[] = {0, 23, 23, 27}, starts[] = {0, 20, 20, 24}, kinds = RNIC_KIND_SEND | RNIC_KIND_READ;
    for (uint64_t kind = RNIC_STARTUP_FIRST; kind <= RNIC_STARTUP_ENHANCED; ++kind) {
        struct rnic_startup frame = {kind, ~0ull, ~0ull, 7, 7, {9, 0x123, RNIC_DEPTH_UNSAID, kinds}};
        struct rnic_startup read;
        uint8_t out[40], again[40];
        size_t total = totals[kind];
        memset(out, 0xA5, sizeof out);
        memset(again, 0xA5, sizeof again);
        write_startup("startup_write, room", 1, &frame, out, total - 1, RNIC_NOT_WRITTEN, 13);
        write_startup("startup_write, a request declined", 0, &frame, out, sizeof out, RNIC_NOT_WRITTEN, 1);
        expect_number("startup_write, refused", out[0], 0xA5);
        write_startup("startup_write", 1, &frame, out, sizeof out, RNIC_WROTE, total);
        expect_number("startup_write, revision", out[17], kind == RNIC_STARTUP_FIRST ? 1 : 2);
        expect_number("startup_write, flags", out[16], kind == RNIC_STARTUP_ENHANCED ? 0x70 : 0x60);
        expect_number("startup_write, behind", out[total], 0xA5);
        read = read_startup("startup_read", ~0ull, out, sizeof out, kind, total, starts[kind]);
        expect_number("startup_read, C", read.crc, 1);
        expect_number("startup_read, R", read.declined, 1);
        if (kind == RNIC_STARTUP_ENHANCED) {
            expect_terms("startup_read, terms", read.terms, 1, 0x123, RNIC_DEPTH_UNSAID, kinds);
        } else {
            expect_terms("startup_read, no terms", read.terms, 0, 0, 0, 0);
        }
        write_startup("startup_write, again", 1, &read, again, sizeof again, RNIC_WROTE, total);
        if (memcmp(out, again, sizeof out) != 0 || memcmp(out + read.start, "abc", 3) != 0) {
            puts("startup: what was read is written as other bytes");
            wrong = 1;
        }
        read_startup("startup_read, of nothing", 1, out, 0, RNIC_STARTUP_WAIT, 20, 0);
        read = read_startup("startup_read, of a part", 1, out, total - 1, RNIC_STARTUP_WAIT, total, 0);
        expect_terms("startup_read, of a part", read.terms, 0, 0, 0, 0);
        read_startup("startup_read, as a request", 0, out, total, RNIC_STARTUP_REFUSED, 14, 0);
        out[16] |= 0x80;
        read_startup("startup_read, markers", 1, out, total, RNIC_STARTUP_REFUSED, 15, 0);
    }
}

/* What a writer of startup frames refuses besides: a kind that is no frame's, numbers over their fields, and too many bytes. */
static void check_frames_refused(void) {
    static uint8_t longest[513], out[533];
    struct rnic_startup frame = {0, 0, 0, 0, 0, {0, 0, 0, 0}};
    uint64_t answer[RNIC_C_WRITTEN_WORDS];
    write_startup("startup_write, kind", 0, &frame, out, sizeof out, RNIC_NOT_WRITTEN, 1);
    frame.kind = RNIC_STARTUP_WAIT;
    write_startup("startup_write, kind", 0, &frame, out, sizeof out, RNIC_NOT_WRITTEN, 1);
    frame.kind = RNIC_STARTUP_ENHANCED;
    frame.terms.ird = RNIC_DEPTH_UNSAID + 1;
    write_startup("startup_write, IRD", 0, &frame, out, sizeof out, RNIC_NOT_WRITTEN, 1);
    frame.terms.ird = 0;
    frame.terms.kinds = 8;
    write_startup("startup_write, kinds", 0, &frame, out, sizeof out, RNIC_NOT_WRITTEN, 1);
    frame.terms.kinds = 0;
    rnic_c_startup_write(0, &frame, longest, 509, out, sizeof out, answer);
    expect_number("startup_write, too long", answer[1], 12);
    rnic_c_startup_write(0, &frame, longest, 508, out, sizeof out, answer);
    expect_number("startup_write, the longest", answer[1], 532);
    out[19] = 3;
    out[18] = 0;
    read_startup("startup_read, no room for the terms", 0, out, sizeof out, RNIC_STARTUP_REFUSED, 14, 0);
}

/* A responder and an initiator: siw's request of perftest's reads, one of the peer-to-peer model, and the refusals. */
static void check_agree(void) {
    const struct rnic_terms reads = {0, 128, 128, 0}, peer = {1, 1, 1, RNIC_KIND_WRITE | RNIC_KIND_READ};
    const struct rnic_terms unsaid = {0, RNIC_DEPTH_UNSAID, RNIC_DEPTH_UNSAID, 0};
    struct rnic_terms own = {0, 127, 8, 7}, reply = {5, 5, 5, 5}, kept = {6, 6, 6, 6};
    expect_number("agree_answer, IRD", rnic_c_agree_answer(&own, &reads, &reply, &kept), 40);
    own.kinds = RNIC_KIND_SEND;
    expect_number("agree_answer, kind", rnic_c_agree_answer(&own, &peer, &reply, &kept), 41);
    own.kinds = 8;
    expect_number("agree_answer, kinds", rnic_c_agree_answer(&own, &peer, &reply, &kept), 1);
    expect_terms("agree_answer, refused", reply, 5, 5, 5, 5);
    expect_terms("agree_answer, refused", kept, 6, 6, 6, 6);
    own.kinds = 7;
    expect_number("agree_answer", rnic_c_agree_answer(&own, &peer, &reply, &kept), 0);
    expect_terms("agree_answer, the reply", reply, 1, 127, 1, RNIC_KIND_WRITE);
    expect_terms("agree_answer, kept", kept, 1, 127, 1, RNIC_KIND_WRITE);
    expect_number("agree_settle", rnic_c_agree_settle(&peer, &reply, &kept), 0);
    expect_terms("agree_settle, kept", kept, 1, 1, 1, RNIC_KIND_WRITE);
    own.ird = 128;
    expect_number("agree_answer, depths", rnic_c_agree_answer(&own, &reads, &reply, &kept), 0);
    expect_terms("agree_answer, the reply's depths", reply, 0, 128, 8, 0);
    expect_number("agree_answer, not negotiated", rnic_c_agree_answer(&own, &unsaid, &reply, &kept), 0);
    expect_terms("agree_answer, the reply unsaid", reply, 0, RNIC_DEPTH_UNSAID, RNIC_DEPTH_UNSAID, 0);
    expect_terms("agree_answer, kept of our own", kept, 0, 128, 8, 0);
    own.ird = 7;
    expect_number("agree_settle, IRD", rnic_c_agree_settle(&own, &reads, &kept), 40);
    expect_number("agree_settle, kind", rnic_c_agree_settle(&peer, &unsaid, &kept), 41);
    own.ord = RNIC_DEPTH_UNSAID + 1;
    expect_number("agree_settle, ORD", rnic_c_agree_settle(&own, &unsaid, &kept), 1);
    expect_terms("agree_settle, refused", kept, 0, 128, 8, 0);
}

int main(void) {
    uint64_t a[RNIC_C_ARGUMENTS] = {STORE, 0, 1024, 1024, 2048, 2048, 3072, 3072, STORE}, answer[RNIC_C_WORDS];
    check_words();
    if (wrong) {
        return 1; /* what follows would write past a device that is too small */
    }
    rnic_c_call(&device, store, STORE, RNIC_OPEN, a, store, 0, answer);
    expect("open", answer, RNIC_DONE, 0, 0);
    call("open_stream", RNIC_OPEN_STREAM, 0, 0, 0, 0, 0, 0, RNIC_DONE, 0, 0);
    call("open_stream again", RNIC_OPEN_STREAM, 0, 0, 0, 0, 0, 0, RNIC_REFUSED, 4, 0);
    call("register", RNIC_REGISTER, 0, 7, 0, 256, 100, 3, RNIC_DONE, 0, 0);
    call("live_count", RNIC_LIVE_COUNT, 0, 0, 0, 0, 0, 0, RNIC_COUNTED, 1, 0);
    call("lowest_free", RNIC_LOWEST_FREE, 0, 0, 0, 0, 0, 0, RNIC_COUNTED, 1, 0);
    call("post", RNIC_POST, 0, 512, 64, 0, 0, 0, RNIC_DONE, 0, 0);
    call("register over a buffer", RNIC_REGISTER, 1, 7, 0, 1, 575, 1, RNIC_REFUSED, 19, 0);
    call("post over a window", RNIC_POST, 0, 355, 1, 0, 0, 0, RNIC_REFUSED, 19, 0);
    call("take", RNIC_TAKE, 0, 0, 0, 0, 0, 0, RNIC_REFUSED, 11, 0);
    call("state with a buffer", RNIC_STATE, 0, 0, 0, 0, 0, 0, RNIC_STATED, RNIC_STREAM_OPEN, 1);
    check_offer();
    check_write();
    check_gauge();
    call("drop_window", RNIC_DROP_WINDOW, 0, 0, 0, 0, 0, 0, RNIC_DONE, 0, 0);
    call("close_stream", RNIC_CLOSE_STREAM, 0, 0, 0, 0, 0, 0, RNIC_CLOSED, 1, 0);
    check_crc();
    check_message();
    check_frames();
    check_frames_refused();
    check_agree();
    call("state", RNIC_STATE, 0, 0, 0, 0, 0, 0, RNIC_STATED, RNIC_STREAM_CLOSED, 0);
    call("state of no stream", RNIC_STATE, 16, 0, 0, 0, 0, 0, RNIC_REFUSED, 1, 0);
    call("no call", 13, 0, 0, 0, 0, 0, 0, RNIC_REFUSED, 1, 0);
    if (!wrong) {
        puts("ok");
    }
    return wrong;
}
