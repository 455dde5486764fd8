/* Checks the typed functions of rnic.h against the library: each is called, accepted and refused, and beside it the call by number
 * on a copy of the device, which must then be the same. It is C99, C11 and C++.
 * It writes `ok` and ends with 0, or says what differs and ends with 1. */
#include "rnic.h"

#include <stdio.h>
#include <string.h>

#define STORE 4096

static uint8_t store[STORE], rooms[RNIC_C_ROOMS];
static struct rnic device, copy;
static int wrong;

/* Says what is wrong where a number is not the one expected. */
static void expect(const char *what, uint64_t got, uint64_t number) {
    if (got != number) {
        printf("%s: %llu, not %llu\n", what, (unsigned long long)got, (unsigned long long)number);
        wrong = 1;
    }
}

/* Says what is wrong where a stream's state is not the one expected: with what waits, and what ended it. */
static void expect_state(const char *what, uint64_t stream, enum rnic_stream_state state, uint32_t buffers, uint32_t reads,
                         enum rnic_refusal ended) {
    struct rnic_stream found = rnic_state(&device, stream);
    expect(what, found.refusal, RNIC_REFUSAL_NONE);
    expect(what, found.state, state);
    expect(what, found.buffers, buffers);
    expect(what, found.reads, reads);
    expect(what, found.ended, ended);
}

/* Makes a call by its number on the copy. */
static void by_number(uint64_t number, uint64_t a0, uint64_t a1, uint64_t a2, uint64_t a3, uint64_t a4, uint64_t a5) {
    uint64_t a[RNIC_C_ARGUMENTS] = {0, 0, 0, 0, 0, 0, 0, 0, 0}, answer[RNIC_C_WORDS];
    a[0] = a0;
    a[1] = a1;
    a[2] = a2;
    a[3] = a3;
    a[4] = a4;
    a[5] = a5;
    rnic_c_call(&copy, store, 0, number, a, store, 0, answer);
}

/* Says what is wrong where the device and its copy, which had the same calls by number, are not the same. */
static void expect_same(const char *what) {
    if (memcmp(&device, &copy, sizeof device) != 0) {
        printf("%s: another device than by number\n", what);
        wrong = 1;
        copy = device;
    }
}

/* Writes the FPDU of an untagged message in one segment, to be received with the CRC off or on, and gives its length. */
static size_t untagged(uint8_t opcode, uint8_t queue, uint8_t number, const uint8_t *payload, size_t length, uint8_t *frame) {
    uint8_t ulpdu[128] = {0x41, 0, 0, 0, 0, 0, 0, 0, 0, 0, 0, 0, 0, 0, 0, 0, 0, 0};
    ulpdu[1] = (uint8_t)(0x40 | opcode);
    ulpdu[9] = queue;
    ulpdu[13] = number;
    memcpy(ulpdu + 18, payload, length);
    return rnic_fpdu_write(ulpdu, 18 + length, frame, RNIC_MAX_FPDU).length;
}

/* An FPDU that was written is read, cut short, damaged, and too long. */
static void check_fpdu(void) {
    uint8_t bytes[RNIC_MAX_FPDU];
    const uint8_t ulpdu[5] = {1, 2, 3, 4, 5};
    struct rnic_fpdu found;
    size_t total = (size_t)rnic_fpdu_write(ulpdu, sizeof ulpdu, bytes, sizeof bytes).length;
    expect("fpdu", total, 12);
    found = rnic_fpdu_read(1, bytes, total);
    expect("fpdu, read", found.refusal, RNIC_REFUSAL_NONE);
    expect("fpdu, total", found.total, total);
    expect("fpdu, start", found.start, 2);
    expect("fpdu, length", found.length, sizeof ulpdu);
    expect("fpdu, no wait", found.wait, 0);
    expect("fpdu, bytes", (uint64_t)memcmp(bytes + found.start, ulpdu, sizeof ulpdu), 0);
    expect("fpdu, wait", rnic_fpdu_read(1, bytes, total - 1).wait, total);
    expect("fpdu, wait 2", rnic_fpdu_read(1, bytes, 1).wait, 2);
    bytes[3] ^= 1;
    expect("fpdu, CRC", rnic_fpdu_read(1, bytes, total).refusal, RNIC_REFUSAL_CRC_ERROR);
    expect("fpdu, CRC off", rnic_fpdu_read(0, bytes, total).total, total);
    bytes[0] = 0x20;
    bytes[1] = 0x01;
    expect("fpdu, over", rnic_fpdu_read(0, bytes, total).refusal, RNIC_REFUSAL_ULPDU_TOO_LONG);
}

/* A refused opening leaves the empty device, and so does one whose parts are out of order; then it is opened. */
static void check_open(void) {
    struct rnic_part parts[RNIC_DOMAINS] = {{0, 1024}, {1024, 2048}, {2048, 3072}, {3072, STORE}};
    const uint64_t a[RNIC_C_ARGUMENTS] = {STORE, 0, 1024, 1024, 2048, 2048, 3072, 3072, STORE};
    uint64_t answer[RNIC_C_WORDS];
    memset(&device, 0xA5, sizeof device);
    memset(&copy, 0, sizeof copy);
    expect("open, length", rnic_open(&device, 0, parts), RNIC_REFUSAL_OUT_OF_RANGE);
    expect_same("open, refused");
    parts[1].start = 1023;
    memset(&device, 0xA5, sizeof device);
    expect("open, parts", rnic_open(&device, STORE, parts), RNIC_REFUSAL_BAD_PLACE);
    expect_same("open, refused for its parts");
    parts[1].start = 1024;
    expect("open", rnic_open(&device, STORE, parts), RNIC_REFUSAL_NONE);
    rnic_c_call(&copy, store, 0, RNIC_OPEN, a, store, 0, answer);
    expect_same("open");
}

/* Streams, windows and buffers. */
static void check_calls(void) {
    struct rnic_window window = {5, 4096, 4, 1024, RNIC_RIGHT_WRITE | RNIC_RIGHT_READ};
    expect("open_stream", rnic_open_stream(&device, 4, 1), RNIC_REFUSAL_NONE);
    by_number(RNIC_OPEN_STREAM, 4, 1, 0, 0, 0, 0);
    expect_same("open_stream");
    expect("open_stream again", rnic_open_stream(&device, 4, 1), RNIC_REFUSAL_ALREADY_OPEN);
    expect("open_stream, number", rnic_open_stream(&device, RNIC_STREAMS, 1), RNIC_REFUSAL_OUT_OF_RANGE);
    expect("register", rnic_register(&device, 17, &window), RNIC_REFUSAL_NONE);
    by_number(RNIC_REGISTER, 17, 5, 4096, 4, 1024, 3);
    expect_same("register");
    expect("register again", rnic_register(&device, 17, &window), RNIC_REFUSAL_WINDOW_LIVE);
    expect("register over it", rnic_register(&device, 18, &window), RNIC_REFUSAL_SHARED_BYTE);
    window.key = 256;
    expect("register, key", rnic_register(&device, 18, &window), RNIC_REFUSAL_OUT_OF_RANGE);
    expect("stag", rnic_stag(17, 5), 0x1105);
    expect("post", rnic_post(&device, 4, 1100, 5), RNIC_REFUSAL_NONE);
    by_number(RNIC_POST, 4, 1100, 5, 0, 0, 0);
    expect_same("post");
    expect_state("state with a buffer", 4, RNIC_STREAM_OPEN, 1, 0, RNIC_REFUSAL_NONE);
    expect_state("state of a closed stream", 5, RNIC_STREAM_CLOSED, 0, 0, RNIC_REFUSAL_NONE);
    expect("state of no stream", rnic_state(&device, RNIC_STREAMS).refusal, RNIC_REFUSAL_OUT_OF_RANGE);
    expect("post, place", rnic_post(&device, 4, 1023, 5), RNIC_REFUSAL_BAD_PLACE);
    expect("post, stream", rnic_post(&device, 5, 1200, 5), RNIC_REFUSAL_NOT_OPEN);
    expect("live_count", rnic_live_count(&device, 1).count, 1);
    expect("live_count of another", rnic_live_count(&device, 0).count, 0);
    expect("live_count, refused", rnic_live_count(&device, 4).refusal, RNIC_REFUSAL_OUT_OF_RANGE);
    expect("lowest_free", rnic_lowest_free(&device, 1).count, 0);
    expect("lowest_free, accepted", rnic_lowest_free(&device, 1).refusal, RNIC_REFUSAL_NONE);
    expect("lowest_free, refused", rnic_lowest_free(&device, 4).refusal, RNIC_REFUSAL_OUT_OF_RANGE);
    expect_same("questions and refusals");
}

/* A Write by a message of the library's own, received whole, in part, and wrong. */
static void check_receive(void) {
    const uint8_t payload[4] = {0xDE, 0xAD, 0xBE, 0xEF};
    uint8_t ulpdu[64], frame[RNIC_MAX_FPDU];
    struct rnic_message message;
    struct rnic_output output;
    struct rnic_event event;
    expect("message_write", rnic_message_write(&message, RNIC_MAX_ULPDU, rnic_stag(17, 5), 4096, sizeof payload), 0);
    output = rnic_message_next(&message, payload, sizeof payload, ulpdu, sizeof ulpdu);
    output = rnic_fpdu_write(ulpdu, output.length, frame, sizeof frame);
    expect("the FPDU's length", output.length, 24);
    event = rnic_receive(&device, store, STORE, 4, frame, 1);
    expect("receive of a byte", event.kind, RNIC_WAIT);
    expect("receive of a byte, total", event.total, 2);
    event = rnic_receive(&device, store, STORE, 4, frame, 23);
    expect("receive of a part", event.kind, RNIC_WAIT);
    expect("receive of a part, total", event.total, 24);
    expect("receive of a part, taken", event.taken, 0);
    event = rnic_receive(&device, store, STORE, 4, frame, 24);
    expect("receive", event.kind, RNIC_TAKEN);
    expect("receive, refusal", event.refusal, RNIC_REFUSAL_NONE);
    expect("receive, total", event.total, 24);
    expect("receive, taken", event.taken, 24);
    expect("the store", memcmp(store + 1024, payload, sizeof payload) == 0, 1);
    event = rnic_receive(&device, store, STORE - 1, 4, frame, 24);
    expect("receive with another store", event.kind, RNIC_REFUSED);
    expect("receive with another store, refusal", event.refusal, RNIC_REFUSAL_OTHER_LENGTH);
    expect("receive with another store, taken", event.taken, 0);
}

/* Sends with and without Invalidate, in pieces, and a Read Request, which is to be taken. */
static void check_messages(void) {
    uint8_t request[28] = {0, 0, 0, 7, 0, 0, 0, 0, 0, 0, 0, 8, 0, 0, 0, 4, 0, 0, 0x11, 5, 0, 0, 0, 0, 0, 0, 0x10, 0};
    uint8_t frame[RNIC_MAX_FPDU];
    struct rnic_event event;
    struct rnic_read_request read;
    size_t total = untagged(1, 1, 1, request, sizeof request, frame);
    read = rnic_take(&device, 4);
    expect("take of nothing", read.refusal, RNIC_REFUSAL_NO_READ_WAITS);
    expect("take of nothing, size", read.size, 0);
    event = rnic_receive(&device, store, STORE, 4, frame, total);
    expect("a Read Request", event.kind, RNIC_TAKEN);
    expect_state("state with a read", 4, RNIC_STREAM_OPEN, 1, 1, RNIC_REFUSAL_NONE);
    read = rnic_take(&device, 4);
    expect("take", read.refusal, RNIC_REFUSAL_NONE);
    expect("take, sink STag", read.sink_stag, 7);
    expect("take, sink TO", read.sink_to, 8);
    expect("take, size", read.size, 4);
    expect("take, source STag", read.source_stag, rnic_stag(17, 5));
    expect("take, source TO", read.source_to, 4096);

    total = untagged(RNIC_OPCODE_SEND, 0, 1, (const uint8_t *)"hello", 5, frame);
    event = rnic_offer(&device, store, STORE, rooms, sizeof rooms, 4, frame, 10);
    expect("offer of a part", event.kind, RNIC_KEPT);
    expect("offer of a part, taken", event.taken, 10);
    event = rnic_receive(&device, store, STORE, 4, frame, total);
    expect("receive while bytes are held", event.refusal, RNIC_REFUSAL_HOLDS_BYTES);
    event = rnic_offer(&device, store, STORE, rooms, sizeof rooms, 4, frame + 10, total - 10);
    expect("offer of the rest", event.kind, RNIC_SENT);
    expect("offer of the rest, taken", event.taken, total - 10);
    expect("offer of the rest, total", event.total, total);
    expect("a Send, start", event.start, 1100);
    expect("a Send, length", event.length, 5);
    expect("a Send, opcode", event.opcode, RNIC_OPCODE_SEND);
    expect("a Send, STag", event.invalidated, 0);
    expect("the buffer", memcmp(store + 1100, "hello", 5) == 0, 1);
    event = rnic_offer(&device, store, STORE, rooms, sizeof rooms - 1, 4, frame, 10);
    expect("offer with other rooms", event.refusal, RNIC_REFUSAL_OTHER_LENGTH);

    expect("post", rnic_post(&device, 4, 1200, 5), RNIC_REFUSAL_NONE);
    total = untagged(RNIC_OPCODE_SEND_INVALIDATE, 0, 2, (const uint8_t *)"again", 5, frame);
    frame[6] = 0x11; /* the STag to invalidate, with the CRC written anew */
    frame[7] = 0x05;
    {
        uint32_t crc = rnic_c_crc32c(frame, total - 4);
        size_t i;
        for (i = 0; i < 4; ++i) {
            frame[total - 4 + i] = (uint8_t)(crc >> (8 * i));
        }
    }
    event = rnic_receive(&device, store, STORE, 4, frame, total);
    expect("a Send with Invalidate", event.kind, RNIC_SENT_INVALIDATING);
    expect("a Send with Invalidate, opcode", event.opcode, RNIC_OPCODE_SEND_INVALIDATE);
    expect("a Send with Invalidate, STag", event.invalidated, rnic_stag(17, 5));
    expect("the window is dropped", rnic_live_count(&device, 1).count, 0);
    expect("drop_window of a dead one", rnic_drop_window(&device, 17), RNIC_REFUSAL_WINDOW_NOT_LIVE);
}

/* A Send of two segments and no more, and what the writers refuse. */
static void check_writers(void) {
    const uint8_t text[4] = {'a', 'b', 'c', 'd'};
    uint8_t out[64];
    struct rnic_message message;
    struct rnic_output output;
    expect("message_send", rnic_message_send(&message, 20, RNIC_OPCODE_SEND, 1, 0, sizeof text), RNIC_REFUSAL_NONE);
    expect("message_send, opcode", rnic_message_send(&message, 20, 7, 1, 0, 4), RNIC_REFUSAL_OUT_OF_RANGE);
    expect("message_send, limit", rnic_message_send(&message, RNIC_MAX_ULPDU + 1, 3, 1, 0, 4), RNIC_REFUSAL_OVER_LIMIT);
    expect("message_write, limit", rnic_message_write(&message, RNIC_MIN_LIMIT - 1, 0, 0, 4), RNIC_REFUSAL_OUT_OF_RANGE);
    output = rnic_message_next(&message, text, sizeof text, out, 19);
    expect("message_next, room", output.refusal, RNIC_REFUSAL_NO_ROOM);
    expect("message_next, room, length", output.length, 0);
    expect("message_next, room, more", (uint64_t)output.no_more, 0);
    output = rnic_message_next(&message, text, sizeof text, out, sizeof out);
    expect("message_next", output.length, 20);
    expect("message_next, opcode", out[1], 0x40 | RNIC_OPCODE_SEND);
    output = rnic_message_next(&message, text, sizeof text, out, sizeof out);
    expect("message_next, last", output.length, 20);
    expect("message_next, last, more", (uint64_t)output.no_more, 0);
    output = rnic_message_next(&message, text, sizeof text, out, sizeof out);
    expect("message_next, after", (uint64_t)output.no_more, 1);
    expect("message_next, after, length", output.length, 0);
    expect("message_next, after, refusal", output.refusal, RNIC_REFUSAL_NONE);
    output = rnic_fpdu_write(text, sizeof text, out, 11);
    expect("fpdu_write, room", output.refusal, RNIC_REFUSAL_NO_ROOM);
    output = rnic_fpdu_write(text, sizeof text, out, 12);
    expect("fpdu_write", output.length, 12);
}

/* The gauge of domain 1, for which 14 bytes were placed. */
static void check_gauge(void) {
    struct rnic_gauge gauge = rnic_reading(&device, 1);
    int i;
    expect("reading before a tick", gauge.kind, RNIC_QUIET);
    expect("tick", rnic_tick(&device, 1), RNIC_REFUSAL_NONE);
    expect("tick, refused", rnic_tick(&device, 4), RNIC_REFUSAL_OUT_OF_RANGE);
    gauge = rnic_reading(&device, 1);
    expect("reading", gauge.kind, RNIC_STEADY);
    expect("reading, level", gauge.level == 14.0, 1);
    expect("reading, peak", gauge.peak == 0.0, 1);
    for (i = 0; i < 6; ++i) {
        expect("tick with nothing placed", rnic_tick(&device, 1), RNIC_REFUSAL_NONE);
    }
    gauge = rnic_reading(&device, 1);
    expect("reading under half the peak", gauge.kind, RNIC_FALLING);
    expect("reading under half the peak, level", gauge.level > 6.0 && gauge.level < 7.0, 1);
    expect("reading under half the peak, peak", gauge.peak == 14.0, 1);
    expect("reading of no domain", rnic_reading(&device, 4).refusal, RNIC_REFUSAL_OUT_OF_RANGE);
    expect("reading of no domain, kind", rnic_reading(&device, 4).kind, RNIC_REFUSED);
}

/* What ends a stream: a wrong CRC, and a Terminate. Then it is closed. */
static void check_ends(void) {
    const uint8_t reason[4] = {0x12, 0x34, 0, 0};
    uint8_t frame[RNIC_MAX_FPDU];
    struct rnic_closed closed;
    struct rnic_event event;
    size_t total = untagged(7, 2, 1, reason, sizeof reason, frame);
    expect("open_stream", rnic_open_stream(&device, 5, 0), RNIC_REFUSAL_NONE);
    event = rnic_receive(&device, store, STORE, 5, frame, total);
    expect("a Terminate", event.kind, RNIC_TERMINATED);
    expect("a Terminate, total", event.total, total);
    expect("a Terminate, taken", event.taken, total);
    expect("a Terminate, layer", event.layer, 1);
    expect("a Terminate, type", event.etype, 2);
    expect("a Terminate, code", event.code, 0x34);
    expect_state("state after a Terminate", 5, RNIC_STREAM_TERMINATED, 0, 0, RNIC_REFUSAL_NONE);
    frame[total - 1] ^= 1;
    expect("post", rnic_post(&device, 4, 1300, 5), RNIC_REFUSAL_NONE);
    event = rnic_receive(&device, store, STORE, 4, frame, total);
    expect("a wrong CRC", event.kind, RNIC_ENDED);
    expect("a wrong CRC, refusal", event.refusal, RNIC_REFUSAL_CRC_ERROR);
    expect("a wrong CRC, taken", event.taken, 0);
    expect("a wrong CRC, layer", event.layer, 2);
    expect("a wrong CRC, type", event.etype, 0);
    expect("a wrong CRC, code", event.code, 2);
    expect_state("state after a wrong CRC", 4, RNIC_STREAM_ENDED, 1, 0, RNIC_REFUSAL_CRC_ERROR);
    expect("state after a wrong CRC, layer", rnic_state(&device, 4).layer, 2);
    expect("state after a wrong CRC, type", rnic_state(&device, 4).etype, 0);
    expect("state after a wrong CRC, code", rnic_state(&device, 4).code, 2);
    event = rnic_offer(&device, store, STORE, rooms, sizeof rooms, 4, frame, total);
    expect("offer to an ended stream", event.refusal, RNIC_REFUSAL_STREAM_ENDED);
    copy = device;
    closed = rnic_close_stream(&device, 4);
    expect("close_stream", closed.refusal, RNIC_REFUSAL_NONE);
    expect("close_stream, buffers", closed.buffers, 1);
    expect("close_stream, reads", closed.reads, 0);
    by_number(RNIC_CLOSE_STREAM, 4, 0, 0, 0, 0, 0);
    expect_same("close_stream");
    expect_state("state after closing", 4, RNIC_STREAM_CLOSED, 0, 0, RNIC_REFUSAL_NONE);
    expect("close_stream again", rnic_close_stream(&device, 4).refusal, RNIC_REFUSAL_NOT_OPEN);
}

/* A request with terms, written, read, answered, and the reply settled; and what is refused. */
static void check_startup(void) {
    struct rnic_startup frame = {RNIC_STARTUP_ENHANCED, 0, 0, 1, 0, {1, 4, 8, RNIC_KIND_SEND | RNIC_KIND_READ}};
    struct rnic_terms own = {0, 16, 16, RNIC_KIND_WRITE | RNIC_KIND_READ}, reply, kept;
    const uint8_t data[2] = {'A', 'B'};
    uint8_t out[64];
    struct rnic_startup found;
    struct rnic_output output = rnic_startup_write(0, &frame, data, sizeof data, out, sizeof out);
    expect("startup_write", output.refusal, RNIC_REFUSAL_NONE);
    expect("startup_write, length", output.length, 26);
    expect("startup_write, room", rnic_startup_write(0, &frame, data, sizeof data, out, 25).refusal, RNIC_REFUSAL_NO_ROOM);
    found = rnic_startup_read(0, out, 21);
    expect("startup_read of a part", found.kind, RNIC_STARTUP_WAIT);
    expect("startup_read of a part, total", found.total, 26);
    found = rnic_startup_read(1, out, 26);
    expect("startup_read as a reply", found.kind, RNIC_STARTUP_REFUSED);
    expect("startup_read as a reply, refusal", found.total, RNIC_REFUSAL_BAD_STARTUP);
    found = rnic_startup_read(0, out, 26);
    expect("startup_read", found.kind, RNIC_STARTUP_ENHANCED);
    expect("startup_read, data", found.start, 24);
    expect("startup_read, CRC", found.crc, 1);
    expect("startup_read, terms", memcmp(&found.terms, &frame.terms, sizeof found.terms) == 0, 1);
    expect("agree_answer", rnic_agree_answer(&own, &found.terms, &reply, &kept), RNIC_REFUSAL_NONE);
    expect("agree_answer, ORD", kept.ord, 4);
    expect("agree_answer, kind", reply.kinds, RNIC_KIND_READ);
    frame.terms.ird = 16;
    expect("agree_settle", rnic_agree_settle(&frame.terms, &reply, &kept), RNIC_REFUSAL_NONE);
    expect("agree_settle, ORD", kept.ord, 8);
    own.ird = 7;
    expect("agree_answer, IRD", rnic_agree_answer(&own, &found.terms, &reply, &kept), RNIC_REFUSAL_IRD_TOO_SMALL);
    own.ird = 8;
    own.kinds = RNIC_KIND_WRITE;
    expect("agree_answer, no kind", rnic_agree_answer(&own, &found.terms, &reply, &kept), RNIC_REFUSAL_NO_KIND);
    frame.kind = RNIC_STARTUP_FIRST;
    output = rnic_startup_write(1, &frame, data, 0, out, sizeof out);
    expect("startup_write of a reply", output.length, 20);
    found = rnic_startup_read(1, out, 20);
    expect("startup_read of a reply", found.kind, RNIC_STARTUP_FIRST);
}

/* The texts, the version, and how much there is. */
static void check_texts(void) {
    const char *text = rnic_refusal_text(RNIC_REFUSAL_BOUNDS_VIOLATION);
    char version[32];
    expect("a text", strcmp(text, "27: the Write does not lie inside the window") == 0, 1);
    expect("the text of none", strcmp(rnic_refusal_text(0), "0: not refused") == 0, 1);
    expect("the text of no refusal", strcmp(rnic_refusal_text(17), "no refusal has this number") == 0, 1);
    expect("the text of a large number", strcmp(rnic_refusal_text(((uint64_t)1 << 32) + 27), "no refusal has this number") == 0, 1);
    sprintf(version, "%d.%d.%d", RNIC_VERSION_MAJOR, RNIC_VERSION_MINOR, RNIC_VERSION_PATCH);
    expect("the version", strcmp(version, rnic_version()) == 0, 1);
    expect("the longest FPDU", RNIC_MAX_FPDU, RNIC_C_ROOM);
    expect("the rooms", RNIC_C_ROOMS, RNIC_STREAMS * RNIC_C_ROOM);
}

int main(void) {
    check_fpdu();
    check_open();
    check_calls();
    check_receive();
    check_messages();
    check_writers();
    check_gauge();
    check_ends();
    check_startup();
    check_texts();
    if (!wrong) {
        puts("ok");
    }
    return wrong;
}
