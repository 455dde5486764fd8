/* A peer's Write, from the frame to the store. It opens a device over a store of 4,096 bytes with a window in it, writes the frame
 * that a peer would send, receives it, and shows what came of it. Then it does the same past the window's end.
 *
 *     ./build out
 *     cc examples/hello.c $(PKG_CONFIG_PATH=out/lib/pkgconfig pkg-config --cflags --libs rnic) -o hello
 *     ./hello
 *
 * host/examples/hello.rs is the same in Rust. */
#include <rnic.h>

#include <inttypes.h>
#include <stdio.h>
#include <stdlib.h>

/* Window 17 is domain 1's, and so is stream 4. */
#define STREAM 4
#define WINDOW 17
#define KEY 5
#define BASE 4096

static struct rnic device; /* 7,560 bytes: a device may stand anywhere */
static uint8_t store[4096];

/* Ends the program where a call was refused. */
static void check(const char *call, enum rnic_refusal refusal) {
    if (refusal != RNIC_REFUSAL_NONE) {
        fprintf(stderr, "hello: %s: %s\n", call, rnic_refusal_text(refusal));
        exit(1);
    }
}

/* Writes the frame of a Write to a tagged offset, as a peer sends it, and gives its length. A longer message has more frames. */
static size_t write_frame(uint64_t to, const uint8_t *text, size_t length, uint8_t frame[RNIC_MAX_FPDU]) {
    static uint8_t segment[RNIC_MAX_ULPDU];
    struct rnic_message message;
    struct rnic_output output;
    check("message", rnic_message_write(&message, RNIC_MAX_ULPDU, rnic_stag(WINDOW, KEY), to, length));
    output = rnic_message_next(&message, text, length, segment, sizeof segment);
    check("segment", output.refusal);
    output = rnic_fpdu_write(segment, output.length, frame, RNIC_MAX_FPDU);
    check("frame", output.refusal);
    return output.length;
}

/* Receives a frame and says what came of it. */
static void receive(const uint8_t *frame, size_t length) {
    struct rnic_event event = rnic_receive(&device, store, sizeof store, STREAM, frame, length);
    switch (event.kind) {
    case RNIC_WAIT:
        printf("wait: the frame has %zu bytes\n", event.total);
        break;
    case RNIC_TAKEN:
        printf("taken: %zu bytes\n", event.taken);
        break;
    case RNIC_ENDED:
        printf("ended: %s\n", rnic_refusal_text(event.refusal));
        break;
    default:
        check("receive", event.refusal);
    }
}

int main(void) {
    const struct rnic_part parts[RNIC_DOMAINS] = {{0, 1024}, {1024, 2048}, {2048, 3072}, {3072, 4096}};
    const struct rnic_window window = {KEY, BASE, 16, 1024, RNIC_RIGHT_WRITE};
    const uint8_t text[] = "hello, world";
    static uint8_t frame[RNIC_MAX_FPDU];
    size_t length;

    check("open", rnic_open(&device, sizeof store, parts));
    check("open_stream", rnic_open_stream(&device, STREAM, 1));
    check("register", rnic_register(&device, WINDOW, &window));
    printf("rnic %s: window %d has STag %" PRIu32 "\n", rnic_version(), WINDOW, rnic_stag(WINDOW, KEY));

    length = write_frame(BASE, text, sizeof text - 1, frame);
    printf("a frame of %zu bytes\n", length);
    receive(frame, length - 1);
    receive(frame, length);
    printf("the store has: %s\n", (const char *)store + 1024);

    length = write_frame(BASE + 5, text, sizeof text - 1, frame);
    receive(frame, length);
    return 0;
}
