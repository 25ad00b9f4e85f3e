/* Calls one export of the library again and again, and prints how many times:
 *
 *     steps heartbeat|inside|ack|opening|header|body|last|refused COUNT   feksroum_step, at such a frame
 *     steps alone|scratch COUNT                                           feksroum_canonicalize, once, at a table of COUNT falling keys
 *
 * `inside` is a heartbeat inside a message, `last` the last body of one, `refused` a body on a channel where no message is open. `alone` is
 * without a scratch, `scratch` with one. */
#include <feksroum.h>
#include <stdio.h>
#include <stdlib.h>
#include <string.h>

enum { MAX_PAYLOAD = 1 << 20, MOST_KEYS = 40000, ENTRY = 6, BASIC = 60, ACK = 80, PUBLISH = 40 };

typedef struct step {
    const char *name;
    feksroum_channel channel;
    uint8_t type;
    uint16_t class_id, method_id;
    uint64_t size;
    uint8_t status;
} step;

static const step steps[] = {
    {"heartbeat", {.state = 0}, FEKSROUM_HEARTBEAT, 0, 0, 0, 0},
    {"inside", {.state = 1}, FEKSROUM_HEARTBEAT, 0, 0, 0, 0},
    {"ack", {.state = 0}, FEKSROUM_METHOD, BASIC, ACK, 0, 0},
    {"opening", {.state = 0}, FEKSROUM_METHOD, BASIC, PUBLISH, 0, 0},
    {"header", {.state = 1}, FEKSROUM_HEADER, BASIC, 0, 1000, 0},
    {"body", {.size = 1000, .seen = 100, .state = 2}, FEKSROUM_BODY, 0, 0, 100, 0},
    {"last", {.size = 1000, .seen = 900, .state = 2}, FEKSROUM_BODY, 0, 0, 100, 0},
    {"refused", {.state = 0}, FEKSROUM_BODY, 0, 0, 100, 24},
};

static uint8_t bytes[MAX_PAYLOAD + FEKSROUM_AROUND_PAYLOAD], out[MAX_PAYLOAD + FEKSROUM_AROUND_PAYLOAD];
static feksroum_mark scratch[MOST_KEYS];

static void stop(const char *why) {
    fprintf(stderr, "steps: %s\n", why);
    exit(2);
}

static void take(const step *it, long count) {
    for (long k = 0; k < count; k++) {
        feksroum_turn turn = feksroum_step(it->channel, it->type, it->class_id, it->method_id, it->size, UINT64_MAX);
        if (turn.status != it->status) {
            stop("a step has another status");
        }
    }
}

static void put_number(uint8_t *at, uint64_t number, int width) {
    while (width-- > 0) {
        at[width] = (uint8_t)number;
        number >>= 8;
    }
}

/* A queue.declare whose arguments are voids, their keys falling; how many bytes it has. */
static size_t falling(uint32_t keys) {
    uint32_t content = keys * ENTRY, payload = 12 + content;
    bytes[0] = FEKSROUM_METHOD;
    put_number(bytes + 1, 1, 2);
    put_number(bytes + 3, payload, 4);
    put_number(bytes + 7, 50, 2);
    put_number(bytes + 9, 10, 2);
    put_number(bytes + 15, content, 4);
    for (uint32_t k = 0; k < keys; k++) {
        uint8_t *entry = bytes + 19 + (size_t)k * ENTRY;
        entry[0] = 4;
        for (int digit = 0; digit < 4; digit++) {
            entry[1 + digit] = (uint8_t)('0' + ((keys - k) >> 6 * (3 - digit)) % 64);
        }
        entry[5] = 'V';
    }
    bytes[19 + content] = 206;
    return 20 + content;
}

static void order(long keys, bool with_scratch) {
    if (keys < 1 || keys > MOST_KEYS) {
        stop("so many keys are not held");
    }
    size_t length = falling((uint32_t)keys);
    feksroum_progress progress = feksroum_canonicalize(bytes, length, out, sizeof out, with_scratch ? scratch : NULL,
                                                       with_scratch ? MOST_KEYS : 0, MAX_PAYLOAD, FEKSROUM_PLAIN);
    if (progress.status != 0 || progress.used != length) {
        stop("the frame is not canonicalized");
    }
}

int main(int argc, char **argv) {
    if (argc != 3) {
        stop("a kind of step and COUNT, or alone|scratch KEYS");
    }
    long count = atol(argv[2]);
    for (size_t k = 0; k < sizeof steps / sizeof *steps; k++) {
        if (strcmp(argv[1], steps[k].name) == 0) {
            take(&steps[k], count);
            printf("%ld\n", count);
            return 0;
        }
    }
    order(count, strcmp(argv[1], "scratch") == 0);
    printf("%ld\n", count);
    return 0;
}
