/* Decodes each frame of a file by one of some ways, and prints how many there are:
 *
 *     decoders librabbitmq|check|shallow|deep|frames|canonicalize|write|apart FILE
 *
 * `librabbitmq` is its amqp_handle_input, with what it keeps of a channel released after each frame. `check` is feksroum_next
 * and feksroum_check, `shallow` and `deep` are feksroum_next and feksroum_read, `frames` is feksroum_frames with all that lies inside, as
 * many frames as 4096 heads and 65536 nodes hold. `canonicalize` is feksroum_canonicalize, frame by frame, which also writes. `write` and
 * `apart` are feksroum_frames, and then feksroum_write of what it gave: of all of it by one call, or of each frame by a call of its own. */
#include <amqp.h>
#include <feksroum.h>
#include <stdio.h>
#include <stdlib.h>
#include <string.h>

enum { MAX_PAYLOAD = 131072, HEADS = 4096, NODES = 65536 };

static feksroum_head heads[HEADS];
static feksroum_node nodes[NODES];
static uint8_t out[MAX_PAYLOAD + FEKSROUM_AROUND_PAYLOAD];
static feksroum_mark scratch[MAX_PAYLOAD / 2];
static uint8_t *again;

static void stop(const char *why) {
    fprintf(stderr, "decoders: %s\n", why);
    exit(2);
}

static size_t read_file(const char *path, uint8_t **bytes) {
    FILE *file = fopen(path, "rb");
    if (!file || fseek(file, 0, SEEK_END) != 0) {
        stop("the file cannot be read");
    }
    long length = ftell(file);
    rewind(file);
    *bytes = malloc((size_t)length + 1);
    if (!*bytes || fread(*bytes, 1, (size_t)length, file) != (size_t)length) {
        stop("the file cannot be read");
    }
    fclose(file);
    return (size_t)length;
}

/* Decodes one frame, and returns how many bytes it has. */
static size_t handle_input(amqp_connection_state_t state, uint8_t *bytes, size_t length) {
    amqp_frame_t frame = {0};
    size_t used = 0;
    while (frame.frame_type == 0 && used < length) {
        amqp_bytes_t rest = {length - used, bytes + used};
        int more = amqp_handle_input(state, rest, &frame);
        if (more <= 0) {
            stop(amqp_error_string2(more));
        }
        used += (size_t)more;
    }
    amqp_maybe_release_buffers_on_channel(state, frame.channel);
    return used;
}

/* A connection that takes frames of the largest size. A protocol header ends its opening, and only then it can be tuned. */
static amqp_connection_state_t open_connection(void) {
    static uint8_t header[] = {'A', 'M', 'Q', 'P', 0, 0, 9, 1};
    amqp_connection_state_t state = amqp_new_connection();
    if (!state || handle_input(state, header, sizeof header) != sizeof header ||
        amqp_tune_connection(state, 0, MAX_PAYLOAD + FEKSROUM_AROUND_PAYLOAD, 0) != AMQP_STATUS_OK) {
        stop("no connection");
    }
    return state;
}

static size_t check(const uint8_t *bytes, size_t length) {
    feksroum_frame frame = feksroum_next(bytes, length, MAX_PAYLOAD);
    if (frame.status || feksroum_check(frame.type, bytes + frame.payload_start, frame.payload_length).status) {
        stop("a frame is none");
    }
    return frame.used;
}

static size_t read_fields(const uint8_t *bytes, size_t length, uint8_t detail) {
    feksroum_frame frame = feksroum_next(bytes, length, MAX_PAYLOAD);
    if (frame.status || feksroum_read(frame.type, bytes + frame.payload_start, frame.payload_length, detail, nodes, NODES).status) {
        stop("a frame is none");
    }
    return frame.used;
}

static void write_again(const feksroum_head *some, size_t count, const feksroum_node *of, size_t node_count, const uint8_t *bytes,
                        size_t length) {
    if (feksroum_write(some, count, of, node_count, bytes, length, MAX_PAYLOAD, again, length).status) {
        stop("what was read is not written");
    }
}

static void write_apart(const feksroum_batch *batch, const uint8_t *bytes) {
    for (size_t at = 0; at < batch->heads; at++) {
        feksroum_head head = heads[at];
        head.first = 0;
        write_again(&head, 1, nodes + heads[at].first, head.nodes, bytes, batch->used);
    }
}

/* As many frames as fit, which are then written again by the ways that do so; returns how many bytes they have, and says how many they are. */
static size_t read_frames(char way, const uint8_t *bytes, size_t length, size_t *frames) {
    feksroum_batch batch = feksroum_frames(bytes, length, MAX_PAYLOAD, FEKSROUM_DEEP, heads, HEADS, nodes, NODES);
    if (batch.heads == 0) {
        stop("a frame is none");
    }
    if (way == 'w') {
        write_again(heads, batch.heads, nodes, batch.nodes, bytes, batch.used);
    }
    if (way == 'a') {
        write_apart(&batch, bytes);
    }
    *frames += batch.heads;
    return batch.used;
}

static size_t canonicalize(const uint8_t *bytes, size_t length) {
    feksroum_frame frame = feksroum_next(bytes, length, MAX_PAYLOAD);
    feksroum_progress progress = feksroum_canonicalize(bytes, frame.used, out, sizeof out, scratch, MAX_PAYLOAD / 2, MAX_PAYLOAD,
                                                       FEKSROUM_PLAIN);
    if (frame.status || progress.status) {
        stop("a frame is none");
    }
    return progress.used;
}

/* Decodes what is in front by a way, and returns how many bytes that has. */
static size_t decode(char way, amqp_connection_state_t state, uint8_t *bytes, size_t length, size_t *frames) {
    if (way == 'f' || way == 'w' || way == 'a') {
        return read_frames(way, bytes, length, frames);
    }
    ++*frames;
    switch (way) {
    case 'l':
        return handle_input(state, bytes, length);
    case 's':
        return read_fields(bytes, length, FEKSROUM_SHALLOW);
    case 'd':
        return read_fields(bytes, length, FEKSROUM_DEEP);
    case 'k':
        return canonicalize(bytes, length);
    default:
        return check(bytes, length);
    }
}

int main(int argc, char **argv) {
    if (argc != 3) {
        stop("librabbitmq|check|shallow|deep|frames|canonicalize|write|apart FILE");
    }
    uint8_t *bytes;
    size_t length = read_file(argv[2], &bytes), at = 0, frames = 0;
    char way = strcmp(argv[1], "canonicalize") == 0 ? 'k' : argv[1][0];
    amqp_connection_state_t state = way == 'l' ? open_connection() : NULL;
    again = malloc(length + 1);
    while (at < length) {
        at += decode(way, state, bytes + at, length - at, &frames);
    }
    printf("%zu\n", frames);
    free(again);
    free(bytes);
    return 0;
}
