/* What a client reads and sends, from memory to memory: the frames of a broker are read by their fields, and what the client
 * answers is written into a buffer. A program with a socket reads into the one and writes from the other.
 *
 *     client
 *
 * prints what was read, and the frames that are sent, a line each. */
#include <feksroum_methods.h>
#include <inttypes.h>
#include <stdio.h>
#include <stdlib.h>
#include <string.h>

/* What a broker sends: connection.tune, basic.deliver, the content header of a message of 5 bytes, and its body in two frames. */
static const uint8_t from_broker[] = {
    1, 0, 0, 0, 0, 0, 12, 0, 10, 0, 30, 7, 255, 0, 2, 0, 0, 0, 60, 206,
    1, 0, 1, 0, 0, 0, 23, 0, 60, 0, 60, 1, 'c', 0, 0, 0, 0, 0, 0, 0, 7, 0, 0, 6, 'o', 'r', 'd', 'e', 'r', 's', 206,
    2, 0, 1, 0, 0, 0, 42, 0, 60, 0, 0, 0, 0, 0, 0, 0, 0, 0, 5, 160, 0, 10, 't', 'e', 'x', 't', '/', 'p', 'l', 'a', 'i', 'n',
    0, 0, 0, 13, 7, 'a', 't', 't', 'e', 'm', 'p', 't', 'I', 0, 0, 0, 2, 206,
    3, 0, 1, 0, 0, 0, 3, 'h', 'e', 'l', 206, 3, 0, 1, 0, 0, 0, 2, 'l', 'o', 206,
};

/* As many nodes as the fields of these frames have, with all that lies inside: at most one for each byte. */
enum { ROOM = 64 };

/* What is known of the connection, and what is sent over it. */
typedef struct client {
    uint32_t max_payload; /* the longest payload that both ends accept */
    uint64_t delivery_tag;
    uint64_t body_size, body_read; /* of the message that comes in */
    char body[64];
    uint8_t bytes[512];
    feksroum_buffer out; /* what is to be sent, in these bytes */
} client;

static void stop(const char *what, uint32_t status) {
    fprintf(stderr, "client: %s: %s\n", what, feksroum_status_name((uint8_t)status));
    exit(1);
}

static void print_text(const char *before, feksroum_bytes text) {
    printf("%s%.*s", before, (int)text.length, (const char *)text.bytes);
}

static void read_method(client *c, const uint8_t *payload, feksroum_fields found, const feksroum_node *nodes) {
    feksroum_connection_tune tune;
    feksroum_basic_deliver deliver;
    if (feksroum_connection_tune_read(&tune, found.class_id, found.method_id, payload, nodes)) {
        c->max_payload = feksroum_max_payload(tune.frame_max);
        printf("frames of %" PRIu32 " bytes at most, payloads of %" PRIu32 "\n", tune.frame_max, c->max_payload);
    } else if (feksroum_basic_deliver_read(&deliver, found.class_id, found.method_id, payload, nodes)) {
        c->delivery_tag = deliver.delivery_tag;
        printf("delivery %" PRIu64 "%s", deliver.delivery_tag, deliver.redelivered ? ", not the first time," : "");
        print_text(" of ", deliver.routing_key);
        putchar('\n');
    }
}

/* The value of a header; NULL where the message has none of this key. */
static const feksroum_node *header(const uint8_t *payload, feksroum_fields found, const feksroum_node *nodes, const char *key) {
    for (const feksroum_node *node = nodes; node < nodes + found.nodes; node += 1 + node->inside) {
        if (node->place == FEKSROUM_PROPERTY_HEADERS) {
            return feksroum_find(node, payload, key, strlen(key));
        }
    }
    return NULL;
}

static void read_header(client *c, const uint8_t *payload, feksroum_fields found, const feksroum_node *nodes) {
    feksroum_basic_properties properties;
    const feksroum_node *attempt = header(payload, found, nodes, "attempt");
    feksroum_basic_properties_read(&properties, payload, nodes, (size_t)found.nodes);
    c->body_size = found.body_size;
    c->body_read = 0;
    printf("%" PRIu64 " bytes", c->body_size);
    print_text(" of ", properties.content_type);
    if (attempt && attempt->kind == 'I') {
        printf(", attempt %" PRId64, (int64_t)attempt->number);
    }
    putchar('\n');
}

/* A body is its payload. Once all of the message has come, it is printed. */
static void read_body(client *c, const uint8_t *payload, size_t length) {
    if (length > sizeof c->body - c->body_read) {
        stop("a body", FEKSROUM_BUFFER_TOO_SMALL);
    }
    memcpy(c->body + c->body_read, payload, length);
    c->body_read += length;
    if (c->body_read == c->body_size) {
        printf("%.*s\n", (int)c->body_size, c->body);
    }
}

/* Reads the whole frames in front, and returns how many bytes they have. What follows them has to wait for more bytes. */
static size_t read_frames(client *c, const uint8_t *bytes, size_t length) {
    feksroum_node nodes[ROOM];
    size_t used = 0;
    for (;;) {
        feksroum_frame frame = feksroum_next(bytes + used, length - used, c->max_payload);
        if (frame.status != FEKSROUM_OK) {
            if (frame.status != FEKSROUM_CUT_SHORT) {
                stop("a frame", frame.status);
            }
            return used; /* a reader asks for frame.needed - (length - used) more */
        }
        const uint8_t *payload = bytes + used + frame.payload_start;
        size_t payload_length = (size_t)frame.payload_length;
        feksroum_fields found = feksroum_read(frame.type, payload, payload_length, FEKSROUM_DEEP, nodes, ROOM);
        if (found.status != FEKSROUM_OK) {
            stop("a payload", found.status);
        }
        switch (frame.type) {
        case FEKSROUM_METHOD:
            read_method(c, payload, found, nodes);
            break;
        case FEKSROUM_HEADER:
            read_header(c, payload, found, nodes);
            break;
        case FEKSROUM_BODY:
            read_body(c, payload, payload_length);
            break;
        }
        used += (size_t)frame.used;
    }
}

/* Acknowledges the delivery, and publishes an answer, whose body goes in frames of at most so many bytes of it. What is refused
 * first is kept in the buffer, and nothing is put after it. */
static void answer(client *c, const char *body, size_t piece) {
    uint8_t bytes[64];
    feksroum_buffer *out = &c->out, headers = FEKSROUM_BUFFER(bytes);
    feksroum_add_int32(&headers, feksroum_text("attempt"), 3);
    feksroum_basic_ack ack = {.delivery_tag = c->delivery_tag};
    feksroum_basic_publish publish = {.routing_key = FEKSROUM_TEXT("answers")};
    feksroum_basic_properties properties = {.set = FEKSROUM_HAS_CONTENT_TYPE | FEKSROUM_HAS_HEADERS,
                                            .content_type = FEKSROUM_TEXT("text/plain"),
                                            .headers = feksroum_filled(&headers)};
    size_t length = strlen(body);
    feksroum_take(out, feksroum_basic_ack_put(1, &ack, c->max_payload, FEKSROUM_REST(out)));
    feksroum_take(out, feksroum_basic_publish_put(1, &publish, c->max_payload, FEKSROUM_REST(out)));
    feksroum_take(out, feksroum_basic_properties_put(1, length, &properties, c->max_payload, FEKSROUM_REST(out)));
    for (size_t done = 0; done < length; done += piece) {
        size_t count = length - done < piece ? length - done : piece;
        feksroum_take(out, feksroum_put_body(1, (const uint8_t *)body + done, count, c->max_payload, FEKSROUM_REST(out)));
    }
    if (headers.status != FEKSROUM_OK || out->status != FEKSROUM_OK) {
        stop("an answer", headers.status ? headers.status : out->status);
    }
}

/* Prints what is pending, a line for each frame. */
static void print_pending(const client *c) {
    for (size_t used = 0; used < c->out.length;) {
        char line[256];
        feksroum_line found = feksroum_dump(c->bytes + used, c->out.length - used, (uint8_t *)line, sizeof line, c->max_payload);
        if (found.status != FEKSROUM_OK) {
            stop("what is sent", found.status);
        }
        printf("> %.*s", (int)found.length, line);
        used += (size_t)found.used;
    }
}

int main(void) {
    client c = {.max_payload = 131072 - FEKSROUM_AROUND_PAYLOAD};
    c.out = (feksroum_buffer)FEKSROUM_BUFFER(c.bytes);
    feksroum_take(&c.out, feksroum_put_protocol_header(0, 9, 1, FEKSROUM_REST(&c.out)));
    if (read_frames(&c, from_broker, sizeof from_broker) != sizeof from_broker) {
        stop("what the broker sent", FEKSROUM_CUT_SHORT);
    }
    answer(&c, "hello again", 8);
    print_pending(&c);
    return 0;
}
