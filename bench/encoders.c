/* Encodes frames again and again, and prints how many times:
 *
 *     encoders bare|envelope|write|put|filled ack|small|table COUNT
 *
 * `ack` is a basic.ack; `small` a basic.deliver and its content header of four properties; `table` the same with headers of six entries.
 *
 * `bare` is librabbitmq's amqp_encode_method and amqp_encode_properties, which write payloads without their ids; `envelope` puts all that
 * amqp_send_frame puts around them. `write` is feksroum_write. `put` is feksroum_basic_ack_put and its like of structs, with
 * feksroum_add_.. for each header; `filled` is the same with headers that were made before. All write the same frames, which is tested. */
#include <amqp.h>
#include <amqp_framing.h>
#include <arpa/inet.h>
#include <feksroum_methods.h>
#include <stdio.h>
#include <stdlib.h>
#include <string.h>

enum { MAX_PAYLOAD = 131072, HEADERS = 6, NODES = 10 + HEADERS, BODY = 400 };

static const char texts[] = "ctag1.3amq.topicorders.createdapplication/json000003e8-001fattempttracesourcetenantpricedone4bf92f3577b34dashopeu-west";
static uint8_t out[1024], content[512];

static void stop(const char *why) {
    fprintf(stderr, "encoders: %s\n", why);
    exit(2);
}

/* Where a text stands among all, in which each stands once. */
static size_t place(const char *text) {
    const char *at = strstr(texts, text);
    if (!at) {
        stop("a text is missing");
    }
    return (size_t)(at - texts);
}

static amqp_bytes_t bytes_of(const char *text) {
    return (amqp_bytes_t){strlen(text), (void *)(texts + place(text))};
}

static feksroum_bytes span_of(const char *text) {
    return feksroum_span(texts + place(text), strlen(text));
}

static feksroum_node text_node(uint8_t kind, uint8_t at, const char *text) {
    return (feksroum_node){.kind = kind, .place = at, .start = (uint32_t)place(text), .length = (uint32_t)strlen(text)};
}

static feksroum_node entry(const char *key, feksroum_node value) {
    value.key_start = (uint32_t)place(key);
    value.key_length = (uint8_t)strlen(key);
    value.place = 0;
    return value;
}

/* The same frames for all: one method, or a method and its content header. */
typedef struct message {
    int frames;
    bool table;
    amqp_method_number_t number;
    amqp_basic_ack_t ack;
    amqp_basic_deliver_t deliver;
    amqp_basic_properties_t properties;
    amqp_table_entry_t entries[HEADERS];
    feksroum_head heads[2];
    feksroum_node nodes[NODES];
    size_t nodes_count;
    feksroum_basic_ack put_ack;
    feksroum_basic_deliver put_deliver;
    feksroum_basic_properties put_properties;
    feksroum_bytes keys[HEADERS], values[HEADERS];
} message;

/* ---- librabbitmq */

static void put_entry(amqp_table_entry_t *to, const char *key, amqp_field_value_t value) {
    *to = (amqp_table_entry_t){bytes_of(key), value};
}

static void open_rabbitmq(message *m) {
    m->number = m->frames == 1 ? AMQP_BASIC_ACK_METHOD : AMQP_BASIC_DELIVER_METHOD;
    m->ack = (amqp_basic_ack_t){4711, 0};
    m->deliver = (amqp_basic_deliver_t){bytes_of("ctag1.3"), 4711, 0, bytes_of("amq.topic"), bytes_of("orders.created")};
    m->properties = (amqp_basic_properties_t){
        ._flags = AMQP_BASIC_CONTENT_TYPE_FLAG | AMQP_BASIC_DELIVERY_MODE_FLAG | AMQP_BASIC_MESSAGE_ID_FLAG | AMQP_BASIC_TIMESTAMP_FLAG |
                  (m->table ? AMQP_BASIC_HEADERS_FLAG : 0),
        .content_type = bytes_of("application/json"), .delivery_mode = 2, .message_id = bytes_of("000003e8-001f"), .timestamp = 1700000000,
        .headers = {HEADERS, m->entries}};
    put_entry(m->entries, "attempt", (amqp_field_value_t){.kind = 'I', .value.i32 = 3});
    put_entry(m->entries + 1, "done", (amqp_field_value_t){.kind = 't', .value.boolean = 1});
    put_entry(m->entries + 2, "price", (amqp_field_value_t){.kind = 'l', .value.i64 = 1999});
    put_entry(m->entries + 3, "source", (amqp_field_value_t){.kind = 'S', .value.bytes = bytes_of("eu-west")});
    put_entry(m->entries + 4, "tenant", (amqp_field_value_t){.kind = 'S', .value.bytes = bytes_of("shop")});
    put_entry(m->entries + 5, "trace", (amqp_field_value_t){.kind = 'S', .value.bytes = bytes_of("4bf92f3577b34da")});
}

static void *method_of(message *m) {
    return m->frames == 1 ? (void *)&m->ack : (void *)&m->deliver;
}

/* Both payloads without ids, one after another: how many bytes. */
static size_t bare(message *m) {
    int method = amqp_encode_method(m->number, method_of(m), (amqp_bytes_t){sizeof out, out}), properties = 0;
    if (method >= 0 && m->frames == 2) {
        properties = amqp_encode_properties(AMQP_BASIC_CLASS, &m->properties, (amqp_bytes_t){sizeof out - (size_t)method, out + method});
    }
    if (method < 0 || properties < 0) {
        stop("librabbitmq writes nothing");
    }
    return (size_t)(method + properties);
}

/* Numbers as its own header puts them. */
static void put_short(uint8_t *at, uint16_t number) {
    number = htons(number);
    memcpy(at, &number, sizeof number);
}

static void put_long(uint8_t *at, uint32_t number) {
    number = htonl(number);
    memcpy(at, &number, sizeof number);
}

/* What stands around a payload. */
static size_t enclose(uint8_t *at, uint8_t type, size_t payload) {
    at[0] = type;
    put_short(at + 1, 1);
    put_long(at + 3, (uint32_t)payload);
    at[7 + payload] = AMQP_FRAME_END;
    return payload + 8;
}

/* Whole frames, as amqp_send_frame makes them in its buffer. */
static size_t envelope(message *m) {
    put_long(out + 7, m->number);
    int length = amqp_encode_method(m->number, method_of(m), (amqp_bytes_t){sizeof out - 12, out + 11});
    if (length < 0) {
        stop("librabbitmq writes nothing");
    }
    size_t at = enclose(out, AMQP_FRAME_METHOD, (size_t)length + 4);
    if (m->frames == 1) {
        return at;
    }
    put_short(out + at + 7, AMQP_BASIC_CLASS);
    put_short(out + at + 9, 0);
    put_long(out + at + 11, 0);
    put_long(out + at + 15, BODY);
    length = amqp_encode_properties(AMQP_BASIC_CLASS, &m->properties, (amqp_bytes_t){sizeof out - at - 20, out + at + 19});
    if (length < 0) {
        stop("librabbitmq writes nothing");
    }
    return at + enclose(out + at, AMQP_FRAME_HEADER, (size_t)length + 12);
}

/* ---- feksroum_write */

static void open_nodes(message *m) {
    feksroum_node *node = m->nodes;
    m->heads[0] = (feksroum_head){.type = FEKSROUM_METHOD, .channel = 1, .class_id = 60, .method_id = 60, .nodes = 5};
    if (m->frames == 1) {
        m->heads[0].method_id = FEKSROUM_BASIC_ACK;
        m->heads[0].nodes = 2;
        *node++ = (feksroum_node){.kind = FEKSROUM_LONG_LONG, .number = 4711};
        *node++ = (feksroum_node){.kind = FEKSROUM_FLAG, .place = 1};
        m->nodes_count = 2;
        return;
    }
    *node++ = text_node(FEKSROUM_SHORT_STRING, 0, "ctag1.3");
    *node++ = (feksroum_node){.kind = FEKSROUM_LONG_LONG, .place = 1, .number = 4711};
    *node++ = (feksroum_node){.kind = FEKSROUM_FLAG, .place = 2};
    *node++ = text_node(FEKSROUM_SHORT_STRING, 3, "amq.topic");
    *node++ = text_node(FEKSROUM_SHORT_STRING, 4, "orders.created");
    *node++ = text_node(FEKSROUM_SHORT_STRING, 0, "application/json");
    if (m->table) {
        *node++ = (feksroum_node){.kind = FEKSROUM_TABLE, .place = 2, .inside = HEADERS};
        *node++ = entry("attempt", (feksroum_node){.kind = 'I', .number = 3});
        *node++ = entry("done", (feksroum_node){.kind = 't', .number = 1});
        *node++ = entry("price", (feksroum_node){.kind = 'l', .number = 1999});
        *node++ = entry("source", text_node('S', 0, "eu-west"));
        *node++ = entry("tenant", text_node('S', 0, "shop"));
        *node++ = entry("trace", text_node('S', 0, "4bf92f3577b34da"));
    }
    *node++ = (feksroum_node){.kind = FEKSROUM_OCTET, .place = 3, .number = 2};
    *node++ = text_node(FEKSROUM_SHORT_STRING, 8, "000003e8-001f");
    *node++ = (feksroum_node){.kind = FEKSROUM_LONG_LONG, .place = 9, .number = 1700000000};
    m->nodes_count = (size_t)(node - m->nodes);
    m->heads[1] = (feksroum_head){.type = FEKSROUM_HEADER, .channel = 1, .class_id = 60, .body_size = BODY, .first = 5,
                                  .nodes = (uint32_t)m->nodes_count - 5};
}

static size_t write_frames(const message *m) {
    feksroum_written found = feksroum_write(m->heads, (size_t)m->frames, m->nodes, m->nodes_count, (const uint8_t *)texts, sizeof texts - 1,
                                            MAX_PAYLOAD, out, sizeof out);
    if (found.status) {
        stop("feksroum_write writes nothing");
    }
    return (size_t)found.length;
}

/* ---- Structs */

static void add_headers(const message *m, feksroum_buffer *headers) {
    feksroum_add_int32(headers, m->keys[0], 3);
    feksroum_add_bool(headers, m->keys[1], true);
    feksroum_add_int64(headers, m->keys[2], 1999);
    feksroum_add_string(headers, m->keys[3], m->values[3]);
    feksroum_add_string(headers, m->keys[4], m->values[4]);
    feksroum_add_string(headers, m->keys[5], m->values[5]);
    if (headers->status) {
        stop("no header is added");
    }
}

static void open_structs(message *m) {
    static const char *const keys[] = {"attempt", "done", "price", "source", "tenant", "trace"};
    static const char *const values[] = {"", "", "", "eu-west", "shop", "4bf92f3577b34da"};
    static uint8_t made_before[512];
    feksroum_buffer headers = FEKSROUM_BUFFER(made_before);
    for (int k = 0; k < HEADERS; k++) {
        m->keys[k] = span_of(keys[k]);
        m->values[k] = span_of(values[k]);
    }
    add_headers(m, &headers);
    m->put_ack = (feksroum_basic_ack){.delivery_tag = 4711};
    m->put_deliver = (feksroum_basic_deliver){.consumer_tag = span_of("ctag1.3"), .delivery_tag = 4711, .exchange = span_of("amq.topic"),
                                              .routing_key = span_of("orders.created")};
    m->put_properties = (feksroum_basic_properties){
        .set = (uint16_t)(FEKSROUM_HAS_CONTENT_TYPE | FEKSROUM_HAS_DELIVERY_MODE | FEKSROUM_HAS_MESSAGE_ID | FEKSROUM_HAS_TIMESTAMP |
                          (m->table ? FEKSROUM_HAS_HEADERS : 0)),
        .content_type = span_of("application/json"), .delivery_mode = 2, .message_id = span_of("000003e8-001f"), .timestamp = 1700000000,
        .headers = feksroum_filled(&headers)};
}

static size_t put_frames(message *m, bool filled) {
    feksroum_buffer frames = FEKSROUM_BUFFER(out), headers = FEKSROUM_BUFFER(content);
    if (m->frames == 1) {
        feksroum_take(&frames, feksroum_basic_ack_put(1, &m->put_ack, MAX_PAYLOAD, FEKSROUM_REST(&frames)));
    } else {
        if (m->table && !filled) {
            add_headers(m, &headers);
            m->put_properties.headers = feksroum_filled(&headers);
        }
        feksroum_take(&frames, feksroum_basic_deliver_put(1, &m->put_deliver, MAX_PAYLOAD, FEKSROUM_REST(&frames)));
        feksroum_take(&frames, feksroum_basic_properties_put(1, BODY, &m->put_properties, MAX_PAYLOAD, FEKSROUM_REST(&frames)));
    }
    if (frames.status) {
        stop("a struct is not put");
    }
    return frames.length;
}

/* ---- All of them */

static size_t encode(message *m, char way) {
    switch (way) {
    case 'b':
        return bare(m);
    case 'e':
        return envelope(m);
    case 'w':
        return write_frames(m);
    default:
        return put_frames(m, way == 'f');
    }
}

/* The frames by each way are those of the first one; and the payloads alone have 12 and 20 bytes less. */
static void compare(message *m) {
    uint8_t wanted[sizeof out];
    size_t length = encode(m, 'e');
    memcpy(wanted, out, length);
    for (const char *way = "wpf"; *way; way++) {
        if (encode(m, *way) != length || memcmp(out, wanted, length) != 0) {
            stop("two ways write other bytes");
        }
    }
    if (encode(m, 'b') + (m->frames == 1 ? 12 : 12 + 20) != length) {
        stop("librabbitmq writes other payloads");
    }
}

int main(int argc, char **argv) {
    if (argc != 4) {
        stop("bare|envelope|write|put|filled ack|small|table COUNT");
    }
    message m = {.frames = argv[2][0] == 'a' ? 1 : 2, .table = argv[2][0] == 't'};
    long count = strtol(argv[3], NULL, 10);
    open_rabbitmq(&m);
    open_nodes(&m);
    open_structs(&m);
    compare(&m);
    for (long k = 0; k < count; k++) {
        encode(&m, argv[1][0]);
    }
    printf("%ld\n", count);
    return 0;
}
