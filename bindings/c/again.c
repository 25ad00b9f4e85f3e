/* Frames put anew by the typed calls, out of what was read of them. */
#include "again.h"

#include <stdio.h>
#include <stdlib.h>

/* Room for the nodes of one frame, and for what fills a table or an array that is a value. */
enum { NODES = 8192, CONTENT = 1 << 17 };

static void stop(const char *why) {
    fprintf(stderr, "again: %s\n", why);
    exit(1);
}

/* What is known of the frame, and where it is put. */
typedef struct again {
    uint16_t channel, class_id, method_id;
    const uint8_t *payload;
    const feksroum_node *nodes;
    uint32_t max_payload;
    uint8_t *out;
    size_t out_length;
} again;

/* For each method: whether it is the one, and then it is put. */
#define WITH(name)                                                                                                                             \
    static bool again_##name(const again *a, feksroum_made *made) {                                                                           \
        feksroum_##name m, before;                                                                                                            \
        memset(&m, 0xa5, sizeof m);                                                                                                           \
        memcpy(&before, &m, sizeof m);                                                                                                        \
        if (!feksroum_##name##_read(&m, a->class_id, a->method_id, a->payload, a->nodes)) {                                                   \
            if (memcmp(&before, &m, sizeof m) != 0)                                                                                           \
                stop("a struct of another method is changed");                                                                                \
            return false;                                                                                                                     \
        }                                                                                                                                     \
        *made = feksroum_##name##_put(a->channel, &m, a->max_payload, a->out, a->out_length);                                                 \
        return true;                                                                                                                          \
    }

#define WITHOUT(name)                                                                                                                         \
    static bool again_##name(const again *a, feksroum_made *made) {                                                                           \
        if (!feksroum_##name##_read(a->class_id, a->method_id))                                                                               \
            return false;                                                                                                                     \
        *made = feksroum_##name##_put(a->channel, a->max_payload, a->out, a->out_length);                                                     \
        return true;                                                                                                                          \
    }

FEKSROUM_EACH_METHOD(WITH, WITHOUT)

#define CALL(name) again_##name,

static bool (*const calls[])(const again *, feksroum_made *) = {FEKSROUM_EACH_METHOD(CALL, CALL)};

_Static_assert(sizeof calls / sizeof *calls == FEKSROUM_METHODS, "each method has a call");

static feksroum_made put_method(const again *a) {
    feksroum_made made = {0};
    int found = 0;
    for (size_t k = 0; k < FEKSROUM_METHODS; k++) {
        found += calls[k](a, &made);
    }
    if (found != 1) {
        stop("not exactly one struct takes a method");
    }
    return made;
}

feksroum_made put_again(const feksroum_frame *frame, const uint8_t *payload, uint8_t detail, uint32_t max_payload, uint8_t *out,
                        size_t out_length) {
    static feksroum_node nodes[NODES];
    feksroum_fields found = feksroum_read(frame->type, payload, (size_t)frame->payload_length, detail, nodes, NODES);
    if (found.status != FEKSROUM_OK) {
        stop(feksroum_status_name(found.status));
    }
    if (frame->type == FEKSROUM_HEADER) {
        feksroum_basic_properties properties;
        feksroum_basic_properties_read(&properties, payload, nodes, (size_t)found.nodes);
        return feksroum_basic_properties_put(frame->channel, found.body_size, &properties, max_payload, out, out_length);
    }
    again a = {frame->channel, found.class_id, found.method_id, payload, nodes, max_payload, out, out_length};
    return put_method(&a);
}

/* What lies inside a table or an array, as what fills it, on the heap. */
static feksroum_buffer filled(uint8_t kind, const feksroum_node *node, const uint8_t *pool) {
    feksroum_buffer content = {malloc(CONTENT), CONTENT, 0, 0, 0};
    if (!content.bytes) {
        stop("no memory");
    }
    append_nodes(kind, node + 1, node->inside, pool, &content);
    return content;
}

/* Appends one of a kind, as an entry where `table` holds, else as a value of an array. */
#define APPEND(kind, ...) (table ? feksroum_add_##kind(content, key, __VA_ARGS__) : feksroum_push_##kind(content, __VA_ARGS__))

static void append_node(bool table, const feksroum_node *node, const uint8_t *pool, feksroum_buffer *content) {
    feksroum_bytes key = feksroum_span(pool + node->key_start, node->key_length), bytes = feksroum_bytes_of(pool, node);
    feksroum_buffer inside;
    switch (node->kind) {
    case 't':
        APPEND(bool, node->number != 0);
        break;
    case 'b':
        APPEND(int8, (int8_t)node->number);
        break;
    case 'B':
        APPEND(uint8, (uint8_t)node->number);
        break;
    case 's':
        APPEND(int16, (int16_t)node->number);
        break;
    case 'u':
        APPEND(uint16, (uint16_t)node->number);
        break;
    case 'I':
        APPEND(int32, (int32_t)node->number);
        break;
    case 'i':
        APPEND(uint32, (uint32_t)node->number);
        break;
    case 'l':
        APPEND(int64, (int64_t)node->number);
        break;
    case 'f':
        APPEND(float, feksroum_float_of(node));
        break;
    case 'd':
        APPEND(double, feksroum_double_of(node));
        break;
    case 'D':
        APPEND(decimal, node->scale, (uint32_t)node->number);
        break;
    case 'S':
        APPEND(string, bytes);
        break;
    case 'T':
        APPEND(timestamp, node->number);
        break;
    case 'x':
        APPEND(bytes, bytes);
        break;
    case 'F':
        inside = filled('F', node, pool);
        APPEND(table, feksroum_filled(&inside));
        free(inside.bytes);
        break;
    case 'A':
        inside = filled('A', node, pool);
        APPEND(array, feksroum_filled(&inside));
        free(inside.bytes);
        break;
    default:
        table ? feksroum_add_void(content, key) : feksroum_push_void(content);
    }
}

void append_nodes(uint8_t kind, const feksroum_node *nodes, size_t count, const uint8_t *pool, feksroum_buffer *content) {
    for (size_t k = 0; k < count; k += 1 + nodes[k].inside) {
        append_node(kind == 'F', nodes + k, pool, content);
    }
}
