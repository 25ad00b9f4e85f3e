/* Compares what is written of methods, properties and tables with librabbitmq, where its header is at hand:
 *
 *     rabbitmq ROUNDS
 *
 * Random fields are written by feksroum_write. amqp_decode_method, amqp_decode_properties and amqp_decode_table have to find the same
 * numbers and bytes, and amqp_encode_method and amqp_encode_properties have to write the same bytes, both of what was decoded and of a
 * struct that is filled from the nodes. The same frames are read into the structs of feksroum_methods.h and put by them, and librabbitmq has to
 * write the payloads that it decodes of these. Members of its structs stand in the order of the fields, reserved ones included. */
#include <amqp.h>
#include <amqp_framing.h>
#include <feksroum_methods.h>
#include <stdio.h>
#include <stdlib.h>
#include <string.h>

#include "again.h"
#include "random.h"
#include "table.h"

enum { MAX_PAYLOAD = 1 << 20, STRUCT = 256, FRONT = 7 };

static uint8_t frame[MAX_PAYLOAD], encoded[MAX_PAYLOAD], again[MAX_PAYLOAD];

static void stop(const char *why, const char *what) {
    fprintf(stderr, "rabbitmq: %s: %s\n", what, why);
    exit(1);
}

/* What librabbitmq decodes, and what is encoded by it, is released after each frame. */
static amqp_pool_t pool;

static void *take(size_t size) {
    void *bytes = amqp_pool_alloc(&pool, size ? size : 1);
    if (!bytes) {
        stop("no memory", "rabbitmq");
    }
    return bytes;
}

/* ---- A member of a struct, by its letter */

typedef struct member {
    size_t size, align;
} member;

#define MEMBER(type) ((member){sizeof(type), _Alignof(type)})

static member member_of(char letter) {
    switch (letter) {
    case 'o':
        return MEMBER(uint8_t);
    case 'h':
    case '0':
    case '1':
        return MEMBER(uint16_t);
    case 'l':
    case 'Z':
        return MEMBER(uint32_t);
    case 'q':
        return MEMBER(uint64_t);
    case 'b':
    case 'f':
        return MEMBER(amqp_boolean_t);
    case 'T':
        return MEMBER(amqp_table_t);
    default:
        return MEMBER(amqp_bytes_t);
    }
}

/* Where the next member stands after `at`. */
static size_t place_of(size_t at, char letter) {
    size_t align = member_of(letter).align;
    return (at + align - 1) / align * align;
}

/* An unsigned number of the machine. */
static uint64_t number_at(const uint8_t *bytes, size_t size) {
    uint64_t number = 0;
    memcpy(&number, bytes, size);
    return number;
}

static bool is_reserved(char letter) {
    return strchr("01ZfeE", letter) != NULL;
}

/* ---- Values and tables */

static bool same_bytes(const made_frames *made, uint32_t start, uint32_t length, amqp_bytes_t bytes) {
    return bytes.len == length && memcmp(made->pool + start, bytes.bytes, length) == 0;
}

static bool same_entries(const made_frames *made, const feksroum_node *nodes, size_t count, amqp_table_t table);

static bool same_value(const made_frames *made, const feksroum_node *node, const amqp_field_value_t *value) {
    if (value->kind != node->kind) {
        return false;
    }
    switch (node->kind) {
    case 't':
        return (uint64_t)value->value.boolean == node->number;
    case 'b':
        return (uint64_t)(int64_t)value->value.i8 == node->number;
    case 'B':
        return value->value.u8 == node->number;
    case 's':
        return (uint64_t)(int64_t)value->value.i16 == node->number;
    case 'u':
        return value->value.u16 == node->number;
    case 'I':
        return (uint64_t)(int64_t)value->value.i32 == node->number;
    case 'i':
    case 'f':
        return value->value.u32 == node->number;
    case 'l':
    case 'd':
    case 'T':
        return value->value.u64 == node->number;
    case 'D':
        return value->value.decimal.decimals == node->scale && value->value.decimal.value == node->number;
    case 'S':
    case 'x':
        return same_bytes(made, node->start, node->length, value->value.bytes);
    case 'F':
        return same_entries(made, node + 1, node->inside, value->value.table);
    case 'A':
        for (size_t k = 0, at = 0; at < node->inside; k++, at += 1 + node[1 + at].inside) {
            if ((int)k >= value->value.array.num_entries || !same_value(made, node + 1 + at, value->value.array.entries + k)) {
                return false;
            }
        }
        return true;
    default:
        return node->kind == 'V';
    }
}

static bool same_entries(const made_frames *made, const feksroum_node *nodes, size_t count, amqp_table_t table) {
    int entries = 0;
    for (size_t k = 0; k < count; k += 1 + nodes[k].inside, entries++) {
        if (entries >= table.num_entries || !same_bytes(made, nodes[k].key_start, nodes[k].key_length, table.entries[entries].key) ||
            !same_value(made, nodes + k, &table.entries[entries].value)) {
            return false;
        }
    }
    return entries == table.num_entries;
}

static int siblings(const feksroum_node *nodes, size_t count) {
    int found = 0;
    for (size_t k = 0; k < count; k += 1 + nodes[k].inside) {
        found++;
    }
    return found;
}

static amqp_bytes_t bytes_of(const made_frames *made, uint32_t start, uint32_t length) {
    return (amqp_bytes_t){length, made->pool + start};
}

static amqp_table_t table_of(const made_frames *made, const feksroum_node *nodes, size_t count);

static amqp_field_value_t value_of(const made_frames *made, const feksroum_node *node) {
    amqp_field_value_t value = {.kind = node->kind};
    switch (node->kind) {
    case 't':
        value.value.boolean = (int)node->number;
        break;
    case 'D':
        value.value.decimal = (amqp_decimal_t){node->scale, (uint32_t)node->number};
        break;
    case 'S':
    case 'x':
        value.value.bytes = bytes_of(made, node->start, node->length);
        break;
    case 'F':
        value.value.table = table_of(made, node + 1, node->inside);
        break;
    case 'A':
        value.value.array.num_entries = siblings(node + 1, node->inside);
        value.value.array.entries = take((size_t)value.value.array.num_entries * sizeof value);
        for (size_t k = 0, at = 0; at < node->inside; k++, at += 1 + node[1 + at].inside) {
            value.value.array.entries[k] = value_of(made, node + 1 + at);
        }
        break;
    default:
        value.value.u64 = node->number; /* the lowest bytes come first */
    }
    return value;
}

static amqp_table_t table_of(const made_frames *made, const feksroum_node *nodes, size_t count) {
    amqp_table_t table = {.num_entries = siblings(nodes, count)};
    table.entries = take((size_t)table.num_entries * sizeof *table.entries);
    for (size_t k = 0, at = 0; at < count; k++, at += 1 + nodes[at].inside) {
        table.entries[k].key = bytes_of(made, nodes[at].key_start, nodes[at].key_length);
        table.entries[k].value = value_of(made, nodes + at);
    }
    return table;
}

/* ---- Fields */

/* Whether a member is what a node says; a reserved one its constant. */
static bool same_field(const made_frames *made, char letter, const uint8_t *at, const feksroum_node *node) {
    amqp_bytes_t bytes;
    amqp_table_t table;
    switch (letter) {
    case 'e':
    case 'E':
        memcpy(&bytes, at, sizeof bytes);
        return bytes.len == 0;
    case 's':
    case 'S':
        memcpy(&bytes, at, sizeof bytes);
        return same_bytes(made, node->start, node->length, bytes);
    case 'T':
        memcpy(&table, at, sizeof table);
        return same_entries(made, node + 1, node->inside, table);
    default:
        return number_at(at, member_of(letter).size) == (is_reserved(letter) ? letter == '1' : node->number);
    }
}

static void fill_field(const made_frames *made, char letter, uint8_t *at, const feksroum_node *node) {
    amqp_bytes_t bytes = amqp_empty_bytes;
    amqp_table_t table;
    uint64_t number;
    switch (letter) {
    case 'e':
    case 'E':
        memcpy(at, &bytes, sizeof bytes);
        break;
    case 's':
    case 'S':
        bytes = bytes_of(made, node->start, node->length);
        memcpy(at, &bytes, sizeof bytes);
        break;
    case 'T':
        table = table_of(made, node + 1, node->inside);
        memcpy(at, &table, sizeof table);
        break;
    default:
        number = is_reserved(letter) ? letter == '1' : node->number;
        memcpy(at, &number, member_of(letter).size);
    }
}

/* Goes over the members and the nodes of a method, or of the properties that a mask has. */
static bool same_fields(const made_frames *made, const char *letters, uint32_t mask, const uint8_t *decoded, size_t at) {
    const feksroum_node *node = made->nodes;
    for (uint32_t bit = 0x8000; *letters; at += member_of(*letters).size, letters++, bit >>= 1) {
        at = place_of(at, *letters);
        bool set = mask == 0 || mask & bit;
        if (set && !same_field(made, *letters, decoded + at, node)) {
            return false;
        }
        node += set && !is_reserved(*letters) ? 1 + node->inside : 0;
    }
    return node == made->nodes + made->node_count;
}

static void fill_fields(const made_frames *made, const char *letters, uint32_t mask, uint8_t *decoded, size_t at) {
    const feksroum_node *node = made->nodes;
    for (uint32_t bit = 0x8000; *letters; at += member_of(*letters).size, letters++, bit >>= 1) {
        at = place_of(at, *letters);
        if (mask == 0 || mask & bit) {
            fill_field(made, *letters, decoded + at, node);
            node += is_reserved(*letters) ? 0 : 1 + node->inside;
        }
    }
}

/* What was written after so many bytes of the payload. */
static amqp_bytes_t written(const made_frames *made, size_t skipped, const char *what) {
    feksroum_written found = feksroum_write(made->heads, made->head_count, made->nodes, made->node_count, made->pool, made->pool_length,
                                            MAX_PAYLOAD, frame, sizeof frame);
    if (found.status != FEKSROUM_OK) {
        stop("feksroum_write refuses it", what);
    }
    return (amqp_bytes_t){(size_t)found.length - FEKSROUM_AROUND_PAYLOAD - skipped, frame + FRONT + skipped};
}

static void same_encoding(int length, amqp_bytes_t wanted, const char *what) {
    if (length < 0 || (size_t)length != wanted.len || memcmp(encoded, wanted.bytes, wanted.len) != 0) {
        stop("librabbitmq encodes other bytes", what);
    }
}

/* The payload after so many bytes, put by a struct out of what was written. */
static amqp_bytes_t put_by_struct(amqp_bytes_t written, size_t skipped, const char *what) {
    size_t payload = written.len + skipped;
    feksroum_frame found = feksroum_next(frame, payload + FEKSROUM_AROUND_PAYLOAD, MAX_PAYLOAD);
    feksroum_made made = put_again(&found, frame + FRONT, FEKSROUM_DEEP, MAX_PAYLOAD, again, sizeof again);
    if (made.status != FEKSROUM_OK) {
        stop("a struct is refused", what);
    }
    return (amqp_bytes_t){(size_t)made.length - FEKSROUM_AROUND_PAYLOAD - skipped, again + FRONT + skipped};
}

/* ---- Methods, properties and tables */

static bool compare_method(random_source *source, const method_fields *method) {
    made_frames made;
    char what[32];
    snprintf(what, sizeof what, "method %d.%d", method->class_id, method->method_id);
    random_method(source, false, method->class_id, method->method_id, &made);
    amqp_bytes_t wanted = written(&made, 4, what), buffer = {sizeof encoded, encoded};
    amqp_method_number_t number = (amqp_method_number_t)method->class_id << 16 | method->method_id;
    void *decoded;
    int status = amqp_decode_method(number, &pool, wanted, &decoded);
    bool has = status != AMQP_STATUS_UNKNOWN_METHOD;
    if (has) {
        uint8_t filled[STRUCT] = {0};
        if (status != AMQP_STATUS_OK || !same_fields(&made, method->fields, 0, decoded, 0)) {
            stop("librabbitmq decodes other fields", what);
        }
        same_encoding(amqp_encode_method(number, decoded, buffer), wanted, what);
        fill_fields(&made, method->fields, 0, filled, 0);
        same_encoding(amqp_encode_method(number, filled, buffer), wanted, what);
        amqp_bytes_t put = put_by_struct(wanted, 4, what);
        if (amqp_decode_method(number, &pool, put, &decoded) != AMQP_STATUS_OK) {
            stop("librabbitmq decodes no struct", what);
        }
        same_encoding(amqp_encode_method(number, decoded, buffer), put, what);
    }
    recycle_amqp_pool(&pool);
    free(made.heads);
    free(made.nodes);
    free(made.pool);
    return has;
}

/* A table by itself, as it stands in a content header. */
static void compare_table(const made_frames *made, const feksroum_node *node) {
    feksroum_written found = feksroum_write_content('F', node + 1, node->inside, made->pool, made->pool_length, frame + 4, sizeof frame - 4);
    for (int k = 0; k < 4; k++) {
        frame[k] = (uint8_t)(found.length >> 8 * (3 - k));
    }
    amqp_table_t table;
    amqp_bytes_t wanted = {(size_t)found.length + 4, frame}, buffer = {sizeof encoded, encoded};
    size_t offset = 0, end = 0;
    if (found.status != FEKSROUM_OK || amqp_decode_table(wanted, &pool, &table, &offset) != AMQP_STATUS_OK || offset != wanted.len ||
        !same_entries(made, node + 1, node->inside, table)) {
        stop("librabbitmq decodes other entries", "table");
    }
    if (amqp_encode_table(buffer, &table, &end) != AMQP_STATUS_OK) {
        stop("librabbitmq encodes nothing", "table");
    }
    same_encoding((int)end, wanted, "table");
}

static void compare_header(random_source *source, uint16_t mask) {
    made_frames made;
    char what[32];
    snprintf(what, sizeof what, "properties %04x", mask);
    random_header(source, false, mask, &made);
    amqp_bytes_t wanted = written(&made, 12, what), buffer = {sizeof encoded, encoded};
    amqp_basic_properties_t filled = {._flags = mask}, *found;
    void *decoded;
    if (amqp_decode_properties(AMQP_BASIC_CLASS, &pool, wanted, &decoded) != AMQP_STATUS_OK) {
        stop("librabbitmq decodes nothing", what);
    }
    found = decoded;
    if (found->_flags != mask || (mask && !same_fields(&made, properties, mask, decoded, sizeof found->_flags))) {
        stop("librabbitmq decodes other properties", what);
    }
    same_encoding(amqp_encode_properties(AMQP_BASIC_CLASS, decoded, buffer), wanted, what);
    if (mask) {
        fill_fields(&made, properties, mask, (uint8_t *)&filled, sizeof filled._flags);
    }
    same_encoding(amqp_encode_properties(AMQP_BASIC_CLASS, &filled, buffer), wanted, what);
    amqp_bytes_t put = put_by_struct(wanted, 12, what);
    if (amqp_decode_properties(AMQP_BASIC_CLASS, &pool, put, &decoded) != AMQP_STATUS_OK) {
        stop("librabbitmq decodes no struct", what);
    }
    same_encoding(amqp_encode_properties(AMQP_BASIC_CLASS, decoded, buffer), put, what);
    for (size_t k = 0; k < made.node_count; k += 1 + made.nodes[k].inside) {
        if (made.nodes[k].kind == FEKSROUM_TABLE) {
            compare_table(&made, made.nodes + k);
        }
    }
    recycle_amqp_pool(&pool);
    free(made.heads);
    free(made.nodes);
    free(made.pool);
}

int main(int argc, char **argv) {
    if (argc != 2) {
        stop("rabbitmq ROUNDS", "arguments");
    }
    random_source source = {1};
    init_amqp_pool(&pool, 4096);
    int compared = 0;
    long rounds = strtol(argv[1], NULL, 10);
    for (long round = 0; round < rounds; round++) {
        compared = 0;
        for (size_t k = 0; k < METHODS; k++) {
            compared += compare_method(&source, methods + k);
        }
        for (int place = 0; place < PROPERTIES; place++) {
            compare_header(&source, (uint16_t)(0x8000 >> place));
        }
        compare_header(&source, (uint16_t)(next_random(&source) & 0xfffc));
    }
    empty_amqp_pool(&pool);
    printf("rabbitmq: %d of %d methods, and %d properties: %ld rounds as wanted\n", compared, METHODS, PROPERTIES, rounds);
    return compared < METHODS / 2;
}
