/* Random frames as heads and nodes, for tests. */
#include "random.h"

#include <stdio.h>
#include <stdlib.h>
#include <string.h>

/* Room for one head, and for the nodes and bytes that one frame takes at most. */
enum { HEADS = 8, NODES = 8192, POOL = 1 << 17 };

uint64_t next_random(random_source *source) {
    source->state = source->state * 6364136223846793005u + 1442695040888963407u;
    return source->state >> 16 ^ source->state >> 40 << 32;
}

size_t below(random_source *source, size_t bound) {
    return bound ? (size_t)(next_random(source) >> 8) % bound : 0;
}

static void *take(size_t size) {
    void *bytes = malloc(size);
    if (!bytes) {
        fputs("random: no memory\n", stderr);
        exit(2);
    }
    return bytes;
}

static uint32_t put_bytes(made_frames *made, const void *bytes, size_t length) {
    if (made->pool_length + length > POOL) {
        fputs("random: the pool is too short\n", stderr);
        exit(2);
    }
    memcpy(made->pool + made->pool_length, bytes, length);
    made->pool_length += length;
    return (uint32_t)(made->pool_length - length);
}

static feksroum_node *put_node(made_frames *made) {
    if (made->node_count == NODES) {
        fputs("random: too many nodes\n", stderr);
        exit(2);
    }
    memset(made->nodes + made->node_count, 0, sizeof *made->nodes);
    return made->nodes + made->node_count++;
}

/* A text of letters of one, two and three bytes. */
static uint32_t put_text(random_source *source, made_frames *made, size_t most, uint32_t *length) {
    static const char *const letters[] = {"a", "b", "-", "\303\251", "\342\202\254", "\0"};
    uint32_t start = (uint32_t)made->pool_length;
    for (size_t k = below(source, most / 3 + 1); k > 0; k--) {
        const char *letter = letters[below(source, sizeof letters / sizeof *letters)];
        put_bytes(made, letter, letter[0] ? strlen(letter) : 1);
    }
    *length = (uint32_t)made->pool_length - start;
    return start;
}

static uint32_t put_any(random_source *source, made_frames *made, size_t most, uint32_t *length) {
    uint32_t start = (uint32_t)made->pool_length;
    for (size_t k = below(source, most + 1); k > 0; k--) {
        uint8_t byte = (uint8_t)next_random(source);
        put_bytes(made, &byte, 1);
    }
    *length = (uint32_t)made->pool_length - start;
    return start;
}

/* A number of so many bytes: any, or one at the bounds. */
static uint64_t number_of(random_source *source, size_t width) {
    uint64_t number = below(source, 4) ? next_random(source) << 32 ^ next_random(source) : below(source, 3) - (uint64_t)1;
    return width == 8 ? number : number & (((uint64_t)1 << 8 * width) - 1);
}

static uint64_t signed_of(random_source *source, size_t width) {
    uint64_t number = number_of(source, width), sign = (uint64_t)1 << (8 * width - 1);
    return (number ^ sign) - sign;
}

static void put_items(random_source *source, bool given, size_t depth, made_frames *made, size_t owner, uint8_t kind);

/* Gives the node a kind of a value, its number or its bytes, and what lies inside it. */
static void put_value(random_source *source, bool given, size_t depth, made_frames *made, size_t at) {
    static const char kinds[] = "tbBsuIilfdDSTxVAF";
    uint8_t kind = (uint8_t)kinds[below(source, depth ? 17 : 15)];
    feksroum_node node = made->nodes[at];
    node.kind = kind;
    switch (kind) {
    case 't':
        node.number = below(source, 2);
        break;
    case 'b':
        node.number = signed_of(source, 1);
        break;
    case 'B':
        node.number = number_of(source, 1);
        break;
    case 's':
        node.number = signed_of(source, 2);
        break;
    case 'u':
        node.number = number_of(source, 2);
        break;
    case 'I':
        node.number = signed_of(source, 4);
        break;
    case 'D':
        node.scale = (uint8_t)next_random(source);
        node.number = number_of(source, 4);
        break;
    case 'i':
    case 'f':
        node.number = number_of(source, 4);
        break;
    case 'l':
    case 'd':
    case 'T':
        node.number = number_of(source, 8);
        break;
    case 'S':
    case 'x':
        node.start = put_any(source, made, 40, &node.length);
        break;
    }
    made->nodes[at] = node;
    if (kind == 'F' || kind == 'A') {
        put_items(source, given, depth - 1, made, at, kind);
    }
}

/* Entries of a table, or values of an array, after the node that they lie in. */
static void put_items(random_source *source, bool given, size_t depth, made_frames *made, size_t owner, uint8_t kind) {
    size_t first = made->node_count;
    for (size_t k = below(source, 6); k > 0; k--) {
        feksroum_node *node = put_node(made);
        size_t at = made->node_count - 1;
        uint32_t length = 0;
        if (kind != 'A') {
            node->key_start = put_text(source, made, 12, &length);
            node->key_length = (uint8_t)length;
        }
        put_value(source, given, depth, made, at);
    }
    made->nodes[owner].items = (uint32_t)next_random(source);
    if (given && below(source, 2)) {
        static uint8_t content[POOL];
        feksroum_written found = feksroum_write_content(kind == 'A' ? 'A' : 'F', made->nodes + first, made->node_count - first,
                                                        made->pool, made->pool_length, content, sizeof content);
        if (found.status != FEKSROUM_OK) {
            fputs("random: content is refused\n", stderr);
            exit(1);
        }
        made->nodes[owner].start = put_bytes(made, content, (size_t)found.length);
        made->nodes[owner].length = (uint32_t)found.length;
        made->node_count = first;
    }
    made->nodes[owner].inside = (uint32_t)(made->node_count - first);
}

static void put_field(random_source *source, bool given, made_frames *made, uint8_t kind, uint8_t place) {
    feksroum_node *node = put_node(made);
    size_t at = made->node_count - 1;
    node->kind = kind;
    node->place = place;
    switch (kind) {
    case FEKSROUM_FLAG:
        node->number = below(source, 2);
        break;
    case FEKSROUM_SHORT_STRING:
        node->start = put_text(source, made, below(source, 8) ? 20 : 255, &node->length);
        break;
    case FEKSROUM_LONG_STRING:
        node->start = put_any(source, made, below(source, 8) ? 20 : 1000, &node->length);
        break;
    case FEKSROUM_TABLE:
        put_items(source, given, below(source, 5), made, at, kind);
        break;
    default:
        node->number = number_of(source, (size_t)1 << (kind - FEKSROUM_OCTET));
    }
}

static feksroum_head *put_head(random_source *source, made_frames *made, uint8_t type) {
    feksroum_head *head = made->heads + made->head_count++;
    *head = (feksroum_head){.type = type, .first = (uint32_t)made->node_count, .form = (uint8_t)next_random(source)};
    head->channel = type == FEKSROUM_PROTOCOL_HEADER ? 0 : (uint16_t)next_random(source);
    if (type != FEKSROUM_BODY) {
        head->start = (uint32_t)next_random(source);
        head->length = (uint32_t)next_random(source);
    }
    return head;
}

static void put_method(random_source *source, bool given, made_frames *made, uint16_t class_id, uint16_t method_id) {
    uint8_t kinds[FEKSROUM_FIELDS_MAX];
    feksroum_head *head = put_head(source, made, FEKSROUM_METHOD);
    head->class_id = class_id;
    head->method_id = method_id;
    size_t count = feksroum_shape(class_id, method_id, kinds, sizeof kinds);
    for (size_t place = 0; place < count; place++) {
        put_field(source, given, made, kinds[place], (uint8_t)place);
    }
    head->nodes = (uint32_t)made->node_count - head->first;
}

static void put_header(random_source *source, bool given, made_frames *made, uint16_t mask) {
    feksroum_head *head = put_head(source, made, FEKSROUM_HEADER);
    head->class_id = 60;
    head->body_size = number_of(source, 8);
    for (uint8_t place = 0; place < FEKSROUM_PROPERTIES; place++) {
        if (mask >> (15 - place) & 1) {
            put_field(source, given, made, feksroum_property_kind(place), place);
        }
    }
    head->nodes = (uint32_t)made->node_count - head->first;
}

static void put_frame(random_source *source, bool given, made_frames *made) {
    static const uint8_t types[] = {FEKSROUM_METHOD, FEKSROUM_METHOD, FEKSROUM_HEADER, FEKSROUM_HEADER, FEKSROUM_BODY, FEKSROUM_HEARTBEAT,
                                    FEKSROUM_PROTOCOL_HEADER};
    uint8_t type = types[below(source, sizeof types)];
    feksroum_method method;
    feksroum_head *head;
    switch (type) {
    case FEKSROUM_METHOD:
        method = feksroum_method_at((uint8_t)below(source, FEKSROUM_METHODS));
        put_method(source, given, made, method.class_id, method.method_id);
        break;
    case FEKSROUM_HEADER:
        put_header(source, given, made, (uint16_t)(next_random(source) & next_random(source)));
        break;
    case FEKSROUM_BODY:
        head = put_head(source, made, type);
        head->start = put_any(source, made, 300, &head->length);
        break;
    case FEKSROUM_HEARTBEAT:
        put_head(source, made, type);
        break;
    default:
        head = put_head(source, made, type);
        for (uint8_t place = 0; place < 3; place++) {
            put_field(source, given, made, FEKSROUM_OCTET, place);
        }
        head->nodes = 3;
    }
}

static void begin(random_source *source, made_frames *made) {
    *made = (made_frames){.heads = take(HEADS * sizeof *made->heads), .nodes = take(NODES * sizeof *made->nodes), .pool = take(POOL)};
    uint32_t length;
    put_any(source, made, 20, &length);
}

void random_frames(random_source *source, bool given, made_frames *made) {
    begin(source, made);
    for (size_t k = below(source, HEADS + 1); k > 0; k--) {
        put_frame(source, given, made);
    }
}

void random_method(random_source *source, bool given, uint16_t class_id, uint16_t method_id, made_frames *made) {
    begin(source, made);
    put_method(source, given, made, class_id, method_id);
}

void random_header(random_source *source, bool given, uint16_t mask, made_frames *made) {
    begin(source, made);
    put_header(source, given, made, mask);
}
