/* Encodes each method and each property by a table of its own, as the standard has it, and compares what is read and written. */
#include "table.h"

#include <feksroum.h>
#include <string.h>

#include "fields.h"

const method_fields methods[METHODS] = {
    /* connection */
    {10, 10, "ooTSS"}, {10, 11, "TsSs"}, {10, 20, "S"}, {10, 21, "S"}, {10, 30, "hlh"}, {10, 31, "hlh"}, {10, 40, "sef"},
    {10, 41, "e"}, {10, 50, "hshh"}, {10, 51, ""}, {10, 60, "s"}, {10, 61, ""}, {10, 70, "Ss"}, {10, 71, ""},
    /* channel, access */
    {20, 10, "e"}, {20, 11, "E"}, {20, 20, "b"}, {20, 21, "b"}, {20, 40, "hshh"}, {20, 41, ""}, {30, 10, "sbbbbb"}, {30, 11, "1"},
    /* exchange */
    {40, 10, "0ssbbbbbT"}, {40, 11, ""}, {40, 20, "0sbb"}, {40, 21, ""}, {40, 30, "0sssbT"}, {40, 31, ""}, {40, 40, "0sssbT"},
    {40, 51, ""},
    /* queue */
    {50, 10, "0sbbbbbT"}, {50, 11, "sll"}, {50, 20, "0sssbT"}, {50, 21, ""}, {50, 30, "0sb"}, {50, 31, "l"}, {50, 40, "0sbbb"},
    {50, 41, "l"}, {50, 50, "0sssT"}, {50, 51, ""},
    /* basic */
    {60, 10, "Zhb"}, {60, 11, ""}, {60, 20, "0ssbbbbT"}, {60, 21, "s"}, {60, 30, "sb"}, {60, 31, "s"}, {60, 40, "0ssbb"},
    {60, 50, "hsss"}, {60, 60, "sqbss"}, {60, 70, "0sb"}, {60, 71, "qbssl"}, {60, 72, "e"}, {60, 80, "qb"}, {60, 90, "qb"},
    {60, 100, "b"}, {60, 110, "b"}, {60, 111, ""}, {60, 120, "qbb"},
    /* confirm, tx */
    {85, 10, "b"}, {85, 11, ""}, {90, 10, ""}, {90, 11, ""}, {90, 20, ""}, {90, 21, ""}, {90, 30, ""}, {90, 31, ""},
};

const char properties[PROPERTIES + 1] = "ssToossssqssss";

/* A payload that is made, and the nodes that are wanted of it. */
typedef struct made {
    uint8_t bytes[256];
    size_t length;
    feksroum_node nodes[32];
    size_t count, fields;
    int flags; /* how many flags share the last byte, 0 where it is none of flags */
} made;

static void put_number(made *m, size_t width, uint64_t number) {
    for (size_t k = width; k > 0; k--) {
        m->bytes[m->length++] = (uint8_t)(number >> 8 * (k - 1));
    }
}

/* Puts a length of so many bytes and what it is of, and returns where that begins. */
static uint32_t put_bytes(made *m, size_t width, const void *bytes, size_t length) {
    put_number(m, width, length);
    memcpy(m->bytes + m->length, bytes, length);
    m->length += length;
    return (uint32_t)(m->length - length);
}

/* A flag takes the next bit of a byte that flags share. */
static void put_flag(made *m, bool on) {
    if (m->flags == 0) {
        put_number(m, 1, 0);
    }
    m->bytes[m->length - 1] |= (uint8_t)(on << m->flags++);
}

/* Puts a reserved field, at its constant or at another value. */
static bool put_reserved(made *m, char letter, bool constant) {
    static const char other[] = "kept";
    size_t length = constant ? 0 : sizeof other - 1;
    switch (letter) {
    case '0':
    case '1':
        put_number(m, 2, constant ? (uint64_t)(letter - '0') : 258);
        return true;
    case 'Z':
        put_number(m, 4, constant ? 0 : 65539);
        return true;
    case 'f':
        put_flag(m, !constant);
        return true;
    case 'e':
    case 'E':
        put_bytes(m, letter == 'e' ? 1 : 4, other, length);
        return true;
    default:
        return false;
    }
}

/* Puts a field at a place, and wants its nodes. */
static void put_field(made *m, char letter, uint8_t place) {
    static const uint8_t content[] = {3, 'k', 'e', 'y', 't', 1};
    static const uint64_t number = 0x0102030405060708;
    const char text[] = {'t', (char)('0' + place)};
    feksroum_node *node = &m->nodes[m->count++];
    *node = (feksroum_node){.place = place};
    m->fields++;
    switch (letter) {
    case 'o':
    case 'h':
    case 'l':
    case 'q':
        node->kind = (uint8_t)(strchr("ohlq", letter) - "ohlq" + FEKSROUM_OCTET);
        node->number = letter == 'q' ? number : number & (((uint64_t)1 << (8 << (node->kind - FEKSROUM_OCTET))) - 1);
        put_number(m, (size_t)1 << (node->kind - FEKSROUM_OCTET), node->number);
        break;
    case 'b':
        node->kind = FEKSROUM_FLAG;
        node->number = place % 2;
        put_flag(m, node->number != 0);
        break;
    case 's':
    case 'S':
        node->kind = letter == 's' ? FEKSROUM_SHORT_STRING : FEKSROUM_LONG_STRING;
        node->length = sizeof text;
        node->start = put_bytes(m, letter == 's' ? 1 : 4, text, sizeof text);
        break;
    default:
        node->kind = FEKSROUM_TABLE;
        node->length = sizeof content;
        node->inside = node->items = 1;
        node->start = put_bytes(m, 4, content, sizeof content);
        m->nodes[m->count++] =
            (feksroum_node){.kind = 't', .number = 1, .key_start = node->start + 1, .key_length = 3};
    }
}

static void put_fields(made *m, const char *letters, bool constant) {
    uint8_t place = 0;
    for (; *letters; letters++) {
        if (*letters != 'b' && *letters != 'f') {
            m->flags = 0;
        }
        if (!put_reserved(m, *letters, constant)) {
            put_field(m, *letters, place++);
        }
    }
}

/* Whether the nodes that are wanted are read, and nothing else is said. */
static bool is_read(const made *m, uint8_t type, uint16_t class_id, uint16_t method_id, uint64_t body_size, bool canonical) {
    feksroum_node nodes[32];
    feksroum_payload whole = feksroum_check(type, m->bytes, m->length);
    feksroum_fields found = feksroum_read(type, m->bytes, m->length, FEKSROUM_DEEP, nodes, 32);
    return found.status == FEKSROUM_OK && found.class_id == class_id && found.method_id == method_id &&
           found.body_size == body_size && found.canonical == canonical && found.tidy == canonical && found.nodes == m->count &&
           memcmp(nodes, m->nodes, m->count * sizeof *nodes) == 0 && whole.fields == m->fields &&
           fields_agree(type, m->bytes, m->length);
}

/* Whether the nodes of one payload, whose bytes are their pool, are written as another. */
static bool is_written(const made *m, feksroum_head head, const made *wanted) {
    uint8_t frame[sizeof wanted->bytes + FEKSROUM_AROUND_PAYLOAD];
    size_t length = wanted->length + FEKSROUM_AROUND_PAYLOAD;
    head.channel = 258;
    head.nodes = (uint32_t)m->count;
    feksroum_written found = feksroum_write(&head, 1, m->nodes, m->count, m->bytes, m->length, (uint32_t)wanted->length, frame, length);
    feksroum_frame front = feksroum_next(frame, length, (uint32_t)wanted->length);
    return found.status == FEKSROUM_OK && found.length == length && found.head + found.node + found.unused == 0 &&
           front.status == FEKSROUM_OK && front.used == length && front.type == head.type && front.channel == 258 &&
           memcmp(frame + front.payload_start, wanted->bytes, wanted->length) == 0;
}

static made made_method(size_t k, bool constant) {
    made m = {0};
    put_number(&m, 2, methods[k].class_id);
    put_number(&m, 2, methods[k].method_id);
    put_fields(&m, methods[k].fields, constant);
    return m;
}

/* Reserved fields are read at each value, and written at their constants. */
static bool method_is_known(size_t k) {
    made plain = made_method(k, false), canonical = made_method(k, true);
    bool same = strpbrk(methods[k].fields, "01ZfeE") == NULL;
    feksroum_head head = {.type = FEKSROUM_METHOD, .class_id = methods[k].class_id, .method_id = methods[k].method_id};
    return is_read(&plain, head.type, head.class_id, head.method_id, 0, same) && is_written(&plain, head, &canonical) &&
           is_read(&canonical, head.type, head.class_id, head.method_id, 0, true) && is_written(&canonical, head, &canonical);
}

/* A content header with the properties of a mask, the first one its highest bit. */
static bool header_is_known(uint16_t mask) {
    made m = {0};
    put_number(&m, 2, 60);
    put_number(&m, 2, 0);
    put_number(&m, 8, 65540);
    put_number(&m, 2, mask);
    for (uint8_t place = 0; place < PROPERTIES; place++) {
        if (mask >> (15 - place) & 1) {
            put_field(&m, properties[place], place);
        }
    }
    feksroum_head head = {.type = FEKSROUM_HEADER, .class_id = 60, .body_size = 65540};
    return is_read(&m, head.type, head.class_id, 0, head.body_size, true) && is_written(&m, head, &m);
}

/* Only the ids of the table are a method's. */
static bool others_are_none(void) {
    for (unsigned class_id = 0; class_id < 256; class_id++) {
        for (unsigned method_id = 0; method_id < 256; method_id++) {
            const uint8_t ids[] = {0, (uint8_t)class_id, 0, (uint8_t)method_id};
            uint8_t wanted = FEKSROUM_UNKNOWN_CLASS;
            for (size_t k = 0; k < METHODS && wanted != FEKSROUM_OK; k++) {
                if (methods[k].class_id == class_id) {
                    wanted = methods[k].method_id == method_id ? FEKSROUM_OK : FEKSROUM_UNKNOWN_METHOD;
                }
            }
            uint8_t status = feksroum_check(FEKSROUM_METHOD, ids, sizeof ids).status;
            if (status != wanted && !(wanted == FEKSROUM_OK && status == FEKSROUM_SHORT_PAYLOAD)) {
                return false;
            }
        }
    }
    return true;
}

bool table_is_known(void) {
    for (size_t k = 0; k < METHODS; k++) {
        if (!method_is_known(k)) {
            return false;
        }
    }
    for (int place = 0; place < PROPERTIES; place++) {
        if (!header_is_known((uint16_t)(0x8000 >> place))) {
            return false;
        }
    }
    return header_is_known(0) && header_is_known(0xfffc) && header_is_known(0xa554) && others_are_none();
}
