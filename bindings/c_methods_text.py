"""The parts of include/feksroum_methods.h that are not made from the table: its first page, properties, and what is appended to tables."""

HEAD = """/* Feksroum: methods and properties as structs, for C and C++. One call puts a frame, and one call reads it.
 *
 * Made by bindings/generate from the library's table, and not to be edited. feksroum.h says what holds for all calls: nothing is kept
 * between two calls, no memory is taken, any number of threads may call at once.
 *
 *     feksroum_basic_publish publish = {.exchange = FEKSROUM_TEXT("events"), .routing_key = FEKSROUM_TEXT("order.created")};
 *     feksroum_made made = feksroum_basic_publish_put(1, &publish, max_payload, out, sizeof out);
 *
 * For each method there are
 *
 *   feksroum_CLASS_METHOD        a struct: its fields that are not reserved, by the names of the standard. Zeros are 0, false, an empty
 *                                string, a table without entries. A method without such fields has no struct;
 *   feksroum_CLASS_METHOD_put    puts the whole frame of such a struct;
 *   feksroum_CLASS_METHOD_read   fills such a struct from the nodes that feksroum_read or feksroum_frames gave;
 *   feksroum_put_CLASS_METHOD    what the library exports: the same as the first call, with the fields as arguments.
 *
 * In the same way feksroum_basic_properties stands for a content header with its properties, feksroum_put_body, feksroum_put_heartbeat
 * and feksroum_put_protocol_header put the other frames, and at the end are the calls that make what fills a table or an array.
 *
 * What each call that puts returns (feksroum_made)
 *
 *   At status 0 the canonical bytes of the frame stand at the front of `out`, `length` says how many they are, and what comes after them is
 *   as it was. At all other statuses the whole buffer is as it was. The status is that of the first refusal, the fields from left to right:
 *
 *     0   FEKSROUM_OK
 *     42  FEKSROUM_TOO_LONG: a short string has more than 255 bytes; a long string, or what fills a table or an array, more than 2^32 - 1
 *     18  FEKSROUM_NOT_UTF8: a short string, or a key of a table, is not UTF-8
 *     16, 19, 20  a fault of what fills a table: FEKSROUM_SHORT_PAYLOAD, FEKSROUM_UNKNOWN_TAG, FEKSROUM_TOO_DEEP
 *     12  FEKSROUM_TOO_LARGE: no field is refused, and the payload has more than max_payload bytes
 *     40  FEKSROUM_BUFFER_TOO_SMALL: nothing else is refused, and `out` is shorter than the frame, of which `length` says how many
 *         bytes it has. So a call with no buffer (NULL, 0) tells how long it has to be.
 *
 * max_payload is the longest payload in bytes that the other end takes: feksroum_max_payload of the frame_max of connection.tune.
 * `out` overlaps nothing else that is passed. A bool is 0 or 1.
 *
 * Strings are bytes with their number, and no 0 byte ends them. A short string is UTF-8 and has at most 255 bytes; a long string is any
 * bytes. A table is given by what fills it, its entries without the 4 bytes of its length, in any encoding of docs/FORMAT.md: it is put
 * canonically, by ascending keys, and of equal keys only the last one. What reading gives of a table can be put as it is.
 *
 * What is read: spans point into the bytes that were read, and are good as long as these are. */
#ifndef FEKSROUM_METHODS_H
#define FEKSROUM_METHODS_H

#include "feksroum.h"
#include "feksroum_names.h"

#ifdef __cplusplus
extern "C" {
#endif

/* Bytes of a caller, or of what was read. Zeros are none. */
typedef struct feksroum_bytes {
    const uint8_t *bytes; /* where the length is 0, it may be NULL */
    size_t length;
} feksroum_bytes;

/* A string literal as an initializer, without the 0 byte that ends it. */
#define FEKSROUM_TEXT(literal) {(const uint8_t *)("" literal), sizeof("" literal) - 1}

/* The bytes of a string that a 0 byte ends, without it. */
static inline feksroum_bytes feksroum_text(const char *text) {
    feksroum_bytes found;
    found.bytes = (const uint8_t *)text;
    found.length = strlen(text);
    return found;
}

/* So many bytes from here on. */
static inline feksroum_bytes feksroum_span(const void *bytes, size_t length) {
    feksroum_bytes found;
    found.bytes = (const uint8_t *)bytes;
    found.length = length;
    return found;
}

/* The bytes of a string, or what fills a table or an array, by its node; `bytes` is where its span is counted from: the payload that
 * feksroum_read was given, or all bytes that feksroum_frames was given. */
static inline feksroum_bytes feksroum_bytes_of(const uint8_t *bytes, const feksroum_node *node) {
    return feksroum_span(bytes + node->start, node->length);
}

/* Whether both are the same bytes. */
static inline bool feksroum_bytes_equal(feksroum_bytes a, feksroum_bytes b) {
    return a.length == b.length && (a.length == 0 || memcmp(a.bytes, b.bytes, a.length) == 0);
}

/* How many bytes were put, or why none. 16 bytes, no padding. */
typedef struct feksroum_made {
    uint64_t length; /* how many bytes were put; at status 40, how many `out` needs; else 0 */
    uint32_t status; /* 0, 12, 16, 18 to 20, or 40 to 42 */
    uint32_t unused; /* 0 */
} feksroum_made;

/* ---- Frames one after another
 *
 * A buffer that is filled from the front, with frames, or with the entries of a table. It keeps the first refusal, and takes nothing after
 * it, so that one test at the end is enough:
 *
 *     uint8_t bytes[1024];
 *     feksroum_buffer out = FEKSROUM_BUFFER(bytes);
 *     feksroum_take(&out, feksroum_basic_publish_put(1, &publish, max_payload, FEKSROUM_REST(&out)));
 *     feksroum_take(&out, feksroum_basic_properties_put(1, 5, &properties, max_payload, FEKSROUM_REST(&out)));
 *     feksroum_take(&out, feksroum_put_body(1, (const uint8_t *)"hello", 5, max_payload, FEKSROUM_REST(&out)));
 *     if (out.status == FEKSROUM_OK) ... send out.length bytes from out.bytes */
typedef struct feksroum_buffer {
    uint8_t *bytes;
    size_t room; /* how many bytes there are */
    size_t length; /* how many of them are filled */
    size_t needed; /* at status 40: how many were needed up to the end of what was refused; else 0 */
    uint32_t status; /* 0, or that of the first refusal */
} feksroum_buffer;

/* An array of bytes as a buffer that has nothing in it yet: an initializer. */
#define FEKSROUM_BUFFER(array) {(array), sizeof(array), 0, 0, 0}

/* The last two arguments of a call that puts after what is in a buffer. `buffer` is named more than once. */
#define FEKSROUM_REST(buffer) (buffer)->bytes + (buffer)->length, (buffer)->room - (buffer)->length

/* Takes what such a call put, or its refusal; nothing where something was refused before. */
static inline void feksroum_take(feksroum_buffer *buffer, feksroum_made made) {
    if (buffer->status != FEKSROUM_OK)
        return;
    buffer->status = made.status;
    if (made.status == FEKSROUM_OK)
        buffer->length += (size_t)made.length;
    else if (made.status == FEKSROUM_BUFFER_TOO_SMALL)
        buffer->needed = buffer->length + (size_t)made.length;
}

/* What is in a buffer. */
static inline feksroum_bytes feksroum_filled(const feksroum_buffer *buffer) {
    return feksroum_span(buffer->bytes, buffer->length);
}

/* ---- Methods
 *
 * ..put: puts the frame of a method on a channel, as it is said above.
 *
 * ..read: fills the struct, and returns true; false, and the struct is as it was, where the ids are those of another method. The ids and
 * the nodes are those that feksroum_read gave of the method, at either detail, and `bytes` is its payload; or those of a head of
 * feksroum_frames, with nodes + head.first, and `bytes` is what it was given. */

"""
EACH_METHOD = """
/* A macro for each method: `with(basic_publish)` where there is a struct, `without(tx_select)` where there is none. */
"""

PROPERTIES_BEFORE = """
/* ---- Content headers
 *
 * Which properties are set: bits of the mask `set`, as they stand in a content header. */
"""

PROPERTIES_STRUCT = """
/* The properties of a message. Only those that `set` names are put, and the other members are not looked at:
 *
 *     feksroum_basic_properties properties = {.set = FEKSROUM_HAS_CONTENT_TYPE | FEKSROUM_HAS_DELIVERY_MODE, .delivery_mode = 2,
 *                                             .content_type = FEKSROUM_TEXT("text/plain")};
 *
 * A string or table that is set has a pointer that is not NULL, also where its length is 0: feksroum_text("") has one. */
typedef struct feksroum_basic_properties {
    uint16_t set; /* FEKSROUM_HAS_.. of those that are set, and no other bit */
NUMBERS    uint32_t unused; /* 0 */
MEMBERS} feksroum_basic_properties;

/* Puts the frame of a content header: the size in bytes of the body that it announces, and its properties. It is of class basic, the only
 * one that has content. Status 0, 12, 16, 18, 19, 20, 40 or 42; 41 where `set` has a bit that is no property's. */
feksroum_made feksroum_put_content_header(uint16_t channel, uint64_t body_size, const feksroum_basic_properties *properties,
                                          uint32_t max_payload, uint8_t *out, size_t out_length)
    FEKSROUM_RESULT FEKSROUM_WRITES(5, 6);

/* The same, under the name that methods have. */
static inline feksroum_made feksroum_basic_properties_put(uint16_t channel, uint64_t body_size, const feksroum_basic_properties *p,
                                                          uint32_t max_payload, uint8_t *out, size_t out_length) {
    return feksroum_put_content_header(channel, body_size, p, max_payload, out, out_length);
}
"""

PROPERTIES_READ = """
/* Fills the struct from the nodes of a content header, as feksroum_read gave them of its payload, at either detail; `count` is how many
 * nodes these are. Of a head of feksroum_frames they are nodes + head.first and head.nodes, and `bytes` is what it was given. The size
 * of the body is body_size of feksroum_read and of the head. */
static inline void feksroum_basic_properties_read(feksroum_basic_properties *p, const uint8_t *bytes, const feksroum_node *nodes,
                                                  size_t count) {
    const feksroum_node *node = nodes, *end = nodes + count;
    memset(p, 0, sizeof *p);
    for (; node < end; node += 1 + node->inside) {
        p->set = (uint16_t)(p->set | 0x8000 >> (node->place & 15));
        switch (node->place) {
CASES        }
    }
}
"""

#: the kinds of values: name, type in C, what is passed for `value`, the parameters of the export, what it is
KINDS = [
    ("bool", "bool", ["value"], ["bool value"], "a truth value, `t`"),
    ("int8", "int8_t", ["value"], ["int8_t value"], "`b`"),
    ("uint8", "uint8_t", ["value"], ["uint8_t value"], "`B`"),
    ("int16", "int16_t", ["value"], ["int16_t value"], "`s`"),
    ("uint16", "uint16_t", ["value"], ["uint16_t value"], "`u`"),
    ("int32", "int32_t", ["value"], ["int32_t value"], "`I`"),
    ("uint32", "uint32_t", ["value"], ["uint32_t value"], "`i`"),
    ("int64", "int64_t", ["value"], ["int64_t value"], "`l`"),
    ("float", "float", ["feksroum_float_bits(value)"], ["uint32_t bits"], "`f`"),
    ("double", "double", ["feksroum_double_bits(value)"], ["uint64_t bits"], "`d`"),
    ("decimal", "uint8_t scale, uint32_t", ["scale", "value"], ["uint8_t scale", "uint32_t value"], "`D`: so many digits of it are behind the point"),
    ("string", "feksroum_bytes", ["value.bytes", "value.length"], ["const uint8_t *value", "size_t value_length"], "a long string, `S`: any bytes"),
    ("array", "feksroum_bytes", ["value.bytes", "value.length"], ["const uint8_t *value", "size_t value_length"], "`A`: what fills it"),
    ("timestamp", "uint64_t", ["value"], ["uint64_t value"], "`T`: seconds since the beginning of 1970"),
    ("table", "feksroum_bytes", ["value.bytes", "value.length"], ["const uint8_t *value", "size_t value_length"], "`F`: what fills it"),
    ("void", "", [], [], "no value, `V`"),
    ("bytes", "feksroum_bytes", ["value.bytes", "value.length"], ["const uint8_t *value", "size_t value_length"], "a byte array, `x`"),
]

OTHERS = """
/* ---- Bodies, heartbeats and protocol headers
 *
 * Puts the frame of a body, or of a part of one: each part has at most max_payload bytes. They are copied; a writer of vectors leaves them
 * where they lie, and puts feksroum_body_head before them. */
feksroum_made feksroum_put_body(uint16_t channel, const uint8_t *body, size_t body_length, uint32_t max_payload, uint8_t *out,
                                size_t out_length) FEKSROUM_RESULT FEKSROUM_READS(2, 3) FEKSROUM_WRITES(5, 6);

/* Puts a heartbeat, which has 8 bytes. It is refused only where the buffer is shorter. */
feksroum_made feksroum_put_heartbeat(uint8_t *out, size_t out_length) FEKSROUM_RESULT FEKSROUM_WRITES(1, 2);

/* Puts a protocol header, which has 8 bytes: what a client sends first, and for AMQP 0-9-1 it is of version 0, 9, 1. */
feksroum_made feksroum_put_protocol_header(uint8_t major, uint8_t minor, uint8_t revision, uint8_t *out, size_t out_length)
    FEKSROUM_RESULT FEKSROUM_WRITES(4, 5);
"""

APPENDERS = """
/* ---- What fills a table or an array
 *
 * feksroum_add_.. puts an entry, its key and its value, after what is in a buffer; feksroum_push_.. puts a value of an array. What is then
 * in the buffer fills a table, or an array: it can be a member of a method or of properties, be added to another one, and be read by
 * feksroum_open.
 *
 *     uint8_t bytes[256];
 *     feksroum_buffer headers = FEKSROUM_BUFFER(bytes);
 *     feksroum_add_int32(&headers, feksroum_text("attempt"), 2);
 *     feksroum_add_string(&headers, feksroum_text("trace"), feksroum_text("4bf92f35"));
 *     properties.headers = feksroum_filled(&headers);
 *
 * Entries that are added by ascending keys, each key once, are canonical, and a table of them is only copied where it is put. In another
 * order it takes longer, and of equal keys the last one counts.
 *
 * Nothing is put where the buffer has refused before, or where this is refused: 42 a key of more than 255 bytes, 18 one that is not UTF-8;
 * then 42 a string, a byte array, a table or an array of more than 2^32 - 1 bytes; 16, 18, 19, 20 a fault of what fills the table or the
 * array, which may nest 63 deep; then 40 where the buffer has no room, and `needed` says how long it has to be.
 *
 * feksroum_append_entry_.. and feksroum_append_value_.. are what the library exports: the same with a buffer, and the place `at` up to
 * which it is filled; `length` is the place after what was put, or at status 40 how many bytes `out` needs. */

/* The bits of numbers with a fraction, and the numbers of a node. */
static inline uint32_t feksroum_float_bits(float value) {
    uint32_t bits;
    memcpy(&bits, &value, sizeof bits);
    return bits;
}

static inline uint64_t feksroum_double_bits(double value) {
    uint64_t bits;
    memcpy(&bits, &value, sizeof bits);
    return bits;
}

static inline float feksroum_float_of(const feksroum_node *node) {
    uint32_t bits = (uint32_t)node->number;
    float value;
    memcpy(&value, &bits, sizeof value);
    return value;
}

static inline double feksroum_double_of(const feksroum_node *node) {
    double value;
    memcpy(&value, &node->number, sizeof value);
    return value;
}

/* Takes what was appended, or its refusal. */
static inline void feksroum_appended(feksroum_buffer *buffer, feksroum_made made) {
    buffer->status = made.status;
    if (made.status == FEKSROUM_OK)
        buffer->length = (size_t)made.length;
    else if (made.status == FEKSROUM_BUFFER_TOO_SMALL)
        buffer->needed = (size_t)made.length;
}
"""

TAIL = """
#ifdef __cplusplus
}
#endif

#endif
"""
