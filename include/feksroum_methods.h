/* Feksroum: methods and properties as structs, for C and C++. One call puts a frame, and one call reads it.
 *
 * Made by bindings/generate from the library's table, and not to be edited. feksroum.h says what holds for all calls: nothing is kept
 * between two calls, no memory is taken, any number of threads may call at once.
 *
 *     feksroum_basic_publish publish = {.exchange = FEKSROUM_TEXT("events"), .routing_key = FEKSROUM_TEXT("order.created")};
 *     feksroum_made made = feksroum_basic_publish_put(1, &publish, max_payload, out, sizeof out);
 *
 * For each method there are
 *
 *   feksroum_CLASS_METHOD        a struct: its fields that are not reserved, by the names of the standard. Zeros are 0, false, an empty
 *                                string, a table without entries. A method without such fields has no struct;
 *   feksroum_CLASS_METHOD_put    puts the whole frame of such a struct;
 *   feksroum_CLASS_METHOD_read   fills such a struct from the nodes that feksroum_read or feksroum_frames gave;
 *   feksroum_put_CLASS_METHOD    what the library exports: the same as the first call, with the fields as arguments.
 *
 * In the same way feksroum_basic_properties stands for a content header with its properties, feksroum_put_body, feksroum_put_heartbeat
 * and feksroum_put_protocol_header put the other frames, and at the end are the calls that make what fills a table or an array.
 *
 * What each call that puts returns (feksroum_made)
 *
 *   At status 0 the canonical bytes of the frame stand at the front of `out`, `length` says how many they are, and what comes after them is
 *   as it was. At all other statuses the whole buffer is as it was. The status is that of the first refusal, the fields from left to right:
 *
 *     0   FEKSROUM_OK
 *     42  FEKSROUM_TOO_LONG: a short string has more than 255 bytes; a long string, or what fills a table or an array, more than 2^32 - 1
 *     18  FEKSROUM_NOT_UTF8: a short string, or a key of a table, is not UTF-8
 *     16, 19, 20  a fault of what fills a table: FEKSROUM_SHORT_PAYLOAD, FEKSROUM_UNKNOWN_TAG, FEKSROUM_TOO_DEEP
 *     12  FEKSROUM_TOO_LARGE: no field is refused, and the payload has more than max_payload bytes
 *     40  FEKSROUM_BUFFER_TOO_SMALL: nothing else is refused, and `out` is shorter than the frame, of which `length` says how many
 *         bytes it has. So a call with no buffer (NULL, 0) tells how long it has to be.
 *
 * max_payload is the longest payload in bytes that the other end takes: feksroum_max_payload of the frame_max of connection.tune.
 * `out` overlaps nothing else that is passed. A bool is 0 or 1.
 *
 * Strings are bytes with their number, and no 0 byte ends them. A short string is UTF-8 and has at most 255 bytes; a long string is any
 * bytes. A table is given by what fills it, its entries without the 4 bytes of its length, in any encoding of docs/FORMAT.md: it is put
 * canonically, by ascending keys, and of equal keys only the last one. What reading gives of a table can be put as it is.
 *
 * What is read: spans point into the bytes that were read, and are good as long as these are. */
#ifndef FEKSROUM_METHODS_H
#define FEKSROUM_METHODS_H

#include "feksroum.h"
#include "feksroum_names.h"

#ifdef __cplusplus
extern "C" {
#endif

/* Bytes of a caller, or of what was read. Zeros are none. */
typedef struct feksroum_bytes {
    const uint8_t *bytes; /* where the length is 0, it may be NULL */
    size_t length;
} feksroum_bytes;

/* A string literal as an initializer, without the 0 byte that ends it. */
#define FEKSROUM_TEXT(literal) {(const uint8_t *)("" literal), sizeof("" literal) - 1}

/* The bytes of a string that a 0 byte ends, without it. */
static inline feksroum_bytes feksroum_text(const char *text) {
    feksroum_bytes found;
    found.bytes = (const uint8_t *)text;
    found.length = strlen(text);
    return found;
}

/* So many bytes from here on. */
static inline feksroum_bytes feksroum_span(const void *bytes, size_t length) {
    feksroum_bytes found;
    found.bytes = (const uint8_t *)bytes;
    found.length = length;
    return found;
}

/* The bytes of a string, or what fills a table or an array, by its node; `bytes` is where its span is counted from: the payload that
 * feksroum_read was given, or all bytes that feksroum_frames was given. */
static inline feksroum_bytes feksroum_bytes_of(const uint8_t *bytes, const feksroum_node *node) {
    return feksroum_span(bytes + node->start, node->length);
}

/* Whether both are the same bytes. */
static inline bool feksroum_bytes_equal(feksroum_bytes a, feksroum_bytes b) {
    return a.length == b.length && (a.length == 0 || memcmp(a.bytes, b.bytes, a.length) == 0);
}

/* How many bytes were put, or why none. 16 bytes, no padding. */
typedef struct feksroum_made {
    uint64_t length; /* how many bytes were put; at status 40, how many `out` needs; else 0 */
    uint32_t status; /* 0, 12, 16, 18 to 20, or 40 to 42 */
    uint32_t unused; /* 0 */
} feksroum_made;

/* ---- Frames one after another
 *
 * A buffer that is filled from the front, with frames, or with the entries of a table. It keeps the first refusal, and takes nothing after
 * it, so that one test at the end is enough:
 *
 *     uint8_t bytes[1024];
 *     feksroum_buffer out = FEKSROUM_BUFFER(bytes);
 *     feksroum_take(&out, feksroum_basic_publish_put(1, &publish, max_payload, FEKSROUM_REST(&out)));
 *     feksroum_take(&out, feksroum_basic_properties_put(1, 5, &properties, max_payload, FEKSROUM_REST(&out)));
 *     feksroum_take(&out, feksroum_put_body(1, (const uint8_t *)"hello", 5, max_payload, FEKSROUM_REST(&out)));
 *     if (out.status == FEKSROUM_OK) ... send out.length bytes from out.bytes */
typedef struct feksroum_buffer {
    uint8_t *bytes;
    size_t room; /* how many bytes there are */
    size_t length; /* how many of them are filled */
    size_t needed; /* at status 40: how many were needed up to the end of what was refused; else 0 */
    uint32_t status; /* 0, or that of the first refusal */
} feksroum_buffer;

/* An array of bytes as a buffer that has nothing in it yet: an initializer. */
#define FEKSROUM_BUFFER(array) {(array), sizeof(array), 0, 0, 0}

/* The last two arguments of a call that puts after what is in a buffer. `buffer` is named more than once. */
#define FEKSROUM_REST(buffer) (buffer)->bytes + (buffer)->length, (buffer)->room - (buffer)->length

/* Takes what such a call put, or its refusal; nothing where something was refused before. */
static inline void feksroum_take(feksroum_buffer *buffer, feksroum_made made) {
    if (buffer->status != FEKSROUM_OK)
        return;
    buffer->status = made.status;
    if (made.status == FEKSROUM_OK)
        buffer->length += (size_t)made.length;
    else if (made.status == FEKSROUM_BUFFER_TOO_SMALL)
        buffer->needed = buffer->length + (size_t)made.length;
}

/* What is in a buffer. */
static inline feksroum_bytes feksroum_filled(const feksroum_buffer *buffer) {
    return feksroum_span(buffer->bytes, buffer->length);
}

/* ---- Methods
 *
 * ..put: puts the frame of a method on a channel, as it is said above.
 *
 * ..read: fills the struct, and returns true; false, and the struct is as it was, where the ids are those of another method. The ids and
 * the nodes are those that feksroum_read gave of the method, at either detail, and `bytes` is its payload; or those of a head of
 * feksroum_frames, with nodes + head.first, and `bytes` is what it was given. */

/* connection.start (10.10). The other end answers it. Put: status 0, 12, 16, 18, 19, 20, 40 or 42. */
typedef struct feksroum_connection_start {
    uint8_t version_major;
    uint8_t version_minor;
    feksroum_bytes server_properties; /* what fills a table */
    feksroum_bytes mechanisms; /* any bytes */
    feksroum_bytes locales; /* any bytes */
} feksroum_connection_start;

feksroum_made feksroum_put_connection_start(uint16_t channel, uint8_t version_major, uint8_t version_minor,
                                            const uint8_t *server_properties, size_t server_properties_length,
                                            const uint8_t *mechanisms, size_t mechanisms_length, const uint8_t *locales,
                                            size_t locales_length, uint32_t max_payload, uint8_t *out,
                                            size_t out_length)
    FEKSROUM_RESULT FEKSROUM_READS(4, 5) FEKSROUM_READS(6, 7) FEKSROUM_READS(8, 9) FEKSROUM_WRITES(11, 12);

static inline feksroum_made feksroum_connection_start_put(uint16_t channel, const feksroum_connection_start *m,
                                                          uint32_t max_payload, uint8_t *out, size_t out_length) {
    return feksroum_put_connection_start(channel, m->version_major, m->version_minor, m->server_properties.bytes,
                                         m->server_properties.length, m->mechanisms.bytes, m->mechanisms.length,
                                         m->locales.bytes, m->locales.length, max_payload, out, out_length);
}

static inline bool feksroum_connection_start_read(feksroum_connection_start *m, uint16_t class_id, uint16_t method_id,
                                                  const uint8_t *bytes, const feksroum_node *nodes) {
    if (!(class_id == FEKSROUM_CLASS_CONNECTION && method_id == FEKSROUM_CONNECTION_START))
        return false;
    m->version_major = (uint8_t)nodes->number;
    nodes += 1;
    m->version_minor = (uint8_t)nodes->number;
    nodes += 1;
    m->server_properties = feksroum_bytes_of(bytes, nodes);
    nodes += 1 + nodes->inside;
    m->mechanisms = feksroum_bytes_of(bytes, nodes);
    nodes += 1;
    m->locales = feksroum_bytes_of(bytes, nodes);
    return true;
}

/* connection.start-ok (10.11). Put: status 0, 12, 16, 18, 19, 20, 40 or 42. */
typedef struct feksroum_connection_start_ok {
    feksroum_bytes client_properties; /* what fills a table */
    feksroum_bytes mechanism; /* a short string */
    feksroum_bytes response; /* any bytes */
    feksroum_bytes locale; /* a short string */
} feksroum_connection_start_ok;

feksroum_made feksroum_put_connection_start_ok(uint16_t channel, const uint8_t *client_properties,
                                               size_t client_properties_length, const uint8_t *mechanism,
                                               size_t mechanism_length, const uint8_t *response, size_t response_length,
                                               const uint8_t *locale, size_t locale_length, uint32_t max_payload,
                                               uint8_t *out, size_t out_length)
    FEKSROUM_RESULT FEKSROUM_READS(2, 3) FEKSROUM_READS(4, 5) FEKSROUM_READS(6, 7) FEKSROUM_READS(8, 9)
    FEKSROUM_WRITES(11, 12);

static inline feksroum_made feksroum_connection_start_ok_put(uint16_t channel, const feksroum_connection_start_ok *m,
                                                             uint32_t max_payload, uint8_t *out, size_t out_length) {
    return feksroum_put_connection_start_ok(channel, m->client_properties.bytes, m->client_properties.length,
                                            m->mechanism.bytes, m->mechanism.length, m->response.bytes,
                                            m->response.length, m->locale.bytes, m->locale.length, max_payload, out,
                                            out_length);
}

static inline bool feksroum_connection_start_ok_read(feksroum_connection_start_ok *m, uint16_t class_id,
                                                     uint16_t method_id, const uint8_t *bytes,
                                                     const feksroum_node *nodes) {
    if (!(class_id == FEKSROUM_CLASS_CONNECTION && method_id == FEKSROUM_CONNECTION_START_OK))
        return false;
    m->client_properties = feksroum_bytes_of(bytes, nodes);
    nodes += 1 + nodes->inside;
    m->mechanism = feksroum_bytes_of(bytes, nodes);
    nodes += 1;
    m->response = feksroum_bytes_of(bytes, nodes);
    nodes += 1;
    m->locale = feksroum_bytes_of(bytes, nodes);
    return true;
}

/* connection.secure (10.20). The other end answers it. Put: status 0, 12, 40 or 42. */
typedef struct feksroum_connection_secure {
    feksroum_bytes challenge; /* any bytes */
} feksroum_connection_secure;

feksroum_made feksroum_put_connection_secure(uint16_t channel, const uint8_t *challenge, size_t challenge_length,
                                             uint32_t max_payload, uint8_t *out, size_t out_length)
    FEKSROUM_RESULT FEKSROUM_READS(2, 3) FEKSROUM_WRITES(5, 6);

static inline feksroum_made feksroum_connection_secure_put(uint16_t channel, const feksroum_connection_secure *m,
                                                           uint32_t max_payload, uint8_t *out, size_t out_length) {
    return feksroum_put_connection_secure(channel, m->challenge.bytes, m->challenge.length, max_payload, out,
                                          out_length);
}

static inline bool feksroum_connection_secure_read(feksroum_connection_secure *m, uint16_t class_id, uint16_t method_id,
                                                   const uint8_t *bytes, const feksroum_node *nodes) {
    if (!(class_id == FEKSROUM_CLASS_CONNECTION && method_id == FEKSROUM_CONNECTION_SECURE))
        return false;
    m->challenge = feksroum_bytes_of(bytes, nodes);
    return true;
}

/* connection.secure-ok (10.21). Put: status 0, 12, 40 or 42. */
typedef struct feksroum_connection_secure_ok {
    feksroum_bytes response; /* any bytes */
} feksroum_connection_secure_ok;

feksroum_made feksroum_put_connection_secure_ok(uint16_t channel, const uint8_t *response, size_t response_length,
                                                uint32_t max_payload, uint8_t *out, size_t out_length)
    FEKSROUM_RESULT FEKSROUM_READS(2, 3) FEKSROUM_WRITES(5, 6);

static inline feksroum_made feksroum_connection_secure_ok_put(uint16_t channel, const feksroum_connection_secure_ok *m,
                                                              uint32_t max_payload, uint8_t *out, size_t out_length) {
    return feksroum_put_connection_secure_ok(channel, m->response.bytes, m->response.length, max_payload, out,
                                             out_length);
}

static inline bool feksroum_connection_secure_ok_read(feksroum_connection_secure_ok *m, uint16_t class_id,
                                                      uint16_t method_id, const uint8_t *bytes,
                                                      const feksroum_node *nodes) {
    if (!(class_id == FEKSROUM_CLASS_CONNECTION && method_id == FEKSROUM_CONNECTION_SECURE_OK))
        return false;
    m->response = feksroum_bytes_of(bytes, nodes);
    return true;
}

/* connection.tune (10.30). The other end answers it. Put: status 0, 12 or 40. */
typedef struct feksroum_connection_tune {
    uint16_t channel_max;
    uint32_t frame_max;
    uint16_t heartbeat;
} feksroum_connection_tune;

feksroum_made feksroum_put_connection_tune(uint16_t channel, uint16_t channel_max, uint32_t frame_max,
                                           uint16_t heartbeat, uint32_t max_payload, uint8_t *out, size_t out_length)
    FEKSROUM_RESULT FEKSROUM_WRITES(6, 7);

static inline feksroum_made feksroum_connection_tune_put(uint16_t channel, const feksroum_connection_tune *m,
                                                         uint32_t max_payload, uint8_t *out, size_t out_length) {
    return feksroum_put_connection_tune(channel, m->channel_max, m->frame_max, m->heartbeat, max_payload, out,
                                        out_length);
}

static inline bool feksroum_connection_tune_read(feksroum_connection_tune *m, uint16_t class_id, uint16_t method_id,
                                                 const uint8_t *bytes, const feksroum_node *nodes) {
    (void)bytes;
    if (!(class_id == FEKSROUM_CLASS_CONNECTION && method_id == FEKSROUM_CONNECTION_TUNE))
        return false;
    m->channel_max = (uint16_t)nodes->number;
    nodes += 1;
    m->frame_max = (uint32_t)nodes->number;
    nodes += 1;
    m->heartbeat = (uint16_t)nodes->number;
    return true;
}

/* connection.tune-ok (10.31). Put: status 0, 12 or 40. */
typedef struct feksroum_connection_tune_ok {
    uint16_t channel_max;
    uint32_t frame_max;
    uint16_t heartbeat;
} feksroum_connection_tune_ok;

feksroum_made feksroum_put_connection_tune_ok(uint16_t channel, uint16_t channel_max, uint32_t frame_max,
                                              uint16_t heartbeat, uint32_t max_payload, uint8_t *out, size_t out_length)
    FEKSROUM_RESULT FEKSROUM_WRITES(6, 7);

static inline feksroum_made feksroum_connection_tune_ok_put(uint16_t channel, const feksroum_connection_tune_ok *m,
                                                            uint32_t max_payload, uint8_t *out, size_t out_length) {
    return feksroum_put_connection_tune_ok(channel, m->channel_max, m->frame_max, m->heartbeat, max_payload, out,
                                           out_length);
}

static inline bool feksroum_connection_tune_ok_read(feksroum_connection_tune_ok *m, uint16_t class_id,
                                                    uint16_t method_id, const uint8_t *bytes,
                                                    const feksroum_node *nodes) {
    (void)bytes;
    if (!(class_id == FEKSROUM_CLASS_CONNECTION && method_id == FEKSROUM_CONNECTION_TUNE_OK))
        return false;
    m->channel_max = (uint16_t)nodes->number;
    nodes += 1;
    m->frame_max = (uint32_t)nodes->number;
    nodes += 1;
    m->heartbeat = (uint16_t)nodes->number;
    return true;
}

/* connection.open (10.40). The other end answers it. Put: status 0, 12, 18, 40 or 42. */
typedef struct feksroum_connection_open {
    feksroum_bytes virtual_host; /* a short string */
} feksroum_connection_open;

feksroum_made feksroum_put_connection_open(uint16_t channel, const uint8_t *virtual_host, size_t virtual_host_length,
                                           uint32_t max_payload, uint8_t *out, size_t out_length)
    FEKSROUM_RESULT FEKSROUM_READS(2, 3) FEKSROUM_WRITES(5, 6);

static inline feksroum_made feksroum_connection_open_put(uint16_t channel, const feksroum_connection_open *m,
                                                         uint32_t max_payload, uint8_t *out, size_t out_length) {
    return feksroum_put_connection_open(channel, m->virtual_host.bytes, m->virtual_host.length, max_payload, out,
                                        out_length);
}

static inline bool feksroum_connection_open_read(feksroum_connection_open *m, uint16_t class_id, uint16_t method_id,
                                                 const uint8_t *bytes, const feksroum_node *nodes) {
    if (!(class_id == FEKSROUM_CLASS_CONNECTION && method_id == FEKSROUM_CONNECTION_OPEN))
        return false;
    m->virtual_host = feksroum_bytes_of(bytes, nodes);
    return true;
}

/* connection.open-ok (10.41). Put: status 0, 12 or 40. */
feksroum_made feksroum_put_connection_open_ok(uint16_t channel, uint32_t max_payload, uint8_t *out, size_t out_length)
    FEKSROUM_RESULT FEKSROUM_WRITES(3, 4);

static inline feksroum_made feksroum_connection_open_ok_put(uint16_t channel, uint32_t max_payload, uint8_t *out,
                                                            size_t out_length) {
    return feksroum_put_connection_open_ok(channel, max_payload, out, out_length);
}

static inline bool feksroum_connection_open_ok_read(uint16_t class_id, uint16_t method_id) {
    return class_id == FEKSROUM_CLASS_CONNECTION && method_id == FEKSROUM_CONNECTION_OPEN_OK;
}

/* connection.close (10.50). The other end answers it. Put: status 0, 12, 18, 40 or 42. */
typedef struct feksroum_connection_close {
    uint16_t reply_code;
    feksroum_bytes reply_text; /* a short string */
    uint16_t class_id;
    uint16_t method_id;
} feksroum_connection_close;

feksroum_made feksroum_put_connection_close(uint16_t channel, uint16_t reply_code, const uint8_t *reply_text,
                                            size_t reply_text_length, uint16_t class_id, uint16_t method_id,
                                            uint32_t max_payload, uint8_t *out, size_t out_length)
    FEKSROUM_RESULT FEKSROUM_READS(3, 4) FEKSROUM_WRITES(8, 9);

static inline feksroum_made feksroum_connection_close_put(uint16_t channel, const feksroum_connection_close *m,
                                                          uint32_t max_payload, uint8_t *out, size_t out_length) {
    return feksroum_put_connection_close(channel, m->reply_code, m->reply_text.bytes, m->reply_text.length, m->class_id,
                                         m->method_id, max_payload, out, out_length);
}

static inline bool feksroum_connection_close_read(feksroum_connection_close *m, uint16_t class_id, uint16_t method_id,
                                                  const uint8_t *bytes, const feksroum_node *nodes) {
    if (!(class_id == FEKSROUM_CLASS_CONNECTION && method_id == FEKSROUM_CONNECTION_CLOSE))
        return false;
    m->reply_code = (uint16_t)nodes->number;
    nodes += 1;
    m->reply_text = feksroum_bytes_of(bytes, nodes);
    nodes += 1;
    m->class_id = (uint16_t)nodes->number;
    nodes += 1;
    m->method_id = (uint16_t)nodes->number;
    return true;
}

/* connection.close-ok (10.51). Put: status 0, 12 or 40. */
feksroum_made feksroum_put_connection_close_ok(uint16_t channel, uint32_t max_payload, uint8_t *out, size_t out_length)
    FEKSROUM_RESULT FEKSROUM_WRITES(3, 4);

static inline feksroum_made feksroum_connection_close_ok_put(uint16_t channel, uint32_t max_payload, uint8_t *out,
                                                             size_t out_length) {
    return feksroum_put_connection_close_ok(channel, max_payload, out, out_length);
}

static inline bool feksroum_connection_close_ok_read(uint16_t class_id, uint16_t method_id) {
    return class_id == FEKSROUM_CLASS_CONNECTION && method_id == FEKSROUM_CONNECTION_CLOSE_OK;
}

/* connection.blocked (10.60). Put: status 0, 12, 18, 40 or 42. */
typedef struct feksroum_connection_blocked {
    feksroum_bytes reason; /* a short string */
} feksroum_connection_blocked;

feksroum_made feksroum_put_connection_blocked(uint16_t channel, const uint8_t *reason, size_t reason_length,
                                              uint32_t max_payload, uint8_t *out, size_t out_length)
    FEKSROUM_RESULT FEKSROUM_READS(2, 3) FEKSROUM_WRITES(5, 6);

static inline feksroum_made feksroum_connection_blocked_put(uint16_t channel, const feksroum_connection_blocked *m,
                                                            uint32_t max_payload, uint8_t *out, size_t out_length) {
    return feksroum_put_connection_blocked(channel, m->reason.bytes, m->reason.length, max_payload, out, out_length);
}

static inline bool feksroum_connection_blocked_read(feksroum_connection_blocked *m, uint16_t class_id,
                                                    uint16_t method_id, const uint8_t *bytes,
                                                    const feksroum_node *nodes) {
    if (!(class_id == FEKSROUM_CLASS_CONNECTION && method_id == FEKSROUM_CONNECTION_BLOCKED))
        return false;
    m->reason = feksroum_bytes_of(bytes, nodes);
    return true;
}

/* connection.unblocked (10.61). Put: status 0, 12 or 40. */
feksroum_made feksroum_put_connection_unblocked(uint16_t channel, uint32_t max_payload, uint8_t *out, size_t out_length)
    FEKSROUM_RESULT FEKSROUM_WRITES(3, 4);

static inline feksroum_made feksroum_connection_unblocked_put(uint16_t channel, uint32_t max_payload, uint8_t *out,
                                                              size_t out_length) {
    return feksroum_put_connection_unblocked(channel, max_payload, out, out_length);
}

static inline bool feksroum_connection_unblocked_read(uint16_t class_id, uint16_t method_id) {
    return class_id == FEKSROUM_CLASS_CONNECTION && method_id == FEKSROUM_CONNECTION_UNBLOCKED;
}

/* connection.update-secret (10.70). The other end answers it. Put: status 0, 12, 18, 40 or 42. */
typedef struct feksroum_connection_update_secret {
    feksroum_bytes new_secret; /* any bytes */
    feksroum_bytes reason; /* a short string */
} feksroum_connection_update_secret;

feksroum_made feksroum_put_connection_update_secret(uint16_t channel, const uint8_t *new_secret,
                                                    size_t new_secret_length, const uint8_t *reason,
                                                    size_t reason_length, uint32_t max_payload, uint8_t *out,
                                                    size_t out_length)
    FEKSROUM_RESULT FEKSROUM_READS(2, 3) FEKSROUM_READS(4, 5) FEKSROUM_WRITES(7, 8);

static inline feksroum_made feksroum_connection_update_secret_put(uint16_t channel,
                                                                  const feksroum_connection_update_secret *m,
                                                                  uint32_t max_payload, uint8_t *out,
                                                                  size_t out_length) {
    return feksroum_put_connection_update_secret(channel, m->new_secret.bytes, m->new_secret.length, m->reason.bytes,
                                                 m->reason.length, max_payload, out, out_length);
}

static inline bool feksroum_connection_update_secret_read(feksroum_connection_update_secret *m, uint16_t class_id,
                                                          uint16_t method_id, const uint8_t *bytes,
                                                          const feksroum_node *nodes) {
    if (!(class_id == FEKSROUM_CLASS_CONNECTION && method_id == FEKSROUM_CONNECTION_UPDATE_SECRET))
        return false;
    m->new_secret = feksroum_bytes_of(bytes, nodes);
    nodes += 1;
    m->reason = feksroum_bytes_of(bytes, nodes);
    return true;
}

/* connection.update-secret-ok (10.71). Put: status 0, 12 or 40. */
feksroum_made feksroum_put_connection_update_secret_ok(uint16_t channel, uint32_t max_payload, uint8_t *out,
                                                       size_t out_length) FEKSROUM_RESULT FEKSROUM_WRITES(3, 4);

static inline feksroum_made feksroum_connection_update_secret_ok_put(uint16_t channel, uint32_t max_payload,
                                                                     uint8_t *out, size_t out_length) {
    return feksroum_put_connection_update_secret_ok(channel, max_payload, out, out_length);
}

static inline bool feksroum_connection_update_secret_ok_read(uint16_t class_id, uint16_t method_id) {
    return class_id == FEKSROUM_CLASS_CONNECTION && method_id == FEKSROUM_CONNECTION_UPDATE_SECRET_OK;
}

/* channel.open (20.10). The other end answers it. Put: status 0, 12 or 40. */
feksroum_made feksroum_put_channel_open(uint16_t channel, uint32_t max_payload, uint8_t *out, size_t out_length)
    FEKSROUM_RESULT FEKSROUM_WRITES(3, 4);

static inline feksroum_made feksroum_channel_open_put(uint16_t channel, uint32_t max_payload, uint8_t *out,
                                                      size_t out_length) {
    return feksroum_put_channel_open(channel, max_payload, out, out_length);
}

static inline bool feksroum_channel_open_read(uint16_t class_id, uint16_t method_id) {
    return class_id == FEKSROUM_CLASS_CHANNEL && method_id == FEKSROUM_CHANNEL_OPEN;
}

/* channel.open-ok (20.11). Put: status 0, 12 or 40. */
feksroum_made feksroum_put_channel_open_ok(uint16_t channel, uint32_t max_payload, uint8_t *out, size_t out_length)
    FEKSROUM_RESULT FEKSROUM_WRITES(3, 4);

static inline feksroum_made feksroum_channel_open_ok_put(uint16_t channel, uint32_t max_payload, uint8_t *out,
                                                         size_t out_length) {
    return feksroum_put_channel_open_ok(channel, max_payload, out, out_length);
}

static inline bool feksroum_channel_open_ok_read(uint16_t class_id, uint16_t method_id) {
    return class_id == FEKSROUM_CLASS_CHANNEL && method_id == FEKSROUM_CHANNEL_OPEN_OK;
}

/* channel.flow (20.20). The other end answers it. Put: status 0, 12 or 40. */
typedef struct feksroum_channel_flow {
    bool active;
} feksroum_channel_flow;

feksroum_made feksroum_put_channel_flow(uint16_t channel, bool active, uint32_t max_payload, uint8_t *out,
                                        size_t out_length) FEKSROUM_RESULT FEKSROUM_WRITES(4, 5);

static inline feksroum_made feksroum_channel_flow_put(uint16_t channel, const feksroum_channel_flow *m,
                                                      uint32_t max_payload, uint8_t *out, size_t out_length) {
    return feksroum_put_channel_flow(channel, m->active, max_payload, out, out_length);
}

static inline bool feksroum_channel_flow_read(feksroum_channel_flow *m, uint16_t class_id, uint16_t method_id,
                                              const uint8_t *bytes, const feksroum_node *nodes) {
    (void)bytes;
    if (!(class_id == FEKSROUM_CLASS_CHANNEL && method_id == FEKSROUM_CHANNEL_FLOW))
        return false;
    m->active = nodes->number != 0;
    return true;
}

/* channel.flow-ok (20.21). Put: status 0, 12 or 40. */
typedef struct feksroum_channel_flow_ok {
    bool active;
} feksroum_channel_flow_ok;

feksroum_made feksroum_put_channel_flow_ok(uint16_t channel, bool active, uint32_t max_payload, uint8_t *out,
                                           size_t out_length) FEKSROUM_RESULT FEKSROUM_WRITES(4, 5);

static inline feksroum_made feksroum_channel_flow_ok_put(uint16_t channel, const feksroum_channel_flow_ok *m,
                                                         uint32_t max_payload, uint8_t *out, size_t out_length) {
    return feksroum_put_channel_flow_ok(channel, m->active, max_payload, out, out_length);
}

static inline bool feksroum_channel_flow_ok_read(feksroum_channel_flow_ok *m, uint16_t class_id, uint16_t method_id,
                                                 const uint8_t *bytes, const feksroum_node *nodes) {
    (void)bytes;
    if (!(class_id == FEKSROUM_CLASS_CHANNEL && method_id == FEKSROUM_CHANNEL_FLOW_OK))
        return false;
    m->active = nodes->number != 0;
    return true;
}

/* channel.close (20.40). The other end answers it. Put: status 0, 12, 18, 40 or 42. */
typedef struct feksroum_channel_close {
    uint16_t reply_code;
    feksroum_bytes reply_text; /* a short string */
    uint16_t class_id;
    uint16_t method_id;
} feksroum_channel_close;

feksroum_made feksroum_put_channel_close(uint16_t channel, uint16_t reply_code, const uint8_t *reply_text,
                                         size_t reply_text_length, uint16_t class_id, uint16_t method_id,
                                         uint32_t max_payload, uint8_t *out, size_t out_length)
    FEKSROUM_RESULT FEKSROUM_READS(3, 4) FEKSROUM_WRITES(8, 9);

static inline feksroum_made feksroum_channel_close_put(uint16_t channel, const feksroum_channel_close *m,
                                                       uint32_t max_payload, uint8_t *out, size_t out_length) {
    return feksroum_put_channel_close(channel, m->reply_code, m->reply_text.bytes, m->reply_text.length, m->class_id,
                                      m->method_id, max_payload, out, out_length);
}

static inline bool feksroum_channel_close_read(feksroum_channel_close *m, uint16_t class_id, uint16_t method_id,
                                               const uint8_t *bytes, const feksroum_node *nodes) {
    if (!(class_id == FEKSROUM_CLASS_CHANNEL && method_id == FEKSROUM_CHANNEL_CLOSE))
        return false;
    m->reply_code = (uint16_t)nodes->number;
    nodes += 1;
    m->reply_text = feksroum_bytes_of(bytes, nodes);
    nodes += 1;
    m->class_id = (uint16_t)nodes->number;
    nodes += 1;
    m->method_id = (uint16_t)nodes->number;
    return true;
}

/* channel.close-ok (20.41). Put: status 0, 12 or 40. */
feksroum_made feksroum_put_channel_close_ok(uint16_t channel, uint32_t max_payload, uint8_t *out, size_t out_length)
    FEKSROUM_RESULT FEKSROUM_WRITES(3, 4);

static inline feksroum_made feksroum_channel_close_ok_put(uint16_t channel, uint32_t max_payload, uint8_t *out,
                                                          size_t out_length) {
    return feksroum_put_channel_close_ok(channel, max_payload, out, out_length);
}

static inline bool feksroum_channel_close_ok_read(uint16_t class_id, uint16_t method_id) {
    return class_id == FEKSROUM_CLASS_CHANNEL && method_id == FEKSROUM_CHANNEL_CLOSE_OK;
}

/* access.request (30.10). The other end answers it. Put: status 0, 12, 18, 40 or 42. */
typedef struct feksroum_access_request {
    feksroum_bytes realm; /* a short string */
    bool exclusive;
    bool passive;
    bool active;
    bool write;
    bool read;
} feksroum_access_request;

feksroum_made feksroum_put_access_request(uint16_t channel, const uint8_t *realm, size_t realm_length, bool exclusive,
                                          bool passive, bool active, bool write, bool read, uint32_t max_payload,
                                          uint8_t *out, size_t out_length)
    FEKSROUM_RESULT FEKSROUM_READS(2, 3) FEKSROUM_WRITES(10, 11);

static inline feksroum_made feksroum_access_request_put(uint16_t channel, const feksroum_access_request *m,
                                                        uint32_t max_payload, uint8_t *out, size_t out_length) {
    return feksroum_put_access_request(channel, m->realm.bytes, m->realm.length, m->exclusive, m->passive, m->active,
                                       m->write, m->read, max_payload, out, out_length);
}

static inline bool feksroum_access_request_read(feksroum_access_request *m, uint16_t class_id, uint16_t method_id,
                                                const uint8_t *bytes, const feksroum_node *nodes) {
    if (!(class_id == FEKSROUM_CLASS_ACCESS && method_id == FEKSROUM_ACCESS_REQUEST))
        return false;
    m->realm = feksroum_bytes_of(bytes, nodes);
    nodes += 1;
    m->exclusive = nodes->number != 0;
    nodes += 1;
    m->passive = nodes->number != 0;
    nodes += 1;
    m->active = nodes->number != 0;
    nodes += 1;
    m->write = nodes->number != 0;
    nodes += 1;
    m->read = nodes->number != 0;
    return true;
}

/* access.request-ok (30.11). Put: status 0, 12 or 40. */
feksroum_made feksroum_put_access_request_ok(uint16_t channel, uint32_t max_payload, uint8_t *out, size_t out_length)
    FEKSROUM_RESULT FEKSROUM_WRITES(3, 4);

static inline feksroum_made feksroum_access_request_ok_put(uint16_t channel, uint32_t max_payload, uint8_t *out,
                                                           size_t out_length) {
    return feksroum_put_access_request_ok(channel, max_payload, out, out_length);
}

static inline bool feksroum_access_request_ok_read(uint16_t class_id, uint16_t method_id) {
    return class_id == FEKSROUM_CLASS_ACCESS && method_id == FEKSROUM_ACCESS_REQUEST_OK;
}

/* exchange.declare (40.10). The other end answers it. Put: status 0, 12, 16, 18, 19, 20, 40 or 42. */
typedef struct feksroum_exchange_declare {
    feksroum_bytes exchange; /* a short string */
    feksroum_bytes type; /* a short string */
    bool passive;
    bool durable;
    bool auto_delete;
    bool internal;
    bool no_wait;
    feksroum_bytes arguments; /* what fills a table */
} feksroum_exchange_declare;

feksroum_made feksroum_put_exchange_declare(uint16_t channel, const uint8_t *exchange, size_t exchange_length,
                                            const uint8_t *type, size_t type_length, bool passive, bool durable,
                                            bool auto_delete, bool internal, bool no_wait, const uint8_t *arguments,
                                            size_t arguments_length, uint32_t max_payload, uint8_t *out,
                                            size_t out_length)
    FEKSROUM_RESULT FEKSROUM_READS(2, 3) FEKSROUM_READS(4, 5) FEKSROUM_READS(11, 12) FEKSROUM_WRITES(14, 15);

static inline feksroum_made feksroum_exchange_declare_put(uint16_t channel, const feksroum_exchange_declare *m,
                                                          uint32_t max_payload, uint8_t *out, size_t out_length) {
    return feksroum_put_exchange_declare(channel, m->exchange.bytes, m->exchange.length, m->type.bytes, m->type.length,
                                         m->passive, m->durable, m->auto_delete, m->internal, m->no_wait,
                                         m->arguments.bytes, m->arguments.length, max_payload, out, out_length);
}

static inline bool feksroum_exchange_declare_read(feksroum_exchange_declare *m, uint16_t class_id, uint16_t method_id,
                                                  const uint8_t *bytes, const feksroum_node *nodes) {
    if (!(class_id == FEKSROUM_CLASS_EXCHANGE && method_id == FEKSROUM_EXCHANGE_DECLARE))
        return false;
    m->exchange = feksroum_bytes_of(bytes, nodes);
    nodes += 1;
    m->type = feksroum_bytes_of(bytes, nodes);
    nodes += 1;
    m->passive = nodes->number != 0;
    nodes += 1;
    m->durable = nodes->number != 0;
    nodes += 1;
    m->auto_delete = nodes->number != 0;
    nodes += 1;
    m->internal = nodes->number != 0;
    nodes += 1;
    m->no_wait = nodes->number != 0;
    nodes += 1;
    m->arguments = feksroum_bytes_of(bytes, nodes);
    return true;
}

/* exchange.declare-ok (40.11). Put: status 0, 12 or 40. */
feksroum_made feksroum_put_exchange_declare_ok(uint16_t channel, uint32_t max_payload, uint8_t *out, size_t out_length)
    FEKSROUM_RESULT FEKSROUM_WRITES(3, 4);

static inline feksroum_made feksroum_exchange_declare_ok_put(uint16_t channel, uint32_t max_payload, uint8_t *out,
                                                             size_t out_length) {
    return feksroum_put_exchange_declare_ok(channel, max_payload, out, out_length);
}

static inline bool feksroum_exchange_declare_ok_read(uint16_t class_id, uint16_t method_id) {
    return class_id == FEKSROUM_CLASS_EXCHANGE && method_id == FEKSROUM_EXCHANGE_DECLARE_OK;
}

/* exchange.delete (40.20). The other end answers it. Put: status 0, 12, 18, 40 or 42. */
typedef struct feksroum_exchange_delete {
    feksroum_bytes exchange; /* a short string */
    bool if_unused;
    bool no_wait;
} feksroum_exchange_delete;

feksroum_made feksroum_put_exchange_delete(uint16_t channel, const uint8_t *exchange, size_t exchange_length,
                                           bool if_unused, bool no_wait, uint32_t max_payload, uint8_t *out,
                                           size_t out_length)
    FEKSROUM_RESULT FEKSROUM_READS(2, 3) FEKSROUM_WRITES(7, 8);

static inline feksroum_made feksroum_exchange_delete_put(uint16_t channel, const feksroum_exchange_delete *m,
                                                         uint32_t max_payload, uint8_t *out, size_t out_length) {
    return feksroum_put_exchange_delete(channel, m->exchange.bytes, m->exchange.length, m->if_unused, m->no_wait,
                                        max_payload, out, out_length);
}

static inline bool feksroum_exchange_delete_read(feksroum_exchange_delete *m, uint16_t class_id, uint16_t method_id,
                                                 const uint8_t *bytes, const feksroum_node *nodes) {
    if (!(class_id == FEKSROUM_CLASS_EXCHANGE && method_id == FEKSROUM_EXCHANGE_DELETE))
        return false;
    m->exchange = feksroum_bytes_of(bytes, nodes);
    nodes += 1;
    m->if_unused = nodes->number != 0;
    nodes += 1;
    m->no_wait = nodes->number != 0;
    return true;
}

/* exchange.delete-ok (40.21). Put: status 0, 12 or 40. */
feksroum_made feksroum_put_exchange_delete_ok(uint16_t channel, uint32_t max_payload, uint8_t *out, size_t out_length)
    FEKSROUM_RESULT FEKSROUM_WRITES(3, 4);

static inline feksroum_made feksroum_exchange_delete_ok_put(uint16_t channel, uint32_t max_payload, uint8_t *out,
                                                            size_t out_length) {
    return feksroum_put_exchange_delete_ok(channel, max_payload, out, out_length);
}

static inline bool feksroum_exchange_delete_ok_read(uint16_t class_id, uint16_t method_id) {
    return class_id == FEKSROUM_CLASS_EXCHANGE && method_id == FEKSROUM_EXCHANGE_DELETE_OK;
}

/* exchange.bind (40.30). The other end answers it. Put: status 0, 12, 16, 18, 19, 20, 40 or 42. */
typedef struct feksroum_exchange_bind {
    feksroum_bytes destination; /* a short string */
    feksroum_bytes source; /* a short string */
    feksroum_bytes routing_key; /* a short string */
    bool no_wait;
    feksroum_bytes arguments; /* what fills a table */
} feksroum_exchange_bind;

feksroum_made feksroum_put_exchange_bind(uint16_t channel, const uint8_t *destination, size_t destination_length,
                                         const uint8_t *source, size_t source_length, const uint8_t *routing_key,
                                         size_t routing_key_length, bool no_wait, const uint8_t *arguments,
                                         size_t arguments_length, uint32_t max_payload, uint8_t *out, size_t out_length)
    FEKSROUM_RESULT FEKSROUM_READS(2, 3) FEKSROUM_READS(4, 5) FEKSROUM_READS(6, 7) FEKSROUM_READS(9, 10)
    FEKSROUM_WRITES(12, 13);

static inline feksroum_made feksroum_exchange_bind_put(uint16_t channel, const feksroum_exchange_bind *m,
                                                       uint32_t max_payload, uint8_t *out, size_t out_length) {
    return feksroum_put_exchange_bind(channel, m->destination.bytes, m->destination.length, m->source.bytes,
                                      m->source.length, m->routing_key.bytes, m->routing_key.length, m->no_wait,
                                      m->arguments.bytes, m->arguments.length, max_payload, out, out_length);
}

static inline bool feksroum_exchange_bind_read(feksroum_exchange_bind *m, uint16_t class_id, uint16_t method_id,
                                               const uint8_t *bytes, const feksroum_node *nodes) {
    if (!(class_id == FEKSROUM_CLASS_EXCHANGE && method_id == FEKSROUM_EXCHANGE_BIND))
        return false;
    m->destination = feksroum_bytes_of(bytes, nodes);
    nodes += 1;
    m->source = feksroum_bytes_of(bytes, nodes);
    nodes += 1;
    m->routing_key = feksroum_bytes_of(bytes, nodes);
    nodes += 1;
    m->no_wait = nodes->number != 0;
    nodes += 1;
    m->arguments = feksroum_bytes_of(bytes, nodes);
    return true;
}

/* exchange.bind-ok (40.31). Put: status 0, 12 or 40. */
feksroum_made feksroum_put_exchange_bind_ok(uint16_t channel, uint32_t max_payload, uint8_t *out, size_t out_length)
    FEKSROUM_RESULT FEKSROUM_WRITES(3, 4);

static inline feksroum_made feksroum_exchange_bind_ok_put(uint16_t channel, uint32_t max_payload, uint8_t *out,
                                                          size_t out_length) {
    return feksroum_put_exchange_bind_ok(channel, max_payload, out, out_length);
}

static inline bool feksroum_exchange_bind_ok_read(uint16_t class_id, uint16_t method_id) {
    return class_id == FEKSROUM_CLASS_EXCHANGE && method_id == FEKSROUM_EXCHANGE_BIND_OK;
}

/* exchange.unbind (40.40). The other end answers it. Put: status 0, 12, 16, 18, 19, 20, 40 or 42. */
typedef struct feksroum_exchange_unbind {
    feksroum_bytes destination; /* a short string */
    feksroum_bytes source; /* a short string */
    feksroum_bytes routing_key; /* a short string */
    bool no_wait;
    feksroum_bytes arguments; /* what fills a table */
} feksroum_exchange_unbind;

feksroum_made feksroum_put_exchange_unbind(uint16_t channel, const uint8_t *destination, size_t destination_length,
                                           const uint8_t *source, size_t source_length, const uint8_t *routing_key,
                                           size_t routing_key_length, bool no_wait, const uint8_t *arguments,
                                           size_t arguments_length, uint32_t max_payload, uint8_t *out,
                                           size_t out_length)
    FEKSROUM_RESULT FEKSROUM_READS(2, 3) FEKSROUM_READS(4, 5) FEKSROUM_READS(6, 7) FEKSROUM_READS(9, 10)
    FEKSROUM_WRITES(12, 13);

static inline feksroum_made feksroum_exchange_unbind_put(uint16_t channel, const feksroum_exchange_unbind *m,
                                                         uint32_t max_payload, uint8_t *out, size_t out_length) {
    return feksroum_put_exchange_unbind(channel, m->destination.bytes, m->destination.length, m->source.bytes,
                                        m->source.length, m->routing_key.bytes, m->routing_key.length, m->no_wait,
                                        m->arguments.bytes, m->arguments.length, max_payload, out, out_length);
}

static inline bool feksroum_exchange_unbind_read(feksroum_exchange_unbind *m, uint16_t class_id, uint16_t method_id,
                                                 const uint8_t *bytes, const feksroum_node *nodes) {
    if (!(class_id == FEKSROUM_CLASS_EXCHANGE && method_id == FEKSROUM_EXCHANGE_UNBIND))
        return false;
    m->destination = feksroum_bytes_of(bytes, nodes);
    nodes += 1;
    m->source = feksroum_bytes_of(bytes, nodes);
    nodes += 1;
    m->routing_key = feksroum_bytes_of(bytes, nodes);
    nodes += 1;
    m->no_wait = nodes->number != 0;
    nodes += 1;
    m->arguments = feksroum_bytes_of(bytes, nodes);
    return true;
}

/* exchange.unbind-ok (40.51). Put: status 0, 12 or 40. */
feksroum_made feksroum_put_exchange_unbind_ok(uint16_t channel, uint32_t max_payload, uint8_t *out, size_t out_length)
    FEKSROUM_RESULT FEKSROUM_WRITES(3, 4);

static inline feksroum_made feksroum_exchange_unbind_ok_put(uint16_t channel, uint32_t max_payload, uint8_t *out,
                                                            size_t out_length) {
    return feksroum_put_exchange_unbind_ok(channel, max_payload, out, out_length);
}

static inline bool feksroum_exchange_unbind_ok_read(uint16_t class_id, uint16_t method_id) {
    return class_id == FEKSROUM_CLASS_EXCHANGE && method_id == FEKSROUM_EXCHANGE_UNBIND_OK;
}

/* queue.declare (50.10). The other end answers it. Put: status 0, 12, 16, 18, 19, 20, 40 or 42. */
typedef struct feksroum_queue_declare {
    feksroum_bytes queue; /* a short string */
    bool passive;
    bool durable;
    bool exclusive;
    bool auto_delete;
    bool no_wait;
    feksroum_bytes arguments; /* what fills a table */
} feksroum_queue_declare;

feksroum_made feksroum_put_queue_declare(uint16_t channel, const uint8_t *queue, size_t queue_length, bool passive,
                                         bool durable, bool exclusive, bool auto_delete, bool no_wait,
                                         const uint8_t *arguments, size_t arguments_length, uint32_t max_payload,
                                         uint8_t *out, size_t out_length)
    FEKSROUM_RESULT FEKSROUM_READS(2, 3) FEKSROUM_READS(9, 10) FEKSROUM_WRITES(12, 13);

static inline feksroum_made feksroum_queue_declare_put(uint16_t channel, const feksroum_queue_declare *m,
                                                       uint32_t max_payload, uint8_t *out, size_t out_length) {
    return feksroum_put_queue_declare(channel, m->queue.bytes, m->queue.length, m->passive, m->durable, m->exclusive,
                                      m->auto_delete, m->no_wait, m->arguments.bytes, m->arguments.length, max_payload,
                                      out, out_length);
}

static inline bool feksroum_queue_declare_read(feksroum_queue_declare *m, uint16_t class_id, uint16_t method_id,
                                               const uint8_t *bytes, const feksroum_node *nodes) {
    if (!(class_id == FEKSROUM_CLASS_QUEUE && method_id == FEKSROUM_QUEUE_DECLARE))
        return false;
    m->queue = feksroum_bytes_of(bytes, nodes);
    nodes += 1;
    m->passive = nodes->number != 0;
    nodes += 1;
    m->durable = nodes->number != 0;
    nodes += 1;
    m->exclusive = nodes->number != 0;
    nodes += 1;
    m->auto_delete = nodes->number != 0;
    nodes += 1;
    m->no_wait = nodes->number != 0;
    nodes += 1;
    m->arguments = feksroum_bytes_of(bytes, nodes);
    return true;
}

/* queue.declare-ok (50.11). Put: status 0, 12, 18, 40 or 42. */
typedef struct feksroum_queue_declare_ok {
    feksroum_bytes queue; /* a short string */
    uint32_t message_count;
    uint32_t consumer_count;
} feksroum_queue_declare_ok;

feksroum_made feksroum_put_queue_declare_ok(uint16_t channel, const uint8_t *queue, size_t queue_length,
                                            uint32_t message_count, uint32_t consumer_count, uint32_t max_payload,
                                            uint8_t *out, size_t out_length)
    FEKSROUM_RESULT FEKSROUM_READS(2, 3) FEKSROUM_WRITES(7, 8);

static inline feksroum_made feksroum_queue_declare_ok_put(uint16_t channel, const feksroum_queue_declare_ok *m,
                                                          uint32_t max_payload, uint8_t *out, size_t out_length) {
    return feksroum_put_queue_declare_ok(channel, m->queue.bytes, m->queue.length, m->message_count, m->consumer_count,
                                         max_payload, out, out_length);
}

static inline bool feksroum_queue_declare_ok_read(feksroum_queue_declare_ok *m, uint16_t class_id, uint16_t method_id,
                                                  const uint8_t *bytes, const feksroum_node *nodes) {
    if (!(class_id == FEKSROUM_CLASS_QUEUE && method_id == FEKSROUM_QUEUE_DECLARE_OK))
        return false;
    m->queue = feksroum_bytes_of(bytes, nodes);
    nodes += 1;
    m->message_count = (uint32_t)nodes->number;
    nodes += 1;
    m->consumer_count = (uint32_t)nodes->number;
    return true;
}

/* queue.bind (50.20). The other end answers it. Put: status 0, 12, 16, 18, 19, 20, 40 or 42. */
typedef struct feksroum_queue_bind {
    feksroum_bytes queue; /* a short string */
    feksroum_bytes exchange; /* a short string */
    feksroum_bytes routing_key; /* a short string */
    bool no_wait;
    feksroum_bytes arguments; /* what fills a table */
} feksroum_queue_bind;

feksroum_made feksroum_put_queue_bind(uint16_t channel, const uint8_t *queue, size_t queue_length,
                                      const uint8_t *exchange, size_t exchange_length, const uint8_t *routing_key,
                                      size_t routing_key_length, bool no_wait, const uint8_t *arguments,
                                      size_t arguments_length, uint32_t max_payload, uint8_t *out, size_t out_length)
    FEKSROUM_RESULT FEKSROUM_READS(2, 3) FEKSROUM_READS(4, 5) FEKSROUM_READS(6, 7) FEKSROUM_READS(9, 10)
    FEKSROUM_WRITES(12, 13);

static inline feksroum_made feksroum_queue_bind_put(uint16_t channel, const feksroum_queue_bind *m,
                                                    uint32_t max_payload, uint8_t *out, size_t out_length) {
    return feksroum_put_queue_bind(channel, m->queue.bytes, m->queue.length, m->exchange.bytes, m->exchange.length,
                                   m->routing_key.bytes, m->routing_key.length, m->no_wait, m->arguments.bytes,
                                   m->arguments.length, max_payload, out, out_length);
}

static inline bool feksroum_queue_bind_read(feksroum_queue_bind *m, uint16_t class_id, uint16_t method_id,
                                            const uint8_t *bytes, const feksroum_node *nodes) {
    if (!(class_id == FEKSROUM_CLASS_QUEUE && method_id == FEKSROUM_QUEUE_BIND))
        return false;
    m->queue = feksroum_bytes_of(bytes, nodes);
    nodes += 1;
    m->exchange = feksroum_bytes_of(bytes, nodes);
    nodes += 1;
    m->routing_key = feksroum_bytes_of(bytes, nodes);
    nodes += 1;
    m->no_wait = nodes->number != 0;
    nodes += 1;
    m->arguments = feksroum_bytes_of(bytes, nodes);
    return true;
}

/* queue.bind-ok (50.21). Put: status 0, 12 or 40. */
feksroum_made feksroum_put_queue_bind_ok(uint16_t channel, uint32_t max_payload, uint8_t *out, size_t out_length)
    FEKSROUM_RESULT FEKSROUM_WRITES(3, 4);

static inline feksroum_made feksroum_queue_bind_ok_put(uint16_t channel, uint32_t max_payload, uint8_t *out,
                                                       size_t out_length) {
    return feksroum_put_queue_bind_ok(channel, max_payload, out, out_length);
}

static inline bool feksroum_queue_bind_ok_read(uint16_t class_id, uint16_t method_id) {
    return class_id == FEKSROUM_CLASS_QUEUE && method_id == FEKSROUM_QUEUE_BIND_OK;
}

/* queue.purge (50.30). The other end answers it. Put: status 0, 12, 18, 40 or 42. */
typedef struct feksroum_queue_purge {
    feksroum_bytes queue; /* a short string */
    bool no_wait;
} feksroum_queue_purge;

feksroum_made feksroum_put_queue_purge(uint16_t channel, const uint8_t *queue, size_t queue_length, bool no_wait,
                                       uint32_t max_payload, uint8_t *out, size_t out_length)
    FEKSROUM_RESULT FEKSROUM_READS(2, 3) FEKSROUM_WRITES(6, 7);

static inline feksroum_made feksroum_queue_purge_put(uint16_t channel, const feksroum_queue_purge *m,
                                                     uint32_t max_payload, uint8_t *out, size_t out_length) {
    return feksroum_put_queue_purge(channel, m->queue.bytes, m->queue.length, m->no_wait, max_payload, out, out_length);
}

static inline bool feksroum_queue_purge_read(feksroum_queue_purge *m, uint16_t class_id, uint16_t method_id,
                                             const uint8_t *bytes, const feksroum_node *nodes) {
    if (!(class_id == FEKSROUM_CLASS_QUEUE && method_id == FEKSROUM_QUEUE_PURGE))
        return false;
    m->queue = feksroum_bytes_of(bytes, nodes);
    nodes += 1;
    m->no_wait = nodes->number != 0;
    return true;
}

/* queue.purge-ok (50.31). Put: status 0, 12 or 40. */
typedef struct feksroum_queue_purge_ok {
    uint32_t message_count;
} feksroum_queue_purge_ok;

feksroum_made feksroum_put_queue_purge_ok(uint16_t channel, uint32_t message_count, uint32_t max_payload, uint8_t *out,
                                          size_t out_length) FEKSROUM_RESULT FEKSROUM_WRITES(4, 5);

static inline feksroum_made feksroum_queue_purge_ok_put(uint16_t channel, const feksroum_queue_purge_ok *m,
                                                        uint32_t max_payload, uint8_t *out, size_t out_length) {
    return feksroum_put_queue_purge_ok(channel, m->message_count, max_payload, out, out_length);
}

static inline bool feksroum_queue_purge_ok_read(feksroum_queue_purge_ok *m, uint16_t class_id, uint16_t method_id,
                                                const uint8_t *bytes, const feksroum_node *nodes) {
    (void)bytes;
    if (!(class_id == FEKSROUM_CLASS_QUEUE && method_id == FEKSROUM_QUEUE_PURGE_OK))
        return false;
    m->message_count = (uint32_t)nodes->number;
    return true;
}

/* queue.delete (50.40). The other end answers it. Put: status 0, 12, 18, 40 or 42. */
typedef struct feksroum_queue_delete {
    feksroum_bytes queue; /* a short string */
    bool if_unused;
    bool if_empty;
    bool no_wait;
} feksroum_queue_delete;

feksroum_made feksroum_put_queue_delete(uint16_t channel, const uint8_t *queue, size_t queue_length, bool if_unused,
                                        bool if_empty, bool no_wait, uint32_t max_payload, uint8_t *out,
                                        size_t out_length) FEKSROUM_RESULT FEKSROUM_READS(2, 3) FEKSROUM_WRITES(8, 9);

static inline feksroum_made feksroum_queue_delete_put(uint16_t channel, const feksroum_queue_delete *m,
                                                      uint32_t max_payload, uint8_t *out, size_t out_length) {
    return feksroum_put_queue_delete(channel, m->queue.bytes, m->queue.length, m->if_unused, m->if_empty, m->no_wait,
                                     max_payload, out, out_length);
}

static inline bool feksroum_queue_delete_read(feksroum_queue_delete *m, uint16_t class_id, uint16_t method_id,
                                              const uint8_t *bytes, const feksroum_node *nodes) {
    if (!(class_id == FEKSROUM_CLASS_QUEUE && method_id == FEKSROUM_QUEUE_DELETE))
        return false;
    m->queue = feksroum_bytes_of(bytes, nodes);
    nodes += 1;
    m->if_unused = nodes->number != 0;
    nodes += 1;
    m->if_empty = nodes->number != 0;
    nodes += 1;
    m->no_wait = nodes->number != 0;
    return true;
}

/* queue.delete-ok (50.41). Put: status 0, 12 or 40. */
typedef struct feksroum_queue_delete_ok {
    uint32_t message_count;
} feksroum_queue_delete_ok;

feksroum_made feksroum_put_queue_delete_ok(uint16_t channel, uint32_t message_count, uint32_t max_payload, uint8_t *out,
                                           size_t out_length) FEKSROUM_RESULT FEKSROUM_WRITES(4, 5);

static inline feksroum_made feksroum_queue_delete_ok_put(uint16_t channel, const feksroum_queue_delete_ok *m,
                                                         uint32_t max_payload, uint8_t *out, size_t out_length) {
    return feksroum_put_queue_delete_ok(channel, m->message_count, max_payload, out, out_length);
}

static inline bool feksroum_queue_delete_ok_read(feksroum_queue_delete_ok *m, uint16_t class_id, uint16_t method_id,
                                                 const uint8_t *bytes, const feksroum_node *nodes) {
    (void)bytes;
    if (!(class_id == FEKSROUM_CLASS_QUEUE && method_id == FEKSROUM_QUEUE_DELETE_OK))
        return false;
    m->message_count = (uint32_t)nodes->number;
    return true;
}

/* queue.unbind (50.50). The other end answers it. Put: status 0, 12, 16, 18, 19, 20, 40 or 42. */
typedef struct feksroum_queue_unbind {
    feksroum_bytes queue; /* a short string */
    feksroum_bytes exchange; /* a short string */
    feksroum_bytes routing_key; /* a short string */
    feksroum_bytes arguments; /* what fills a table */
} feksroum_queue_unbind;

feksroum_made feksroum_put_queue_unbind(uint16_t channel, const uint8_t *queue, size_t queue_length,
                                        const uint8_t *exchange, size_t exchange_length, const uint8_t *routing_key,
                                        size_t routing_key_length, const uint8_t *arguments, size_t arguments_length,
                                        uint32_t max_payload, uint8_t *out, size_t out_length)
    FEKSROUM_RESULT FEKSROUM_READS(2, 3) FEKSROUM_READS(4, 5) FEKSROUM_READS(6, 7) FEKSROUM_READS(8, 9)
    FEKSROUM_WRITES(11, 12);

static inline feksroum_made feksroum_queue_unbind_put(uint16_t channel, const feksroum_queue_unbind *m,
                                                      uint32_t max_payload, uint8_t *out, size_t out_length) {
    return feksroum_put_queue_unbind(channel, m->queue.bytes, m->queue.length, m->exchange.bytes, m->exchange.length,
                                     m->routing_key.bytes, m->routing_key.length, m->arguments.bytes,
                                     m->arguments.length, max_payload, out, out_length);
}

static inline bool feksroum_queue_unbind_read(feksroum_queue_unbind *m, uint16_t class_id, uint16_t method_id,
                                              const uint8_t *bytes, const feksroum_node *nodes) {
    if (!(class_id == FEKSROUM_CLASS_QUEUE && method_id == FEKSROUM_QUEUE_UNBIND))
        return false;
    m->queue = feksroum_bytes_of(bytes, nodes);
    nodes += 1;
    m->exchange = feksroum_bytes_of(bytes, nodes);
    nodes += 1;
    m->routing_key = feksroum_bytes_of(bytes, nodes);
    nodes += 1;
    m->arguments = feksroum_bytes_of(bytes, nodes);
    return true;
}

/* queue.unbind-ok (50.51). Put: status 0, 12 or 40. */
feksroum_made feksroum_put_queue_unbind_ok(uint16_t channel, uint32_t max_payload, uint8_t *out, size_t out_length)
    FEKSROUM_RESULT FEKSROUM_WRITES(3, 4);

static inline feksroum_made feksroum_queue_unbind_ok_put(uint16_t channel, uint32_t max_payload, uint8_t *out,
                                                         size_t out_length) {
    return feksroum_put_queue_unbind_ok(channel, max_payload, out, out_length);
}

static inline bool feksroum_queue_unbind_ok_read(uint16_t class_id, uint16_t method_id) {
    return class_id == FEKSROUM_CLASS_QUEUE && method_id == FEKSROUM_QUEUE_UNBIND_OK;
}

/* basic.qos (60.10). The other end answers it. Put: status 0, 12 or 40. */
typedef struct feksroum_basic_qos {
    uint16_t prefetch_count;
    bool global;
} feksroum_basic_qos;

feksroum_made feksroum_put_basic_qos(uint16_t channel, uint16_t prefetch_count, bool global, uint32_t max_payload,
                                     uint8_t *out, size_t out_length) FEKSROUM_RESULT FEKSROUM_WRITES(5, 6);

static inline feksroum_made feksroum_basic_qos_put(uint16_t channel, const feksroum_basic_qos *m, uint32_t max_payload,
                                                   uint8_t *out, size_t out_length) {
    return feksroum_put_basic_qos(channel, m->prefetch_count, m->global, max_payload, out, out_length);
}

static inline bool feksroum_basic_qos_read(feksroum_basic_qos *m, uint16_t class_id, uint16_t method_id,
                                           const uint8_t *bytes, const feksroum_node *nodes) {
    (void)bytes;
    if (!(class_id == FEKSROUM_CLASS_BASIC && method_id == FEKSROUM_BASIC_QOS))
        return false;
    m->prefetch_count = (uint16_t)nodes->number;
    nodes += 1;
    m->global = nodes->number != 0;
    return true;
}

/* basic.qos-ok (60.11). Put: status 0, 12 or 40. */
feksroum_made feksroum_put_basic_qos_ok(uint16_t channel, uint32_t max_payload, uint8_t *out, size_t out_length)
    FEKSROUM_RESULT FEKSROUM_WRITES(3, 4);

static inline feksroum_made feksroum_basic_qos_ok_put(uint16_t channel, uint32_t max_payload, uint8_t *out,
                                                      size_t out_length) {
    return feksroum_put_basic_qos_ok(channel, max_payload, out, out_length);
}

static inline bool feksroum_basic_qos_ok_read(uint16_t class_id, uint16_t method_id) {
    return class_id == FEKSROUM_CLASS_BASIC && method_id == FEKSROUM_BASIC_QOS_OK;
}

/* basic.consume (60.20). The other end answers it. Put: status 0, 12, 16, 18, 19, 20, 40 or 42. */
typedef struct feksroum_basic_consume {
    feksroum_bytes queue; /* a short string */
    feksroum_bytes consumer_tag; /* a short string */
    bool no_local;
    bool no_ack;
    bool exclusive;
    bool no_wait;
    feksroum_bytes arguments; /* what fills a table */
} feksroum_basic_consume;

feksroum_made feksroum_put_basic_consume(uint16_t channel, const uint8_t *queue, size_t queue_length,
                                         const uint8_t *consumer_tag, size_t consumer_tag_length, bool no_local,
                                         bool no_ack, bool exclusive, bool no_wait, const uint8_t *arguments,
                                         size_t arguments_length, uint32_t max_payload, uint8_t *out, size_t out_length)
    FEKSROUM_RESULT FEKSROUM_READS(2, 3) FEKSROUM_READS(4, 5) FEKSROUM_READS(10, 11) FEKSROUM_WRITES(13, 14);

static inline feksroum_made feksroum_basic_consume_put(uint16_t channel, const feksroum_basic_consume *m,
                                                       uint32_t max_payload, uint8_t *out, size_t out_length) {
    return feksroum_put_basic_consume(channel, m->queue.bytes, m->queue.length, m->consumer_tag.bytes,
                                      m->consumer_tag.length, m->no_local, m->no_ack, m->exclusive, m->no_wait,
                                      m->arguments.bytes, m->arguments.length, max_payload, out, out_length);
}

static inline bool feksroum_basic_consume_read(feksroum_basic_consume *m, uint16_t class_id, uint16_t method_id,
                                               const uint8_t *bytes, const feksroum_node *nodes) {
    if (!(class_id == FEKSROUM_CLASS_BASIC && method_id == FEKSROUM_BASIC_CONSUME))
        return false;
    m->queue = feksroum_bytes_of(bytes, nodes);
    nodes += 1;
    m->consumer_tag = feksroum_bytes_of(bytes, nodes);
    nodes += 1;
    m->no_local = nodes->number != 0;
    nodes += 1;
    m->no_ack = nodes->number != 0;
    nodes += 1;
    m->exclusive = nodes->number != 0;
    nodes += 1;
    m->no_wait = nodes->number != 0;
    nodes += 1;
    m->arguments = feksroum_bytes_of(bytes, nodes);
    return true;
}

/* basic.consume-ok (60.21). Put: status 0, 12, 18, 40 or 42. */
typedef struct feksroum_basic_consume_ok {
    feksroum_bytes consumer_tag; /* a short string */
} feksroum_basic_consume_ok;

feksroum_made feksroum_put_basic_consume_ok(uint16_t channel, const uint8_t *consumer_tag, size_t consumer_tag_length,
                                            uint32_t max_payload, uint8_t *out, size_t out_length)
    FEKSROUM_RESULT FEKSROUM_READS(2, 3) FEKSROUM_WRITES(5, 6);

static inline feksroum_made feksroum_basic_consume_ok_put(uint16_t channel, const feksroum_basic_consume_ok *m,
                                                          uint32_t max_payload, uint8_t *out, size_t out_length) {
    return feksroum_put_basic_consume_ok(channel, m->consumer_tag.bytes, m->consumer_tag.length, max_payload, out,
                                         out_length);
}

static inline bool feksroum_basic_consume_ok_read(feksroum_basic_consume_ok *m, uint16_t class_id, uint16_t method_id,
                                                  const uint8_t *bytes, const feksroum_node *nodes) {
    if (!(class_id == FEKSROUM_CLASS_BASIC && method_id == FEKSROUM_BASIC_CONSUME_OK))
        return false;
    m->consumer_tag = feksroum_bytes_of(bytes, nodes);
    return true;
}

/* basic.cancel (60.30). The other end answers it. Put: status 0, 12, 18, 40 or 42. */
typedef struct feksroum_basic_cancel {
    feksroum_bytes consumer_tag; /* a short string */
    bool no_wait;
} feksroum_basic_cancel;

feksroum_made feksroum_put_basic_cancel(uint16_t channel, const uint8_t *consumer_tag, size_t consumer_tag_length,
                                        bool no_wait, uint32_t max_payload, uint8_t *out, size_t out_length)
    FEKSROUM_RESULT FEKSROUM_READS(2, 3) FEKSROUM_WRITES(6, 7);

static inline feksroum_made feksroum_basic_cancel_put(uint16_t channel, const feksroum_basic_cancel *m,
                                                      uint32_t max_payload, uint8_t *out, size_t out_length) {
    return feksroum_put_basic_cancel(channel, m->consumer_tag.bytes, m->consumer_tag.length, m->no_wait, max_payload,
                                     out, out_length);
}

static inline bool feksroum_basic_cancel_read(feksroum_basic_cancel *m, uint16_t class_id, uint16_t method_id,
                                              const uint8_t *bytes, const feksroum_node *nodes) {
    if (!(class_id == FEKSROUM_CLASS_BASIC && method_id == FEKSROUM_BASIC_CANCEL))
        return false;
    m->consumer_tag = feksroum_bytes_of(bytes, nodes);
    nodes += 1;
    m->no_wait = nodes->number != 0;
    return true;
}

/* basic.cancel-ok (60.31). Put: status 0, 12, 18, 40 or 42. */
typedef struct feksroum_basic_cancel_ok {
    feksroum_bytes consumer_tag; /* a short string */
} feksroum_basic_cancel_ok;

feksroum_made feksroum_put_basic_cancel_ok(uint16_t channel, const uint8_t *consumer_tag, size_t consumer_tag_length,
                                           uint32_t max_payload, uint8_t *out, size_t out_length)
    FEKSROUM_RESULT FEKSROUM_READS(2, 3) FEKSROUM_WRITES(5, 6);

static inline feksroum_made feksroum_basic_cancel_ok_put(uint16_t channel, const feksroum_basic_cancel_ok *m,
                                                         uint32_t max_payload, uint8_t *out, size_t out_length) {
    return feksroum_put_basic_cancel_ok(channel, m->consumer_tag.bytes, m->consumer_tag.length, max_payload, out,
                                        out_length);
}

static inline bool feksroum_basic_cancel_ok_read(feksroum_basic_cancel_ok *m, uint16_t class_id, uint16_t method_id,
                                                 const uint8_t *bytes, const feksroum_node *nodes) {
    if (!(class_id == FEKSROUM_CLASS_BASIC && method_id == FEKSROUM_BASIC_CANCEL_OK))
        return false;
    m->consumer_tag = feksroum_bytes_of(bytes, nodes);
    return true;
}

/* basic.publish (60.40). A content header follows it. Put: status 0, 12, 18, 40 or 42. */
typedef struct feksroum_basic_publish {
    feksroum_bytes exchange; /* a short string */
    feksroum_bytes routing_key; /* a short string */
    bool mandatory;
    bool immediate;
} feksroum_basic_publish;

feksroum_made feksroum_put_basic_publish(uint16_t channel, const uint8_t *exchange, size_t exchange_length,
                                         const uint8_t *routing_key, size_t routing_key_length, bool mandatory,
                                         bool immediate, uint32_t max_payload, uint8_t *out, size_t out_length)
    FEKSROUM_RESULT FEKSROUM_READS(2, 3) FEKSROUM_READS(4, 5) FEKSROUM_WRITES(9, 10);

static inline feksroum_made feksroum_basic_publish_put(uint16_t channel, const feksroum_basic_publish *m,
                                                       uint32_t max_payload, uint8_t *out, size_t out_length) {
    return feksroum_put_basic_publish(channel, m->exchange.bytes, m->exchange.length, m->routing_key.bytes,
                                      m->routing_key.length, m->mandatory, m->immediate, max_payload, out, out_length);
}

static inline bool feksroum_basic_publish_read(feksroum_basic_publish *m, uint16_t class_id, uint16_t method_id,
                                               const uint8_t *bytes, const feksroum_node *nodes) {
    if (!(class_id == FEKSROUM_CLASS_BASIC && method_id == FEKSROUM_BASIC_PUBLISH))
        return false;
    m->exchange = feksroum_bytes_of(bytes, nodes);
    nodes += 1;
    m->routing_key = feksroum_bytes_of(bytes, nodes);
    nodes += 1;
    m->mandatory = nodes->number != 0;
    nodes += 1;
    m->immediate = nodes->number != 0;
    return true;
}

/* basic.return (60.50). A content header follows it. Put: status 0, 12, 18, 40 or 42. */
typedef struct feksroum_basic_return {
    uint16_t reply_code;
    feksroum_bytes reply_text; /* a short string */
    feksroum_bytes exchange; /* a short string */
    feksroum_bytes routing_key; /* a short string */
} feksroum_basic_return;

feksroum_made feksroum_put_basic_return(uint16_t channel, uint16_t reply_code, const uint8_t *reply_text,
                                        size_t reply_text_length, const uint8_t *exchange, size_t exchange_length,
                                        const uint8_t *routing_key, size_t routing_key_length, uint32_t max_payload,
                                        uint8_t *out, size_t out_length)
    FEKSROUM_RESULT FEKSROUM_READS(3, 4) FEKSROUM_READS(5, 6) FEKSROUM_READS(7, 8) FEKSROUM_WRITES(10, 11);

static inline feksroum_made feksroum_basic_return_put(uint16_t channel, const feksroum_basic_return *m,
                                                      uint32_t max_payload, uint8_t *out, size_t out_length) {
    return feksroum_put_basic_return(channel, m->reply_code, m->reply_text.bytes, m->reply_text.length,
                                     m->exchange.bytes, m->exchange.length, m->routing_key.bytes, m->routing_key.length,
                                     max_payload, out, out_length);
}

static inline bool feksroum_basic_return_read(feksroum_basic_return *m, uint16_t class_id, uint16_t method_id,
                                              const uint8_t *bytes, const feksroum_node *nodes) {
    if (!(class_id == FEKSROUM_CLASS_BASIC && method_id == FEKSROUM_BASIC_RETURN))
        return false;
    m->reply_code = (uint16_t)nodes->number;
    nodes += 1;
    m->reply_text = feksroum_bytes_of(bytes, nodes);
    nodes += 1;
    m->exchange = feksroum_bytes_of(bytes, nodes);
    nodes += 1;
    m->routing_key = feksroum_bytes_of(bytes, nodes);
    return true;
}

/* basic.deliver (60.60). A content header follows it. Put: status 0, 12, 18, 40 or 42. */
typedef struct feksroum_basic_deliver {
    feksroum_bytes consumer_tag; /* a short string */
    uint64_t delivery_tag;
    bool redelivered;
    feksroum_bytes exchange; /* a short string */
    feksroum_bytes routing_key; /* a short string */
} feksroum_basic_deliver;

feksroum_made feksroum_put_basic_deliver(uint16_t channel, const uint8_t *consumer_tag, size_t consumer_tag_length,
                                         uint64_t delivery_tag, bool redelivered, const uint8_t *exchange,
                                         size_t exchange_length, const uint8_t *routing_key, size_t routing_key_length,
                                         uint32_t max_payload, uint8_t *out, size_t out_length)
    FEKSROUM_RESULT FEKSROUM_READS(2, 3) FEKSROUM_READS(6, 7) FEKSROUM_READS(8, 9) FEKSROUM_WRITES(11, 12);

static inline feksroum_made feksroum_basic_deliver_put(uint16_t channel, const feksroum_basic_deliver *m,
                                                       uint32_t max_payload, uint8_t *out, size_t out_length) {
    return feksroum_put_basic_deliver(channel, m->consumer_tag.bytes, m->consumer_tag.length, m->delivery_tag,
                                      m->redelivered, m->exchange.bytes, m->exchange.length, m->routing_key.bytes,
                                      m->routing_key.length, max_payload, out, out_length);
}

static inline bool feksroum_basic_deliver_read(feksroum_basic_deliver *m, uint16_t class_id, uint16_t method_id,
                                               const uint8_t *bytes, const feksroum_node *nodes) {
    if (!(class_id == FEKSROUM_CLASS_BASIC && method_id == FEKSROUM_BASIC_DELIVER))
        return false;
    m->consumer_tag = feksroum_bytes_of(bytes, nodes);
    nodes += 1;
    m->delivery_tag = (uint64_t)nodes->number;
    nodes += 1;
    m->redelivered = nodes->number != 0;
    nodes += 1;
    m->exchange = feksroum_bytes_of(bytes, nodes);
    nodes += 1;
    m->routing_key = feksroum_bytes_of(bytes, nodes);
    return true;
}

/* basic.get (60.70). The other end answers it. Put: status 0, 12, 18, 40 or 42. */
typedef struct feksroum_basic_get {
    feksroum_bytes queue; /* a short string */
    bool no_ack;
} feksroum_basic_get;

feksroum_made feksroum_put_basic_get(uint16_t channel, const uint8_t *queue, size_t queue_length, bool no_ack,
                                     uint32_t max_payload, uint8_t *out, size_t out_length)
    FEKSROUM_RESULT FEKSROUM_READS(2, 3) FEKSROUM_WRITES(6, 7);

static inline feksroum_made feksroum_basic_get_put(uint16_t channel, const feksroum_basic_get *m, uint32_t max_payload,
                                                   uint8_t *out, size_t out_length) {
    return feksroum_put_basic_get(channel, m->queue.bytes, m->queue.length, m->no_ack, max_payload, out, out_length);
}

static inline bool feksroum_basic_get_read(feksroum_basic_get *m, uint16_t class_id, uint16_t method_id,
                                           const uint8_t *bytes, const feksroum_node *nodes) {
    if (!(class_id == FEKSROUM_CLASS_BASIC && method_id == FEKSROUM_BASIC_GET))
        return false;
    m->queue = feksroum_bytes_of(bytes, nodes);
    nodes += 1;
    m->no_ack = nodes->number != 0;
    return true;
}

/* basic.get-ok (60.71). A content header follows it. Put: status 0, 12, 18, 40 or 42. */
typedef struct feksroum_basic_get_ok {
    uint64_t delivery_tag;
    bool redelivered;
    feksroum_bytes exchange; /* a short string */
    feksroum_bytes routing_key; /* a short string */
    uint32_t message_count;
} feksroum_basic_get_ok;

feksroum_made feksroum_put_basic_get_ok(uint16_t channel, uint64_t delivery_tag, bool redelivered,
                                        const uint8_t *exchange, size_t exchange_length, const uint8_t *routing_key,
                                        size_t routing_key_length, uint32_t message_count, uint32_t max_payload,
                                        uint8_t *out, size_t out_length)
    FEKSROUM_RESULT FEKSROUM_READS(4, 5) FEKSROUM_READS(6, 7) FEKSROUM_WRITES(10, 11);

static inline feksroum_made feksroum_basic_get_ok_put(uint16_t channel, const feksroum_basic_get_ok *m,
                                                      uint32_t max_payload, uint8_t *out, size_t out_length) {
    return feksroum_put_basic_get_ok(channel, m->delivery_tag, m->redelivered, m->exchange.bytes, m->exchange.length,
                                     m->routing_key.bytes, m->routing_key.length, m->message_count, max_payload, out,
                                     out_length);
}

static inline bool feksroum_basic_get_ok_read(feksroum_basic_get_ok *m, uint16_t class_id, uint16_t method_id,
                                              const uint8_t *bytes, const feksroum_node *nodes) {
    if (!(class_id == FEKSROUM_CLASS_BASIC && method_id == FEKSROUM_BASIC_GET_OK))
        return false;
    m->delivery_tag = (uint64_t)nodes->number;
    nodes += 1;
    m->redelivered = nodes->number != 0;
    nodes += 1;
    m->exchange = feksroum_bytes_of(bytes, nodes);
    nodes += 1;
    m->routing_key = feksroum_bytes_of(bytes, nodes);
    nodes += 1;
    m->message_count = (uint32_t)nodes->number;
    return true;
}

/* basic.get-empty (60.72). Put: status 0, 12 or 40. */
feksroum_made feksroum_put_basic_get_empty(uint16_t channel, uint32_t max_payload, uint8_t *out, size_t out_length)
    FEKSROUM_RESULT FEKSROUM_WRITES(3, 4);

static inline feksroum_made feksroum_basic_get_empty_put(uint16_t channel, uint32_t max_payload, uint8_t *out,
                                                         size_t out_length) {
    return feksroum_put_basic_get_empty(channel, max_payload, out, out_length);
}

static inline bool feksroum_basic_get_empty_read(uint16_t class_id, uint16_t method_id) {
    return class_id == FEKSROUM_CLASS_BASIC && method_id == FEKSROUM_BASIC_GET_EMPTY;
}

/* basic.ack (60.80). Put: status 0, 12 or 40. */
typedef struct feksroum_basic_ack {
    uint64_t delivery_tag;
    bool multiple;
} feksroum_basic_ack;

feksroum_made feksroum_put_basic_ack(uint16_t channel, uint64_t delivery_tag, bool multiple, uint32_t max_payload,
                                     uint8_t *out, size_t out_length) FEKSROUM_RESULT FEKSROUM_WRITES(5, 6);

static inline feksroum_made feksroum_basic_ack_put(uint16_t channel, const feksroum_basic_ack *m, uint32_t max_payload,
                                                   uint8_t *out, size_t out_length) {
    return feksroum_put_basic_ack(channel, m->delivery_tag, m->multiple, max_payload, out, out_length);
}

static inline bool feksroum_basic_ack_read(feksroum_basic_ack *m, uint16_t class_id, uint16_t method_id,
                                           const uint8_t *bytes, const feksroum_node *nodes) {
    (void)bytes;
    if (!(class_id == FEKSROUM_CLASS_BASIC && method_id == FEKSROUM_BASIC_ACK))
        return false;
    m->delivery_tag = (uint64_t)nodes->number;
    nodes += 1;
    m->multiple = nodes->number != 0;
    return true;
}

/* basic.reject (60.90). Put: status 0, 12 or 40. */
typedef struct feksroum_basic_reject {
    uint64_t delivery_tag;
    bool requeue;
} feksroum_basic_reject;

feksroum_made feksroum_put_basic_reject(uint16_t channel, uint64_t delivery_tag, bool requeue, uint32_t max_payload,
                                        uint8_t *out, size_t out_length) FEKSROUM_RESULT FEKSROUM_WRITES(5, 6);

static inline feksroum_made feksroum_basic_reject_put(uint16_t channel, const feksroum_basic_reject *m,
                                                      uint32_t max_payload, uint8_t *out, size_t out_length) {
    return feksroum_put_basic_reject(channel, m->delivery_tag, m->requeue, max_payload, out, out_length);
}

static inline bool feksroum_basic_reject_read(feksroum_basic_reject *m, uint16_t class_id, uint16_t method_id,
                                              const uint8_t *bytes, const feksroum_node *nodes) {
    (void)bytes;
    if (!(class_id == FEKSROUM_CLASS_BASIC && method_id == FEKSROUM_BASIC_REJECT))
        return false;
    m->delivery_tag = (uint64_t)nodes->number;
    nodes += 1;
    m->requeue = nodes->number != 0;
    return true;
}

/* basic.recover-async (60.100). Put: status 0, 12 or 40. */
typedef struct feksroum_basic_recover_async {
    bool requeue;
} feksroum_basic_recover_async;

feksroum_made feksroum_put_basic_recover_async(uint16_t channel, bool requeue, uint32_t max_payload, uint8_t *out,
                                               size_t out_length) FEKSROUM_RESULT FEKSROUM_WRITES(4, 5);

static inline feksroum_made feksroum_basic_recover_async_put(uint16_t channel, const feksroum_basic_recover_async *m,
                                                             uint32_t max_payload, uint8_t *out, size_t out_length) {
    return feksroum_put_basic_recover_async(channel, m->requeue, max_payload, out, out_length);
}

static inline bool feksroum_basic_recover_async_read(feksroum_basic_recover_async *m, uint16_t class_id,
                                                     uint16_t method_id, const uint8_t *bytes,
                                                     const feksroum_node *nodes) {
    (void)bytes;
    if (!(class_id == FEKSROUM_CLASS_BASIC && method_id == FEKSROUM_BASIC_RECOVER_ASYNC))
        return false;
    m->requeue = nodes->number != 0;
    return true;
}

/* basic.recover (60.110). The other end answers it. Put: status 0, 12 or 40. */
typedef struct feksroum_basic_recover {
    bool requeue;
} feksroum_basic_recover;

feksroum_made feksroum_put_basic_recover(uint16_t channel, bool requeue, uint32_t max_payload, uint8_t *out,
                                         size_t out_length) FEKSROUM_RESULT FEKSROUM_WRITES(4, 5);

static inline feksroum_made feksroum_basic_recover_put(uint16_t channel, const feksroum_basic_recover *m,
                                                       uint32_t max_payload, uint8_t *out, size_t out_length) {
    return feksroum_put_basic_recover(channel, m->requeue, max_payload, out, out_length);
}

static inline bool feksroum_basic_recover_read(feksroum_basic_recover *m, uint16_t class_id, uint16_t method_id,
                                               const uint8_t *bytes, const feksroum_node *nodes) {
    (void)bytes;
    if (!(class_id == FEKSROUM_CLASS_BASIC && method_id == FEKSROUM_BASIC_RECOVER))
        return false;
    m->requeue = nodes->number != 0;
    return true;
}

/* basic.recover-ok (60.111). Put: status 0, 12 or 40. */
feksroum_made feksroum_put_basic_recover_ok(uint16_t channel, uint32_t max_payload, uint8_t *out, size_t out_length)
    FEKSROUM_RESULT FEKSROUM_WRITES(3, 4);

static inline feksroum_made feksroum_basic_recover_ok_put(uint16_t channel, uint32_t max_payload, uint8_t *out,
                                                          size_t out_length) {
    return feksroum_put_basic_recover_ok(channel, max_payload, out, out_length);
}

static inline bool feksroum_basic_recover_ok_read(uint16_t class_id, uint16_t method_id) {
    return class_id == FEKSROUM_CLASS_BASIC && method_id == FEKSROUM_BASIC_RECOVER_OK;
}

/* basic.nack (60.120). Put: status 0, 12 or 40. */
typedef struct feksroum_basic_nack {
    uint64_t delivery_tag;
    bool multiple;
    bool requeue;
} feksroum_basic_nack;

feksroum_made feksroum_put_basic_nack(uint16_t channel, uint64_t delivery_tag, bool multiple, bool requeue,
                                      uint32_t max_payload, uint8_t *out, size_t out_length)
    FEKSROUM_RESULT FEKSROUM_WRITES(6, 7);

static inline feksroum_made feksroum_basic_nack_put(uint16_t channel, const feksroum_basic_nack *m,
                                                    uint32_t max_payload, uint8_t *out, size_t out_length) {
    return feksroum_put_basic_nack(channel, m->delivery_tag, m->multiple, m->requeue, max_payload, out, out_length);
}

static inline bool feksroum_basic_nack_read(feksroum_basic_nack *m, uint16_t class_id, uint16_t method_id,
                                            const uint8_t *bytes, const feksroum_node *nodes) {
    (void)bytes;
    if (!(class_id == FEKSROUM_CLASS_BASIC && method_id == FEKSROUM_BASIC_NACK))
        return false;
    m->delivery_tag = (uint64_t)nodes->number;
    nodes += 1;
    m->multiple = nodes->number != 0;
    nodes += 1;
    m->requeue = nodes->number != 0;
    return true;
}

/* confirm.select (85.10). The other end answers it. Put: status 0, 12 or 40. */
typedef struct feksroum_confirm_select {
    bool nowait;
} feksroum_confirm_select;

feksroum_made feksroum_put_confirm_select(uint16_t channel, bool nowait, uint32_t max_payload, uint8_t *out,
                                          size_t out_length) FEKSROUM_RESULT FEKSROUM_WRITES(4, 5);

static inline feksroum_made feksroum_confirm_select_put(uint16_t channel, const feksroum_confirm_select *m,
                                                        uint32_t max_payload, uint8_t *out, size_t out_length) {
    return feksroum_put_confirm_select(channel, m->nowait, max_payload, out, out_length);
}

static inline bool feksroum_confirm_select_read(feksroum_confirm_select *m, uint16_t class_id, uint16_t method_id,
                                                const uint8_t *bytes, const feksroum_node *nodes) {
    (void)bytes;
    if (!(class_id == FEKSROUM_CLASS_CONFIRM && method_id == FEKSROUM_CONFIRM_SELECT))
        return false;
    m->nowait = nodes->number != 0;
    return true;
}

/* confirm.select-ok (85.11). Put: status 0, 12 or 40. */
feksroum_made feksroum_put_confirm_select_ok(uint16_t channel, uint32_t max_payload, uint8_t *out, size_t out_length)
    FEKSROUM_RESULT FEKSROUM_WRITES(3, 4);

static inline feksroum_made feksroum_confirm_select_ok_put(uint16_t channel, uint32_t max_payload, uint8_t *out,
                                                           size_t out_length) {
    return feksroum_put_confirm_select_ok(channel, max_payload, out, out_length);
}

static inline bool feksroum_confirm_select_ok_read(uint16_t class_id, uint16_t method_id) {
    return class_id == FEKSROUM_CLASS_CONFIRM && method_id == FEKSROUM_CONFIRM_SELECT_OK;
}

/* tx.select (90.10). The other end answers it. Put: status 0, 12 or 40. */
feksroum_made feksroum_put_tx_select(uint16_t channel, uint32_t max_payload, uint8_t *out, size_t out_length)
    FEKSROUM_RESULT FEKSROUM_WRITES(3, 4);

static inline feksroum_made feksroum_tx_select_put(uint16_t channel, uint32_t max_payload, uint8_t *out,
                                                   size_t out_length) {
    return feksroum_put_tx_select(channel, max_payload, out, out_length);
}

static inline bool feksroum_tx_select_read(uint16_t class_id, uint16_t method_id) {
    return class_id == FEKSROUM_CLASS_TX && method_id == FEKSROUM_TX_SELECT;
}

/* tx.select-ok (90.11). Put: status 0, 12 or 40. */
feksroum_made feksroum_put_tx_select_ok(uint16_t channel, uint32_t max_payload, uint8_t *out, size_t out_length)
    FEKSROUM_RESULT FEKSROUM_WRITES(3, 4);

static inline feksroum_made feksroum_tx_select_ok_put(uint16_t channel, uint32_t max_payload, uint8_t *out,
                                                      size_t out_length) {
    return feksroum_put_tx_select_ok(channel, max_payload, out, out_length);
}

static inline bool feksroum_tx_select_ok_read(uint16_t class_id, uint16_t method_id) {
    return class_id == FEKSROUM_CLASS_TX && method_id == FEKSROUM_TX_SELECT_OK;
}

/* tx.commit (90.20). The other end answers it. Put: status 0, 12 or 40. */
feksroum_made feksroum_put_tx_commit(uint16_t channel, uint32_t max_payload, uint8_t *out, size_t out_length)
    FEKSROUM_RESULT FEKSROUM_WRITES(3, 4);

static inline feksroum_made feksroum_tx_commit_put(uint16_t channel, uint32_t max_payload, uint8_t *out,
                                                   size_t out_length) {
    return feksroum_put_tx_commit(channel, max_payload, out, out_length);
}

static inline bool feksroum_tx_commit_read(uint16_t class_id, uint16_t method_id) {
    return class_id == FEKSROUM_CLASS_TX && method_id == FEKSROUM_TX_COMMIT;
}

/* tx.commit-ok (90.21). Put: status 0, 12 or 40. */
feksroum_made feksroum_put_tx_commit_ok(uint16_t channel, uint32_t max_payload, uint8_t *out, size_t out_length)
    FEKSROUM_RESULT FEKSROUM_WRITES(3, 4);

static inline feksroum_made feksroum_tx_commit_ok_put(uint16_t channel, uint32_t max_payload, uint8_t *out,
                                                      size_t out_length) {
    return feksroum_put_tx_commit_ok(channel, max_payload, out, out_length);
}

static inline bool feksroum_tx_commit_ok_read(uint16_t class_id, uint16_t method_id) {
    return class_id == FEKSROUM_CLASS_TX && method_id == FEKSROUM_TX_COMMIT_OK;
}

/* tx.rollback (90.30). The other end answers it. Put: status 0, 12 or 40. */
feksroum_made feksroum_put_tx_rollback(uint16_t channel, uint32_t max_payload, uint8_t *out, size_t out_length)
    FEKSROUM_RESULT FEKSROUM_WRITES(3, 4);

static inline feksroum_made feksroum_tx_rollback_put(uint16_t channel, uint32_t max_payload, uint8_t *out,
                                                     size_t out_length) {
    return feksroum_put_tx_rollback(channel, max_payload, out, out_length);
}

static inline bool feksroum_tx_rollback_read(uint16_t class_id, uint16_t method_id) {
    return class_id == FEKSROUM_CLASS_TX && method_id == FEKSROUM_TX_ROLLBACK;
}

/* tx.rollback-ok (90.31). Put: status 0, 12 or 40. */
feksroum_made feksroum_put_tx_rollback_ok(uint16_t channel, uint32_t max_payload, uint8_t *out, size_t out_length)
    FEKSROUM_RESULT FEKSROUM_WRITES(3, 4);

static inline feksroum_made feksroum_tx_rollback_ok_put(uint16_t channel, uint32_t max_payload, uint8_t *out,
                                                        size_t out_length) {
    return feksroum_put_tx_rollback_ok(channel, max_payload, out, out_length);
}

static inline bool feksroum_tx_rollback_ok_read(uint16_t class_id, uint16_t method_id) {
    return class_id == FEKSROUM_CLASS_TX && method_id == FEKSROUM_TX_ROLLBACK_OK;
}

/* A macro for each method: `with(basic_publish)` where there is a struct, `without(tx_select)` where there is none. */
#define FEKSROUM_EACH_METHOD(with, without) \
    with(connection_start) with(connection_start_ok) with(connection_secure) with(connection_secure_ok) \
    with(connection_tune) with(connection_tune_ok) with(connection_open) without(connection_open_ok) \
    with(connection_close) without(connection_close_ok) with(connection_blocked) without(connection_unblocked) \
    with(connection_update_secret) without(connection_update_secret_ok) without(channel_open) without(channel_open_ok) \
    with(channel_flow) with(channel_flow_ok) with(channel_close) without(channel_close_ok) with(access_request) \
    without(access_request_ok) with(exchange_declare) without(exchange_declare_ok) with(exchange_delete) \
    without(exchange_delete_ok) with(exchange_bind) without(exchange_bind_ok) with(exchange_unbind) \
    without(exchange_unbind_ok) with(queue_declare) with(queue_declare_ok) with(queue_bind) without(queue_bind_ok) \
    with(queue_purge) with(queue_purge_ok) with(queue_delete) with(queue_delete_ok) with(queue_unbind) \
    without(queue_unbind_ok) with(basic_qos) without(basic_qos_ok) with(basic_consume) with(basic_consume_ok) \
    with(basic_cancel) with(basic_cancel_ok) with(basic_publish) with(basic_return) with(basic_deliver) \
    with(basic_get) with(basic_get_ok) without(basic_get_empty) with(basic_ack) with(basic_reject) \
    with(basic_recover_async) with(basic_recover) without(basic_recover_ok) with(basic_nack) with(confirm_select) \
    without(confirm_select_ok) without(tx_select) without(tx_select_ok) without(tx_commit) without(tx_commit_ok) \
    without(tx_rollback) without(tx_rollback_ok)

/* ---- Content headers
 *
 * Which properties are set: bits of the mask `set`, as they stand in a content header. */
enum {
    FEKSROUM_HAS_CONTENT_TYPE = 0x8000,
    FEKSROUM_HAS_CONTENT_ENCODING = 0x4000,
    FEKSROUM_HAS_HEADERS = 0x2000,
    FEKSROUM_HAS_DELIVERY_MODE = 0x1000,
    FEKSROUM_HAS_PRIORITY = 0x0800,
    FEKSROUM_HAS_CORRELATION_ID = 0x0400,
    FEKSROUM_HAS_REPLY_TO = 0x0200,
    FEKSROUM_HAS_EXPIRATION = 0x0100,
    FEKSROUM_HAS_MESSAGE_ID = 0x0080,
    FEKSROUM_HAS_TIMESTAMP = 0x0040,
    FEKSROUM_HAS_TYPE = 0x0020,
    FEKSROUM_HAS_USER_ID = 0x0010,
    FEKSROUM_HAS_APP_ID = 0x0008,
    FEKSROUM_HAS_CLUSTER_ID = 0x0004
};

/* The properties of a message. Only those that `set` names are put, and the other members are not looked at:
 *
 *     feksroum_basic_properties properties = {.set = FEKSROUM_HAS_CONTENT_TYPE | FEKSROUM_HAS_DELIVERY_MODE, .delivery_mode = 2,
 *                                             .content_type = FEKSROUM_TEXT("text/plain")};
 *
 * A string or table that is set has a pointer that is not NULL, also where its length is 0: feksroum_text("") has one. */
typedef struct feksroum_basic_properties {
    uint16_t set; /* FEKSROUM_HAS_.. of those that are set, and no other bit */
    uint8_t delivery_mode; /* 2 for a message that is to be kept, 1 for one that may be lost */
    uint8_t priority; /* 0 to 9, the highest */
    uint32_t unused; /* 0 */
    uint64_t timestamp; /* seconds since the beginning of 1970 */
    feksroum_bytes content_type; /* a short string */
    feksroum_bytes content_encoding; /* a short string */
    feksroum_bytes headers; /* what fills a table */
    feksroum_bytes correlation_id; /* a short string */
    feksroum_bytes reply_to; /* a short string */
    feksroum_bytes expiration; /* a short string */
    feksroum_bytes message_id; /* a short string */
    feksroum_bytes type; /* a short string */
    feksroum_bytes user_id; /* a short string */
    feksroum_bytes app_id; /* a short string */
    feksroum_bytes cluster_id; /* a short string */
} feksroum_basic_properties;

/* Puts the frame of a content header: the size in bytes of the body that it announces, and its properties. It is of class basic, the only
 * one that has content. Status 0, 12, 16, 18, 19, 20, 40 or 42; 41 where `set` has a bit that is no property's. */
feksroum_made feksroum_put_content_header(uint16_t channel, uint64_t body_size, const feksroum_basic_properties *properties,
                                          uint32_t max_payload, uint8_t *out, size_t out_length)
    FEKSROUM_RESULT FEKSROUM_WRITES(5, 6);

/* The same, under the name that methods have. */
static inline feksroum_made feksroum_basic_properties_put(uint16_t channel, uint64_t body_size, const feksroum_basic_properties *p,
                                                          uint32_t max_payload, uint8_t *out, size_t out_length) {
    return feksroum_put_content_header(channel, body_size, p, max_payload, out, out_length);
}

/* Fills the struct from the nodes of a content header, as feksroum_read gave them of its payload, at either detail; `count` is how many
 * nodes these are. Of a head of feksroum_frames they are nodes + head.first and head.nodes, and `bytes` is what it was given. The size
 * of the body is body_size of feksroum_read and of the head. */
static inline void feksroum_basic_properties_read(feksroum_basic_properties *p, const uint8_t *bytes, const feksroum_node *nodes,
                                                  size_t count) {
    const feksroum_node *node = nodes, *end = nodes + count;
    memset(p, 0, sizeof *p);
    for (; node < end; node += 1 + node->inside) {
        p->set = (uint16_t)(p->set | 0x8000 >> (node->place & 15));
        switch (node->place) {
        case FEKSROUM_PROPERTY_CONTENT_TYPE:
            p->content_type = feksroum_bytes_of(bytes, node);
            break;
        case FEKSROUM_PROPERTY_CONTENT_ENCODING:
            p->content_encoding = feksroum_bytes_of(bytes, node);
            break;
        case FEKSROUM_PROPERTY_HEADERS:
            p->headers = feksroum_bytes_of(bytes, node);
            break;
        case FEKSROUM_PROPERTY_DELIVERY_MODE:
            p->delivery_mode = (uint8_t)node->number;
            break;
        case FEKSROUM_PROPERTY_PRIORITY:
            p->priority = (uint8_t)node->number;
            break;
        case FEKSROUM_PROPERTY_CORRELATION_ID:
            p->correlation_id = feksroum_bytes_of(bytes, node);
            break;
        case FEKSROUM_PROPERTY_REPLY_TO:
            p->reply_to = feksroum_bytes_of(bytes, node);
            break;
        case FEKSROUM_PROPERTY_EXPIRATION:
            p->expiration = feksroum_bytes_of(bytes, node);
            break;
        case FEKSROUM_PROPERTY_MESSAGE_ID:
            p->message_id = feksroum_bytes_of(bytes, node);
            break;
        case FEKSROUM_PROPERTY_TIMESTAMP:
            p->timestamp = (uint64_t)node->number;
            break;
        case FEKSROUM_PROPERTY_TYPE:
            p->type = feksroum_bytes_of(bytes, node);
            break;
        case FEKSROUM_PROPERTY_USER_ID:
            p->user_id = feksroum_bytes_of(bytes, node);
            break;
        case FEKSROUM_PROPERTY_APP_ID:
            p->app_id = feksroum_bytes_of(bytes, node);
            break;
        case FEKSROUM_PROPERTY_CLUSTER_ID:
            p->cluster_id = feksroum_bytes_of(bytes, node);
            break;
        }
    }
}

/* ---- Bodies, heartbeats and protocol headers
 *
 * Puts the frame of a body, or of a part of one: each part has at most max_payload bytes. They are copied; a writer of vectors leaves them
 * where they lie, and puts feksroum_body_head before them. */
feksroum_made feksroum_put_body(uint16_t channel, const uint8_t *body, size_t body_length, uint32_t max_payload, uint8_t *out,
                                size_t out_length) FEKSROUM_RESULT FEKSROUM_READS(2, 3) FEKSROUM_WRITES(5, 6);

/* Puts a heartbeat, which has 8 bytes. It is refused only where the buffer is shorter. */
feksroum_made feksroum_put_heartbeat(uint8_t *out, size_t out_length) FEKSROUM_RESULT FEKSROUM_WRITES(1, 2);

/* Puts a protocol header, which has 8 bytes: what a client sends first, and for AMQP 0-9-1 it is of version 0, 9, 1. */
feksroum_made feksroum_put_protocol_header(uint8_t major, uint8_t minor, uint8_t revision, uint8_t *out, size_t out_length)
    FEKSROUM_RESULT FEKSROUM_WRITES(4, 5);

/* ---- What fills a table or an array
 *
 * feksroum_add_.. puts an entry, its key and its value, after what is in a buffer; feksroum_push_.. puts a value of an array. What is then
 * in the buffer fills a table, or an array: it can be a member of a method or of properties, be added to another one, and be read by
 * feksroum_open.
 *
 *     uint8_t bytes[256];
 *     feksroum_buffer headers = FEKSROUM_BUFFER(bytes);
 *     feksroum_add_int32(&headers, feksroum_text("attempt"), 2);
 *     feksroum_add_string(&headers, feksroum_text("trace"), feksroum_text("4bf92f35"));
 *     properties.headers = feksroum_filled(&headers);
 *
 * Entries that are added by ascending keys, each key once, are canonical, and a table of them is only copied where it is put. In another
 * order it takes longer, and of equal keys the last one counts.
 *
 * Nothing is put where the buffer has refused before, or where this is refused: 42 a key of more than 255 bytes, 18 one that is not UTF-8;
 * then 42 a string, a byte array, a table or an array of more than 2^32 - 1 bytes; 16, 18, 19, 20 a fault of what fills the table or the
 * array, which may nest 63 deep; then 40 where the buffer has no room, and `needed` says how long it has to be.
 *
 * feksroum_append_entry_.. and feksroum_append_value_.. are what the library exports: the same with a buffer, and the place `at` up to
 * which it is filled; `length` is the place after what was put, or at status 40 how many bytes `out` needs. */

/* The bits of numbers with a fraction, and the numbers of a node. */
static inline uint32_t feksroum_float_bits(float value) {
    uint32_t bits;
    memcpy(&bits, &value, sizeof bits);
    return bits;
}

static inline uint64_t feksroum_double_bits(double value) {
    uint64_t bits;
    memcpy(&bits, &value, sizeof bits);
    return bits;
}

static inline float feksroum_float_of(const feksroum_node *node) {
    uint32_t bits = (uint32_t)node->number;
    float value;
    memcpy(&value, &bits, sizeof value);
    return value;
}

static inline double feksroum_double_of(const feksroum_node *node) {
    double value;
    memcpy(&value, &node->number, sizeof value);
    return value;
}

/* Takes what was appended, or its refusal. */
static inline void feksroum_appended(feksroum_buffer *buffer, feksroum_made made) {
    buffer->status = made.status;
    if (made.status == FEKSROUM_OK)
        buffer->length = (size_t)made.length;
    else if (made.status == FEKSROUM_BUFFER_TOO_SMALL)
        buffer->needed = (size_t)made.length;
}

/* a truth value, `t` */
feksroum_made feksroum_append_entry_bool(uint8_t *out, size_t out_length, size_t at, const uint8_t *key,
                                         size_t key_length, bool value)
    FEKSROUM_RESULT FEKSROUM_WRITES(1, 2) FEKSROUM_READS(4, 5);

static inline void feksroum_add_bool(feksroum_buffer *buffer, feksroum_bytes key, bool value) {
    if (buffer->status == FEKSROUM_OK)
        feksroum_appended(buffer, feksroum_append_entry_bool(buffer->bytes, buffer->room, buffer->length, key.bytes,
                                                             key.length, value));
}

/* a truth value, `t` */
feksroum_made feksroum_append_value_bool(uint8_t *out, size_t out_length, size_t at, bool value)
    FEKSROUM_RESULT FEKSROUM_WRITES(1, 2);

static inline void feksroum_push_bool(feksroum_buffer *buffer, bool value) {
    if (buffer->status == FEKSROUM_OK)
        feksroum_appended(buffer, feksroum_append_value_bool(buffer->bytes, buffer->room, buffer->length, value));
}

/* `b` */
feksroum_made feksroum_append_entry_int8(uint8_t *out, size_t out_length, size_t at, const uint8_t *key,
                                         size_t key_length, int8_t value)
    FEKSROUM_RESULT FEKSROUM_WRITES(1, 2) FEKSROUM_READS(4, 5);

static inline void feksroum_add_int8(feksroum_buffer *buffer, feksroum_bytes key, int8_t value) {
    if (buffer->status == FEKSROUM_OK)
        feksroum_appended(buffer, feksroum_append_entry_int8(buffer->bytes, buffer->room, buffer->length, key.bytes,
                                                             key.length, value));
}

/* `b` */
feksroum_made feksroum_append_value_int8(uint8_t *out, size_t out_length, size_t at, int8_t value)
    FEKSROUM_RESULT FEKSROUM_WRITES(1, 2);

static inline void feksroum_push_int8(feksroum_buffer *buffer, int8_t value) {
    if (buffer->status == FEKSROUM_OK)
        feksroum_appended(buffer, feksroum_append_value_int8(buffer->bytes, buffer->room, buffer->length, value));
}

/* `B` */
feksroum_made feksroum_append_entry_uint8(uint8_t *out, size_t out_length, size_t at, const uint8_t *key,
                                          size_t key_length, uint8_t value)
    FEKSROUM_RESULT FEKSROUM_WRITES(1, 2) FEKSROUM_READS(4, 5);

static inline void feksroum_add_uint8(feksroum_buffer *buffer, feksroum_bytes key, uint8_t value) {
    if (buffer->status == FEKSROUM_OK)
        feksroum_appended(buffer, feksroum_append_entry_uint8(buffer->bytes, buffer->room, buffer->length, key.bytes,
                                                              key.length, value));
}

/* `B` */
feksroum_made feksroum_append_value_uint8(uint8_t *out, size_t out_length, size_t at, uint8_t value)
    FEKSROUM_RESULT FEKSROUM_WRITES(1, 2);

static inline void feksroum_push_uint8(feksroum_buffer *buffer, uint8_t value) {
    if (buffer->status == FEKSROUM_OK)
        feksroum_appended(buffer, feksroum_append_value_uint8(buffer->bytes, buffer->room, buffer->length, value));
}

/* `s` */
feksroum_made feksroum_append_entry_int16(uint8_t *out, size_t out_length, size_t at, const uint8_t *key,
                                          size_t key_length, int16_t value)
    FEKSROUM_RESULT FEKSROUM_WRITES(1, 2) FEKSROUM_READS(4, 5);

static inline void feksroum_add_int16(feksroum_buffer *buffer, feksroum_bytes key, int16_t value) {
    if (buffer->status == FEKSROUM_OK)
        feksroum_appended(buffer, feksroum_append_entry_int16(buffer->bytes, buffer->room, buffer->length, key.bytes,
                                                              key.length, value));
}

/* `s` */
feksroum_made feksroum_append_value_int16(uint8_t *out, size_t out_length, size_t at, int16_t value)
    FEKSROUM_RESULT FEKSROUM_WRITES(1, 2);

static inline void feksroum_push_int16(feksroum_buffer *buffer, int16_t value) {
    if (buffer->status == FEKSROUM_OK)
        feksroum_appended(buffer, feksroum_append_value_int16(buffer->bytes, buffer->room, buffer->length, value));
}

/* `u` */
feksroum_made feksroum_append_entry_uint16(uint8_t *out, size_t out_length, size_t at, const uint8_t *key,
                                           size_t key_length, uint16_t value)
    FEKSROUM_RESULT FEKSROUM_WRITES(1, 2) FEKSROUM_READS(4, 5);

static inline void feksroum_add_uint16(feksroum_buffer *buffer, feksroum_bytes key, uint16_t value) {
    if (buffer->status == FEKSROUM_OK)
        feksroum_appended(buffer, feksroum_append_entry_uint16(buffer->bytes, buffer->room, buffer->length, key.bytes,
                                                               key.length, value));
}

/* `u` */
feksroum_made feksroum_append_value_uint16(uint8_t *out, size_t out_length, size_t at, uint16_t value)
    FEKSROUM_RESULT FEKSROUM_WRITES(1, 2);

static inline void feksroum_push_uint16(feksroum_buffer *buffer, uint16_t value) {
    if (buffer->status == FEKSROUM_OK)
        feksroum_appended(buffer, feksroum_append_value_uint16(buffer->bytes, buffer->room, buffer->length, value));
}

/* `I` */
feksroum_made feksroum_append_entry_int32(uint8_t *out, size_t out_length, size_t at, const uint8_t *key,
                                          size_t key_length, int32_t value)
    FEKSROUM_RESULT FEKSROUM_WRITES(1, 2) FEKSROUM_READS(4, 5);

static inline void feksroum_add_int32(feksroum_buffer *buffer, feksroum_bytes key, int32_t value) {
    if (buffer->status == FEKSROUM_OK)
        feksroum_appended(buffer, feksroum_append_entry_int32(buffer->bytes, buffer->room, buffer->length, key.bytes,
                                                              key.length, value));
}

/* `I` */
feksroum_made feksroum_append_value_int32(uint8_t *out, size_t out_length, size_t at, int32_t value)
    FEKSROUM_RESULT FEKSROUM_WRITES(1, 2);

static inline void feksroum_push_int32(feksroum_buffer *buffer, int32_t value) {
    if (buffer->status == FEKSROUM_OK)
        feksroum_appended(buffer, feksroum_append_value_int32(buffer->bytes, buffer->room, buffer->length, value));
}

/* `i` */
feksroum_made feksroum_append_entry_uint32(uint8_t *out, size_t out_length, size_t at, const uint8_t *key,
                                           size_t key_length, uint32_t value)
    FEKSROUM_RESULT FEKSROUM_WRITES(1, 2) FEKSROUM_READS(4, 5);

static inline void feksroum_add_uint32(feksroum_buffer *buffer, feksroum_bytes key, uint32_t value) {
    if (buffer->status == FEKSROUM_OK)
        feksroum_appended(buffer, feksroum_append_entry_uint32(buffer->bytes, buffer->room, buffer->length, key.bytes,
                                                               key.length, value));
}

/* `i` */
feksroum_made feksroum_append_value_uint32(uint8_t *out, size_t out_length, size_t at, uint32_t value)
    FEKSROUM_RESULT FEKSROUM_WRITES(1, 2);

static inline void feksroum_push_uint32(feksroum_buffer *buffer, uint32_t value) {
    if (buffer->status == FEKSROUM_OK)
        feksroum_appended(buffer, feksroum_append_value_uint32(buffer->bytes, buffer->room, buffer->length, value));
}

/* `l` */
feksroum_made feksroum_append_entry_int64(uint8_t *out, size_t out_length, size_t at, const uint8_t *key,
                                          size_t key_length, int64_t value)
    FEKSROUM_RESULT FEKSROUM_WRITES(1, 2) FEKSROUM_READS(4, 5);

static inline void feksroum_add_int64(feksroum_buffer *buffer, feksroum_bytes key, int64_t value) {
    if (buffer->status == FEKSROUM_OK)
        feksroum_appended(buffer, feksroum_append_entry_int64(buffer->bytes, buffer->room, buffer->length, key.bytes,
                                                              key.length, value));
}

/* `l` */
feksroum_made feksroum_append_value_int64(uint8_t *out, size_t out_length, size_t at, int64_t value)
    FEKSROUM_RESULT FEKSROUM_WRITES(1, 2);

static inline void feksroum_push_int64(feksroum_buffer *buffer, int64_t value) {
    if (buffer->status == FEKSROUM_OK)
        feksroum_appended(buffer, feksroum_append_value_int64(buffer->bytes, buffer->room, buffer->length, value));
}

/* `f` */
feksroum_made feksroum_append_entry_float(uint8_t *out, size_t out_length, size_t at, const uint8_t *key,
                                          size_t key_length, uint32_t bits)
    FEKSROUM_RESULT FEKSROUM_WRITES(1, 2) FEKSROUM_READS(4, 5);

static inline void feksroum_add_float(feksroum_buffer *buffer, feksroum_bytes key, float value) {
    if (buffer->status == FEKSROUM_OK)
        feksroum_appended(buffer, feksroum_append_entry_float(buffer->bytes, buffer->room, buffer->length, key.bytes,
                                                              key.length, feksroum_float_bits(value)));
}

/* `f` */
feksroum_made feksroum_append_value_float(uint8_t *out, size_t out_length, size_t at, uint32_t bits)
    FEKSROUM_RESULT FEKSROUM_WRITES(1, 2);

static inline void feksroum_push_float(feksroum_buffer *buffer, float value) {
    if (buffer->status == FEKSROUM_OK)
        feksroum_appended(buffer, feksroum_append_value_float(buffer->bytes, buffer->room, buffer->length,
                                                              feksroum_float_bits(value)));
}

/* `d` */
feksroum_made feksroum_append_entry_double(uint8_t *out, size_t out_length, size_t at, const uint8_t *key,
                                           size_t key_length, uint64_t bits)
    FEKSROUM_RESULT FEKSROUM_WRITES(1, 2) FEKSROUM_READS(4, 5);

static inline void feksroum_add_double(feksroum_buffer *buffer, feksroum_bytes key, double value) {
    if (buffer->status == FEKSROUM_OK)
        feksroum_appended(buffer, feksroum_append_entry_double(buffer->bytes, buffer->room, buffer->length, key.bytes,
                                                               key.length, feksroum_double_bits(value)));
}

/* `d` */
feksroum_made feksroum_append_value_double(uint8_t *out, size_t out_length, size_t at, uint64_t bits)
    FEKSROUM_RESULT FEKSROUM_WRITES(1, 2);

static inline void feksroum_push_double(feksroum_buffer *buffer, double value) {
    if (buffer->status == FEKSROUM_OK)
        feksroum_appended(buffer, feksroum_append_value_double(buffer->bytes, buffer->room, buffer->length,
                                                               feksroum_double_bits(value)));
}

/* `D`: so many digits of it are behind the point */
feksroum_made feksroum_append_entry_decimal(uint8_t *out, size_t out_length, size_t at, const uint8_t *key,
                                            size_t key_length, uint8_t scale, uint32_t value)
    FEKSROUM_RESULT FEKSROUM_WRITES(1, 2) FEKSROUM_READS(4, 5);

static inline void feksroum_add_decimal(feksroum_buffer *buffer, feksroum_bytes key, uint8_t scale, uint32_t value) {
    if (buffer->status == FEKSROUM_OK)
        feksroum_appended(buffer, feksroum_append_entry_decimal(buffer->bytes, buffer->room, buffer->length, key.bytes,
                                                                key.length, scale, value));
}

/* `D`: so many digits of it are behind the point */
feksroum_made feksroum_append_value_decimal(uint8_t *out, size_t out_length, size_t at, uint8_t scale, uint32_t value)
    FEKSROUM_RESULT FEKSROUM_WRITES(1, 2);

static inline void feksroum_push_decimal(feksroum_buffer *buffer, uint8_t scale, uint32_t value) {
    if (buffer->status == FEKSROUM_OK)
        feksroum_appended(buffer, feksroum_append_value_decimal(buffer->bytes, buffer->room, buffer->length, scale,
                                                                value));
}

/* a long string, `S`: any bytes */
feksroum_made feksroum_append_entry_string(uint8_t *out, size_t out_length, size_t at, const uint8_t *key,
                                           size_t key_length, const uint8_t *value, size_t value_length)
    FEKSROUM_RESULT FEKSROUM_WRITES(1, 2) FEKSROUM_READS(4, 5) FEKSROUM_READS(6, 7);

static inline void feksroum_add_string(feksroum_buffer *buffer, feksroum_bytes key, feksroum_bytes value) {
    if (buffer->status == FEKSROUM_OK)
        feksroum_appended(buffer, feksroum_append_entry_string(buffer->bytes, buffer->room, buffer->length, key.bytes,
                                                               key.length, value.bytes, value.length));
}

/* a long string, `S`: any bytes */
feksroum_made feksroum_append_value_string(uint8_t *out, size_t out_length, size_t at, const uint8_t *value,
                                           size_t value_length)
    FEKSROUM_RESULT FEKSROUM_WRITES(1, 2) FEKSROUM_READS(4, 5);

static inline void feksroum_push_string(feksroum_buffer *buffer, feksroum_bytes value) {
    if (buffer->status == FEKSROUM_OK)
        feksroum_appended(buffer, feksroum_append_value_string(buffer->bytes, buffer->room, buffer->length, value.bytes,
                                                               value.length));
}

/* `A`: what fills it */
feksroum_made feksroum_append_entry_array(uint8_t *out, size_t out_length, size_t at, const uint8_t *key,
                                          size_t key_length, const uint8_t *value, size_t value_length)
    FEKSROUM_RESULT FEKSROUM_WRITES(1, 2) FEKSROUM_READS(4, 5) FEKSROUM_READS(6, 7);

static inline void feksroum_add_array(feksroum_buffer *buffer, feksroum_bytes key, feksroum_bytes value) {
    if (buffer->status == FEKSROUM_OK)
        feksroum_appended(buffer, feksroum_append_entry_array(buffer->bytes, buffer->room, buffer->length, key.bytes,
                                                              key.length, value.bytes, value.length));
}

/* `A`: what fills it */
feksroum_made feksroum_append_value_array(uint8_t *out, size_t out_length, size_t at, const uint8_t *value,
                                          size_t value_length)
    FEKSROUM_RESULT FEKSROUM_WRITES(1, 2) FEKSROUM_READS(4, 5);

static inline void feksroum_push_array(feksroum_buffer *buffer, feksroum_bytes value) {
    if (buffer->status == FEKSROUM_OK)
        feksroum_appended(buffer, feksroum_append_value_array(buffer->bytes, buffer->room, buffer->length, value.bytes,
                                                              value.length));
}

/* `T`: seconds since the beginning of 1970 */
feksroum_made feksroum_append_entry_timestamp(uint8_t *out, size_t out_length, size_t at, const uint8_t *key,
                                              size_t key_length, uint64_t value)
    FEKSROUM_RESULT FEKSROUM_WRITES(1, 2) FEKSROUM_READS(4, 5);

static inline void feksroum_add_timestamp(feksroum_buffer *buffer, feksroum_bytes key, uint64_t value) {
    if (buffer->status == FEKSROUM_OK)
        feksroum_appended(buffer, feksroum_append_entry_timestamp(buffer->bytes, buffer->room, buffer->length,
                                                                  key.bytes, key.length, value));
}

/* `T`: seconds since the beginning of 1970 */
feksroum_made feksroum_append_value_timestamp(uint8_t *out, size_t out_length, size_t at, uint64_t value)
    FEKSROUM_RESULT FEKSROUM_WRITES(1, 2);

static inline void feksroum_push_timestamp(feksroum_buffer *buffer, uint64_t value) {
    if (buffer->status == FEKSROUM_OK)
        feksroum_appended(buffer, feksroum_append_value_timestamp(buffer->bytes, buffer->room, buffer->length, value));
}

/* `F`: what fills it */
feksroum_made feksroum_append_entry_table(uint8_t *out, size_t out_length, size_t at, const uint8_t *key,
                                          size_t key_length, const uint8_t *value, size_t value_length)
    FEKSROUM_RESULT FEKSROUM_WRITES(1, 2) FEKSROUM_READS(4, 5) FEKSROUM_READS(6, 7);

static inline void feksroum_add_table(feksroum_buffer *buffer, feksroum_bytes key, feksroum_bytes value) {
    if (buffer->status == FEKSROUM_OK)
        feksroum_appended(buffer, feksroum_append_entry_table(buffer->bytes, buffer->room, buffer->length, key.bytes,
                                                              key.length, value.bytes, value.length));
}

/* `F`: what fills it */
feksroum_made feksroum_append_value_table(uint8_t *out, size_t out_length, size_t at, const uint8_t *value,
                                          size_t value_length)
    FEKSROUM_RESULT FEKSROUM_WRITES(1, 2) FEKSROUM_READS(4, 5);

static inline void feksroum_push_table(feksroum_buffer *buffer, feksroum_bytes value) {
    if (buffer->status == FEKSROUM_OK)
        feksroum_appended(buffer, feksroum_append_value_table(buffer->bytes, buffer->room, buffer->length, value.bytes,
                                                              value.length));
}

/* no value, `V` */
feksroum_made feksroum_append_entry_void(uint8_t *out, size_t out_length, size_t at, const uint8_t *key,
                                         size_t key_length) FEKSROUM_RESULT FEKSROUM_WRITES(1, 2) FEKSROUM_READS(4, 5);

static inline void feksroum_add_void(feksroum_buffer *buffer, feksroum_bytes key) {
    if (buffer->status == FEKSROUM_OK)
        feksroum_appended(buffer, feksroum_append_entry_void(buffer->bytes, buffer->room, buffer->length, key.bytes,
                                                             key.length));
}

/* no value, `V` */
feksroum_made feksroum_append_value_void(uint8_t *out, size_t out_length, size_t at)
    FEKSROUM_RESULT FEKSROUM_WRITES(1, 2);

static inline void feksroum_push_void(feksroum_buffer *buffer) {
    if (buffer->status == FEKSROUM_OK)
        feksroum_appended(buffer, feksroum_append_value_void(buffer->bytes, buffer->room, buffer->length));
}

/* a byte array, `x` */
feksroum_made feksroum_append_entry_bytes(uint8_t *out, size_t out_length, size_t at, const uint8_t *key,
                                          size_t key_length, const uint8_t *value, size_t value_length)
    FEKSROUM_RESULT FEKSROUM_WRITES(1, 2) FEKSROUM_READS(4, 5) FEKSROUM_READS(6, 7);

static inline void feksroum_add_bytes(feksroum_buffer *buffer, feksroum_bytes key, feksroum_bytes value) {
    if (buffer->status == FEKSROUM_OK)
        feksroum_appended(buffer, feksroum_append_entry_bytes(buffer->bytes, buffer->room, buffer->length, key.bytes,
                                                              key.length, value.bytes, value.length));
}

/* a byte array, `x` */
feksroum_made feksroum_append_value_bytes(uint8_t *out, size_t out_length, size_t at, const uint8_t *value,
                                          size_t value_length)
    FEKSROUM_RESULT FEKSROUM_WRITES(1, 2) FEKSROUM_READS(4, 5);

static inline void feksroum_push_bytes(feksroum_buffer *buffer, feksroum_bytes value) {
    if (buffer->status == FEKSROUM_OK)
        feksroum_appended(buffer, feksroum_append_value_bytes(buffer->bytes, buffer->room, buffer->length, value.bytes,
                                                              value.length));
}

#ifdef __cplusplus
}
#endif

#endif
