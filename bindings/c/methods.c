/* Tests of feksroum_methods.h on frames that are made:
 *
 *     methods ROUNDS [SEED]
 *
 * Each method and each property, with random fields, is written by feksroum_write, read into its struct and put by it: the bytes are the
 * canonical ones. Tables and arrays of all kinds are appended entry by entry: what fills them means what feksroum_write_content writes, and is
 * read back. What is refused is known by hand. Each buffer has no byte more than is said. */
#include <feksroum_methods.h>
#include <stdio.h>
#include <stdlib.h>

#include "again.h"
#include "random.h"

enum { MAX_PAYLOAD = 1 << 18, ROOM = MAX_PAYLOAD + FEKSROUM_AROUND_PAYLOAD, CANARY = 0xa5 };

static void stop(const char *why, const char *what) {
    fprintf(stderr, "methods: %s: %s\n", what, why);
    exit(1);
}

static uint8_t *take(size_t size) {
    uint8_t *bytes = malloc(size ? size : 1);
    if (!bytes) {
        stop("no memory", "methods");
    }
    memset(bytes, CANARY, size);
    return bytes;
}

static bool untouched(const uint8_t *bytes, size_t length) {
    for (size_t k = 0; k < length; k++) {
        if (bytes[k] != CANARY) {
            return false;
        }
    }
    return true;
}

static bool is_made(feksroum_made made, uint64_t length, uint32_t status) {
    return made.length == length && made.status == status && made.unused == 0;
}

/* ---- Both ways */

/* Puts what is read of a frame: into its length, at its payload's limit, into a byte less, into nothing, below its limit. */
static void same_again(const feksroum_frame *frame, const uint8_t *bytes, const uint8_t *wanted, size_t length, const char *what) {
    const uint8_t *payload = bytes + frame->payload_start;
    uint32_t payload_length = (uint32_t)length - FEKSROUM_AROUND_PAYLOAD;
    for (int detail = FEKSROUM_SHALLOW; detail <= FEKSROUM_DEEP; detail++) {
        uint8_t *out = take(length + 1);
        if (!is_made(put_again(frame, payload, (uint8_t)detail, payload_length, out, length - 1), length, FEKSROUM_BUFFER_TOO_SMALL) ||
            !is_made(put_again(frame, payload, (uint8_t)detail, payload_length, NULL, 0), length, FEKSROUM_BUFFER_TOO_SMALL) ||
            !is_made(put_again(frame, payload, (uint8_t)detail, payload_length - 1, out, length), 0, FEKSROUM_TOO_LARGE) ||
            !untouched(out, length + 1)) {
            stop("a refusal is another one, or leaves something", what);
        }
        if (!is_made(put_again(frame, payload, (uint8_t)detail, payload_length, out, length), length, FEKSROUM_OK) ||
            memcmp(out, wanted, length) != 0 || out[length] != CANARY) {
            stop("other bytes are put", what);
        }
        free(out);
    }
}

/* Writes the one frame that was made, and puts it anew. */
static void both_ways(made_frames *made, const char *what) {
    static uint8_t written[ROOM], wanted[ROOM];
    feksroum_written found = feksroum_write(made->heads, made->head_count, made->nodes, made->node_count, made->pool, made->pool_length,
                                            MAX_PAYLOAD, written, sizeof written);
    if (found.status != FEKSROUM_OK) {
        stop("feksroum_write refuses it", what);
    }
    feksroum_progress canonical = feksroum_canonicalize(written, (size_t)found.length, wanted, sizeof wanted, NULL, 0, MAX_PAYLOAD, FEKSROUM_PLAIN);
    feksroum_frame frame = feksroum_next(written, (size_t)found.length, MAX_PAYLOAD);
    if (canonical.used != found.length || frame.used != found.length) {
        stop("no frame is written", what);
    }
    same_again(&frame, written, wanted, (size_t)canonical.written, what);
    free(made->heads);
    free(made->nodes);
    free(made->pool);
}

static void methods_both_ways(random_source *source, bool given) {
    for (uint8_t k = 0; k < FEKSROUM_METHODS; k++) {
        feksroum_method method = feksroum_method_at(k);
        made_frames made;
        random_method(source, given, method.class_id, method.method_id, &made);
        both_ways(&made, feksroum_name_of_method(method.class_id, method.method_id));
    }
}

static void headers_both_ways(random_source *source, bool given) {
    made_frames made;
    for (uint8_t place = 0; place < FEKSROUM_PROPERTIES; place++) {
        random_header(source, given, (uint16_t)(0x8000 >> place), &made);
        both_ways(&made, feksroum_name_of_property(place));
    }
    random_header(source, given, (uint16_t)(next_random(source) & 0xfffc), &made);
    both_ways(&made, "properties");
    random_header(source, given, 0, &made);
    both_ways(&made, "no properties");
}

/* ---- Tables and arrays */

/* The canonical frame of a content header whose headers are this content; of what fills an array, a table with one entry. */
static feksroum_bytes framed(uint8_t kind, feksroum_bytes content, uint8_t *out) {
    static uint8_t bytes[ROOM];
    feksroum_buffer table = FEKSROUM_BUFFER(bytes), frame = {out, ROOM, 0, 0, FEKSROUM_OK};
    if (kind == 'A') {
        feksroum_add_array(&table, feksroum_text("k"), content);
        content = feksroum_filled(&table);
    }
    feksroum_basic_properties properties = {.set = FEKSROUM_HAS_HEADERS, .headers = content};
    feksroum_take(&frame, feksroum_basic_properties_put(1, 0, &properties, MAX_PAYLOAD, FEKSROUM_REST(&frame)));
    if (table.status != FEKSROUM_OK || frame.status != FEKSROUM_OK) {
        stop("it is refused", "content");
    }
    return feksroum_filled(&frame);
}

/* What is appended node by node fills the same table or array as what feksroum_write_content writes; it fits in its own length, and in a
 * byte less the first refusal is kept. */
static void appended(const made_frames *made, uint8_t kind, const feksroum_node *nodes, size_t count) {
    static uint8_t written[ROOM], filled[ROOM], first[ROOM], second[ROOM];
    feksroum_written found = feksroum_write_content(kind, nodes, count, made->pool, made->pool_length, written, sizeof written);
    feksroum_buffer content = FEKSROUM_BUFFER(filled);
    append_nodes(kind, nodes, count, made->pool, &content);
    if (found.status != FEKSROUM_OK || content.status != FEKSROUM_OK || content.needed != 0 ||
        !feksroum_bytes_equal(framed(kind, feksroum_span(written, (size_t)found.length), first), framed(kind, feksroum_filled(&content), second))) {
        stop("other entries are appended", "content");
    }
    size_t length = content.length;
    uint8_t *bytes = take(length + 1);
    content = (feksroum_buffer){bytes, length, 0, 0, FEKSROUM_OK};
    append_nodes(kind, nodes, count, made->pool, &content);
    if (content.status != FEKSROUM_OK || content.length != length || memcmp(bytes, filled, length) != 0 || bytes[length] != CANARY) {
        stop("a buffer that is just long enough", "content");
    }
    if (length > 0) {
        content = (feksroum_buffer){bytes, length - 1, 0, 0, FEKSROUM_OK};
        append_nodes(kind, nodes, count, made->pool, &content);
        if (content.status != FEKSROUM_BUFFER_TOO_SMALL || content.needed <= content.room || content.length > content.room) {
            stop("a buffer that is one byte too short", "content");
        }
    }
    free(bytes);
}

static void contents(random_source *source) {
    made_frames made;
    random_header(source, false, FEKSROUM_HAS_HEADERS, &made);
    appended(&made, 'F', made.nodes + 1, made.nodes->inside);
    for (size_t k = 0; k < made.node_count; k++) {
        if (made.nodes[k].kind == 'A') {
            appended(&made, 'A', made.nodes + k + 1, made.nodes[k].inside);
        }
    }
    free(made.heads);
    free(made.nodes);
    free(made.pool);
}

/* One entry of each kind, by ascending keys, and what reading gives of them. */
static void each_kind(void) {
    static const char tags[] = "tbBsuIilfdDSATFVx";
    uint8_t bytes[256], inner[16];
    feksroum_buffer table = FEKSROUM_BUFFER(bytes), inside = FEKSROUM_BUFFER(inner);
    feksroum_node nodes[32];
    feksroum_push_void(&inside);
    feksroum_push_bool(&inside, true);
    feksroum_add_bool(&table, feksroum_text("a"), true);
    feksroum_add_int8(&table, feksroum_text("b"), -2);
    feksroum_add_uint8(&table, feksroum_text("c"), 254);
    feksroum_add_int16(&table, feksroum_text("d"), -300);
    feksroum_add_uint16(&table, feksroum_text("e"), 65000);
    feksroum_add_int32(&table, feksroum_text("f"), -70000);
    feksroum_add_uint32(&table, feksroum_text("g"), 4000000000u);
    feksroum_add_int64(&table, feksroum_text("h"), -5000000000);
    feksroum_add_float(&table, feksroum_text("i"), 0.5f);
    feksroum_add_double(&table, feksroum_text("j"), -0.25);
    feksroum_add_decimal(&table, feksroum_text("k"), 2, 314);
    feksroum_add_string(&table, feksroum_text("l"), feksroum_span("\xff\0", 2));
    feksroum_add_array(&table, feksroum_text("m"), feksroum_filled(&inside));
    feksroum_add_timestamp(&table, feksroum_text("n"), 1700000000);
    feksroum_add_table(&table, feksroum_text("o"), feksroum_span(bytes, 4));
    feksroum_add_void(&table, feksroum_text("p"));
    feksroum_add_bytes(&table, feksroum_text("q"), feksroum_text("raw"));
    if (table.status != FEKSROUM_OK) {
        stop("it is refused", "each kind");
    }
    feksroum_fields found = feksroum_open('F', table.bytes, table.length, nodes, 32);
    static const uint64_t numbers[] = {1,           (uint64_t)-2,           254, (uint64_t)-300, 65000, (uint64_t)-70000, 4000000000u,
                                       (uint64_t)-5000000000, 0x3f000000, 0xbfd0000000000000, 314};
    const feksroum_node *node = nodes;
    for (size_t k = 0; k < sizeof tags - 1; k++, node += 1 + node->inside) {
        if (node->kind != tags[k] || node->key_length != 1 || bytes[node->key_start] != 'a' + k ||
            (k < sizeof numbers / sizeof *numbers && node->number != numbers[k])) {
            stop("another value is read", "each kind");
        }
    }
    if (found.status != FEKSROUM_OK || node != nodes + found.nodes || found.nodes != 20 || nodes[10].scale != 2 ||
        feksroum_float_of(nodes + 8) != 0.5f || feksroum_double_of(nodes + 9) != -0.25 ||
        !feksroum_bytes_equal(feksroum_bytes_of(bytes, nodes + 11), feksroum_span("\xff\0", 2)) || nodes[12].items != 2 ||
        nodes[15].number != 1700000000 || nodes[16].items != 1 ||
        !feksroum_bytes_equal(feksroum_bytes_of(bytes, nodes + 19), feksroum_text("raw"))) {
        stop("other values are read", "each kind");
    }
}

/* Entries in no order, and one key twice: put by ascending keys, and the last one of equal keys. */
static void unordered(void) {
    uint8_t bytes[64], out[64];
    feksroum_buffer table = FEKSROUM_BUFFER(bytes), frame = FEKSROUM_BUFFER(out);
    feksroum_add_void(&table, feksroum_text("c"));
    feksroum_add_bool(&table, feksroum_text("a"), true);
    feksroum_add_int8(&table, feksroum_text("b"), 2);
    feksroum_add_uint8(&table, feksroum_text("a"), 1);
    feksroum_queue_declare declare = {.queue = FEKSROUM_TEXT("q"), .arguments = feksroum_filled(&table)};
    feksroum_take(&frame, feksroum_queue_declare_put(7, &declare, 1000, FEKSROUM_REST(&frame)));
    feksroum_node nodes[16];
    feksroum_fields found = feksroum_read(FEKSROUM_METHOD, out + 7, frame.length - 8, FEKSROUM_DEEP, nodes, 16);
    static const uint8_t entries[] = {1, 'a', 'B', 1, 1, 'b', 'b', 2, 1, 'c', 'V'};
    if (frame.status != FEKSROUM_OK || found.status != FEKSROUM_OK || !found.canonical ||
        !feksroum_queue_declare_read(&declare, found.class_id, found.method_id, out + 7, nodes) ||
        !feksroum_bytes_equal(declare.arguments, feksroum_span(entries, sizeof entries))) {
        stop("entries in no order", "unordered");
    }
}

/* ---- What is refused */

static uint8_t long_text[256];

static feksroum_bytes letters(size_t length) {
    memset(long_text, 'x', sizeof long_text);
    return feksroum_span(long_text, length);
}

static const uint8_t bad_text[] = {'o', 'k', 0xff};

/* A refusal leaves the buffer as it was. */
static void refused(feksroum_made made, const uint8_t *out, uint32_t status, const char *what) {
    if (!is_made(made, 0, status) || !untouched(out, 1024)) {
        stop("it is not refused so", what);
    }
}

/* Texts of a method, of which the first one that is refused counts; 255 bytes are put. */
static void refused_texts(uint8_t *out) {
    feksroum_bytes bad = feksroum_span(bad_text, sizeof bad_text);
    feksroum_basic_deliver m = {.consumer_tag = letters(256), .exchange = bad};
    refused(feksroum_basic_deliver_put(1, &m, 10, out, 1024), out, FEKSROUM_TOO_LONG, "a long text in front");
    m.consumer_tag = bad;
    m.exchange = letters(256);
    refused(feksroum_basic_deliver_put(1, &m, 10, out, 1024), out, FEKSROUM_NOT_UTF8, "a bad text in front");
    m.consumer_tag = feksroum_text("");
    refused(feksroum_basic_deliver_put(1, &m, 10, out, 1024), out, FEKSROUM_TOO_LONG, "a long text in the middle");
    m.exchange = feksroum_text("");
    m.routing_key = bad;
    refused(feksroum_basic_deliver_put(1, &m, 10, out, 1024), out, FEKSROUM_NOT_UTF8, "a bad text at the end");
    m.routing_key = letters(255);
    refused(feksroum_basic_deliver_put(1, &m, 10, out, 1024), out, FEKSROUM_TOO_LARGE, "a long payload");
    if (!is_made(feksroum_basic_deliver_put(1, &m, 1024, out, 1024), 8 + 4 + 1 + 8 + 1 + 1 + 256, FEKSROUM_OK)) {
        stop("255 bytes are refused", "a text");
    }
    memset(out, CANARY, 1024);
}

static void refused_properties(uint8_t *out) {
    static const uint16_t texts[] = {FEKSROUM_HAS_CONTENT_TYPE, FEKSROUM_HAS_CONTENT_ENCODING, FEKSROUM_HAS_CORRELATION_ID, FEKSROUM_HAS_REPLY_TO,
                                     FEKSROUM_HAS_EXPIRATION, FEKSROUM_HAS_MESSAGE_ID, FEKSROUM_HAS_TYPE, FEKSROUM_HAS_USER_ID,
                                     FEKSROUM_HAS_APP_ID, FEKSROUM_HAS_CLUSTER_ID};
    feksroum_bytes bad = feksroum_span(bad_text, sizeof bad_text), content = feksroum_span("\001k?", 3);
    feksroum_basic_properties p = {.content_type = bad, .content_encoding = bad, .correlation_id = bad, .reply_to = bad, .expiration = bad,
                                   .message_id = bad, .type = bad, .user_id = bad, .app_id = bad, .cluster_id = bad, .headers = content};
    for (size_t k = 0; k < sizeof texts / sizeof *texts; k++) {
        p.set = texts[k];
        refused(feksroum_basic_properties_put(1, 5, &p, 1024, out, 1024), out, FEKSROUM_NOT_UTF8, "a property that is not UTF-8");
    }
    p.set = FEKSROUM_HAS_HEADERS | FEKSROUM_HAS_CLUSTER_ID;
    refused(feksroum_basic_properties_put(1, 5, &p, 1024, out, 1024), out, FEKSROUM_UNKNOWN_TAG, "headers in front of a bad text");
    for (p.set = 1; p.set < 4; p.set++) {
        refused(feksroum_basic_properties_put(1, 5, &p, 1024, out, 1024), out, FEKSROUM_BAD_ARGUMENT, "bits that are no property's");
    }
}

/* What fills a table, with each fault that it may have. */
static void refused_tables(uint8_t *out) {
    static const struct {
        const char *content;
        size_t length;
        uint32_t status;
    } rows[] = {{"\001k", 2, FEKSROUM_SHORT_PAYLOAD}, {"\001kI\0\0\0", 6, FEKSROUM_SHORT_PAYLOAD}, {"\001\377V", 3, FEKSROUM_NOT_UTF8},
                {"\001k?", 3, FEKSROUM_UNKNOWN_TAG}, {"\001kS\0\0\0\1", 7, FEKSROUM_SHORT_PAYLOAD}};
    uint8_t deep[512];
    size_t length = 0;
    for (size_t k = 0; k < sizeof rows / sizeof *rows; k++) {
        feksroum_basic_consume m = {.queue = FEKSROUM_TEXT("q"), .arguments = feksroum_span(rows[k].content, rows[k].length)};
        refused(feksroum_basic_consume_put(1, &m, 1024, out, 1024), out, rows[k].status, "a table");
    }
    /* tables in each other: 64 may nest, the outermost among them */
    for (int levels = 1; levels <= 65; levels++) {
        memmove(deep + 7, deep, length);
        memcpy(deep, "\001kF\0\0", 5);
        deep[5] = (uint8_t)(length >> 8);
        deep[6] = (uint8_t)length;
        length += 7;
        feksroum_basic_consume m = {.arguments = feksroum_span(deep, length)};
        feksroum_made made = feksroum_basic_consume_put(1, &m, 1024, out, 1024);
        if (made.status != (levels < 64 ? FEKSROUM_OK : FEKSROUM_TOO_DEEP)) {
            stop("nesting", "a table");
        }
    }
    memset(out, CANARY, 1024);
}

/* The first refusal of a buffer stays, and nothing is taken after it. */
static void refused_entries(uint8_t *out) {
    feksroum_buffer table = {out, 1024, 0, 0, FEKSROUM_OK};
    feksroum_add_int32(&table, letters(256), 1);
    feksroum_add_int32(&table, feksroum_text("k"), 1);
    if (table.status != FEKSROUM_TOO_LONG || table.length != 0 || !untouched(out, 1024)) {
        stop("a long key", "entries");
    }
    table = (feksroum_buffer){out, 1024, 0, 0, FEKSROUM_OK};
    feksroum_add_void(&table, feksroum_span(bad_text, sizeof bad_text));
    if (table.status != FEKSROUM_NOT_UTF8 || !untouched(out, 1024)) {
        stop("a bad key", "entries");
    }
    table = (feksroum_buffer){out, 1024, 0, 0, FEKSROUM_OK};
    feksroum_add_array(&table, feksroum_text("k"), feksroum_text("?"));
    if (table.status != FEKSROUM_UNKNOWN_TAG || !untouched(out, 1024)) {
        stop("a bad array", "entries");
    }
    table = (feksroum_buffer){out, 8, 0, 0, FEKSROUM_OK};
    feksroum_add_void(&table, feksroum_text("k"));
    feksroum_add_int32(&table, feksroum_text("n"), 1);
    feksroum_add_void(&table, feksroum_text("m"));
    if (table.status != FEKSROUM_BUFFER_TOO_SMALL || table.length != 3 || table.needed != 10 || !untouched(out + 3, 1021)) {
        stop("no room", "entries");
    }
    memset(out, CANARY, 1024);
}

/* ---- Other frames */

static void other_frames(uint8_t *out) {
    static const uint8_t wanted[] = {'A', 'M', 'Q', 'P', 0, 0, 9, 1, 8, 0, 0, 0, 0, 0, 0, 206, 3, 1, 2, 0, 0, 0, 2, 'h', 'i', 206};
    feksroum_buffer frames = {out, sizeof wanted, 0, 0, FEKSROUM_OK};
    refused(feksroum_put_body(258, (const uint8_t *)"hi", 2, 1, out, 1024), out, FEKSROUM_TOO_LARGE, "a body above the limit");
    feksroum_take(&frames, feksroum_put_protocol_header(0, 9, 1, FEKSROUM_REST(&frames)));
    feksroum_take(&frames, feksroum_put_heartbeat(FEKSROUM_REST(&frames)));
    feksroum_take(&frames, feksroum_put_body(258, (const uint8_t *)"hi", 2, 2, FEKSROUM_REST(&frames)));
    if (frames.status != FEKSROUM_OK || frames.length != sizeof wanted || memcmp(out, wanted, sizeof wanted) != 0) {
        stop("other bytes", "frames");
    }
    feksroum_take(&frames, feksroum_put_heartbeat(FEKSROUM_REST(&frames)));
    if (frames.status != FEKSROUM_BUFFER_TOO_SMALL || frames.needed != sizeof wanted + 8 || frames.length != sizeof wanted ||
        !is_made(feksroum_put_protocol_header(0, 9, 1, out, 7), 8, FEKSROUM_BUFFER_TOO_SMALL) ||
        !is_made(feksroum_put_body(1, NULL, 0, 0, out, 1024), 8, FEKSROUM_OK)) {
        stop("a buffer that is too short", "frames");
    }
    memset(out, CANARY, 1024);
}

int main(int argc, char **argv) {
    if (argc != 2 && argc != 3) {
        stop("methods ROUNDS [SEED]", "arguments");
    }
    long rounds = strtol(argv[1], NULL, 10);
    random_source source = {argc == 3 ? strtoull(argv[2], NULL, 10) : 1};
    uint8_t *out = take(1024);
    each_kind();
    unordered();
    refused_texts(out);
    refused_properties(out);
    refused_tables(out);
    refused_entries(out);
    other_frames(out);
    for (long round = 0; round < rounds; round++) {
        methods_both_ways(&source, round % 2);
        headers_both_ways(&source, round % 2);
        contents(&source);
    }
    free(out);
    printf("methods: %d methods and %d properties both ways: %ld rounds as wanted\n", FEKSROUM_METHODS, FEKSROUM_PROPERTIES, rounds);
    return 0;
}
