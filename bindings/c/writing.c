/* Tests of feksroum_write and feksroum_write_content on lists that are made:
 *
 *     writing ROUNDS [SEED]
 *
 * Random frames, with tables in tables, are written and read back; what is refused is known by hand; and lists in which members are
 * set to numbers near their bounds are refused or written whole. Each list and each buffer has no byte more than is said. */
#include <feksroum.h>
#include <stdio.h>
#include <stdlib.h>
#include <string.h>

#include "random.h"

enum { MAX_PAYLOAD = 131072, CANARY = 0xa5 };

static void stop(const char *why) {
    fprintf(stderr, "writing: %s\n", why);
    exit(1);
}

static void *take(size_t size) {
    void *bytes = malloc(size ? size : 1);
    if (!bytes) {
        stop("no memory");
    }
    return bytes;
}

/* The same list or bytes, of which nothing can be read beyond the end. */
static void *exactly(const void *bytes, size_t size) {
    void *copy = take(size);
    if (size > 0) {
        memcpy(copy, bytes, size);
    }
    return copy;
}

/* ---- What is written */

/* Writes into a buffer of exactly the length that is needed, and tests that one byte less is refused. NULL where it is refused,
 * and then nothing was written. */
static uint8_t *written(const made_frames *made, uint32_t max_payload, feksroum_written *report) {
    feksroum_head *heads = exactly(made->heads, made->head_count * sizeof *heads);
    feksroum_node *nodes = exactly(made->nodes, made->node_count * sizeof *nodes);
    uint8_t *pool = exactly(made->pool, made->pool_length);
    *report = feksroum_write(heads, made->head_count, nodes, made->node_count, pool, made->pool_length, max_payload, NULL, 0);
    bool needs = report->status == FEKSROUM_BUFFER_TOO_SMALL;
    size_t length = needs ? (size_t)report->length : 64;
    uint8_t *out = take(length), *before = take(length);
    memset(out, CANARY, length);
    memset(before, CANARY, length);
    if (needs && length > 0) {
        feksroum_written shorter =
            feksroum_write(heads, made->head_count, nodes, made->node_count, pool, made->pool_length, max_payload, out, length - 1);
        if (memcmp(&shorter, report, sizeof shorter) != 0 || memcmp(out, before, length) != 0) {
            stop("a buffer that is one byte too short");
        }
    }
    *report = feksroum_write(heads, made->head_count, nodes, made->node_count, pool, made->pool_length, max_payload, out, length);
    bool is_written = report->status == FEKSROUM_OK;
    if (report->unused != 0 || (is_written && (report->length != (needs ? length : 0) || report->head + report->node != 0)) ||
        (!is_written && (report->length != 0 || needs || memcmp(out, before, length) != 0))) {
        stop("what is reported, or a buffer that is not as it was");
    }
    free(heads);
    free(nodes);
    free(pool);
    free(before);
    if (!is_written) {
        free(out);
        return NULL;
    }
    return out;
}

/* All frames of some bytes. */
static void read_frames(made_frames *read, uint8_t *bytes, size_t length) {
    read->pool = bytes;
    read->pool_length = length;
    read->heads = take((length / 8 + 1) * sizeof *read->heads);
    read->nodes = take(length * sizeof *read->nodes);
    feksroum_batch batch = feksroum_frames(bytes, length, MAX_PAYLOAD, FEKSROUM_DEEP, read->heads, length / 8, read->nodes, length);
    if (batch.status != FEKSROUM_OK || batch.used != length) {
        stop("what is written is no frames");
    }
    read->head_count = batch.heads;
    read->node_count = batch.nodes;
}

static bool has_bytes(uint8_t kind) {
    return kind == FEKSROUM_SHORT_STRING || kind == FEKSROUM_LONG_STRING || kind == 'S' || kind == 'x';
}

/* Whether a node that was read is the one that was made, but for where its bytes lie. */
static bool same_node(const made_frames *made, const feksroum_node *a, const made_frames *read, const feksroum_node *b, bool has_key) {
    bool bytes = !has_bytes(a->kind) || (a->length == b->length && memcmp(made->pool + a->start, read->pool + b->start, a->length) == 0);
    bool key = has_key ? a->key_length == b->key_length &&
                             memcmp(made->pool + a->key_start, read->pool + b->key_start, a->key_length) == 0
                       : b->key_length == 0;
    return bytes && key && a->kind == b->kind && a->inside == b->inside && a->number == b->number && a->scale == b->scale;
}

/* The same of siblings and all that lies inside them; how many siblings they are. */
static size_t same_nodes(const made_frames *made, const feksroum_node *a, const made_frames *read, const feksroum_node *b, size_t count,
                         bool has_key) {
    size_t siblings = 0;
    for (size_t k = 0; k < count; k += 1 + a[k].inside) {
        bool keys = a[k].kind == FEKSROUM_TABLE || a[k].kind == 'F';
        if (!same_node(made, a + k, read, b + k, has_key) ||
            same_nodes(made, a + k + 1, read, b + k + 1, a[k].inside, keys) != b[k].items) {
            stop("a node that is read is another");
        }
        siblings++;
    }
    return siblings;
}

static void same_frames(const made_frames *made, const made_frames *read) {
    if (read->head_count != made->head_count) {
        stop("more or fewer frames are read");
    }
    for (size_t k = 0; k < made->head_count; k++) {
        const feksroum_head *a = made->heads + k, *b = read->heads + k;
        bool body = a->type != FEKSROUM_BODY ||
                    (a->length == b->length && memcmp(made->pool + a->start, read->pool + b->start, a->length) == 0);
        if (!body || a->type != b->type || a->channel != b->channel || a->class_id != b->class_id || a->method_id != b->method_id ||
            a->body_size != b->body_size || a->nodes != b->nodes || !(b->form & FEKSROUM_FORM_TIDY)) {
            stop("a head that is read is another");
        }
        same_nodes(made, made->nodes + a->first, read, read->nodes + b->first, a->nodes, false);
        for (uint32_t n = 0; n < a->nodes; n += 1 + made->nodes[a->first + n].inside) {
            if (made->nodes[a->first + n].place != read->nodes[b->first + n].place) {
                stop("a place that is read is another");
            }
        }
    }
}

static void release(made_frames *made) {
    free(made->heads);
    free(made->nodes);
    free(made->pool);
}

/* Frames that are made are written and read back with the same nodes; where content stands in the pool there are more. What was read is
 * written again as the same bytes. */
static void return_frames(random_source *source, bool given) {
    made_frames made, read;
    feksroum_written report, again;
    random_frames(source, given, &made);
    uint8_t *bytes = written(&made, MAX_PAYLOAD, &report);
    if (!bytes) {
        stop("frames are refused");
    }
    read_frames(&read, bytes, (size_t)report.length);
    if (!given) {
        same_frames(&made, &read);
    }
    uint8_t *same = written(&read, MAX_PAYLOAD, &again);
    if (!same || again.length != report.length || memcmp(bytes, same, (size_t)again.length) != 0) {
        stop("frames that were read are written otherwise");
    }
    free(same);
    release(&made);
    release(&read);
}

/* ---- What is refused */

/* The head itself is refused, or nothing is. */
enum { OF_HEAD = -1 };

/* A head, its nodes, and which one of these is refused. */
typedef struct refusal {
    const char *what;
    feksroum_head head;
    feksroum_node nodes[4];
    uint32_t node_count, status;
    int node;
} refusal;

#define METHOD(class, method, count) {.type = 1, .channel = 1, .class_id = class, .method_id = method, .nodes = count}
#define HEADER(count) {.type = 2, .channel = 1, .class_id = 60, .nodes = count}
#define TAG {.kind = FEKSROUM_LONG_LONG, .number = 7}
#define MULTIPLE {.kind = FEKSROUM_FLAG, .place = 1, .number = 1}
#define TABLE_OF(count) {.kind = FEKSROUM_TABLE, .place = 2, .inside = count}

/* In the pool stand: 300 times `a`, the byte 255, an entry of no known tag, one that is cut short. */
enum { NOT_UTF8_AT = 300, UNKNOWN_TAG_AT = 301, SHORT_AT = 304, POOL = 307 };

static const refusal refusals[] = {
    {"basic.ack", METHOD(60, 80, 2), {TAG, MULTIPLE}, 2, FEKSROUM_OK, OF_HEAD},
    {"no type", {.type = 4}, {TAG}, 0, FEKSROUM_BAD_ARGUMENT, OF_HEAD},
    {"no class", METHOD(61, 80, 9), {TAG}, 0, FEKSROUM_UNKNOWN_CLASS, OF_HEAD},
    {"no method", METHOD(60, 81, 9), {TAG}, 0, FEKSROUM_UNKNOWN_METHOD, OF_HEAD},
    {"a body size of a method", {.type = 1, .class_id = 60, .method_id = 80, .body_size = 1, .nodes = 2}, {TAG, MULTIPLE}, 2,
     FEKSROUM_BAD_ARGUMENT, OF_HEAD},
    {"a method id of a content header", {.type = 2, .class_id = 60, .method_id = 1}, {TAG}, 0, FEKSROUM_BAD_ARGUMENT, OF_HEAD},
    {"a class of a body", {.type = 3, .class_id = 60}, {TAG}, 0, FEKSROUM_BAD_ARGUMENT, OF_HEAD},
    {"nodes of a body", {.type = 3, .nodes = 1}, {TAG}, 1, FEKSROUM_BAD_ARGUMENT, OF_HEAD},
    {"a body beyond the pool", {.type = 3, .start = POOL, .length = 1}, {TAG}, 0, FEKSROUM_BAD_ARGUMENT, OF_HEAD},
    {"nodes of a heartbeat", {.type = 8, .nodes = 1}, {TAG}, 1, FEKSROUM_BAD_ARGUMENT, OF_HEAD},
    {"a channel of a protocol header", {.type = 65, .channel = 1}, {TAG}, 0, FEKSROUM_BAD_ARGUMENT, OF_HEAD},
    {"nodes beyond the list", METHOD(60, 80, 3), {TAG, MULTIPLE}, 2, FEKSROUM_BAD_ARGUMENT, OF_HEAD},
    {"a field that misses", METHOD(60, 80, 1), {TAG, MULTIPLE}, 2, FEKSROUM_BAD_ARGUMENT, 1},
    {"a field too many", METHOD(60, 80, 3), {TAG, MULTIPLE, TAG}, 3, FEKSROUM_BAD_ARGUMENT, 2},
    {"another kind", METHOD(60, 80, 2), {{.kind = FEKSROUM_LONG, .number = 7}, MULTIPLE}, 2, FEKSROUM_BAD_ARGUMENT, 0},
    {"another place", METHOD(60, 80, 2), {TAG, {.kind = FEKSROUM_FLAG, .place = 2}}, 2, FEKSROUM_BAD_ARGUMENT, 1},
    {"a flag of 2", METHOD(60, 80, 2), {TAG, {.kind = FEKSROUM_FLAG, .place = 1, .number = 2}}, 2, FEKSROUM_BAD_ARGUMENT, 1},
    {"something inside a number", METHOD(60, 80, 2), {{.kind = FEKSROUM_LONG_LONG, .inside = 1}, MULTIPLE}, 2, FEKSROUM_BAD_ARGUMENT, 0},
    {"a byte of 256", HEADER(1), {{.kind = FEKSROUM_OCTET, .place = 3, .number = 256}}, 1, FEKSROUM_BAD_ARGUMENT, 0},
    {"a string of 256 bytes", HEADER(1), {{.kind = FEKSROUM_SHORT_STRING, .length = 256}}, 1, FEKSROUM_TOO_LONG, 0},
    {"a string beyond the pool", HEADER(1), {{.kind = FEKSROUM_SHORT_STRING, .start = POOL, .length = 1}}, 1, FEKSROUM_BAD_ARGUMENT, 0},
    {"a string of near 2^32", HEADER(1), {{.kind = FEKSROUM_SHORT_STRING, .start = 2, .length = UINT32_MAX}}, 1, FEKSROUM_BAD_ARGUMENT, 0},
    {"not UTF-8", HEADER(1), {{.kind = FEKSROUM_SHORT_STRING, .start = NOT_UTF8_AT, .length = 1}}, 1, FEKSROUM_NOT_UTF8, 0},
    {"properties that fall", HEADER(2), {{.kind = FEKSROUM_OCTET, .place = 3}, {.kind = FEKSROUM_SHORT_STRING}}, 2, FEKSROUM_BAD_ARGUMENT, 1},
    {"a property twice", HEADER(2), {{.kind = FEKSROUM_OCTET, .place = 3}, {.kind = FEKSROUM_OCTET, .place = 3}}, 2, FEKSROUM_BAD_ARGUMENT, 1},
    {"more inside than there are", HEADER(1), {TABLE_OF(1)}, 1, FEKSROUM_BAD_ARGUMENT, 0},
    {"more inside than the head has", HEADER(1), {TABLE_OF(1), {.kind = 'V'}}, 2, FEKSROUM_BAD_ARGUMENT, 0},
    {"a table is no array", HEADER(2), {TABLE_OF(1), {.kind = 'A', .inside = 1}}, 2, FEKSROUM_BAD_ARGUMENT, 1},
    {"a key beyond the pool", HEADER(2), {TABLE_OF(1), {.kind = 'V', .key_start = POOL, .key_length = 1}}, 2, FEKSROUM_BAD_ARGUMENT, 1},
    {"a key not UTF-8", HEADER(2), {TABLE_OF(1), {.kind = 'V', .key_start = NOT_UTF8_AT, .key_length = 1}}, 2, FEKSROUM_NOT_UTF8, 1},
    {"a tag that is only read", HEADER(2), {TABLE_OF(1), {.kind = 'L'}}, 2, FEKSROUM_BAD_ARGUMENT, 1},
    {"a truth value of 2", HEADER(2), {TABLE_OF(1), {.kind = 't', .number = 2}}, 2, FEKSROUM_BAD_ARGUMENT, 1},
    {"a signed byte of 128", HEADER(2), {TABLE_OF(1), {.kind = 'b', .number = 128}}, 2, FEKSROUM_BAD_ARGUMENT, 1},
    {"a signed byte of -128", HEADER(2), {TABLE_OF(1), {.kind = 'b', .number = (uint64_t)-128}}, 2, FEKSROUM_OK, OF_HEAD},
    {"a float of 2^32", HEADER(2), {TABLE_OF(1), {.kind = 'f', .number = (uint64_t)1 << 32}}, 2, FEKSROUM_BAD_ARGUMENT, 1},
    {"a decimal of 2^32", HEADER(2), {TABLE_OF(1), {.kind = 'D', .number = (uint64_t)1 << 32}}, 2, FEKSROUM_BAD_ARGUMENT, 1},
    {"content of an unknown tag", HEADER(1), {{.kind = FEKSROUM_TABLE, .place = 2, .start = UNKNOWN_TAG_AT, .length = 3}}, 1,
     FEKSROUM_UNKNOWN_TAG, 0},
    {"content that is cut short", HEADER(1), {{.kind = FEKSROUM_TABLE, .place = 2, .start = SHORT_AT, .length = 3}}, 1,
     FEKSROUM_SHORT_PAYLOAD, 0},
};

static const uint8_t *known_pool(void) {
    static uint8_t pool[POOL];
    memset(pool, 'a', NOT_UTF8_AT);
    memcpy(pool + NOT_UTF8_AT, "\377\1k?\1kI", 7);
    return pool;
}

/* Each stands after a heartbeat, so it is the second head, and after two nodes that no head has. */
static void refuse_known(void) {
    for (size_t k = 0; k < sizeof refusals / sizeof *refusals; k++) {
        const refusal *wanted = refusals + k;
        feksroum_head heads[] = {{.type = FEKSROUM_HEARTBEAT, .channel = 5}, wanted->head};
        feksroum_node nodes[6] = {{.kind = 99}, {.kind = 99}};
        memcpy(nodes + 2, wanted->nodes, sizeof wanted->nodes);
        heads[1].first = heads[1].nodes ? 2 : 0;
        made_frames made = {.heads = heads, .head_count = 2, .nodes = nodes, .node_count = 2 + wanted->node_count,
                            .pool = (uint8_t *)known_pool(), .pool_length = POOL};
        feksroum_written report;
        free(written(&made, MAX_PAYLOAD, &report));
        uint32_t node = wanted->status == FEKSROUM_OK ? 0 : wanted->node == OF_HEAD ? FEKSROUM_NO_NODE : 2 + (uint32_t)wanted->node;
        if (report.status != wanted->status || report.head != (wanted->status != FEKSROUM_OK) || report.node != node) {
            stop(wanted->what);
        }
    }
}

/* The limit on a payload is tested after its nodes, and before the next frame. */
static void refuse_long_payloads(void) {
    feksroum_head heads[] = {{.type = FEKSROUM_BODY, .length = 8}, {.type = FEKSROUM_BODY, .length = 9}, {.type = 9}};
    made_frames made = {.heads = heads, .head_count = 3, .pool = (uint8_t *)known_pool(), .pool_length = POOL};
    feksroum_written report;
    if (written(&made, 8, &report) || report.status != FEKSROUM_TOO_LARGE || report.head != 1 || report.node != FEKSROUM_NO_NODE ||
        written(&made, 9, &report) || report.status != FEKSROUM_BAD_ARGUMENT || report.head != 2) {
        stop("a payload that is too long");
    }
    made.head_count = 2;
    uint8_t *out = written(&made, 9, &report);
    if (!out || report.length != 16 + 17) {
        stop("payloads at the limit");
    }
    free(out);
}

/* Of all bytes, only those that read back are a kind of a value, and only the one of the table that of a field. */
static void refuse_kinds(void) {
    for (unsigned kind = 0; kind < 256; kind++) {
        const char *at = kind ? strchr("tbBsuIilfdDSATFxV", (int)kind) : NULL;
        feksroum_node node = {.kind = (uint8_t)kind}, back;
        uint8_t out[16], before[sizeof out];
        memset(out, CANARY, sizeof out);
        memcpy(before, out, sizeof out);
        feksroum_written value = feksroum_write_content('A', &node, 1, NULL, 0, out, sizeof out);
        if (value.status != (at ? FEKSROUM_OK : FEKSROUM_BAD_ARGUMENT) || value.node != 0 ||
            (at ? out[0] != kind || feksroum_open('A', out, (size_t)value.length, &back, 1).status != FEKSROUM_OK
                : memcmp(out, before, sizeof out) != 0)) {
            stop("a kind of a value");
        }
        feksroum_written entry = feksroum_write_content('F', &node, 1, NULL, 0, out, sizeof out);
        feksroum_written content = feksroum_write_content((uint8_t)kind, NULL, 0, NULL, 0, NULL, 0);
        bool nests = kind == 'F' || kind == 'A';
        if (entry.status != value.status || (at && entry.length != value.length + 1) ||
            content.status != (nests ? FEKSROUM_OK : FEKSROUM_BAD_ARGUMENT) || content.node != (nests ? 0 : FEKSROUM_NO_NODE)) {
            stop("a kind of content");
        }
        feksroum_node tag = {.kind = (uint8_t)kind, .number = 7}, fields[] = {tag, MULTIPLE};
        feksroum_head head = METHOD(60, 80, 2);
        made_frames made = {.heads = &head, .head_count = 1, .nodes = fields, .node_count = 2, .pool = (uint8_t *)"", .pool_length = 0};
        feksroum_written report;
        free(written(&made, MAX_PAYLOAD, &report));
        if (report.status != (kind == FEKSROUM_LONG_LONG ? FEKSROUM_OK : FEKSROUM_BAD_ARGUMENT)) {
            stop("a kind of a field");
        }
    }
}

/* Tables in tables are written as deep as they are read. */
static void nest_deep(void) {
    enum { DEEPEST = 70 };
    for (uint32_t depth = 1; depth < DEEPEST; depth++) {
        feksroum_node nodes[DEEPEST] = {{.kind = FEKSROUM_TABLE, .place = 2}};
        uint8_t content[6 * DEEPEST], *front = content + sizeof content;
        for (uint32_t k = 0; k < depth; k++) {
            nodes[k] = (feksroum_node){.kind = k ? 'F' : FEKSROUM_TABLE, .place = k ? 0 : 2, .inside = depth - 1 - k};
            if (k + 1 < depth) {
                uint32_t length = 6 * k;
                front -= 6;
                memcpy(front, (uint8_t[]){0, 'F', 0, 0, (uint8_t)(length >> 8), (uint8_t)length}, 6);
            }
        }
        feksroum_head head = HEADER(depth);
        made_frames made = {.heads = &head, .head_count = 1, .nodes = nodes, .node_count = depth, .pool = front,
                            .pool_length = (size_t)(content + sizeof content - front)};
        feksroum_node given = {.kind = FEKSROUM_TABLE, .place = 2, .length = (uint32_t)made.pool_length};
        feksroum_head shallow = HEADER(1);
        made_frames alone = {.heads = &shallow, .head_count = 1, .nodes = &given, .node_count = 1, .pool = front,
                             .pool_length = made.pool_length};
        feksroum_written one, other;
        uint8_t *by_nodes = written(&made, MAX_PAYLOAD, &one), *by_content = written(&alone, MAX_PAYLOAD, &other);
        uint8_t wanted = feksroum_open('F', front, made.pool_length, nodes, DEEPEST).status;
        if (one.status != other.status || one.status != wanted || (wanted != FEKSROUM_OK && wanted != FEKSROUM_TOO_DEEP) ||
            (by_nodes && (one.length != other.length || memcmp(by_nodes, by_content, (size_t)one.length) != 0))) {
            stop("tables in tables");
        }
        free(by_nodes);
        free(by_content);
        if (depth == DEEPEST - 1 && wanted == FEKSROUM_OK) {
            stop("tables nest without an end");
        }
    }
}

/* ---- Members at their bounds */

/* A number near a bound. */
static uint64_t hostile_number(random_source *source, size_t width, size_t near) {
    static const uint64_t bounds[] = {0, UINT8_MAX, UINT16_MAX, INT32_MAX, UINT32_MAX, INT64_MAX, UINT64_MAX};
    uint64_t base = below(source, 2) ? near : bounds[below(source, sizeof bounds / sizeof *bounds)];
    uint64_t number = base + below(source, 5) - 2;
    return width == 8 ? number : number & (((uint64_t)1 << 8 * width) - 1);
}

/* Sets one member of a head or a node, of so many bytes. */
static void bend(random_source *source, made_frames *made) {
    static const struct {
        size_t place, width;
    } of_head[] = {{offsetof(feksroum_head, body_size), 8}, {offsetof(feksroum_head, start), 4}, {offsetof(feksroum_head, length), 4},
                   {offsetof(feksroum_head, first), 4}, {offsetof(feksroum_head, nodes), 4}, {offsetof(feksroum_head, channel), 2},
                   {offsetof(feksroum_head, class_id), 2}, {offsetof(feksroum_head, method_id), 2}, {offsetof(feksroum_head, type), 1}},
      of_node[] = {{offsetof(feksroum_node, number), 8}, {offsetof(feksroum_node, start), 4}, {offsetof(feksroum_node, length), 4},
                   {offsetof(feksroum_node, key_start), 4}, {offsetof(feksroum_node, inside), 4}, {offsetof(feksroum_node, items), 4},
                   {offsetof(feksroum_node, key_length), 1}, {offsetof(feksroum_node, kind), 1}, {offsetof(feksroum_node, place), 1}};
    bool head = made->node_count == 0 || below(source, 4) == 0;
    size_t member = below(source, sizeof of_head / sizeof *of_head);
    size_t place = head ? of_head[member].place : of_node[member].place, width = head ? of_head[member].width : of_node[member].width;
    uint8_t *at = head ? (uint8_t *)(made->heads + below(source, made->head_count)) : (uint8_t *)(made->nodes + below(source, made->node_count));
    uint64_t number = hostile_number(source, width, below(source, 2) ? made->node_count : made->pool_length);
    memcpy(at + place, &number, width); /* the lowest bytes come first */
}

static void fill(random_source *source, void *bytes, size_t size) {
    for (size_t k = 0; k < size; k++) {
        ((uint8_t *)bytes)[k] = (uint8_t)next_random(source);
    }
}

/* The content of a table or an array that stands alone has at most 2^32 - 1 bytes, whatever the buffer. Its strings are counted and
 * not touched, and all lie in one pool. */
static void refuse_long_contents(void) {
    enum { NODES = 4096, SPAN = (1 << 20) - 5 };
    uint8_t *pool = take(SPAN), out = CANARY;
    memset(pool, 'a', SPAN);
    feksroum_node *nodes = take(NODES * sizeof *nodes);
    memset(nodes, 0, NODES * sizeof *nodes);
    for (size_t k = 0; k < NODES; k++) {
        nodes[k].kind = 'S';
        nodes[k].length = SPAN;
    }
    feksroum_written most = feksroum_write_content('A', nodes, NODES, pool, SPAN, &out, 1);
    nodes[0].length--;
    feksroum_written few = feksroum_write_content('A', nodes, NODES, pool, SPAN, &out, 1);
    if (most.status != FEKSROUM_TOO_LONG || most.length != 0 || most.head != 0 || most.node != FEKSROUM_NO_NODE ||
        few.status != FEKSROUM_BUFFER_TOO_SMALL || few.length != UINT32_MAX || out != CANARY) {
        stop("a content that stands alone and is too long");
    }
    free(nodes);
    free(pool);
}

/* Whatever the lists hold, they are written as frames that read back, or refused with a head and a node of theirs. */
static void write_hostile(random_source *source, bool all) {
    made_frames made;
    feksroum_written report;
    random_frames(source, below(source, 2), &made);
    if (made.head_count == 0) {
        release(&made);
        return;
    }
    if (all) {
        fill(source, made.nodes, made.node_count * sizeof *made.nodes);
    }
    for (size_t k = below(source, 3) + !all; k > 0; k--) {
        bend(source, &made);
    }
    uint8_t *bytes = written(&made, below(source, 4) ? MAX_PAYLOAD : (uint32_t)below(source, 64), &report);
    if (bytes) {
        made_frames read;
        read_frames(&read, bytes, (size_t)report.length);
        if (read.head_count != made.head_count) {
            stop("hostile lists make other frames");
        }
        release(&read);
    } else if (report.head >= made.head_count || (report.node > made.node_count && report.node != FEKSROUM_NO_NODE) ||
               report.status == FEKSROUM_BUFFER_TOO_SMALL || feksroum_status_name((uint8_t)report.status)[0] == 0) {
        stop("a refusal of hostile lists");
    }
    release(&made);
}

int main(int argc, char **argv) {
    if (argc < 2) {
        stop("writing ROUNDS [SEED]");
    }
    random_source source = {strtoull(argc > 2 ? argv[2] : "1", NULL, 10) * 2 + 1};
    refuse_known();
    refuse_long_payloads();
    refuse_long_contents();
    refuse_kinds();
    nest_deep();
    long rounds = strtol(argv[1], NULL, 10);
    for (long k = 0; k < rounds; k++) {
        return_frames(&source, k % 3 == 0);
        write_hostile(&source, k % 4 == 0);
    }
    printf("writing: %ld rounds as wanted\n", rounds);
    return 0;
}
