/* Reads the fields of payloads in each way, and compares what is said. */
#include "fields.h"

#include <stdlib.h>
#include <string.h>

_Static_assert(sizeof(feksroum_node) == 32, "a node has no padding");
_Static_assert(sizeof(feksroum_fields) == 24, "what is read has no padding");

static bool is_nest(uint8_t kind) {
    return kind == FEKSROUM_TABLE || kind == 'F' || kind == 'A';
}

/* Whether bytes lie between two places. */
static bool lies(uint64_t start, uint64_t length, uint64_t from, uint64_t to) {
    return length == 0 || (start >= from && start + length <= to);
}

/* Whether these nodes, and those inside them, lie between two places, each inside its own; and how many siblings they are. */
static bool nest(const feksroum_node *nodes, size_t count, uint64_t from, uint64_t to, size_t *siblings) {
    *siblings = 0;
    for (size_t k = 0; k < count; k += 1 + nodes[k].inside, ++*siblings) {
        const feksroum_node *node = nodes + k;
        size_t items;
        if (node->inside >= count - k || !lies(node->start, node->length, from, to) ||
            !lies(node->key_start, node->key_length, from, to) || (!is_nest(node->kind) && node->inside > 0) ||
            !nest(node + 1, node->inside, node->start, (uint64_t)node->start + node->length, &items) ||
            items != node->items) {
            return false;
        }
    }
    return true;
}

/* A node whose places are counted from further on. */
static feksroum_node moved(feksroum_node node, uint32_t by) {
    bool has_bytes = is_nest(node.kind) || node.kind == 'S' || node.kind == 'x';
    node.start += has_bytes ? by : 0;
    node.key_start += by;
    return node;
}

/* Whether the content of a table or an array, opened alone, has the nodes that lie inside it. Keys of array values are none. */
static bool opens(const feksroum_node *node, const uint8_t *payload, feksroum_node *list) {
    bool is_array = node->kind == 'A';
    feksroum_fields found = feksroum_open(is_array ? 'A' : 'F', payload + node->start, node->length, list, node->inside);
    if (found.status != FEKSROUM_OK || found.nodes != node->inside) {
        return false;
    }
    for (uint32_t k = 0; k < node->inside; k++) {
        feksroum_node there = moved(list[k], node->start), here = node[1 + k];
        if (here.key_start == 0) {
            there.key_start = 0;
        }
        if (memcmp(&there, &here, sizeof here) != 0) {
            return false;
        }
    }
    return true;
}

/* Whether fields read alone are those read with all that lies inside. */
static bool alone_agree(const feksroum_node *alone, size_t count, const feksroum_node *nodes) {
    for (size_t k = 0, at = 0; k < count; k++, at += 1 + nodes[at].inside) {
        feksroum_node node = nodes[at];
        node.inside = node.items = 0;
        if (memcmp(alone + k, &node, sizeof node) != 0) {
            return false;
        }
    }
    return true;
}

static bool list_agrees(uint8_t type, const uint8_t *payload, size_t length, feksroum_fields deep, feksroum_node *nodes,
                        feksroum_node *other) {
    size_t siblings, count = (size_t)deep.nodes;
    feksroum_fields alone = feksroum_read(type, payload, length, FEKSROUM_SHALLOW, other, count);
    if (alone.status != FEKSROUM_OK || !nest(nodes, count, 0, length, &siblings) || siblings != alone.nodes ||
        siblings != feksroum_check(type, payload, length).fields || !alone_agree(other, siblings, nodes)) {
        return false;
    }
    for (size_t k = 0; k < count; k++) {
        if (is_nest(nodes[k].kind) && !opens(nodes + k, payload, other)) {
            return false;
        }
    }
    feksroum_fields refused = feksroum_read(type, payload, length, FEKSROUM_DEEP, other, count ? count - 1 : 0);
    if (feksroum_read(type, payload, length, FEKSROUM_DEEP, other, count).status != FEKSROUM_OK) {
        return false;
    }
    return count == 0 ? refused.status == FEKSROUM_OK
                      : refused.status == FEKSROUM_BUFFER_TOO_SMALL && refused.nodes == count && refused.class_id == 0 &&
                            refused.body_size == 0 && !refused.canonical && !refused.tidy;
}

bool fields_agree(uint8_t type, const uint8_t *payload, size_t length) {
    feksroum_payload whole = feksroum_check(type, payload, length);
    feksroum_node *nodes = malloc((length + 1) * sizeof *nodes), *other = malloc((length + 1) * sizeof *other);
    feksroum_fields deep = feksroum_read(type, payload, length, FEKSROUM_DEEP, nodes, length);
    bool same = nodes && other && deep.status == whole.status && deep.class_id == whole.class_id &&
                deep.method_id == whole.method_id && deep.body_size == whole.body_size && deep.canonical == whole.canonical &&
                deep.tidy == whole.tidy && deep.unused == 0;
    bool agrees = same && deep.nodes <= length;
    if (agrees && whole.status == FEKSROUM_OK) {
        agrees = list_agrees(type, payload, length, deep, nodes, other);
    } else if (agrees) {
        agrees = deep.nodes == 0;
    }
    free(nodes);
    free(other);
    return agrees;
}

/* A delivery: consumer tag "c", tag 258, redelivered, exchange "", routing key "q". */
static bool delivery_is_known(void) {
    static const uint8_t payload[] = {0, 60, 0, 60, 1, 'c', 0, 0, 0, 0, 0, 0, 1, 2, 1, 0, 1, 'q'};
    static const feksroum_node wanted[] = {
        {.kind = FEKSROUM_SHORT_STRING, .place = 0, .start = 5, .length = 1},
        {.kind = FEKSROUM_LONG_LONG, .place = 1, .number = 258},
        {.kind = FEKSROUM_FLAG, .place = 2, .number = 1},
        {.kind = FEKSROUM_SHORT_STRING, .place = 3, .start = 16},
        {.kind = FEKSROUM_SHORT_STRING, .place = 4, .start = 17, .length = 1},
    };
    feksroum_node nodes[5];
    feksroum_fields found = feksroum_read(FEKSROUM_METHOD, payload, sizeof payload, FEKSROUM_SHALLOW, nodes, 5);
    return found.status == FEKSROUM_OK && found.nodes == 5 && found.class_id == 60 && found.method_id == 60 &&
           memcmp(nodes, wanted, sizeof wanted) == 0;
}

/* The key `a` twice in a table: the last value counts. */
static bool last_key_counts(void) {
    static const uint8_t content[] = {1, 'a', 't', 1, 1, 'b', 'V', 1, 'a', 's', 255, 254};
    feksroum_node nodes[4] = {{.kind = 'F', .length = sizeof content}};
    feksroum_fields found = feksroum_open('F', content, sizeof content, nodes + 1, 3);
    nodes[0].inside = (uint32_t)found.nodes;
    const feksroum_node *a = feksroum_find(nodes, content, "a", 1), *b = feksroum_find(nodes, content, "b", 1);
    return found.status == FEKSROUM_OK && found.nodes == 3 && a && a->kind == 's' && a->number == (uint64_t)-2 && b &&
           b->kind == 'V' && !feksroum_find(nodes, content, "c", 1);
}

/* An empty key is found, and a table that was read without what lies inside it has none. */
static bool empty_key_is_found(void) {
    static const uint8_t content[] = {1, 'a', 't', 1, 0, 'V'};
    feksroum_node nodes[3] = {{.kind = 'F', .length = sizeof content}};
    bool none = !feksroum_find(nodes, content, "a", 1) && !feksroum_find(nodes, content, NULL, 0) && nodes->length > 0;
    feksroum_fields found = feksroum_open('F', content, sizeof content, nodes + 1, 2);
    nodes[0].inside = (uint32_t)found.nodes;
    return none && found.status == FEKSROUM_OK && found.nodes == 2 && feksroum_find(nodes, content, NULL, 0) == nodes + 2;
}

bool fields_are_known(void) {
    feksroum_fields none = feksroum_read(FEKSROUM_HEARTBEAT, NULL, 0, FEKSROUM_DEEP, NULL, 0);
    feksroum_fields detail = feksroum_read(FEKSROUM_HEARTBEAT, NULL, 0, 2, NULL, 0);
    feksroum_fields empty = feksroum_open('A', NULL, 0, NULL, 0);
    feksroum_fields kind = feksroum_open('S', NULL, 0, NULL, 0);
    return none.status == FEKSROUM_OK && none.nodes == 0 && none.canonical && detail.status == FEKSROUM_BAD_ARGUMENT &&
           empty.status == FEKSROUM_OK && empty.nodes == 0 && kind.status == FEKSROUM_BAD_ARGUMENT && delivery_is_known() &&
           last_key_counts() && empty_key_is_found();
}
