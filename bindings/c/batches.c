/* Reads frames at once and one by one, and compares what is said. */
#include "batches.h"

#include <stdlib.h>
#include <string.h>

_Static_assert(sizeof(feksroum_head) == 32, "a head has no padding");
_Static_assert(sizeof(feksroum_batch) == 32, "a batch has no padding");

typedef struct lists {
    feksroum_head *heads;
    feksroum_node *nodes;
    feksroum_node *one; /* those of one frame */
    size_t head_room, node_room, room;
} lists;

/* Whether the node of a frame among others is this one of its payload, which begins at a place. */
static bool is_moved(feksroum_node node, const feksroum_node *there, uint32_t by) {
    static const uint8_t with_bytes[] = {FEKSROUM_SHORT_STRING, FEKSROUM_LONG_STRING, FEKSROUM_TABLE, 'S', 'x', 'A', 'F'};
    if (memchr(with_bytes, node.kind, sizeof with_bytes) != NULL) {
        node.start += by;
    }
    if (node.key_start > 0) {
        node.key_start += by;
    }
    return memcmp(&node, there, sizeof node) == 0;
}

/* Whether a head and its nodes are those of this frame, whose payload begins at a place. */
static bool is_given(const lists *to, const feksroum_head *head, feksroum_frame frame, feksroum_payload payload, uint32_t start,
                     uint32_t first, uint32_t count) {
    for (uint32_t k = 0; k < count; k++) {
        if (!is_moved(to->one[k], to->nodes + first + k, start)) {
            return false;
        }
    }
    return head->start == start && head->length == frame.payload_length && head->first == first && head->nodes == count &&
           head->channel == frame.channel && head->type == frame.type && head->class_id == payload.class_id &&
           head->method_id == payload.method_id && head->body_size == payload.body_size &&
           head->form == (payload.canonical ? FEKSROUM_FORM_CANONICAL : 0) + (payload.tidy ? FEKSROUM_FORM_TIDY : 0);
}

/* How many bytes a frame has at least that begins so. */
static uint64_t least(const uint8_t *bytes, size_t length) {
    if (length < 7 || bytes[0] == FEKSROUM_PROTOCOL_HEADER) {
        return 8;
    }
    return 8 + ((uint64_t)bytes[3] << 24 | (uint32_t)bytes[4] << 16 | (uint32_t)bytes[5] << 8 | bytes[6]);
}

/* Whether a batch is what one frame after another gives in these lists. */
static bool agrees(const uint8_t *bytes, size_t length, uint32_t max_payload, uint8_t detail, const lists *to,
                   feksroum_batch *batch) {
    *batch = feksroum_frames(bytes, length, max_payload, detail, to->heads, to->head_room, to->nodes, to->node_room);
    feksroum_batch wanted = {.used = 0};
    while (wanted.used < length) {
        const uint8_t *rest = bytes + wanted.used;
        feksroum_frame frame = feksroum_next(rest, length - wanted.used, max_payload);
        if (frame.status != FEKSROUM_OK) {
            wanted.status = frame.status;
            wanted.needed = frame.status == FEKSROUM_CUT_SHORT ? least(rest, length - wanted.used) : 0;
            break;
        }
        const uint8_t *payload = rest + frame.payload_start;
        feksroum_payload summary = feksroum_check(frame.type, payload, frame.payload_length);
        if (summary.status != FEKSROUM_OK) {
            wanted.status = summary.status;
            break;
        }
        feksroum_fields fields = feksroum_read(frame.type, payload, frame.payload_length, detail, to->one, to->room);
        if (fields.status != FEKSROUM_OK) {
            return false;
        }
        if (wanted.heads == to->head_room || wanted.nodes + fields.nodes > to->node_room) {
            wanted.status = FEKSROUM_BUFFER_TOO_SMALL;
            wanted.needed = fields.nodes;
            break;
        }
        if (wanted.heads >= batch->heads ||
            !is_given(to, to->heads + wanted.heads, frame, summary, (uint32_t)(wanted.used + frame.payload_start), wanted.nodes,
                      (uint32_t)fields.nodes)) {
            return false;
        }
        wanted.heads++;
        wanted.nodes += (uint32_t)fields.nodes;
        wanted.used += frame.used;
    }
    return memcmp(batch, &wanted, sizeof wanted) == 0;
}

bool batches_agree(const uint8_t *bytes, size_t length, uint32_t max_payload) {
    lists all = {.head_room = length / 8, .node_room = length, .room = length};
    all.heads = malloc((length / 8 + 1) * sizeof *all.heads);
    all.nodes = malloc((length + 1) * sizeof *all.nodes);
    all.one = malloc((length + 1) * sizeof *all.one);
    bool agree = all.heads && all.nodes && all.one;
    for (uint8_t detail = FEKSROUM_SHALLOW; agree && detail <= FEKSROUM_DEEP; detail++) {
        feksroum_batch batch, shorter;
        agree = agrees(bytes, length, max_payload, detail, &all, &batch);
        lists few = all;
        few.head_room = batch.heads / 2;
        agree = agree && agrees(bytes, length, max_payload, detail, &few, &shorter);
        few = all;
        few.node_room = batch.nodes / 2;
        agree = agree && agrees(bytes, length, max_payload, detail, &few, &shorter);
    }
    free(all.heads);
    free(all.nodes);
    free(all.one);
    return agree;
}
