/* A library whose calls all answer status 99, which none of them has. `.ci/rust` links it in place of the real one for
 * tests/unknown_status.rs. The structs are those of src/sys.rs. */
#include <stdbool.h>
#include <stddef.h>
#include <stdint.h>

enum { STATUS = 99 };

typedef struct { uint64_t used, needed, payload_length; uint32_t payload_start; uint16_t channel; uint8_t type, status; } frame;
typedef struct { uint64_t body_size; uint16_t class_id, method_id; bool canonical, tidy; uint8_t status, fields; } payload;
typedef struct { uint64_t body_size, nodes; uint16_t class_id, method_id; bool canonical, tidy; uint8_t status, unused; } fields;
typedef struct { uint64_t length; uint32_t head, node, status, unused; } written;
typedef struct { uint64_t length; uint32_t status, unused; } made;
typedef struct { uint64_t used, written; uint32_t status, unused; } progress;
typedef struct { uint64_t used, length; uint32_t status, unused; } line;
typedef struct { uint64_t size, seen; uint32_t state, unused; } channel;
typedef struct { channel after; uint64_t before, up_to, size; uint8_t part; bool finished; uint8_t fault, status; uint32_t unused; } turn;
typedef struct { uint16_t first_channel, last_channel, class_id, method_id; uint8_t keep, has[4], status; } rule;
typedef struct { uint64_t pieces; uint32_t left, status; } cut;
typedef struct { uint32_t held_start, held_length, start, length; } piece;

frame feksroum_next(const uint8_t *bytes, size_t length, uint32_t max_payload) {
    (void)bytes, (void)length, (void)max_payload;
    return (frame){.status = STATUS};
}

payload feksroum_check(uint8_t type, const uint8_t *bytes, size_t length) {
    (void)type, (void)bytes, (void)length;
    return (payload){.status = STATUS};
}

fields feksroum_read(uint8_t type, const uint8_t *bytes, size_t length, uint8_t detail, void *nodes, size_t room) {
    (void)type, (void)bytes, (void)length, (void)detail, (void)nodes, (void)room;
    return (fields){.status = STATUS};
}

fields feksroum_open(uint8_t kind, const uint8_t *bytes, size_t length, void *nodes, size_t room) {
    (void)kind, (void)bytes, (void)length, (void)nodes, (void)room;
    return (fields){.status = STATUS};
}

/* The calls that put frames, which .ci/rust lists out of feksroum.map: none of them looks at its arguments. */
#define PUT(name) made name(void) { return (made){.status = STATUS}; }
#include "puts.h"

written feksroum_write_content(uint8_t kind, const void *nodes, size_t node_count, const uint8_t *pool, size_t pool_length,
                               uint8_t *out, size_t out_length) {
    (void)kind, (void)nodes, (void)node_count, (void)pool, (void)pool_length, (void)out, (void)out_length;
    return (written){.status = STATUS};
}

size_t feksroum_scratch(size_t length) {
    return length / 2;
}

progress feksroum_canonicalize(const uint8_t *bytes, size_t length, uint8_t *out, size_t out_length, void *scratch,
                               size_t scratch_length, uint32_t max_payload, uint8_t level) {
    (void)bytes, (void)length, (void)out, (void)out_length, (void)scratch, (void)scratch_length, (void)max_payload, (void)level;
    return (progress){.status = STATUS};
}

line feksroum_dump(const uint8_t *bytes, size_t length, uint8_t *out, size_t out_length, uint32_t max_payload) {
    (void)bytes, (void)length, (void)out, (void)out_length, (void)max_payload;
    return (line){.status = STATUS};
}

line feksroum_undump(const uint8_t *bytes, size_t length, uint8_t *out, size_t out_length, uint32_t max_payload) {
    return feksroum_dump(bytes, length, out, out_length, max_payload);
}

turn feksroum_step(channel kept, uint8_t type, uint16_t class_id, uint16_t method_id, uint64_t size, uint64_t max_body) {
    (void)kept, (void)type, (void)class_id, (void)method_id, (void)size, (void)max_body;
    return (turn){.status = STATUS};
}

/* The word `keep` is a rule, so that there is something to decide by. */
rule feksroum_rule(const uint8_t *word, size_t length) {
    return (rule){.status = length == 4 && word[0] == 'k' ? 0 : STATUS};
}

uint8_t feksroum_decide(const rule *rules, size_t count, uint8_t type, uint16_t on, uint16_t class_id, uint16_t method_id) {
    (void)rules, (void)count, (void)type, (void)on, (void)class_id, (void)method_id;
    return STATUS;
}

cut feksroum_recut(uint32_t size, uint32_t held, uint32_t length, uint8_t ends) {
    (void)size, (void)held, (void)length, (void)ends;
    return (cut){.status = STATUS};
}

piece feksroum_piece_at(uint32_t size, uint32_t held, uint32_t length, uint8_t ends, uint64_t k) {
    (void)size, (void)held, (void)length, (void)ends, (void)k;
    return (piece){0};
}

size_t feksroum_body_head(uint16_t channel, uint32_t length, uint8_t *out, size_t out_length) {
    (void)channel, (void)length, (void)out, (void)out_length;
    return 0;
}

uint32_t feksroum_max_payload(uint32_t frame_max) {
    return frame_max;
}

uint32_t feksroum_version(void) {
    return STATUS;
}
