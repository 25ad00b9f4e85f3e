/* Random frames as heads and nodes, for tests. */
#ifndef FEKSROUM_TEST_RANDOM_H
#define FEKSROUM_TEST_RANDOM_H

#include <feksroum.h>

/* Where numbers come from: the same after the same seed, which is odd. */
typedef struct random_source {
    uint64_t state;
} random_source;

uint64_t next_random(random_source *source);

/* A number below a bound; 0 where that is 0. */
size_t below(random_source *source, size_t bound);

/* Heads, their nodes, and the bytes in which spans lie. */
typedef struct made_frames {
    feksroum_head *heads;
    feksroum_node *nodes;
    uint8_t *pool;
    size_t head_count, node_count, pool_length;
} made_frames;

/* Up to eight frames of all types, with tables and arrays in each other. Where `given`, some tables and arrays stand in the pool. The
 * three lists are to be freed. */
void random_frames(random_source *source, bool given, made_frames *made);

/* The fields of one method, or the properties of a mask, whose highest bit is that of content-type. */
void random_method(random_source *source, bool given, uint16_t class_id, uint16_t method_id, made_frames *made);
void random_header(random_source *source, bool given, uint16_t mask, made_frames *made);

#endif
