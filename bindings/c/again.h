/* Frames put anew by the typed calls, out of what was read of them. */
#ifndef FEKSROUM_TEST_AGAIN_H
#define FEKSROUM_TEST_AGAIN_H

#include <feksroum_methods.h>

/* Reads a frame of a method or a content header into its struct, at this detail, and puts the struct. `payload` is where its spans are counted
 * from. Ends the program where the frame is none, or where not exactly one struct takes it. */
feksroum_made put_again(const feksroum_frame *frame, const uint8_t *payload, uint8_t detail, uint32_t max_payload, uint8_t *out,
                        size_t out_length);

/* Appends nodes of the entries of a table, or of the values of an array ('F' or 'A'), to a buffer. `pool` is where their spans lie. */
void append_nodes(uint8_t kind, const feksroum_node *nodes, size_t count, const uint8_t *pool, feksroum_buffer *content);

#endif
