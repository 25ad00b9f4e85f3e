/* Tests of whole frames as heads and nodes. */
#ifndef FEKSROUM_TEST_BATCHES_H
#define FEKSROUM_TEST_BATCHES_H

#include <feksroum.h>

/* Whether feksroum_frames gives of these bytes what feksroum_next, feksroum_check and feksroum_read give of one frame after
 * another: with room for all, and into lists that are too short. */
bool batches_agree(const uint8_t *bytes, size_t length, uint32_t max_payload);

#endif
