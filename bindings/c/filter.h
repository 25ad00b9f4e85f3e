/* Canonicalizes a stream from one end to another, in constant memory. */
#ifndef FEKSROUM_FILTER_H
#define FEKSROUM_FILTER_H

#include <stddef.h>
#include <stdint.h>
#include <sys/types.h>

/* The two ends. Each call returns how many bytes it took, at least 1, or -1 where it failed; a read of 0 is the end. */
typedef struct filter_ends {
    ssize_t (*read)(void *context, uint8_t *bytes, size_t length);
    ssize_t (*write)(void *context, const uint8_t *bytes, size_t length);
    void *context;
} filter_ends;

/* Writes the canonical bytes of all that is read, before each further read, and returns the status of the stream: 0 where
 * all of it is a sequence of frames, 3 out of memory, 4 or 5 where a read or write failed, else the fault. */
int filter_run(const filter_ends *ends, uint32_t max_payload, uint8_t level);

#endif
