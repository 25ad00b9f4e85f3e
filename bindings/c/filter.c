#include "filter.h"

#include <feksroum.h>
#include <stdlib.h>
#include <string.h>

/* Bodies up to this many bytes are gathered with the small frames; larger ones are written from where they lie. */
enum { SMALL_BODY = 4096 };

/* A stream on its way. What was read and not used lies in `held` from `start` to `end`, fewer bytes than `size`, which is one
 * frame of the largest size; `pending` canonical bytes lie in `out`. Each of the two buffers has room for two such frames, so
 * that a read hardly ever has to move what is held. */
typedef struct filter {
    const filter_ends *ends;
    uint8_t *held, *out;
    feksroum_mark *scratch;
    size_t size, scratch_length, start, end, pending;
    uint32_t max_payload;
    uint8_t level;
} filter;

static bool write_all(const filter_ends *ends, const uint8_t *bytes, size_t length) {
    while (length > 0) {
        ssize_t count = ends->write(ends->context, bytes, length);
        if (count <= 0) {
            return false;
        }
        bytes += count;
        length -= (size_t)count;
    }
    return true;
}

static bool flush(filter *f) {
    bool written = write_all(f->ends, f->out, f->pending);
    f->pending = 0;
    return written;
}

/* Canonicalizes the whole frames in front whose payloads have at most so many bytes. Their canonical bytes fit after the
 * pending ones, since no more bytes are pending than were used of `held`. */
static uint32_t gather(filter *f, uint32_t max_payload) {
    feksroum_progress progress =
        feksroum_canonicalize(f->held + f->start, f->end - f->start, f->out + f->pending, 2 * f->size - f->pending, f->scratch,
                              f->scratch_length, max_payload, f->level);
    f->start += progress.used;
    f->pending += progress.written;
    return progress.status;
}

/* Passes on a frame in front that is not small. The canonical bytes of a body are its own, at each level. */
static uint32_t pass_large(filter *f) {
    feksroum_frame frame = feksroum_next(f->held + f->start, f->end - f->start, f->max_payload);
    if (frame.status != FEKSROUM_OK || frame.type != FEKSROUM_BODY) {
        return frame.status != FEKSROUM_OK ? frame.status : gather(f, f->max_payload);
    }
    if (!flush(f) || !write_all(f->ends, f->held + f->start, frame.used)) {
        return FEKSROUM_WRITE_FAULT;
    }
    f->start += frame.used;
    return FEKSROUM_OK;
}

/* Passes on the frames in front, and returns the status of what follows them. */
static uint32_t pass_on(filter *f) {
    uint32_t small = f->max_payload < SMALL_BODY ? f->max_payload : SMALL_BODY;
    for (;;) {
        uint32_t status = gather(f, small);
        if (status == FEKSROUM_TOO_LARGE) {
            status = pass_large(f);
            if (status == FEKSROUM_OK) {
                continue;
            }
        }
        return flush(f) ? status : FEKSROUM_WRITE_FAULT;
    }
}

/* How many bytes to read: those that a large frame lacks whose length is held, so that the read ends with it; else as many as
 * the largest frame has. */
static size_t read_size(const filter *f) {
    size_t count = f->end - f->start;
    feksroum_frame frame = feksroum_next(f->held + f->start, count, f->max_payload);
    return frame.needed > SMALL_BODY + FEKSROUM_AROUND_PAYLOAD ? (size_t)frame.needed - count : f->size;
}

/* Makes room for a read of so many bytes after what is held, which moves to the front where that takes it. */
static void make_room(filter *f, size_t size) {
    if (f->start == f->end) {
        f->start = f->end = 0;
    } else if (2 * f->size - f->end < size) {
        memmove(f->held, f->held + f->start, f->end - f->start);
        f->end -= f->start;
        f->start = 0;
    }
}

static int run(filter *f) {
    for (;;) {
        size_t size = read_size(f);
        make_room(f, size);
        ssize_t more = f->ends->read(f->ends->context, f->held + f->end, size);
        if (more < 0) {
            return FEKSROUM_READ_FAULT;
        }
        if (more == 0) {
            return f->start == f->end ? FEKSROUM_OK : FEKSROUM_CUT_SHORT;
        }
        f->end += (size_t)more;
        uint32_t status = pass_on(f);
        if (status != FEKSROUM_OK && status != FEKSROUM_CUT_SHORT) {
            return (int)status;
        }
    }
}

int filter_run(const filter_ends *ends, uint32_t max_payload, uint8_t level) {
    uint64_t size = (uint64_t)max_payload + FEKSROUM_AROUND_PAYLOAD;
    size_t marks = feksroum_scratch(max_payload);
    filter f = {.ends = ends, .scratch_length = marks, .max_payload = max_payload, .level = level};
    if (size > SIZE_MAX / 2 || marks > SIZE_MAX / sizeof *f.scratch) {
        return FEKSROUM_NO_MEMORY;
    }
    f.size = (size_t)size;
    f.held = malloc(2 * f.size);
    f.out = malloc(2 * f.size);
    f.scratch = malloc(marks * sizeof *f.scratch);
    int status = f.held && f.out && (f.scratch || marks == 0) ? run(&f) : FEKSROUM_NO_MEMORY;
    free(f.held);
    free(f.out);
    free(f.scratch);
    return status;
}
