/* What the word `raw` of the program does: reads frames, writes their canonical bytes, and ends with the stream's status.
 * With --tidy it takes tidy frames alone. */
#include <errno.h>
#include <feksroum.h>
#include <stdio.h>
#include <string.h>
#include <unistd.h>

#include "filter.h"

static ssize_t read_input(void *context, uint8_t *bytes, size_t length) {
    (void)context;
    ssize_t count;
    do {
        count = read(STDIN_FILENO, bytes, length);
    } while (count < 0 && errno == EINTR);
    return count;
}

static ssize_t write_output(void *context, const uint8_t *bytes, size_t length) {
    (void)context;
    ssize_t count;
    do {
        count = write(STDOUT_FILENO, bytes, length);
    } while (count < 0 && errno == EINTR);
    return count;
}

int main(int argc, char **argv) {
    bool tidy = argc == 2 && strcmp(argv[1], "--tidy") == 0;
    if (argc != 1 && !tidy) {
        fputs("raw [--tidy] <INPUT >OUTPUT\n", stderr);
        return 2;
    }
    const filter_ends ends = {read_input, write_output, NULL};
    return filter_run(&ends, 131072, tidy ? FEKSROUM_TIDY : FEKSROUM_PLAIN);
}
