/* Runs cases through one of the drivers, and writes what came out:
 *
 *     cases whole|filter|proxy|rules|lines|place|write CASES RESULTS
 *
 * `write` reads the frames as heads and nodes, as many at once as fit lists of the sizes of pieces, writes them anew, and canonicalizes
 * what was written. `place` does it within the bytes themselves, with a spare buffer that is too short at first. `lines` goes from frame
 * to frame, reads the fields of each and of all at once, writes its line, and reads that back: all have to write the same.
 *
 * `rules` filters the cases of contents.py through the proxy by the rules of their choices.
 *
 * CASES has, one after another: the level (1 byte), a length (4 bytes, the lowest first) and as many bytes, a count (2 bytes)
 * and as many sizes of pieces (2 bytes each) in which they are read; what is left after these is read at once. RESULTS has
 * for each the status (1 byte), a length (4 bytes) and the bytes that were written. */
#include <feksroum.h>
#include <stdio.h>
#include <stdlib.h>
#include <string.h>

#include "batches.h"
#include "fields.h"
#include "filter.h"
#include "proxy.h"

enum { MAX_PAYLOAD = 131072 };

typedef struct test_case {
    uint8_t level;
    uint8_t *bytes;
    size_t length;
    uint8_t *pieces;
    size_t piece_count;
    /* how far it was read, and what was written */
    size_t done, next_piece, written;
    uint8_t *out;
} test_case;

static void stop(const char *why) {
    fprintf(stderr, "cases: %s\n", why);
    exit(2);
}

static uint8_t *take(FILE *file, size_t length) {
    uint8_t *bytes = malloc(length ? length : 1);
    if (!bytes || fread(bytes, 1, length, file) != length) {
        stop("the file of cases is cut short");
    }
    return bytes;
}

static size_t take_number(FILE *file, size_t width) {
    uint8_t *bytes = take(file, width);
    size_t number = 0;
    for (size_t k = width; k > 0; k--) {
        number = number << 8 | bytes[k - 1];
    }
    free(bytes);
    return number;
}

/* The size of the next piece, and that of all where there are no more. */
static size_t next_size(test_case *test) {
    if (test->next_piece == test->piece_count) {
        return test->length;
    }
    const uint8_t *piece = test->pieces + 2 * test->next_piece++;
    size_t size = piece[0] | (size_t)piece[1] << 8;
    return size ? size : 1;
}

static size_t least(size_t a, size_t b) {
    return a < b ? a : b;
}

static ssize_t read_case(void *context, uint8_t *bytes, size_t length) {
    test_case *test = context;
    size_t count = least(least(next_size(test), length), test->length - test->done);
    memcpy(bytes, test->bytes + test->done, count);
    test->done += count;
    return (ssize_t)count;
}

/* Takes a part of what it is given, by the same sizes. */
static ssize_t write_case(void *context, const uint8_t *bytes, size_t length) {
    test_case *test = context;
    size_t count = least(next_size(test), length);
    memcpy(test->out + test->written, bytes, count);
    test->written += count;
    return (ssize_t)count;
}

static int run_whole(test_case *test) {
    feksroum_progress progress =
        feksroum_canonicalize(test->bytes, test->length, test->out, test->length, NULL, 0, MAX_PAYLOAD, test->level);
    test->written = progress.written;
    return progress.status;
}

static int run_filter(test_case *test) {
    const filter_ends ends = {read_case, write_case, test};
    return filter_run(&ends, MAX_PAYLOAD, test->level);
}

static int run_through(test_case *test, uint8_t level, proxy_messages *messages) {
    static proxy_connection connection;
    static proxy_scratch scratch;
    proxy_open(&connection, level, messages);
    for (;;) {
        uint8_t *room;
        const uint8_t *pending;
        size_t size = proxy_room(&connection, &room);
        ssize_t more = size ? read_case(test, room, size) : 0;
        proxy_received(&connection, &scratch, (size_t)more);
        size_t count = proxy_pending(&connection, &pending);
        if (more == 0 && count == 0) {
            return proxy_ended(&connection);
        }
        if (count) {
            proxy_sent(&connection, &scratch, (size_t)write_case(test, pending, count));
        }
    }
}

static int run_proxy(test_case *test) {
    return run_through(test, test->level, NULL);
}

/* The rules of the choices in contents.py. */
static const char *const choices[][3] = {
    {"keep"},
    {"drop,class=60,method=40", "keep"},
    {"keep,kind=method"},
    {"keep,channel=1-5"},
    {"drop,kind=beat", "drop,channel=2-700,class=60,method=60", "keep"},
    {"drop,class=60,method=50", "keep,channel=0-400"},
};

static int run_rules(test_case *test) {
    static proxy_messages messages;
    feksroum_frame_rule rules[3];
    size_t count = 0;
    for (const char *word; count < 3 && (word = choices[test->level][count]); count++) {
        rules[count] = feksroum_rule((const uint8_t *)word, strlen(word));
        if (rules[count].status != FEKSROUM_OK) {
            stop("a word that is no rule");
        }
    }
    memset(&messages, 0, sizeof messages);
    messages.rules = rules;
    messages.rule_count = count;
    return run_through(test, FEKSROUM_PLAIN, &messages);
}

/* A line and its bytes have to be taken whole. */
static size_t convert(feksroum_line (*call)(const uint8_t *, size_t, uint8_t *, size_t, uint32_t), const uint8_t *bytes,
                      size_t length, size_t used, uint8_t **out) {
    feksroum_line needed = call(bytes, length, NULL, 0, MAX_PAYLOAD);
    if (needed.status != FEKSROUM_BUFFER_TOO_SMALL || needed.used != used || !(*out = malloc(needed.length))) {
        stop("a line is not as wanted");
    }
    feksroum_line found = call(bytes, length, *out, needed.length, MAX_PAYLOAD);
    if (found.status != FEKSROUM_OK || found.used != used || found.length != needed.length) {
        stop("a line is not as wanted");
    }
    return found.length;
}

static void write_by_line(test_case *test, const uint8_t *bytes, size_t length, size_t used) {
    uint8_t *line, *canonical;
    size_t line_length = convert(feksroum_dump, bytes, length, used, &line);
    size_t count = convert(feksroum_undump, line, line_length, line_length, &canonical);
    memcpy(test->out + test->written, canonical, count);
    test->written += count;
    free(line);
    free(canonical);
}

static int run_lines(test_case *test) {
    if (!batches_agree(test->bytes, test->length, MAX_PAYLOAD)) {
        stop("frames are not as wanted");
    }
    while (test->done < test->length) {
        const uint8_t *rest = test->bytes + test->done;
        feksroum_frame frame = feksroum_next(rest, test->length - test->done, MAX_PAYLOAD);
        if (frame.status != FEKSROUM_OK) {
            return frame.status;
        }
        feksroum_payload payload = feksroum_check(frame.type, rest + frame.payload_start, frame.payload_length);
        if (!fields_agree(frame.type, rest + frame.payload_start, frame.payload_length)) {
            stop("fields are not as wanted");
        }
        if (payload.status != FEKSROUM_OK) {
            return payload.status;
        }
        if (test->level == FEKSROUM_TIDY && !payload.tidy) {
            return FEKSROUM_NOT_TIDY;
        }
        write_by_line(test, rest, test->length - test->done, frame.used);
        test->done += frame.used;
    }
    return FEKSROUM_OK;
}

/* So many bytes in front are written as they are, and what follows is no frame or another. */
static bool is_run(const test_case *test, size_t run) {
    const uint8_t *rest = test->bytes + run;
    feksroum_frame frame = feksroum_next(rest, test->length - run, MAX_PAYLOAD);
    return run <= test->written && memcmp(test->out, test->bytes, run) == 0 &&
           (frame.status != FEKSROUM_OK ||
            !feksroum_check(frame.type, rest + frame.payload_start, (size_t)frame.payload_length).canonical);
}

/* Where the spare buffer is too short, goes on with the next one. */
static int run_place(test_case *test) {
    uint8_t *copy = malloc(test->length + 1);
    memcpy(copy, test->bytes, test->length);
    for (;;) {
        size_t spare_length = next_size(test), left = test->length - test->done;
        uint8_t *spare = malloc(spare_length + 1), *front = copy + test->done;
        feksroum_progress progress =
            feksroum_canonicalize_in_place(front, left, spare, spare_length, NULL, 0, MAX_PAYLOAD, test->level);
        if (memcmp(front + progress.written, test->bytes + test->done + progress.written, left - progress.written) != 0) {
            stop("what was not written is not as it was");
        }
        memcpy(test->out + test->written, front, progress.written);
        test->written += progress.written;
        test->done += progress.used;
        free(spare);
        if (progress.status != FEKSROUM_BUFFER_TOO_SMALL) {
            free(copy);
            if (!is_run(test, feksroum_canonical_run(test->bytes, test->length, MAX_PAYLOAD))) {
                stop("a run is not as wanted");
            }
            return (int)progress.status;
        }
    }
}

/* How many frames in front the level accepts. */
static size_t accepted(const test_case *test, const feksroum_head *heads, size_t count) {
    size_t k = 0;
    while (k < count && (test->level == FEKSROUM_PLAIN || heads[k].form & FEKSROUM_FORM_TIDY)) {
        k++;
    }
    return k;
}

/* Writes frames that were read into exactly as many bytes as they need, and appends the canonical bytes of these. */
static void write_anew(test_case *test, const feksroum_head *heads, size_t head_count, const feksroum_node *nodes, size_t node_count) {
    const uint8_t *pool = test->bytes + test->done;
    size_t pool_length = test->length - test->done;
    feksroum_written needed = feksroum_write(heads, head_count, nodes, node_count, pool, pool_length, MAX_PAYLOAD, NULL, 0);
    uint8_t *anew = malloc((size_t)needed.length + 1);
    feksroum_written found =
        feksroum_write(heads, head_count, nodes, node_count, pool, pool_length, MAX_PAYLOAD, anew, (size_t)needed.length);
    feksroum_progress progress = feksroum_canonicalize(anew, (size_t)needed.length, test->out + test->written, test->length - test->written,
                                                       NULL, 0, MAX_PAYLOAD, FEKSROUM_TIDY);
    if (found.status != FEKSROUM_OK || found.length != needed.length || progress.status != FEKSROUM_OK || progress.used != found.length) {
        stop("frames that were read are not written");
    }
    bool canonical = true;
    for (size_t k = 0; k < head_count; k++) {
        canonical = canonical && heads[k].form & FEKSROUM_FORM_CANONICAL;
    }
    if (canonical && memcmp(anew, pool, (size_t)found.length) != 0) {
        stop("canonical frames are written otherwise");
    }
    test->written += (size_t)progress.written;
    free(anew);
}

/* The lists are as long as the next pieces say; where the next frame has more nodes, as it needs. */
static int run_write(test_case *test) {
    size_t needed = 0;
    for (;;) {
        const uint8_t *rest = test->bytes + test->done;
        size_t left = test->length - test->done, head_room = least(next_size(test), left + 1), node_room = least(next_size(test), left + 1);
        node_room = node_room < needed ? needed : node_room;
        head_room = head_room ? head_room : 1;
        feksroum_head *heads = malloc(head_room * sizeof *heads);
        feksroum_node *nodes = malloc((node_room + 1) * sizeof *nodes);
        feksroum_batch batch = feksroum_frames(rest, left, MAX_PAYLOAD, FEKSROUM_DEEP, heads, head_room, nodes, node_room);
        size_t count = accepted(test, heads, batch.heads);
        write_anew(test, heads, count, nodes, batch.nodes);
        bool tidy = count == batch.heads;
        free(heads);
        free(nodes);
        test->done += (size_t)batch.used;
        needed = (size_t)batch.needed;
        if (!tidy || batch.status != FEKSROUM_BUFFER_TOO_SMALL) {
            return tidy ? (int)batch.status : FEKSROUM_NOT_TIDY;
        }
    }
}

static const struct {
    const char *name;
    int (*run)(test_case *);
} drivers[] = {{"whole", run_whole}, {"filter", run_filter}, {"proxy", run_proxy}, {"rules", run_rules}, {"lines", run_lines},
               {"place", run_place}, {"write", run_write}};

static int (*driver(const char *name))(test_case *) {
    for (size_t k = 0; k < sizeof drivers / sizeof *drivers; k++) {
        if (strcmp(drivers[k].name, name) == 0) {
            return drivers[k].run;
        }
    }
    stop("whole, filter, proxy, rules, lines, place or write");
    return NULL;
}

static void put_result(FILE *file, const test_case *test, int status) {
    uint8_t head[5] = {(uint8_t)status};
    for (int k = 0; k < 4; k++) {
        head[1 + k] = (uint8_t)(test->written >> 8 * k);
    }
    fwrite(head, 1, sizeof head, file);
    fwrite(test->out, 1, test->written, file);
}

int main(int argc, char **argv) {
    if (argc != 4) {
        stop("cases whole|filter|proxy|rules|lines|place|write CASES RESULTS");
    }
    int (*run)(test_case *) = driver(argv[1]);
    FILE *cases = fopen(argv[2], "rb");
    FILE *results = fopen(argv[3], "wb");
    if (!cases || !results) {
        stop("a file cannot be opened");
    }
    int level;
    while ((level = fgetc(cases)) != EOF) {
        test_case test = {.level = (uint8_t)level};
        test.length = take_number(cases, 4);
        test.bytes = take(cases, test.length);
        test.piece_count = take_number(cases, 2);
        test.pieces = take(cases, 2 * test.piece_count);
        test.out = malloc(test.length ? test.length : 1);
        if (!test.out) {
            stop("no memory");
        }
        put_result(results, &test, run(&test));
        free(test.bytes);
        free(test.pieces);
        free(test.out);
    }
    return fclose(results) == 0 ? 0 : 2;
}
