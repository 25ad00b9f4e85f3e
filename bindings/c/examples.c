/* Runs the repository's examples that the functions speak of, each as the program does:
 *
 *     examples FOLDER
 *
 * `raw` and `lent` are bytes; `hex` and `tidy` are hex texts, for which the canonical bytes in hex and, on a line of its
 * own, the name of the fault are printed; `dump` are bytes whose lines are printed, and `undump` lines whose bytes are. Also
 * tests what is read and written of each method and property, the frames, payloads and fields of each example against what canonicalizing says, lines against those that are read back, the names
 * of statuses, arguments at their bounds, and that a scratch changes nothing that is written. */
#include <feksroum.h>
#include <stdio.h>
#include <stdlib.h>
#include <string.h>

#include "fields.h"
#include "table.h"

/* Three numbers as a version is written. */
#define VERSION_OF(major, minor, patch) WRITTEN(major, minor, patch)
#define WRITTEN(major, minor, patch) #major "." #minor "." #patch

enum { MAX_PAYLOAD = 131072, SIZE = 1 << 20 };

static uint8_t input[SIZE], wanted[SIZE], bytes[SIZE], out[SIZE], text[SIZE];
static feksroum_mark scratch[MAX_PAYLOAD / 2];

static size_t read_file(const char *folder, const char *name, const char *kind, uint8_t *into) {
    char path[4096];
    snprintf(path, sizeof path, "%s/%s.%s", folder, name, kind);
    FILE *file = fopen(path, "rb");
    if (!file) {
        fprintf(stderr, "examples: no file %s\n", path);
        exit(2);
    }
    size_t length = fread(into, 1, SIZE, file);
    fclose(file);
    return length;
}

static uint8_t digit(uint8_t character) {
    return character <= '9' ? (uint8_t)(character - '0') : (uint8_t)((character | 32) - 'a' + 10);
}

/* The bytes of a hex text, without the newline at its end. */
static size_t from_hex(const uint8_t *characters, size_t length) {
    size_t count = length / 2;
    for (size_t k = 0; k < count; k++) {
        bytes[k] = (uint8_t)(digit(characters[2 * k]) << 4 | digit(characters[2 * k + 1]));
    }
    return count;
}

static size_t report(feksroum_progress progress) {
    size_t length = 0;
    for (size_t k = 0; k < progress.written; k++) {
        text[length++] = (uint8_t)"0123456789abcdef"[out[k] >> 4];
        text[length++] = (uint8_t)"0123456789abcdef"[out[k] & 15];
    }
    text[length++] = '\n';
    if (progress.status) {
        length += feksroum_name(progress.status, text + length, FEKSROUM_NAME_MAX);
        text[length++] = '\n';
    }
    return length;
}

/* A function that writes for the frame or the line in front. */
typedef feksroum_line (*convert)(const uint8_t *, size_t, uint8_t *, size_t, uint32_t);

/* What it writes for all of some bytes, and the status of what follows those that it could read. */
static feksroum_line convert_all(convert call, const uint8_t *from, size_t length, uint8_t *to) {
    feksroum_line all = {.status = FEKSROUM_OK};
    while (all.used < length && all.status == FEKSROUM_OK) {
        feksroum_line one = call(from + all.used, length - all.used, to + all.length, SIZE - all.length, MAX_PAYLOAD);
        all.used += one.used;
        all.length += one.length;
        all.status = one.status;
    }
    return all;
}

/* Dumps or undumps an example, and of lines also reads back the bytes that are canonical. */
static bool run_lines(const char *folder, const char *name, const char *command, int status) {
    bool is_dump = strcmp(command, "dump") == 0;
    size_t length = read_file(folder, name, command, input);
    size_t wanted_length = read_file(folder, name, "out", wanted);
    feksroum_line found = convert_all(is_dump ? feksroum_dump : feksroum_undump, input, length, text);
    feksroum_progress canonical = {.written = found.length};
    feksroum_line back = {.length = found.length};
    if (is_dump) {
        canonical = feksroum_canonicalize(input, length, out, length, NULL, 0, MAX_PAYLOAD, FEKSROUM_PLAIN);
        back = convert_all(feksroum_undump, text, found.length, bytes);
    }
    return found.status == (uint32_t)status && found.length == wanted_length && memcmp(text, wanted, wanted_length) == 0 &&
           back.status == FEKSROUM_OK && back.length == canonical.written && (!is_dump || memcmp(bytes, out, back.length) == 0);
}

/* Each part of the front of a frame needs more bytes: as many as the frame has, once its length is there. */
static bool needs_more(const uint8_t *frame, size_t length) {
    for (size_t k = 0; k < length; k++) {
        feksroum_frame part = feksroum_next(frame, k, MAX_PAYLOAD);
        if (part.status != FEKSROUM_CUT_SHORT || part.needed != (k < 7 ? 8 : length) || part.used != 0) {
            return false;
        }
    }
    return true;
}

/* What comes before a body, and after it. */
static bool has_head(const uint8_t *bytes, feksroum_frame frame) {
    uint8_t head[FEKSROUM_BODY_HEAD];
    return frame.type != FEKSROUM_BODY ||
           (feksroum_body_head(frame.channel, (uint32_t)frame.payload_length, head, sizeof head) == sizeof head &&
            memcmp(head, bytes, sizeof head) == 0 && bytes[frame.used - 1] == FEKSROUM_FRAME_END);
}

/* Goes from frame to frame, and finds the same end. */
static bool frames_agree(size_t length, feksroum_progress progress) {
    size_t at = 0;
    while (at < length) {
        feksroum_frame frame = feksroum_next(bytes + at, length - at, MAX_PAYLOAD);
        uint8_t status = frame.status;
        if (status == FEKSROUM_OK) {
            const uint8_t *payload = bytes + at + frame.payload_start;
            status = feksroum_check(frame.type, payload, frame.payload_length).status;
            if (!fields_agree(frame.type, payload, frame.payload_length) || frame.needed != frame.used ||
                !needs_more(bytes + at, frame.used) || !has_head(bytes + at, frame)) {
                return false;
            }
        }
        if (status != FEKSROUM_OK) {
            return status == progress.status && at == progress.used;
        }
        at += frame.used;
    }
    return progress.status == FEKSROUM_OK && at == progress.used;
}

/* The names that the header has for statuses are those that the library has. */
static bool names_agree(void) {
    size_t named = 0;
    for (int status = 0; status < 256; status++) {
        const char *name = feksroum_status_name((uint8_t)status);
        size_t length = feksroum_name((uint8_t)status, text, FEKSROUM_NAME_MAX);
        if (length != strlen(name) || memcmp(text, name, length) != 0) {
            return false;
        }
        named += length > 0;
    }
    const char *version = VERSION_OF(FEKSROUM_VERSION_MAJOR, FEKSROUM_VERSION_MINOR, FEKSROUM_VERSION_PATCH);
    return named == 23 && strcmp(FEKSROUM_VERSION, version) == 0 && feksroum_version() == FEKSROUM_VERSION_NUMBER;
}

/* Arguments at their bounds: no bytes at all, and what is tested. */
static bool arguments_are_tested(void) {
    static const uint8_t beat[] = {8, 0, 0, 0, 0, 0, 0, 206};
    feksroum_progress none = feksroum_canonicalize(NULL, 0, NULL, 0, NULL, 0, MAX_PAYLOAD, FEKSROUM_PLAIN);
    feksroum_progress shorter = feksroum_canonicalize(beat, 8, out, 7, NULL, 0, MAX_PAYLOAD, FEKSROUM_PLAIN);
    feksroum_progress level = feksroum_canonicalize(beat, 8, out, 8, NULL, 0, MAX_PAYLOAD, 2);
    feksroum_line no_frame = feksroum_dump(NULL, 0, NULL, 0, MAX_PAYLOAD);
    feksroum_line needed = feksroum_dump(beat, 8, out, 4, MAX_PAYLOAD);
    feksroum_line no_line = feksroum_undump(NULL, 0, NULL, 0, MAX_PAYLOAD);
    feksroum_line bad_line = feksroum_undump((const uint8_t *)"\n", 1, out, 8, MAX_PAYLOAD);
    bool lines = no_frame.status == FEKSROUM_CUT_SHORT && needed.status == FEKSROUM_BUFFER_TOO_SMALL && needed.length == 5 &&
                 no_line.status == FEKSROUM_CUT_SHORT && bad_line.status == FEKSROUM_BAD_TEXT;
    bool scratches = feksroum_scratch(0) == 0 && feksroum_scratch(MAX_PAYLOAD) == MAX_PAYLOAD / 2;
    return lines && scratches && none.status == FEKSROUM_OK && shorter.status == FEKSROUM_BUFFER_TOO_SMALL &&
           level.status == FEKSROUM_BAD_ARGUMENT && shorter.used + shorter.written + level.used + level.written == 0 &&
           feksroum_next(NULL, 0, 0).status == FEKSROUM_CUT_SHORT && feksroum_max_payload(131072) == 131064 &&
           feksroum_max_payload(7) == 0 && feksroum_max_payload(0) == UINT32_MAX && feksroum_body_head(1, 2, NULL, 0) == 7 &&
           feksroum_check(FEKSROUM_HEARTBEAT, NULL, 0).canonical && feksroum_name(FEKSROUM_TOO_DEEP, NULL, 0) == 7;
}

/* A method with one table of so many entries, whose keys fall, and its canonical bytes: the same, with or without a scratch. */
static bool scratch_agrees(void) {
    enum { ENTRIES = 3000, CONTENT = 4 * ENTRIES, PAYLOAD = 12 + CONTENT };
    static const uint8_t front[] = {1, 0, 1, 0, 0, PAYLOAD >> 8,  PAYLOAD & 255, 0, 50, 0, 10, 0, 0, 0, 0,
                                    0, 0, CONTENT >> 8, CONTENT & 255};
    memcpy(bytes, front, sizeof front);
    for (int k = 0; k < ENTRIES; k++) {
        const uint8_t entry[] = {2, (uint8_t)((ENTRIES - 1 - k) >> 6), (uint8_t)((ENTRIES - 1 - k) & 63), 'V'};
        memcpy(bytes + sizeof front + 4 * k, entry, sizeof entry);
        const uint8_t sorted[] = {2, (uint8_t)(k >> 6), (uint8_t)(k & 63), 'V'};
        memcpy(wanted + sizeof front + 4 * k, sorted, sizeof sorted);
    }
    size_t length = PAYLOAD + 8;
    memcpy(wanted, front, sizeof front);
    bytes[length - 1] = wanted[length - 1] = 206;
    size_t scratches[] = {0, 257, feksroum_scratch(length)};
    for (int k = 0; k < 3; k++) {
        memset(out, 0, length);
        feksroum_progress progress =
            feksroum_canonicalize(bytes, length, out, length, scratch, scratches[k], MAX_PAYLOAD, FEKSROUM_PLAIN);
        if (progress.status != FEKSROUM_OK || progress.written != length || memcmp(out, wanted, length) != 0) {
            return false;
        }
    }
    return true;
}

static bool run(const char *folder, const char *name, const char *command, int status) {
    if (strstr("dump undump", command)) {
        return run_lines(folder, name, command, status);
    }
    bool is_text = strcmp(command, "hex") == 0 || strcmp(command, "tidy") == 0;
    uint8_t level = strcmp(command, "tidy") == 0 ? FEKSROUM_TIDY : FEKSROUM_PLAIN;
    size_t length = read_file(folder, name, command, input);
    size_t wanted_length = read_file(folder, name, "out", wanted);
    if (is_text) {
        length = from_hex(input, length);
    } else {
        memcpy(bytes, input, length);
    }
    feksroum_progress progress = feksroum_canonicalize(bytes, length, out, length, NULL, 0, MAX_PAYLOAD, level);
    const uint8_t *printed = is_text ? text : out;
    size_t printed_length = is_text ? report(progress) : progress.written;
    bool agrees = level == FEKSROUM_TIDY || frames_agree(length, progress);
    return progress.status == (uint32_t)status && printed_length == wanted_length && agrees &&
           memcmp(printed, wanted, wanted_length) == 0;
}

int main(int argc, char **argv) {
    char path[4096], line[4096], name[256], command[256];
    int status, done = 0, failed = !names_agree() || !arguments_are_tested() || !fields_are_known() || !table_is_known() ||
                                                         !scratch_agrees();
    snprintf(path, sizeof path, "%s/statuses", argc == 2 ? argv[1] : "");
    FILE *list = fopen(path, "r");
    if (!list) {
        fputs("examples FOLDER\n", stderr);
        return 2;
    }
    while (fgets(line, sizeof line, list)) {
        if (sscanf(line, "%255s %255s %d", name, command, &status) != 3 ||
            !strstr(" raw lent hex tidy dump undump ", command)) {
            continue;
        }
        done++;
        if (!run(argv[1], name, command, status)) {
            fprintf(stderr, "examples: %s %s is not as wanted\n", command, name);
            failed = 1;
        }
    }
    fclose(list);
    if (failed) {
        fputs("examples: something is not as wanted\n", stderr);
    }
    printf("c: %d examples%s\n", done, failed ? "" : " as wanted");
    return failed || done == 0;
}
