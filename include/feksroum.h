/* Feksroum: the wire layer of AMQP 0-9-1, for C and C++.
 *
 * Bytes in, bytes out. No function calls back, reads or writes anything but what it is given, or keeps anything between two
 * calls. So any number of threads may call at once, with nothing to set up or to free. No function takes memory but
 * feksroum_dump and feksroum_undump, which take it from malloc and free it before they return.
 *
 * A frame is a protocol header, a method, a content header, a body or a heartbeat. It is read at a level:
 *
 *   FEKSROUM_PLAIN  each encoding of the grammar in docs/FORMAT.md, which is what peers send;
 *   FEKSROUM_TIDY   of these, the frames in which all that reading drops is canonical: reserved fields hold their
 *                   constants, a content header's weight and all spare bits are 0, heartbeats are empty.
 *
 * Each frame has one encoding that is written, its canonical bytes. They are never longer than any other encoding of it.
 *
 * Arguments
 *
 *   A pointer comes with a length: of bytes in bytes, of marks in marks, of nodes in nodes, of heads in heads. Both belong together: so
 *   much has to be there, and it has to stay as it is until the call returns. Where the length is 0 the pointer may be NULL. A buffer or
 *   a scratch that is written must overlap nothing else that is passed. All other arguments are tested. No pointer is kept after a call.
 *
 *   Beside that, a caller owes this:
 *   - there is enough stack, see below;
 *   - for feksroum_dump and feksroum_undump alone, which take memory: malloc, realloc and free are those of one allocator, which
 *     aligns a block of n bytes to each power of two up to 16 that divides n; these two are called in no signal handler, and not
 *     in a child that a process with threads has forked. The others call nothing but memcpy, memmove and memset.
 *
 *   max_payload is the longest payload that is accepted, in bytes, without the 8 bytes around it. The program uses
 *   131072. It does not hold for protocol headers, which have 8 bytes in all.
 *
 * Stack: a call takes at most about 40 KiB of it, however large a frame is.
 * Time: linear in the bytes, but for tables whose entries stand in no order. Those are sorted, in time n log n for n entries,
 * where a call that canonicalizes is given a scratch (feksroum_scratch says how long); without one a table of more than 256
 * entries takes time quadratic in their number. docs/PERFORMANCE.md has numbers.
 */
#ifndef FEKSROUM_H
#define FEKSROUM_H

#include <stdbool.h>
#include <stddef.h>
#include <stdint.h>
#include <string.h>

#define FEKSROUM_VERSION "0.1.0"
#define FEKSROUM_VERSION_MAJOR 0
#define FEKSROUM_VERSION_MINOR 1
#define FEKSROUM_VERSION_PATCH 0

/* The same as one number, which feksroum_version gives of the library that runs. */
#define FEKSROUM_VERSION_NUMBER (FEKSROUM_VERSION_MAJOR * 65536 + FEKSROUM_VERSION_MINOR * 256 + FEKSROUM_VERSION_PATCH)

/* What compilers can be told of a function: its result is what it is called for; it only reads, or may write, as many bytes
 * as the argument of a number says. */
#if defined(__GNUC__)
#define FEKSROUM_RESULT __attribute__((warn_unused_result))
#else
#define FEKSROUM_RESULT
#endif
#if defined(__GNUC__) && !defined(__clang__) && __GNUC__ >= 10
#define FEKSROUM_READS(pointer, count) __attribute__((access(read_only, pointer, count)))
#define FEKSROUM_WRITES(pointer, count) __attribute__((access(write_only, pointer, count)))
#else
#define FEKSROUM_READS(pointer, count)
#define FEKSROUM_WRITES(pointer, count)
#endif

#ifdef __cplusplus
extern "C" {
#endif

/* Statuses. They are the exit statuses of the program, and three that only calls have. feksroum_name has their names. */
enum {
    FEKSROUM_OK = 0,

    /* Out of memory. Of the functions here, only feksroum_dump and feksroum_undump return it. */
    FEKSROUM_NO_MEMORY = 3,

    /* Of streams, for callers that read and write: no function here returns these. */
    FEKSROUM_READ_FAULT = 4,
    FEKSROUM_WRITE_FAULT = 5,

    /* Faults of the bytes around a payload. */
    FEKSROUM_UNKNOWN_FRAME_TYPE = 10, /* the first byte names no frame type */
    FEKSROUM_BAD_PROTOCOL_HEADER = 11, /* a first byte 65 that does not begin a protocol header */
    FEKSROUM_TOO_LARGE = 12, /* a payload longer than max_payload */
    FEKSROUM_BAD_FRAME_END = 13, /* the byte after the payload is not 206 */

    /* Faults of a whole payload. */
    FEKSROUM_UNKNOWN_CLASS = 14, /* a method of no class */
    FEKSROUM_UNKNOWN_METHOD = 15, /* a method that its class does not have */
    FEKSROUM_SHORT_PAYLOAD = 16, /* something passes the end of the payload, or of a table or array in it */
    FEKSROUM_TRAILING_BYTES = 17, /* bytes are left after the last field */
    FEKSROUM_NOT_UTF8 = 18, /* a short string that is not UTF-8 */
    FEKSROUM_UNKNOWN_TAG = 19, /* a field tag that names no type */
    FEKSROUM_TOO_DEEP = 20, /* tables or arrays nested more than 64 deep */

    /* The bytes end inside a frame, or the text inside a line: more are needed, and at the end of a stream none come. */
    FEKSROUM_CUT_SHORT = 21,

    /* Of streams: as many reads as were allowed were made. No function here returns it. */
    FEKSROUM_TURNS_SPENT = 22,

    /* At level tidy: a frame that can be read and is not tidy. */
    FEKSROUM_NOT_TIDY = 23,

    /* Of messages. */
    FEKSROUM_BAD_CONTENT = 24, /* a frame that may not come next on its channel */
    FEKSROUM_OPEN_CONTENT = 25, /* the end came between two frames, inside a message; no function here returns it */

    /* Of text: a line that is not the exact text form of any frame with a payload of at most max_payload bytes. */
    FEKSROUM_BAD_TEXT = 26,

    /* Of calls. */
    FEKSROUM_BUFFER_TOO_SMALL = 40, /* the buffer is too short for what is written, or the list for the nodes */
    FEKSROUM_BAD_ARGUMENT = 41, /* a number that names none of what is asked for: a level, a detail, a kind */
    FEKSROUM_TOO_LONG = 42 /* a short string to be written is longer than 255 bytes, or what fills a table or an array than 2^32 - 1 */
};

/* Levels. */
enum { FEKSROUM_PLAIN = 0, FEKSROUM_TIDY = 1 };

/* Frame types, as the first byte of a frame names them. */
enum {
    FEKSROUM_METHOD = 1,
    FEKSROUM_HEADER = 2,
    FEKSROUM_BODY = 3,
    FEKSROUM_HEARTBEAT = 8,
    FEKSROUM_PROTOCOL_HEADER = 65
};

/* How many bytes a frame has beside its payload, at most; and the byte after the payload. */
#define FEKSROUM_AROUND_PAYLOAD 8
#define FEKSROUM_FRAME_END 206

/* How long the name of a status is at most. */
#define FEKSROUM_NAME_MAX 17

/* A mark of an entry of a table: 16 bytes of scratch, aligned to 8. What it holds means nothing before or after a call. */
typedef struct feksroum_mark {
    uint64_t numbers[2];
} feksroum_mark;

/* How many marks of scratch are enough for the tables in so many bytes: half of that number, since each entry of a table has
 * two bytes at least. More marks than feksroum_scratch(max_payload) are of no use, since a table lies in one payload: with
 * the limit of 131072 bytes those take 1 MiB. */
size_t feksroum_scratch(size_t length);

/* The frame in front of some bytes. Where there is none, all but status and needed is 0. 32 bytes, no padding. */
typedef struct feksroum_frame {
    uint64_t used; /* how many bytes the whole frame has */
    uint64_t needed; /* how many bytes a frame that begins so has at least: at status 0 as `used`; at 21 more than are there: 8
                        until its length is, then all it has, at most max_payload + 8; at a fault 0 */
    uint64_t payload_length; /* how many bytes the payload has */
    uint32_t payload_start; /* how many bytes come before its payload */
    uint16_t channel; /* 0 for a protocol header */
    uint8_t type;
    uint8_t status; /* 0, 21, or 10 to 13 */
} feksroum_frame;

/* Scans the header of the frame in front: its type and channel, where its payload lies, how many bytes it uses. The payload
 * is not decoded.
 *
 * status: 0 where a whole frame is in front; 21 where the bytes end inside one, or there are none; else its fault, 10 to
 * 13. A frame or a fault stays the same, whatever bytes follow. */
feksroum_frame feksroum_next(const uint8_t *bytes, size_t length, uint32_t max_payload) FEKSROUM_RESULT FEKSROUM_READS(1, 2);

/* What stands in a whole payload. Where it is no frame, all but status is 0 and false. 16 bytes, no padding. */
typedef struct feksroum_payload {
    uint64_t body_size; /* of a content header: the size in bytes of the body that it announces; else 0 */
    uint16_t class_id; /* of a method or content header; else 0 */
    uint16_t method_id; /* of a method; else 0 */
    bool canonical; /* the payload is the canonical one: nothing would be written differently */
    bool tidy;
    uint8_t status; /* 0, 10, 12, or 14 to 20 */
    uint8_t fields; /* how many fields it has: of a method those that are not reserved, each flag one; the properties that are
                       set; 3 of a protocol header */
} feksroum_payload;

/* Whether a whole payload is a frame of the type that this byte names, and what stands in it. That is the same on each
 * channel. The payload of a protocol header is its three version bytes.
 *
 * status: 0 where it is a frame; else the first of these: 10 where the byte names no type; 12 where the payload is longer than
 * a frame can say, 2^32 - 1 bytes; its fault, 14 to 20. */
feksroum_payload feksroum_check(uint8_t type, const uint8_t *payload, size_t length) FEKSROUM_RESULT FEKSROUM_READS(2, 3);

/* Kinds of fields of methods and content headers. */
enum {
    FEKSROUM_OCTET = 1, /* a number of 1 byte */
    FEKSROUM_SHORT = 2, /* of 2 bytes */
    FEKSROUM_LONG = 3, /* of 4 bytes */
    FEKSROUM_LONG_LONG = 4, /* of 8 bytes */
    FEKSROUM_FLAG = 5,
    FEKSROUM_SHORT_STRING = 6, /* UTF-8, at most 255 bytes */
    FEKSROUM_LONG_STRING = 7, /* any bytes */
    FEKSROUM_TABLE = 8
};

/* A field of a method or a content header, or a value in a table or an array: a number, or where its bytes lie, counted from
 * the front of what was read. 32 bytes, no padding. Members that a kind does not have are 0. */
typedef struct feksroum_node {
    uint64_t number; /* a number, a signed one in two's complement; 0 or 1 of a flag or truth value; the bits of a float or
                        double; the unsigned number of a decimal */
    uint32_t start; /* where the bytes of a string or byte array begin, or the content of a table or array, without its length */
    uint32_t length; /* how many bytes these are */
    uint32_t key_start; /* where the key of an entry of a table begins */
    uint32_t inside; /* how many of the nodes that follow lie inside this one */
    uint32_t items; /* how many of these are its own entries or values */
    uint8_t key_length;
    uint8_t kind; /* of a field as above; of a value its tag byte, as 'S', 'I' or 'F' (docs/FORMAT.md): 'U' is read as 's',
                     'L' as 'l' */
    uint8_t place; /* which field of its method it is, from 0 on, reserved ones not counted and each flag one; or which of
                      the 14 properties, content-type the first; of a value 0 */
    uint8_t scale; /* of a decimal: how many digits are behind the point */
} feksroum_node;

/* What stands in a whole payload, and how many nodes its fields have. Where no nodes are given, all but status and nodes is
 * 0 and false. 24 bytes, no padding. */
typedef struct feksroum_fields {
    uint64_t body_size; /* of a content header; else 0 */
    uint64_t nodes; /* how many are given; at status 40, how many there are: a list with room for so many is long enough */
    uint16_t class_id; /* of a method or content header; else 0 */
    uint16_t method_id; /* of a method; else 0 */
    bool canonical; /* the payload is the canonical one */
    bool tidy;
    uint8_t status; /* 0, 10, 12, 14 to 20, 40 or 41 */
    uint8_t unused; /* 0 */
} feksroum_fields;

/* How much is read: the fields alone, or with all that lies inside their tables. */
enum { FEKSROUM_SHALLOW = 0, FEKSROUM_DEEP = 1 };

/* Reads the fields of a whole payload of this type as nodes, in the order of the bytes: those of a method that are not
 * reserved, the properties of a content header that are set, the three numbers of a protocol header. A body and a heartbeat
 * have none. At FEKSROUM_DEEP the node of each table is followed by those of its entries, and of all that lies inside them. So
 * the next node on the level of nodes[k] is nodes[k + 1 + nodes[k].inside]. Entries stand as they were sent, each one: of
 * equal keys the last one counts. There are at most as many nodes as bytes, so a list of `length` nodes is always long enough.
 * All spans and keys lie in the payload, and those of nodes inside another one in its span; an empty string too begins where
 * it stands.
 *
 * status: 0 where the nodes are given; else the first of these: 41 where the detail is none; 10, 12, 14 to 20 as
 * feksroum_check has them; 40 where the list is shorter than `nodes` says. What stands in the list behind the nodes, or at
 * other statuses than 0, is not specified. */
feksroum_fields feksroum_read(uint8_t type, const uint8_t *payload, size_t length, uint8_t detail, feksroum_node *nodes,
                              size_t room) FEKSROUM_RESULT FEKSROUM_READS(2, 3);

/* The same of what fills a table (kind 'F') or an array ('A') that stands alone, without its length: its entries or values, with
 * all that lies inside them, at most as many nodes as bytes. Of the result all but status and nodes is 0 and false.
 *
 * status: 0 where the nodes are given; else the first of these: 41 where the kind is neither; 12 where the content has more
 * than 2^32 - 1 bytes; 16 and 18 to 20 where it has a fault; 40 where the list is shorter than `nodes` says. */
feksroum_fields feksroum_open(uint8_t kind, const uint8_t *content, size_t length, feksroum_node *nodes, size_t room)
    FEKSROUM_RESULT FEKSROUM_READS(2, 3);

/* The value of a key in a table: `table` is its node, followed by those inside it, and `bytes` what was read. NULL where the
 * table does not have the key; and where it was read at FEKSROUM_SHALLOW and is not empty: then `inside` is 0 and `length` is
 * not. An empty key is looked for where key_length is 0, also with NULL. */
static inline const feksroum_node *feksroum_find(const feksroum_node *table, const uint8_t *bytes, const void *key,
                                                 size_t key_length) {
    const feksroum_node *found = NULL;
    for (const feksroum_node *node = table + 1; node <= table + table->inside; node += 1 + node->inside) {
        if (node->key_length == key_length && (key_length == 0 || memcmp(bytes + node->key_start, key, key_length) == 0)) {
            found = node;
        }
    }
    return found;
}

/* A frame among others. Its payload's bytes are counted from the front of what was read, and its nodes are a part of one list:
 * nodes[first] to nodes[first + nodes - 1], whose spans and keys lie in its payload. 32 bytes, no padding. */
typedef struct feksroum_head {
    uint64_t body_size; /* of a content header: the size in bytes of the body that it announces; else 0 */
    uint32_t start; /* where the payload begins */
    uint32_t length; /* how many bytes it has */
    uint32_t first; /* which node is its first */
    uint32_t nodes; /* how many nodes it has */
    uint16_t channel; /* 0 for a protocol header */
    uint16_t class_id; /* of a method or content header; else 0 */
    uint16_t method_id; /* of a method; else 0 */
    uint8_t type;
    uint8_t form; /* FEKSROUM_FORM_CANONICAL and FEKSROUM_FORM_TIDY, each where the payload is so */
} feksroum_head;

/* Bits of a form. */
enum { FEKSROUM_FORM_CANONICAL = 1, FEKSROUM_FORM_TIDY = 2 };

/* How many frames are given, and what comes after them. 32 bytes, no padding. */
typedef struct feksroum_batch {
    uint64_t used; /* how many bytes the frames have */
    uint64_t needed; /* at status 21: how many bytes the next frame has at least, 8 until its length is there; at 40: how many
                        nodes it has, at most as many as its bytes: lists of so many nodes and of one head take it; else 0 */
    uint32_t heads; /* how many frames are given: so many heads */
    uint32_t nodes; /* how many nodes they have */
    uint32_t status; /* 0, 10 to 21, 40 or 41 */
    uint32_t unused; /* 0 */
} feksroum_batch;

/* Reads as many whole frames in front of the bytes as both lists have room for, with one call: a head for each, and its nodes as
 * feksroum_read gives them; feksroum_write undoes it. All spans, in heads and in nodes, are counted from the front of `bytes`. The time is
 * linear; `used` is at least 8 times `heads`, and at least `nodes`, so lists of length / 8 heads and `length` nodes are always long enough.
 * Of more than 2^32 - 1 bytes only so many in front are looked at; the others come with the next call. A payload of more than 2^32 - 9
 * bytes, whose frame never fits in so many, has status 12 at any max_payload.
 *
 * status: 0 where nothing comes after these frames; 21 where the bytes end inside the next one; its fault, 10 to 20; 40 where it
 * is whole and has none, and a list has no room for it; 41 where the detail is none: then nothing is given. What stands in the
 * lists behind what is given is not specified. The next call goes on at bytes + used. */
feksroum_batch feksroum_frames(const uint8_t *bytes, size_t length, uint32_t max_payload, uint8_t detail, feksroum_head *heads,
                               size_t head_room, feksroum_node *nodes, size_t node_room)
    FEKSROUM_RESULT FEKSROUM_READS(1, 2);

/* Stands for no node, where a head itself or a content as a whole is refused. A node whose number is no smaller is given as the one
 * before it, FEKSROUM_NO_NODE - 1. */
#define FEKSROUM_NO_NODE UINT32_MAX

/* How many bytes were written, or why none. 24 bytes, no padding. */
typedef struct feksroum_written {
    uint64_t length; /* how many bytes were written; at status 40, how many `out` needs; else 0 */
    uint32_t head; /* at other statuses than 0 and 40: which head is refused, of feksroum_write_content 0; else 0 */
    uint32_t node; /* at these: which one of all nodes is refused, or FEKSROUM_NO_NODE where the head itself is, or a content as a whole;
                      where a field misses, the place behind the last node of the head; else 0 */
    uint32_t status; /* 0, 12, 14 to 16, 18 to 20, or 40 to 42 */
    uint32_t unused; /* 0 */
} feksroum_written;

/* Writes the frames that heads and nodes mean at the front of `out`, one after another. All spans lie in the pool: those of nodes, and of
 * bodies. Reserved fields are written at their constants, entries of tables in the order of their nodes. What is written is an encoding of
 * these frames, and nothing else. It is their canonical bytes where the keys of each table ascend, none stands twice, and content that is
 * given as bytes is canonical; else feksroum_canonicalize or feksroum_canonicalize_in_place makes it so. What feksroum_frames gave at
 * FEKSROUM_DEEP can be passed as it is, with the bytes that were read as the pool. `out` must overlap no other.
 *
 * Of a head these members count, and the others that its type does not have are 0:
 *   a method           channel, class_id, method_id, first, nodes: its fields that are not reserved, all of them, in their order
 *   a content header   channel, class_id, body_size, first, nodes: the properties that are set, by ascending place
 *   a body             channel, start, length
 *   a heartbeat        channel
 *   a protocol header  first, nodes: three numbers
 * No use is made of `form`, and of start and length but of a body.
 * Of a node, its kind and place are as the table of names has them, and a value in a table or an array has one of the 17 tag bytes as
 * its kind ('U' and 'L' are not written). Of a table or an array with `inside` 0 the span is the content, which is tested and written as
 * it stands; else the nodes inside are its entries or values, and its span is not looked at. The key of a value in an array, `items`, and
 * the place of an entry or value are not looked at.
 *
 * Nothing is written but at status 0, and what comes after the bytes written is as it was. The status is that of the first refusal, frame
 * by frame and from left to right:
 *   12 contents of tables and arrays that stand in the pool have more than max_payload bytes together (not of a protocol header): no pool
 *      is gone over more often than a payload has room for it;
 *   41 the type is none; 14 and 15 both ids are no method;
 *   41 the head has what its type has not, or its nodes or its bytes pass the end of the list or the pool;
 *   of each node 41 a kind, place or `inside` that does not fit, a number outside its width, a truth value above 1, a span outside the
 *      pool; 42 a short string longer than 255 bytes, or what fills a table or an array longer than 2^32 - 1; 18 a short string or a
 *      key that is not UTF-8; 20 tables and arrays nest too deep; 16, 18, 19, 20 the fault of a content that stands in the pool; 41 a
 *      field that misses or is too many;
 *   12 the payload is longer than max_payload.
 * Heads and nodes that mean frames are refused for length alone: 42 of a node that holds 2^32 bytes or more, or 12.
 * Where nothing is refused it is 40 if `out` is shorter than `length` says; so a call with no buffer tells how long it has to be. */
feksroum_written feksroum_write(const feksroum_head *heads, size_t head_count, const feksroum_node *nodes, size_t node_count,
                                const uint8_t *pool, size_t pool_length, uint32_t max_payload, uint8_t *out, size_t out_length)
    FEKSROUM_RESULT FEKSROUM_READS(1, 2) FEKSROUM_READS(3, 4) FEKSROUM_READS(5, 6) FEKSROUM_WRITES(8, 9);

/* The same of what fills a table (kind 'F') or an array ('A') alone, without its length: the nodes are its entries or values, with those
 * inside them. 41 where the kind is neither, which comes first. 42 too where the content has more than 2^32 - 1 bytes, which comes
 * after all nodes, whatever the buffer. What is written is an encoding of these entries or values. */
feksroum_written feksroum_write_content(uint8_t kind, const feksroum_node *nodes, size_t node_count, const uint8_t *pool,
                                        size_t pool_length, uint8_t *out, size_t out_length)
    FEKSROUM_RESULT FEKSROUM_READS(2, 3) FEKSROUM_READS(4, 5) FEKSROUM_WRITES(6, 7);

/* Where a channel stands between two of its frames. */
enum {
    FEKSROUM_STATE_CLOSED = 0, /* no message is open */
    FEKSROUM_STATE_OPENED = 1, /* its opening has come */
    FEKSROUM_STATE_HEADED = 2, /* its content header too */
    FEKSROUM_STATE_FAULTED = 3 /* a frame may not have come */
};

/* What is kept of a channel between two of its frames. Zeros, for a channel on which no message is open. A channel that was closed and
 * opened again begins with zeros. 24 bytes, no padding. */
typedef struct feksroum_channel {
    uint64_t size; /* of a message whose content header has come: how many bytes its body has */
    uint64_t seen; /* how many of these have come, fewer than size */
    uint32_t state; /* a FEKSROUM_STATE_ */
    uint32_t unused; /* 0 */
} feksroum_channel;

/* Which part of a message a frame is. */
enum {
    FEKSROUM_PART_NONE = 0,
    FEKSROUM_PART_OPENING = 1, /* the method that opens one */
    FEKSROUM_PART_HEADER = 2,
    FEKSROUM_PART_BODY = 3
};

/* Why a frame may not come next on its channel. */
enum {
    FEKSROUM_FAULT_NONE = 0,
    FEKSROUM_UNEXPECTED_METHOD = 1, /* a method inside a message */
    FEKSROUM_UNEXPECTED_HEADER = 2, /* a content header that nothing announced */
    FEKSROUM_UNEXPECTED_BODY = 3, /* a body before the content header or outside of a message */
    FEKSROUM_WRONG_CLASS = 4, /* a content header of a class other than 60 */
    FEKSROUM_BODY_TOO_LARGE = 5, /* one that announces more than max_body bytes */
    FEKSROUM_BODY_OVERRUN = 6, /* a body that goes beyond the size */
    FEKSROUM_FAULTED = 7 /* an earlier frame of the channel may not have come */
};

/* What a frame is to its channel. 56 bytes, no padding. */
typedef struct feksroum_turn {
    feksroum_channel after; /* what is kept after the frame; zeros where no step is made */
    uint64_t before; /* of a body: how many bytes of the whole body came before it */
    uint64_t up_to; /* of a body: how many have come with it */
    uint64_t size; /* of a body: how many the whole body has */
    uint8_t part; /* a FEKSROUM_PART_ */
    bool finished; /* the message is complete with this frame */
    uint8_t fault; /* at status 24 why, by the numbers above; else 0 */
    uint8_t status; /* 0, 24, 10 or 41 */
    uint32_t unused; /* 0 */
} feksroum_turn;

/* What one more frame is to its channel, and what is kept of the channel after it. Frames of one channel are given in their order; those
 * of different channels in any order. The frame is said by its numbers, as feksroum_next and feksroum_check have them. `size` is the
 * body_size of a content header, and the length of a body; else it is not looked at, as ids that the type does not have. A content
 * header may announce at most max_body bytes.
 *
 * status: 0 where the frame may come next; 24 where not, and then each later frame of the channel is FAULTED; 10 where the type is none;
 * 41 where the numbers that are kept are none of a channel, which comes first. */
feksroum_turn feksroum_step(feksroum_channel channel, uint8_t type, uint16_t class_id, uint16_t method_id, uint64_t size,
                            uint64_t max_body) FEKSROUM_RESULT;

/* How a body is cut. 16 bytes, no padding. */
typedef struct feksroum_cut {
    uint64_t pieces; /* how many body frames are to be written now */
    uint32_t left; /* how many bytes are to be held after them: the last of those held and of the new ones; below size */
    uint32_t status; /* 0; 41 where size is 0, or `held` is not below it, or `ends` is not 0 or 1: then all else is 0 */
} feksroum_cut;

/* The payload of one of these frames: first these bytes of those held, then these of the new ones. 16 bytes, no padding. */
typedef struct feksroum_piece {
    uint32_t held_start, held_length; /* all bytes held stand in the first piece, and none in a later one */
    uint32_t start, length;
} feksroum_piece;

/* How the bodies of a message are cut anew, into body frames of `size` bytes, the last of a message shorter. Beside the state that
 * feksroum_step takes, the caller holds fewer than `size` bytes of each message, at first none. For each body that is part 3 of
 * feksroum_step: `held` is how many bytes of its message are held, `length` is how many the body has, and `ends` is 1 where it finishes
 * the message, and else 0. The bytes held and then those of the body are cut from the front: into pieces of `size` bytes, and
 * where the message ends into one more of what is left, if anything is. So an empty body may give no frame, or what was held. After the
 * frames are written, the last `left` bytes of both together are held in the place of those before; at the end of a message none.
 *
 * The frames that are written for all bodies of a message are those of its whole body, in whatever bodies it came. Its method and
 * content header are written as they are; each body is written at feksroum_body_head, its pieces and the byte 206. */
feksroum_cut feksroum_recut(uint32_t size, uint32_t held, uint32_t length, uint8_t ends) FEKSROUM_RESULT;

/* The payload of frame `k` of these, counted from 0, by the same numbers. Both spans lie within what they are spans of. Zeros where there
 * is no such frame: k is not below `pieces`, or the status was 41. */
feksroum_piece feksroum_piece_at(uint32_t size, uint32_t held, uint32_t length, uint8_t ends, uint64_t k) FEKSROUM_RESULT;

/* A rule: keeps or drops the frames for which each part that is there holds. The numbers of a part that is not there are not looked
 * at. 14 bytes, no padding. */
typedef struct feksroum_frame_rule {
    uint16_t first_channel, last_channel; /* the channels, both included; the first is not above the last */
    uint16_t class_id; /* which only methods and content headers have */
    uint16_t method_id; /* which only methods have */
    uint8_t keep; /* 1 the frames are kept, 0 they are dropped */
    uint8_t has_channels; /* 1 there is a part on channels, else 0 */
    uint8_t type; /* the first byte of the frames; 0 for any */
    uint8_t has_class; /* 1 there is a part on the class, else 0 */
    uint8_t has_method; /* 1 there is a part on the method, else 0 */
    uint8_t status; /* 0; 41 where a word was no rule, and then all else is 0 */
} feksroum_frame_rule;

/* The rule that a word is, as `drop,channel=1-5,class=60,method=40` (docs/FORMAT.md). One channel is a range of one. */
feksroum_frame_rule feksroum_rule(const uint8_t *word, size_t length) FEKSROUM_RESULT FEKSROUM_READS(1, 2);

/* Whether rules keep a frame, by its type, channel and ids, as feksroum_next and feksroum_check have them: 1 where the first rule that
 * matches says keep; 0 where it says drop, or none matches; 10 where the type is none; else 41 where any rule has other numbers than are
 * said above. For whole messages, decide at the method that opens one (part 1 of feksroum_step), and let its content header and bodies
 * follow. */
uint8_t feksroum_decide(const feksroum_frame_rule *rules, size_t count, uint8_t type, uint16_t channel, uint16_t class_id,
                        uint16_t method_id) FEKSROUM_RESULT FEKSROUM_READS(1, 2);

/* How far a call came. 24 bytes, no padding. */
typedef struct feksroum_progress {
    uint64_t used; /* how many bytes the whole frames in front have */
    uint64_t written; /* how many canonical bytes were written for them, no more than used */
    uint32_t status; /* 0, 10 to 21, 23, 40 or 41 */
    uint32_t unused; /* 0 */
} feksroum_progress;

/* Writes the canonical bytes of the whole frames in front into `out`, which has to be at least as long as the bytes. What
 * comes after the bytes written is left as it was.
 *
 * scratch: where entries of tables in no order are sorted, of any length in marks, also NULL and 0. Only the time depends on
 * it: a call uses it where it is longer than the 256 marks that it has on the stack. One scratch serves any number of
 * calls, one after another.
 *
 * status: 0 where nothing follows these frames; 21 where the bytes end inside the next one; else the fault of what
 * follows. The frames before a fault are used and written all the same.
 * 41 where the level is none, and else 40 where `out` is shorter than the bytes: nothing is used or written.
 *
 * A stream may be fed in pieces of any size: put the bytes that a call did not use in front of the next piece. All that is
 * written, what is left and the last status are then those of one call with all the bytes. A fault stays, whatever follows.
 * At most max_payload + 7 bytes are ever left at status 21, so max_payload + 8 bytes of room never fill up. */
feksroum_progress feksroum_canonicalize(const uint8_t *bytes, size_t length, uint8_t *out, size_t out_length,
                                        feksroum_mark *scratch, size_t scratch_length, uint32_t max_payload, uint8_t level)
    FEKSROUM_RESULT FEKSROUM_READS(1, 2) FEKSROUM_WRITES(3, 4);

/* How many bytes in front are whole frames of which each is canonical already. What follows them is no such frame; so a proxy writes
 * that many from where they were read. Payloads are decoded, and nothing is written. */
size_t feksroum_canonical_run(const uint8_t *bytes, size_t length, uint32_t max_payload) FEKSROUM_RESULT FEKSROUM_READS(1, 2);

/* As feksroum_canonicalize, within one buffer: the canonical bytes stand at the front of `bytes`, and what comes after those that
 * were written is as it was. A frame that is canonical is moved, one that is not goes through `spare`, in which nothing is
 * specified afterwards.
 *
 * status: as feksroum_canonicalize has it, but 40 where a frame that is not canonical is longer than `spare`, and only then: used
 * and written say how far the call came, and that frame stands at `used` as it was. To go on, take the bytes written away, and call
 * again at bytes + used with a longer spare: what that call writes stands at bytes + used. max_payload + 8 bytes of spare are enough
 * for every frame. */
feksroum_progress feksroum_canonicalize_in_place(uint8_t *bytes, size_t length, uint8_t *spare, size_t spare_length,
                                                 feksroum_mark *scratch, size_t scratch_length, uint32_t max_payload,
                                                 uint8_t level) FEKSROUM_RESULT;

/* One frame and its line, of which one was read and the other written. At statuses other than 0 and 40 both counts are 0. 24
 * bytes, no padding. */
typedef struct feksroum_line {
    uint64_t used; /* how many bytes of what was given the frame, or its line, has */
    uint64_t length; /* how many bytes the other one has: those that are written, or at status 40 those that `out` needs */
    uint32_t status; /* 0, 3, 26, 40, or 10 to 21 */
    uint32_t unused; /* 0 */
} feksroum_line;

/* Writes the line of the frame in front, as `body 1 x6869`, into `out`. The line is ASCII and ends with a newline; no 0 byte
 * follows it. What comes after it is left as it was. Two frames have equal lines only where they have equal canonical bytes.
 * docs/FORMAT.md has the grammar.
 *
 * status: 0 where the line is written; 40 where `out` is shorter than `length`, which is then what it needs, and nothing is
 * written; 3 where memory ran out; 21 where the bytes end inside a frame, or there are none; else the frame's fault, 10 to
 * 20. At 3, 10 to 21 and 40 `out` is as it was. */
feksroum_line feksroum_dump(const uint8_t *bytes, size_t length, uint8_t *out, size_t out_length, uint32_t max_payload)
    FEKSROUM_RESULT FEKSROUM_READS(1, 2) FEKSROUM_WRITES(3, 4);

/* Writes into `out` the canonical bytes of the frame whose line is in front of the text, up to the first newline. What comes
 * after them is left as it was. A frame's line is read as it is written: each number, string and table in its one form.
 *
 * status: 0 where they are written; 40 where `out` is shorter than `length`, which is then what it needs; 3 where memory ran
 * out; 21 where no newline is in the text; 26 where what is in front of it is not the exact text form of any frame with a
 * payload of at most max_payload bytes. At 3, 21, 26 and 40 `out` is as it was. */
feksroum_line feksroum_undump(const uint8_t *text, size_t length, uint8_t *out, size_t out_length, uint32_t max_payload)
    FEKSROUM_RESULT FEKSROUM_READS(1, 2) FEKSROUM_WRITES(3, 4);

/* The longest payload of a frame of at most `frame_max` bytes, as the two ends of a connection agree on it (connection.tune):
 * what 8 bytes less leave, and 0 below 8. A frame_max of 0 is no limit: 2^32 - 1. */
uint32_t feksroum_max_payload(uint32_t frame_max) FEKSROUM_RESULT;

/* How long what comes before a body is. */
#define FEKSROUM_BODY_HEAD 7

/* Writes what comes before a body of so many bytes at the front of `out`, where it fits, and returns FEKSROUM_BODY_HEAD: type,
 * channel and length. The body follows, and then FEKSROUM_FRAME_END: all together are the canonical bytes of the frame. So a
 * writer of vectors sends bodies from where they lie. */
size_t feksroum_body_head(uint16_t channel, uint32_t length, uint8_t *out, size_t out_length) FEKSROUM_WRITES(3, 4);

/* The version of the library that runs: FEKSROUM_VERSION_NUMBER where it is that of this header. */
uint32_t feksroum_version(void) FEKSROUM_RESULT;

/* Writes the name of a status, as "BadFrameEnd", at the front of `out` where it fits, and returns its length. No 0 byte
 * follows it. Returns 0 where the status is no error's. A buffer of FEKSROUM_NAME_MAX bytes is enough for each. */
size_t feksroum_name(uint8_t status, uint8_t *out, size_t out_length) FEKSROUM_WRITES(2, 3);

/* The same name as a string, for printf; "" where the status is no error's. */
static inline const char *feksroum_status_name(uint8_t status) {
    switch (status) {
    case FEKSROUM_NO_MEMORY:
        return "NoMemory";
    case FEKSROUM_READ_FAULT:
        return "ReadFault";
    case FEKSROUM_WRITE_FAULT:
        return "WriteFault";
    case FEKSROUM_UNKNOWN_FRAME_TYPE:
        return "UnknownFrameType";
    case FEKSROUM_BAD_PROTOCOL_HEADER:
        return "BadProtocolHeader";
    case FEKSROUM_TOO_LARGE:
        return "TooLarge";
    case FEKSROUM_BAD_FRAME_END:
        return "BadFrameEnd";
    case FEKSROUM_UNKNOWN_CLASS:
        return "UnknownClass";
    case FEKSROUM_UNKNOWN_METHOD:
        return "UnknownMethod";
    case FEKSROUM_SHORT_PAYLOAD:
        return "ShortPayload";
    case FEKSROUM_TRAILING_BYTES:
        return "TrailingBytes";
    case FEKSROUM_NOT_UTF8:
        return "NotUtf8";
    case FEKSROUM_UNKNOWN_TAG:
        return "UnknownTag";
    case FEKSROUM_TOO_DEEP:
        return "TooDeep";
    case FEKSROUM_CUT_SHORT:
        return "CutShort";
    case FEKSROUM_TURNS_SPENT:
        return "TurnsSpent";
    case FEKSROUM_NOT_TIDY:
        return "NotTidy";
    case FEKSROUM_BAD_CONTENT:
        return "BadContent";
    case FEKSROUM_OPEN_CONTENT:
        return "OpenContent";
    case FEKSROUM_BAD_TEXT:
        return "BadText";
    case FEKSROUM_BUFFER_TOO_SMALL:
        return "BufferTooSmall";
    case FEKSROUM_BAD_ARGUMENT:
        return "BadArgument";
    case FEKSROUM_TOO_LONG:
        return "TooLong";
    default:
        return "";
    }
}

/* What a status says, in one sentence without a period; "" where it is no error's. */
static inline const char *feksroum_status_text(uint8_t status) {
    switch (status) {
    case FEKSROUM_NO_MEMORY:
        return "out of memory";
    case FEKSROUM_READ_FAULT:
        return "a read failed";
    case FEKSROUM_WRITE_FAULT:
        return "a write failed";
    case FEKSROUM_UNKNOWN_FRAME_TYPE:
        return "the first byte of a frame is none of 1, 2, 3, 8 and 65";
    case FEKSROUM_BAD_PROTOCOL_HEADER:
        return "a frame begins as a protocol header and is none";
    case FEKSROUM_TOO_LARGE:
        return "a payload is longer than the limit";
    case FEKSROUM_BAD_FRAME_END:
        return "the byte after the payload is not 206";
    case FEKSROUM_UNKNOWN_CLASS:
        return "a method of no class";
    case FEKSROUM_UNKNOWN_METHOD:
        return "a method that its class does not have";
    case FEKSROUM_SHORT_PAYLOAD:
        return "something passes the end of the payload, or of a table or an array in it";
    case FEKSROUM_TRAILING_BYTES:
        return "bytes are left after the last field of a payload";
    case FEKSROUM_NOT_UTF8:
        return "a short string is not UTF-8";
    case FEKSROUM_UNKNOWN_TAG:
        return "a field tag of no kind of value";
    case FEKSROUM_TOO_DEEP:
        return "tables or arrays nest more than 64 deep";
    case FEKSROUM_CUT_SHORT:
        return "the input ends inside a frame, or inside a line";
    case FEKSROUM_TURNS_SPENT:
        return "as many reads as were allowed were made";
    case FEKSROUM_NOT_TIDY:
        return "a frame whose ignored parts are not canonical";
    case FEKSROUM_BAD_CONTENT:
        return "a frame that may not come next on its channel";
    case FEKSROUM_OPEN_CONTENT:
        return "the input ends inside a message";
    case FEKSROUM_BAD_TEXT:
        return "a line is not the exact text form of any frame with a payload within the limit";
    case FEKSROUM_BUFFER_TOO_SMALL:
        return "the buffer is too short for what is written";
    case FEKSROUM_BAD_ARGUMENT:
        return "a number names none of what is asked for";
    case FEKSROUM_TOO_LONG:
        return "a short string has more than 255 bytes, or what fills a table or an array more than 2^32 - 1";
    default:
        return "";
    }
}

/* ---- The table of names
 *
 * Which methods, fields and properties there are, and what the standard calls them: in lower case and with hyphens, as
 * `get-ok` and `delivery-tag`; the extensions of RabbitMQ as it spells them, so the flag of confirm.select is `nowait`. Reserved
 * fields have neither place nor name. feksroum_names.h has all of it as enums and strings. */

/* How many methods and properties there are, and how many fields a method has at most. */
#define FEKSROUM_METHODS 66
#define FEKSROUM_PROPERTIES 14
#define FEKSROUM_FIELDS_MAX 8

/* A method. Where there is none, all but status is 0. */
typedef struct feksroum_method {
    uint16_t class_id;
    uint16_t method_id; /* in its class */
    uint8_t fields; /* how many it has that are not reserved, each flag one */
    bool carries_content; /* a content header and bodies follow it */
    bool wants_answer; /* a method of the peer answers it */
    uint8_t status; /* 0; 41 where there is no such method */
} feksroum_method;

/* Method `k`, counted from 0: by ascending ids of classes, and of methods in each. */
feksroum_method feksroum_method_at(uint8_t k) FEKSROUM_RESULT;

/* How many fields a method has that are not reserved, each flag one; their kinds, 1 to 8, are written into `kinds` where all
 * fit, which has room for so many bytes. The index is the place of a node. 0 where there is no such method, too. */
size_t feksroum_shape(uint16_t class_id, uint16_t method_id, uint8_t *kinds, size_t room) FEKSROUM_WRITES(3, 4);

/* The kind of the property at a place, counted from 0; 0 where there is none. */
uint8_t feksroum_property_kind(uint8_t place) FEKSROUM_RESULT;

/* Each writes a name at the front of `out` where it fits, and returns its length. No 0 byte follows it. 0 where there is nothing
 * of this id or at this place. A buffer of FEKSROUM_NAME_MAX bytes is enough for each. */
size_t feksroum_class_name(uint16_t class_id, uint8_t *out, size_t out_length) FEKSROUM_WRITES(2, 3);
size_t feksroum_method_name(uint16_t class_id, uint16_t method_id, uint8_t *out, size_t out_length) FEKSROUM_WRITES(3, 4);
size_t feksroum_field_name(uint16_t class_id, uint16_t method_id, uint8_t place, uint8_t *out, size_t out_length)
    FEKSROUM_WRITES(4, 5);
size_t feksroum_property_name(uint8_t place, uint8_t *out, size_t out_length) FEKSROUM_WRITES(2, 3);

#ifdef __cplusplus
}
#endif

#endif
