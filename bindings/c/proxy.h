/* The core of a proxy that canonicalizes what it passes on, and drops messages by rules where it is asked to: two buffers for each
 * connection that is read, one scratch for all connections of a thread, and no reads or writes of its own. It fits any event loop:
 * fill the room, say how much came, send what is pending, say how much went.
 *
 * All numbers are bytes. A connection may be moved and freed as any struct: it holds no pointer but that to its rules. */
#ifndef FEKSROUM_PROXY_H
#define FEKSROUM_PROXY_H

#include <feksroum.h>

/* The longest payload that is passed on, and the size of each buffer: room for such a frame, and for more to be read. */
enum { PROXY_MAX_PAYLOAD = 131072, PROXY_SIZE = PROXY_MAX_PAYLOAD + FEKSROUM_AROUND_PAYLOAD + 65536 };

/* The rules of a connection, and what is kept of its channels between two frames: 1.6 MiB, all zeros but the rules at first. */
typedef struct proxy_messages {
    const feksroum_frame_rule *rules;
    size_t rule_count;
    feksroum_channel channels[65536];
    uint8_t drops[65536]; /* 1 where the message that is open on the channel is dropped */
    size_t open; /* how many messages are open */
} proxy_messages;

typedef struct proxy_connection {
    uint8_t held[PROXY_SIZE]; /* what was read and not used */
    uint8_t out[PROXY_SIZE]; /* canonical bytes that are not sent yet */
    size_t held_count, out_start, out_end;
    proxy_messages *messages; /* NULL where all is passed on */
    uint8_t level;
    uint8_t status; /* 0, or the fault that ended the connection: what is pending is still to be sent */
} proxy_connection;

/* Where the entries of large tables are sorted. What it holds means nothing between two calls. */
typedef struct proxy_scratch {
    feksroum_mark marks[PROXY_MAX_PAYLOAD / 2];
} proxy_scratch;

/* Starts a connection whose frames are read at this level. With messages, whole messages and other frames are kept or dropped by rules,
 * as feksroum_decide says it: decided at the method that opens a message, which its content header and bodies follow. A frame that
 * may not come next on its channel ends the connection with status 24. */
void proxy_open(proxy_connection *connection, uint8_t level, proxy_messages *messages);

/* Where to read into, and for how many bytes there is room: 0 after a fault, and while so much is pending that the peer has
 * to take some of it first. */
size_t proxy_room(proxy_connection *connection, uint8_t **room);

/* So many bytes were read into the room. */
void proxy_received(proxy_connection *connection, proxy_scratch *scratch, size_t count);

/* What is to be sent, and how many bytes that is. */
size_t proxy_pending(const proxy_connection *connection, const uint8_t **bytes);

/* So many of the pending bytes were sent. */
void proxy_sent(proxy_connection *connection, proxy_scratch *scratch, size_t count);

/* The status of the whole stream, once it ended and nothing is pending: 21 where it ended inside a frame, 25
 * where it ended inside a message and rules are there. */
uint8_t proxy_ended(const proxy_connection *connection);

#endif
