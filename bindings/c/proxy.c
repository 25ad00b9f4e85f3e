#include "proxy.h"

#include <string.h>

void proxy_open(proxy_connection *connection, uint8_t level, proxy_messages *messages) {
    connection->held_count = 0;
    connection->out_start = 0;
    connection->out_end = 0;
    connection->messages = messages;
    connection->level = level;
    connection->status = FEKSROUM_OK;
}

/* Whether a frame that is whole is kept. Sets the status where it is at fault, or not in turn. */
static bool keeps(proxy_messages *messages, const feksroum_frame *frame, const uint8_t *bytes, uint8_t *status) {
    feksroum_payload payload = feksroum_check(frame->type, bytes + frame->payload_start, (size_t)frame->payload_length);
    if (payload.status != FEKSROUM_OK) {
        *status = payload.status;
        return false;
    }
    feksroum_channel *channel = &messages->channels[frame->channel];
    uint64_t size = frame->type == FEKSROUM_HEADER ? payload.body_size : frame->payload_length;
    feksroum_turn turn = feksroum_step(*channel, frame->type, payload.class_id, payload.method_id, size, UINT64_MAX);
    if (turn.status != FEKSROUM_OK) {
        *status = turn.status;
        return false;
    }
    *channel = turn.after;
    if (turn.part <= FEKSROUM_PART_OPENING) {
        bool kept = feksroum_decide(messages->rules, messages->rule_count, frame->type, frame->channel, payload.class_id,
                                    payload.method_id) == 1;
        if (turn.part == FEKSROUM_PART_OPENING) {
            messages->drops[frame->channel] = !kept;
            messages->open++;
        }
        return kept;
    }
    messages->open -= turn.finished;
    return messages->drops[frame->channel] == 0;
}

/* Moves the whole frames in front that rules keep together, and returns how many bytes these have. `used` says how many all of them
 * have. */
static size_t sift(proxy_connection *connection, size_t *used) {
    uint8_t *held = connection->held;
    size_t kept = 0;
    *used = 0;
    while (connection->status == FEKSROUM_OK) {
        feksroum_frame frame = feksroum_next(held + *used, connection->held_count - *used, PROXY_MAX_PAYLOAD);
        if (frame.status != FEKSROUM_OK) {
            connection->status = frame.status == FEKSROUM_CUT_SHORT ? FEKSROUM_OK : frame.status;
            break;
        }
        bool is_kept = keeps(connection->messages, &frame, held + *used, &connection->status);
        if (is_kept) {
            memmove(held + kept, held + *used, (size_t)frame.used);
            kept += (size_t)frame.used;
        }
        *used += connection->status == FEKSROUM_OK ? (size_t)frame.used : 0;
    }
    return kept;
}

/* Canonicalizes what is held, once nothing is pending: the whole output buffer is then free, and no shorter. */
static void pass_on(proxy_connection *connection, proxy_scratch *scratch) {
    if (connection->out_start < connection->out_end || connection->status != FEKSROUM_OK) {
        return;
    }
    size_t used = 0, length = connection->messages ? sift(connection, &used) : connection->held_count;
    feksroum_progress progress =
        feksroum_canonicalize(connection->held, length, connection->out, PROXY_SIZE, scratch->marks,
                              sizeof scratch->marks / sizeof *scratch->marks, PROXY_MAX_PAYLOAD, connection->level);
    connection->out_start = 0;
    connection->out_end = (size_t)progress.written;
    if (!connection->messages) {
        used = (size_t)progress.used;
    }
    connection->held_count -= used;
    memmove(connection->held, connection->held + used, connection->held_count);
    if (progress.status != FEKSROUM_OK && progress.status != FEKSROUM_CUT_SHORT) {
        connection->status = (uint8_t)progress.status;
    }
}

size_t proxy_room(proxy_connection *connection, uint8_t **room) {
    *room = connection->held + connection->held_count;
    return connection->status == FEKSROUM_OK ? PROXY_SIZE - connection->held_count : 0;
}

void proxy_received(proxy_connection *connection, proxy_scratch *scratch, size_t count) {
    connection->held_count += count;
    pass_on(connection, scratch);
}

size_t proxy_pending(const proxy_connection *connection, const uint8_t **bytes) {
    *bytes = connection->out + connection->out_start;
    return connection->out_end - connection->out_start;
}

void proxy_sent(proxy_connection *connection, proxy_scratch *scratch, size_t count) {
    connection->out_start += count;
    pass_on(connection, scratch);
}

uint8_t proxy_ended(const proxy_connection *connection) {
    if (connection->status == FEKSROUM_OK && connection->held_count > 0) {
        return FEKSROUM_CUT_SHORT;
    }
    if (connection->status == FEKSROUM_OK && connection->messages && connection->messages->open > 0) {
        return FEKSROUM_OPEN_CONTENT;
    }
    return connection->status;
}
