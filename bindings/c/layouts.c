/* The sizes of all structs, and where their members lie in them, as other languages declare them: the same on 32 bits. Nothing is
 * run; compiling it is the test. */
#include <feksroum_methods.h>

#define HAS(type, member, place) _Static_assert(offsetof(type, member) == (place), #type "." #member)
#define TAKES(type, size) _Static_assert(sizeof(type) == (size), #type)

TAKES(feksroum_mark, 16);
HAS(feksroum_mark, numbers, 0);

TAKES(feksroum_frame, 32);
HAS(feksroum_frame, used, 0);
HAS(feksroum_frame, needed, 8);
HAS(feksroum_frame, payload_length, 16);
HAS(feksroum_frame, payload_start, 24);
HAS(feksroum_frame, channel, 28);
HAS(feksroum_frame, type, 30);
HAS(feksroum_frame, status, 31);

TAKES(feksroum_payload, 16);
HAS(feksroum_payload, body_size, 0);
HAS(feksroum_payload, class_id, 8);
HAS(feksroum_payload, method_id, 10);
HAS(feksroum_payload, canonical, 12);
HAS(feksroum_payload, tidy, 13);
HAS(feksroum_payload, status, 14);
HAS(feksroum_payload, fields, 15);

TAKES(feksroum_node, 32);
HAS(feksroum_node, number, 0);
HAS(feksroum_node, start, 8);
HAS(feksroum_node, length, 12);
HAS(feksroum_node, key_start, 16);
HAS(feksroum_node, inside, 20);
HAS(feksroum_node, items, 24);
HAS(feksroum_node, key_length, 28);
HAS(feksroum_node, kind, 29);
HAS(feksroum_node, place, 30);
HAS(feksroum_node, scale, 31);

TAKES(feksroum_fields, 24);
HAS(feksroum_fields, body_size, 0);
HAS(feksroum_fields, nodes, 8);
HAS(feksroum_fields, class_id, 16);
HAS(feksroum_fields, method_id, 18);
HAS(feksroum_fields, canonical, 20);
HAS(feksroum_fields, tidy, 21);
HAS(feksroum_fields, status, 22);
HAS(feksroum_fields, unused, 23);

TAKES(feksroum_progress, 24);
HAS(feksroum_progress, used, 0);
HAS(feksroum_progress, written, 8);
HAS(feksroum_progress, status, 16);
HAS(feksroum_progress, unused, 20);

TAKES(feksroum_line, 24);
HAS(feksroum_line, used, 0);
HAS(feksroum_line, length, 8);
HAS(feksroum_line, status, 16);
HAS(feksroum_line, unused, 20);

TAKES(feksroum_head, 32);
HAS(feksroum_head, body_size, 0);
HAS(feksroum_head, start, 8);
HAS(feksroum_head, length, 12);
HAS(feksroum_head, first, 16);
HAS(feksroum_head, nodes, 20);
HAS(feksroum_head, channel, 24);
HAS(feksroum_head, class_id, 26);
HAS(feksroum_head, method_id, 28);
HAS(feksroum_head, type, 30);
HAS(feksroum_head, form, 31);

TAKES(feksroum_batch, 32);
HAS(feksroum_batch, used, 0);
HAS(feksroum_batch, needed, 8);
HAS(feksroum_batch, heads, 16);
HAS(feksroum_batch, nodes, 20);
HAS(feksroum_batch, status, 24);
HAS(feksroum_batch, unused, 28);

TAKES(feksroum_written, 24);
HAS(feksroum_written, length, 0);
HAS(feksroum_written, head, 8);
HAS(feksroum_written, node, 12);
HAS(feksroum_written, status, 16);
HAS(feksroum_written, unused, 20);

TAKES(feksroum_head, 32);
HAS(feksroum_head, body_size, 0);
HAS(feksroum_head, start, 8);
HAS(feksroum_head, length, 12);
HAS(feksroum_head, first, 16);
HAS(feksroum_head, nodes, 20);
HAS(feksroum_head, channel, 24);
HAS(feksroum_head, class_id, 26);
HAS(feksroum_head, method_id, 28);
HAS(feksroum_head, type, 30);
HAS(feksroum_head, form, 31);

TAKES(feksroum_batch, 32);
HAS(feksroum_batch, used, 0);
HAS(feksroum_batch, needed, 8);
HAS(feksroum_batch, heads, 16);
HAS(feksroum_batch, nodes, 20);
HAS(feksroum_batch, status, 24);
HAS(feksroum_batch, unused, 28);

TAKES(feksroum_written, 24);
HAS(feksroum_written, length, 0);
HAS(feksroum_written, head, 8);
HAS(feksroum_written, node, 12);
HAS(feksroum_written, status, 16);
HAS(feksroum_written, unused, 20);

TAKES(feksroum_method, 8);
HAS(feksroum_method, class_id, 0);
HAS(feksroum_method, method_id, 2);
HAS(feksroum_method, fields, 4);
HAS(feksroum_method, carries_content, 5);
HAS(feksroum_method, wants_answer, 6);
HAS(feksroum_method, status, 7);

TAKES(feksroum_channel, 24);
HAS(feksroum_channel, size, 0);
HAS(feksroum_channel, seen, 8);
HAS(feksroum_channel, state, 16);
HAS(feksroum_channel, unused, 20);

TAKES(feksroum_turn, 56);
HAS(feksroum_turn, after, 0);
HAS(feksroum_turn, before, 24);
HAS(feksroum_turn, up_to, 32);
HAS(feksroum_turn, size, 40);
HAS(feksroum_turn, part, 48);
HAS(feksroum_turn, finished, 49);
HAS(feksroum_turn, fault, 50);
HAS(feksroum_turn, status, 51);
HAS(feksroum_turn, unused, 52);

TAKES(feksroum_frame_rule, 14);
HAS(feksroum_frame_rule, first_channel, 0);
HAS(feksroum_frame_rule, last_channel, 2);
HAS(feksroum_frame_rule, class_id, 4);
HAS(feksroum_frame_rule, method_id, 6);
HAS(feksroum_frame_rule, keep, 8);
HAS(feksroum_frame_rule, has_channels, 9);
HAS(feksroum_frame_rule, type, 10);
HAS(feksroum_frame_rule, has_class, 11);
HAS(feksroum_frame_rule, has_method, 12);
HAS(feksroum_frame_rule, status, 13);

TAKES(feksroum_made, 16);
HAS(feksroum_made, length, 0);
HAS(feksroum_made, status, 8);
HAS(feksroum_made, unused, 12);

/* A pointer and a length, as the library takes a slice. */
TAKES(feksroum_bytes, 2 * sizeof(void *));
HAS(feksroum_bytes, bytes, 0);
HAS(feksroum_bytes, length, sizeof(void *));

TAKES(feksroum_basic_properties, 16 + 11 * sizeof(feksroum_bytes));
HAS(feksroum_basic_properties, set, 0);
HAS(feksroum_basic_properties, delivery_mode, 2);
HAS(feksroum_basic_properties, priority, 3);
HAS(feksroum_basic_properties, unused, 4);
HAS(feksroum_basic_properties, timestamp, 8);
HAS(feksroum_basic_properties, content_type, 16);
HAS(feksroum_basic_properties, content_encoding, 16 + sizeof(feksroum_bytes));
HAS(feksroum_basic_properties, headers, 16 + 2 * sizeof(feksroum_bytes));
HAS(feksroum_basic_properties, correlation_id, 16 + 3 * sizeof(feksroum_bytes));
HAS(feksroum_basic_properties, reply_to, 16 + 4 * sizeof(feksroum_bytes));
HAS(feksroum_basic_properties, expiration, 16 + 5 * sizeof(feksroum_bytes));
HAS(feksroum_basic_properties, message_id, 16 + 6 * sizeof(feksroum_bytes));
HAS(feksroum_basic_properties, type, 16 + 7 * sizeof(feksroum_bytes));
HAS(feksroum_basic_properties, user_id, 16 + 8 * sizeof(feksroum_bytes));
HAS(feksroum_basic_properties, app_id, 16 + 9 * sizeof(feksroum_bytes));
HAS(feksroum_basic_properties, cluster_id, 16 + 10 * sizeof(feksroum_bytes));
