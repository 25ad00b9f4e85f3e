//! The calls that put methods, as `feksroum_methods.h` declares them.

// Made by `generate` out of the library's table. Change that, and not this file.

use super::Made;

extern "C" {
    pub fn feksroum_put_connection_start(
        channel: u16,
        version_major: u8,
        version_minor: u8,
        server_properties: *const u8,
        server_properties_length: usize,
        mechanisms: *const u8,
        mechanisms_length: usize,
        locales: *const u8,
        locales_length: usize,
        max_payload: u32,
        out: *mut u8,
        out_length: usize,
    ) -> Made;
    pub fn feksroum_put_connection_start_ok(
        channel: u16,
        client_properties: *const u8,
        client_properties_length: usize,
        mechanism: *const u8,
        mechanism_length: usize,
        response: *const u8,
        response_length: usize,
        locale: *const u8,
        locale_length: usize,
        max_payload: u32,
        out: *mut u8,
        out_length: usize,
    ) -> Made;
    pub fn feksroum_put_connection_secure(
        channel: u16,
        challenge: *const u8,
        challenge_length: usize,
        max_payload: u32,
        out: *mut u8,
        out_length: usize,
    ) -> Made;
    pub fn feksroum_put_connection_secure_ok(
        channel: u16,
        response: *const u8,
        response_length: usize,
        max_payload: u32,
        out: *mut u8,
        out_length: usize,
    ) -> Made;
    pub fn feksroum_put_connection_tune(
        channel: u16,
        channel_max: u16,
        frame_max: u32,
        heartbeat: u16,
        max_payload: u32,
        out: *mut u8,
        out_length: usize,
    ) -> Made;
    pub fn feksroum_put_connection_tune_ok(
        channel: u16,
        channel_max: u16,
        frame_max: u32,
        heartbeat: u16,
        max_payload: u32,
        out: *mut u8,
        out_length: usize,
    ) -> Made;
    pub fn feksroum_put_connection_open(
        channel: u16,
        virtual_host: *const u8,
        virtual_host_length: usize,
        max_payload: u32,
        out: *mut u8,
        out_length: usize,
    ) -> Made;
    pub fn feksroum_put_connection_open_ok(channel: u16, max_payload: u32, out: *mut u8, out_length: usize) -> Made;
    pub fn feksroum_put_connection_close(
        channel: u16,
        reply_code: u16,
        reply_text: *const u8,
        reply_text_length: usize,
        class_id: u16,
        method_id: u16,
        max_payload: u32,
        out: *mut u8,
        out_length: usize,
    ) -> Made;
    pub fn feksroum_put_connection_close_ok(channel: u16, max_payload: u32, out: *mut u8, out_length: usize) -> Made;
    pub fn feksroum_put_connection_blocked(
        channel: u16,
        reason: *const u8,
        reason_length: usize,
        max_payload: u32,
        out: *mut u8,
        out_length: usize,
    ) -> Made;
    pub fn feksroum_put_connection_unblocked(channel: u16, max_payload: u32, out: *mut u8, out_length: usize) -> Made;
    pub fn feksroum_put_connection_update_secret(
        channel: u16,
        new_secret: *const u8,
        new_secret_length: usize,
        reason: *const u8,
        reason_length: usize,
        max_payload: u32,
        out: *mut u8,
        out_length: usize,
    ) -> Made;
    pub fn feksroum_put_connection_update_secret_ok(channel: u16, max_payload: u32, out: *mut u8, out_length: usize) -> Made;
    pub fn feksroum_put_channel_open(channel: u16, max_payload: u32, out: *mut u8, out_length: usize) -> Made;
    pub fn feksroum_put_channel_open_ok(channel: u16, max_payload: u32, out: *mut u8, out_length: usize) -> Made;
    pub fn feksroum_put_channel_flow(channel: u16, active: bool, max_payload: u32, out: *mut u8, out_length: usize) -> Made;
    pub fn feksroum_put_channel_flow_ok(channel: u16, active: bool, max_payload: u32, out: *mut u8, out_length: usize) -> Made;
    pub fn feksroum_put_channel_close(
        channel: u16,
        reply_code: u16,
        reply_text: *const u8,
        reply_text_length: usize,
        class_id: u16,
        method_id: u16,
        max_payload: u32,
        out: *mut u8,
        out_length: usize,
    ) -> Made;
    pub fn feksroum_put_channel_close_ok(channel: u16, max_payload: u32, out: *mut u8, out_length: usize) -> Made;
    pub fn feksroum_put_access_request(
        channel: u16,
        realm: *const u8,
        realm_length: usize,
        exclusive: bool,
        passive: bool,
        active: bool,
        write: bool,
        read: bool,
        max_payload: u32,
        out: *mut u8,
        out_length: usize,
    ) -> Made;
    pub fn feksroum_put_access_request_ok(channel: u16, max_payload: u32, out: *mut u8, out_length: usize) -> Made;
    pub fn feksroum_put_exchange_declare(
        channel: u16,
        exchange: *const u8,
        exchange_length: usize,
        kind: *const u8,
        kind_length: usize,
        passive: bool,
        durable: bool,
        auto_delete: bool,
        internal: bool,
        no_wait: bool,
        arguments: *const u8,
        arguments_length: usize,
        max_payload: u32,
        out: *mut u8,
        out_length: usize,
    ) -> Made;
    pub fn feksroum_put_exchange_declare_ok(channel: u16, max_payload: u32, out: *mut u8, out_length: usize) -> Made;
    pub fn feksroum_put_exchange_delete(
        channel: u16,
        exchange: *const u8,
        exchange_length: usize,
        if_unused: bool,
        no_wait: bool,
        max_payload: u32,
        out: *mut u8,
        out_length: usize,
    ) -> Made;
    pub fn feksroum_put_exchange_delete_ok(channel: u16, max_payload: u32, out: *mut u8, out_length: usize) -> Made;
    pub fn feksroum_put_exchange_bind(
        channel: u16,
        destination: *const u8,
        destination_length: usize,
        source: *const u8,
        source_length: usize,
        routing_key: *const u8,
        routing_key_length: usize,
        no_wait: bool,
        arguments: *const u8,
        arguments_length: usize,
        max_payload: u32,
        out: *mut u8,
        out_length: usize,
    ) -> Made;
    pub fn feksroum_put_exchange_bind_ok(channel: u16, max_payload: u32, out: *mut u8, out_length: usize) -> Made;
    pub fn feksroum_put_exchange_unbind(
        channel: u16,
        destination: *const u8,
        destination_length: usize,
        source: *const u8,
        source_length: usize,
        routing_key: *const u8,
        routing_key_length: usize,
        no_wait: bool,
        arguments: *const u8,
        arguments_length: usize,
        max_payload: u32,
        out: *mut u8,
        out_length: usize,
    ) -> Made;
    pub fn feksroum_put_exchange_unbind_ok(channel: u16, max_payload: u32, out: *mut u8, out_length: usize) -> Made;
    pub fn feksroum_put_queue_declare(
        channel: u16,
        queue: *const u8,
        queue_length: usize,
        passive: bool,
        durable: bool,
        exclusive: bool,
        auto_delete: bool,
        no_wait: bool,
        arguments: *const u8,
        arguments_length: usize,
        max_payload: u32,
        out: *mut u8,
        out_length: usize,
    ) -> Made;
    pub fn feksroum_put_queue_declare_ok(
        channel: u16,
        queue: *const u8,
        queue_length: usize,
        message_count: u32,
        consumer_count: u32,
        max_payload: u32,
        out: *mut u8,
        out_length: usize,
    ) -> Made;
    pub fn feksroum_put_queue_bind(
        channel: u16,
        queue: *const u8,
        queue_length: usize,
        exchange: *const u8,
        exchange_length: usize,
        routing_key: *const u8,
        routing_key_length: usize,
        no_wait: bool,
        arguments: *const u8,
        arguments_length: usize,
        max_payload: u32,
        out: *mut u8,
        out_length: usize,
    ) -> Made;
    pub fn feksroum_put_queue_bind_ok(channel: u16, max_payload: u32, out: *mut u8, out_length: usize) -> Made;
    pub fn feksroum_put_queue_purge(
        channel: u16,
        queue: *const u8,
        queue_length: usize,
        no_wait: bool,
        max_payload: u32,
        out: *mut u8,
        out_length: usize,
    ) -> Made;
    pub fn feksroum_put_queue_purge_ok(channel: u16, message_count: u32, max_payload: u32, out: *mut u8, out_length: usize) -> Made;
    pub fn feksroum_put_queue_delete(
        channel: u16,
        queue: *const u8,
        queue_length: usize,
        if_unused: bool,
        if_empty: bool,
        no_wait: bool,
        max_payload: u32,
        out: *mut u8,
        out_length: usize,
    ) -> Made;
    pub fn feksroum_put_queue_delete_ok(channel: u16, message_count: u32, max_payload: u32, out: *mut u8, out_length: usize) -> Made;
    pub fn feksroum_put_queue_unbind(
        channel: u16,
        queue: *const u8,
        queue_length: usize,
        exchange: *const u8,
        exchange_length: usize,
        routing_key: *const u8,
        routing_key_length: usize,
        arguments: *const u8,
        arguments_length: usize,
        max_payload: u32,
        out: *mut u8,
        out_length: usize,
    ) -> Made;
    pub fn feksroum_put_queue_unbind_ok(channel: u16, max_payload: u32, out: *mut u8, out_length: usize) -> Made;
    pub fn feksroum_put_basic_qos(
        channel: u16,
        prefetch_count: u16,
        global: bool,
        max_payload: u32,
        out: *mut u8,
        out_length: usize,
    ) -> Made;
    pub fn feksroum_put_basic_qos_ok(channel: u16, max_payload: u32, out: *mut u8, out_length: usize) -> Made;
    pub fn feksroum_put_basic_consume(
        channel: u16,
        queue: *const u8,
        queue_length: usize,
        consumer_tag: *const u8,
        consumer_tag_length: usize,
        no_local: bool,
        no_ack: bool,
        exclusive: bool,
        no_wait: bool,
        arguments: *const u8,
        arguments_length: usize,
        max_payload: u32,
        out: *mut u8,
        out_length: usize,
    ) -> Made;
    pub fn feksroum_put_basic_consume_ok(
        channel: u16,
        consumer_tag: *const u8,
        consumer_tag_length: usize,
        max_payload: u32,
        out: *mut u8,
        out_length: usize,
    ) -> Made;
    pub fn feksroum_put_basic_cancel(
        channel: u16,
        consumer_tag: *const u8,
        consumer_tag_length: usize,
        no_wait: bool,
        max_payload: u32,
        out: *mut u8,
        out_length: usize,
    ) -> Made;
    pub fn feksroum_put_basic_cancel_ok(
        channel: u16,
        consumer_tag: *const u8,
        consumer_tag_length: usize,
        max_payload: u32,
        out: *mut u8,
        out_length: usize,
    ) -> Made;
    pub fn feksroum_put_basic_publish(
        channel: u16,
        exchange: *const u8,
        exchange_length: usize,
        routing_key: *const u8,
        routing_key_length: usize,
        mandatory: bool,
        immediate: bool,
        max_payload: u32,
        out: *mut u8,
        out_length: usize,
    ) -> Made;
    pub fn feksroum_put_basic_return(
        channel: u16,
        reply_code: u16,
        reply_text: *const u8,
        reply_text_length: usize,
        exchange: *const u8,
        exchange_length: usize,
        routing_key: *const u8,
        routing_key_length: usize,
        max_payload: u32,
        out: *mut u8,
        out_length: usize,
    ) -> Made;
    pub fn feksroum_put_basic_deliver(
        channel: u16,
        consumer_tag: *const u8,
        consumer_tag_length: usize,
        delivery_tag: u64,
        redelivered: bool,
        exchange: *const u8,
        exchange_length: usize,
        routing_key: *const u8,
        routing_key_length: usize,
        max_payload: u32,
        out: *mut u8,
        out_length: usize,
    ) -> Made;
    pub fn feksroum_put_basic_get(
        channel: u16,
        queue: *const u8,
        queue_length: usize,
        no_ack: bool,
        max_payload: u32,
        out: *mut u8,
        out_length: usize,
    ) -> Made;
    pub fn feksroum_put_basic_get_ok(
        channel: u16,
        delivery_tag: u64,
        redelivered: bool,
        exchange: *const u8,
        exchange_length: usize,
        routing_key: *const u8,
        routing_key_length: usize,
        message_count: u32,
        max_payload: u32,
        out: *mut u8,
        out_length: usize,
    ) -> Made;
    pub fn feksroum_put_basic_get_empty(channel: u16, max_payload: u32, out: *mut u8, out_length: usize) -> Made;
    pub fn feksroum_put_basic_ack(
        channel: u16,
        delivery_tag: u64,
        multiple: bool,
        max_payload: u32,
        out: *mut u8,
        out_length: usize,
    ) -> Made;
    pub fn feksroum_put_basic_reject(
        channel: u16,
        delivery_tag: u64,
        requeue: bool,
        max_payload: u32,
        out: *mut u8,
        out_length: usize,
    ) -> Made;
    pub fn feksroum_put_basic_recover_async(channel: u16, requeue: bool, max_payload: u32, out: *mut u8, out_length: usize) -> Made;
    pub fn feksroum_put_basic_recover(channel: u16, requeue: bool, max_payload: u32, out: *mut u8, out_length: usize) -> Made;
    pub fn feksroum_put_basic_recover_ok(channel: u16, max_payload: u32, out: *mut u8, out_length: usize) -> Made;
    pub fn feksroum_put_basic_nack(
        channel: u16,
        delivery_tag: u64,
        multiple: bool,
        requeue: bool,
        max_payload: u32,
        out: *mut u8,
        out_length: usize,
    ) -> Made;
    pub fn feksroum_put_confirm_select(channel: u16, nowait: bool, max_payload: u32, out: *mut u8, out_length: usize) -> Made;
    pub fn feksroum_put_confirm_select_ok(channel: u16, max_payload: u32, out: *mut u8, out_length: usize) -> Made;
    pub fn feksroum_put_tx_select(channel: u16, max_payload: u32, out: *mut u8, out_length: usize) -> Made;
    pub fn feksroum_put_tx_select_ok(channel: u16, max_payload: u32, out: *mut u8, out_length: usize) -> Made;
    pub fn feksroum_put_tx_commit(channel: u16, max_payload: u32, out: *mut u8, out_length: usize) -> Made;
    pub fn feksroum_put_tx_commit_ok(channel: u16, max_payload: u32, out: *mut u8, out_length: usize) -> Made;
    pub fn feksroum_put_tx_rollback(channel: u16, max_payload: u32, out: *mut u8, out_length: usize) -> Made;
    pub fn feksroum_put_tx_rollback_ok(channel: u16, max_payload: u32, out: *mut u8, out_length: usize) -> Made;
}
