//! The calls that put the frames of methods, out of their structs.

// Made by `generate` out of the library's table. Change that, and not this file.

use super::refused;
use crate::field::Listed;
use crate::method::{
    AccessRequest, AccessRequestOk, BasicAck, BasicCancel, BasicCancelOk, BasicConsume, BasicConsumeOk, BasicDeliver, BasicGet,
    BasicGetEmpty, BasicGetOk, BasicNack, BasicPublish, BasicQos, BasicQosOk, BasicRecover, BasicRecoverAsync, BasicRecoverOk, BasicReject,
    BasicReturn, ChannelClose, ChannelCloseOk, ChannelFlow, ChannelFlowOk, ChannelOpen, ChannelOpenOk, ConfirmSelect, ConfirmSelectOk,
    ConnectionBlocked, ConnectionClose, ConnectionCloseOk, ConnectionOpen, ConnectionOpenOk, ConnectionSecure, ConnectionSecureOk,
    ConnectionStart, ConnectionStartOk, ConnectionTune, ConnectionTuneOk, ConnectionUnblocked, ConnectionUpdateSecret,
    ConnectionUpdateSecretOk, ExchangeBind, ExchangeBindOk, ExchangeDeclare, ExchangeDeclareOk, ExchangeDelete, ExchangeDeleteOk,
    ExchangeUnbind, ExchangeUnbindOk, QueueBind, QueueBindOk, QueueDeclare, QueueDeclareOk, QueueDelete, QueueDeleteOk, QueuePurge,
    QueuePurgeOk, QueueUnbind, QueueUnbindOk, TxCommit, TxCommitOk, TxRollback, TxRollbackOk, TxSelect, TxSelectOk,
};
use crate::method_info::MethodInfo;
use crate::put::{Put, To};
use crate::sys::{self, Made};
use std::mem::MaybeUninit;

// SAFETY of each call: pointers and lengths are those of slices that live for the call, and `out` is borrowed mutably, so that it
// overlaps none of them. The library writes to `out` alone, and does not read what stands there before.

/// What fills a table, as it is handed to the library.
macro_rules! tables {
    ($table:expr) => {
        match $table.settled() {
            Ok(content) => content,
            Err(error) => return refused(error),
        }
    };
}

impl Put for ConnectionStart<'_> {
    #[inline]
    fn put(&self, to: To, out: &mut [MaybeUninit<u8>]) -> Made {
        let server_properties = tables!(self.server_properties);
        // SAFETY: as it is said above.
        unsafe {
            sys::puts::feksroum_put_connection_start(
                to.channel,
                self.version_major,
                self.version_minor,
                server_properties.as_ptr(),
                server_properties.len(),
                self.mechanisms.as_ptr(),
                self.mechanisms.len(),
                self.locales.as_ptr(),
                self.locales.len(),
                to.max_payload,
                out.as_mut_ptr().cast(),
                out.len(),
            )
        }
    }

    fn too_long(&self) -> Option<&'static str> {
        self.list().too_long(Self::FIELD_NAMES)
    }
}

impl Put for ConnectionStartOk<'_> {
    #[inline]
    fn put(&self, to: To, out: &mut [MaybeUninit<u8>]) -> Made {
        let client_properties = tables!(self.client_properties);
        // SAFETY: as it is said above.
        unsafe {
            sys::puts::feksroum_put_connection_start_ok(
                to.channel,
                client_properties.as_ptr(),
                client_properties.len(),
                self.mechanism.as_ptr(),
                self.mechanism.len(),
                self.response.as_ptr(),
                self.response.len(),
                self.locale.as_ptr(),
                self.locale.len(),
                to.max_payload,
                out.as_mut_ptr().cast(),
                out.len(),
            )
        }
    }

    fn too_long(&self) -> Option<&'static str> {
        self.list().too_long(Self::FIELD_NAMES)
    }
}

impl Put for ConnectionSecure<'_> {
    #[inline]
    fn put(&self, to: To, out: &mut [MaybeUninit<u8>]) -> Made {
        // SAFETY: as it is said above.
        unsafe {
            sys::puts::feksroum_put_connection_secure(
                to.channel,
                self.challenge.as_ptr(),
                self.challenge.len(),
                to.max_payload,
                out.as_mut_ptr().cast(),
                out.len(),
            )
        }
    }

    fn too_long(&self) -> Option<&'static str> {
        self.list().too_long(Self::FIELD_NAMES)
    }
}

impl Put for ConnectionSecureOk<'_> {
    #[inline]
    fn put(&self, to: To, out: &mut [MaybeUninit<u8>]) -> Made {
        // SAFETY: as it is said above.
        unsafe {
            sys::puts::feksroum_put_connection_secure_ok(
                to.channel,
                self.response.as_ptr(),
                self.response.len(),
                to.max_payload,
                out.as_mut_ptr().cast(),
                out.len(),
            )
        }
    }

    fn too_long(&self) -> Option<&'static str> {
        self.list().too_long(Self::FIELD_NAMES)
    }
}

impl Put for ConnectionTune {
    #[inline]
    fn put(&self, to: To, out: &mut [MaybeUninit<u8>]) -> Made {
        // SAFETY: as it is said above.
        unsafe {
            sys::puts::feksroum_put_connection_tune(
                to.channel,
                self.channel_max,
                self.frame_max,
                self.heartbeat,
                to.max_payload,
                out.as_mut_ptr().cast(),
                out.len(),
            )
        }
    }

    fn too_long(&self) -> Option<&'static str> {
        self.list().too_long(Self::FIELD_NAMES)
    }
}

impl Put for ConnectionTuneOk {
    #[inline]
    fn put(&self, to: To, out: &mut [MaybeUninit<u8>]) -> Made {
        // SAFETY: as it is said above.
        unsafe {
            sys::puts::feksroum_put_connection_tune_ok(
                to.channel,
                self.channel_max,
                self.frame_max,
                self.heartbeat,
                to.max_payload,
                out.as_mut_ptr().cast(),
                out.len(),
            )
        }
    }

    fn too_long(&self) -> Option<&'static str> {
        self.list().too_long(Self::FIELD_NAMES)
    }
}

impl Put for ConnectionOpen<'_> {
    #[inline]
    fn put(&self, to: To, out: &mut [MaybeUninit<u8>]) -> Made {
        // SAFETY: as it is said above.
        unsafe {
            sys::puts::feksroum_put_connection_open(
                to.channel,
                self.virtual_host.as_ptr(),
                self.virtual_host.len(),
                to.max_payload,
                out.as_mut_ptr().cast(),
                out.len(),
            )
        }
    }

    fn too_long(&self) -> Option<&'static str> {
        self.list().too_long(Self::FIELD_NAMES)
    }
}

impl Put for ConnectionOpenOk {
    #[inline]
    fn put(&self, to: To, out: &mut [MaybeUninit<u8>]) -> Made {
        // SAFETY: as it is said above.
        unsafe { sys::puts::feksroum_put_connection_open_ok(to.channel, to.max_payload, out.as_mut_ptr().cast(), out.len()) }
    }

    fn too_long(&self) -> Option<&'static str> {
        self.list().too_long(Self::FIELD_NAMES)
    }
}

impl Put for ConnectionClose<'_> {
    #[inline]
    fn put(&self, to: To, out: &mut [MaybeUninit<u8>]) -> Made {
        // SAFETY: as it is said above.
        unsafe {
            sys::puts::feksroum_put_connection_close(
                to.channel,
                self.reply_code,
                self.reply_text.as_ptr(),
                self.reply_text.len(),
                self.class_id,
                self.method_id,
                to.max_payload,
                out.as_mut_ptr().cast(),
                out.len(),
            )
        }
    }

    fn too_long(&self) -> Option<&'static str> {
        self.list().too_long(Self::FIELD_NAMES)
    }
}

impl Put for ConnectionCloseOk {
    #[inline]
    fn put(&self, to: To, out: &mut [MaybeUninit<u8>]) -> Made {
        // SAFETY: as it is said above.
        unsafe { sys::puts::feksroum_put_connection_close_ok(to.channel, to.max_payload, out.as_mut_ptr().cast(), out.len()) }
    }

    fn too_long(&self) -> Option<&'static str> {
        self.list().too_long(Self::FIELD_NAMES)
    }
}

impl Put for ConnectionBlocked<'_> {
    #[inline]
    fn put(&self, to: To, out: &mut [MaybeUninit<u8>]) -> Made {
        // SAFETY: as it is said above.
        unsafe {
            sys::puts::feksroum_put_connection_blocked(
                to.channel,
                self.reason.as_ptr(),
                self.reason.len(),
                to.max_payload,
                out.as_mut_ptr().cast(),
                out.len(),
            )
        }
    }

    fn too_long(&self) -> Option<&'static str> {
        self.list().too_long(Self::FIELD_NAMES)
    }
}

impl Put for ConnectionUnblocked {
    #[inline]
    fn put(&self, to: To, out: &mut [MaybeUninit<u8>]) -> Made {
        // SAFETY: as it is said above.
        unsafe { sys::puts::feksroum_put_connection_unblocked(to.channel, to.max_payload, out.as_mut_ptr().cast(), out.len()) }
    }

    fn too_long(&self) -> Option<&'static str> {
        self.list().too_long(Self::FIELD_NAMES)
    }
}

impl Put for ConnectionUpdateSecret<'_> {
    #[inline]
    fn put(&self, to: To, out: &mut [MaybeUninit<u8>]) -> Made {
        // SAFETY: as it is said above.
        unsafe {
            sys::puts::feksroum_put_connection_update_secret(
                to.channel,
                self.new_secret.as_ptr(),
                self.new_secret.len(),
                self.reason.as_ptr(),
                self.reason.len(),
                to.max_payload,
                out.as_mut_ptr().cast(),
                out.len(),
            )
        }
    }

    fn too_long(&self) -> Option<&'static str> {
        self.list().too_long(Self::FIELD_NAMES)
    }
}

impl Put for ConnectionUpdateSecretOk {
    #[inline]
    fn put(&self, to: To, out: &mut [MaybeUninit<u8>]) -> Made {
        // SAFETY: as it is said above.
        unsafe { sys::puts::feksroum_put_connection_update_secret_ok(to.channel, to.max_payload, out.as_mut_ptr().cast(), out.len()) }
    }

    fn too_long(&self) -> Option<&'static str> {
        self.list().too_long(Self::FIELD_NAMES)
    }
}

impl Put for ChannelOpen {
    #[inline]
    fn put(&self, to: To, out: &mut [MaybeUninit<u8>]) -> Made {
        // SAFETY: as it is said above.
        unsafe { sys::puts::feksroum_put_channel_open(to.channel, to.max_payload, out.as_mut_ptr().cast(), out.len()) }
    }

    fn too_long(&self) -> Option<&'static str> {
        self.list().too_long(Self::FIELD_NAMES)
    }
}

impl Put for ChannelOpenOk {
    #[inline]
    fn put(&self, to: To, out: &mut [MaybeUninit<u8>]) -> Made {
        // SAFETY: as it is said above.
        unsafe { sys::puts::feksroum_put_channel_open_ok(to.channel, to.max_payload, out.as_mut_ptr().cast(), out.len()) }
    }

    fn too_long(&self) -> Option<&'static str> {
        self.list().too_long(Self::FIELD_NAMES)
    }
}

impl Put for ChannelFlow {
    #[inline]
    fn put(&self, to: To, out: &mut [MaybeUninit<u8>]) -> Made {
        // SAFETY: as it is said above.
        unsafe { sys::puts::feksroum_put_channel_flow(to.channel, self.active, to.max_payload, out.as_mut_ptr().cast(), out.len()) }
    }

    fn too_long(&self) -> Option<&'static str> {
        self.list().too_long(Self::FIELD_NAMES)
    }
}

impl Put for ChannelFlowOk {
    #[inline]
    fn put(&self, to: To, out: &mut [MaybeUninit<u8>]) -> Made {
        // SAFETY: as it is said above.
        unsafe { sys::puts::feksroum_put_channel_flow_ok(to.channel, self.active, to.max_payload, out.as_mut_ptr().cast(), out.len()) }
    }

    fn too_long(&self) -> Option<&'static str> {
        self.list().too_long(Self::FIELD_NAMES)
    }
}

impl Put for ChannelClose<'_> {
    #[inline]
    fn put(&self, to: To, out: &mut [MaybeUninit<u8>]) -> Made {
        // SAFETY: as it is said above.
        unsafe {
            sys::puts::feksroum_put_channel_close(
                to.channel,
                self.reply_code,
                self.reply_text.as_ptr(),
                self.reply_text.len(),
                self.class_id,
                self.method_id,
                to.max_payload,
                out.as_mut_ptr().cast(),
                out.len(),
            )
        }
    }

    fn too_long(&self) -> Option<&'static str> {
        self.list().too_long(Self::FIELD_NAMES)
    }
}

impl Put for ChannelCloseOk {
    #[inline]
    fn put(&self, to: To, out: &mut [MaybeUninit<u8>]) -> Made {
        // SAFETY: as it is said above.
        unsafe { sys::puts::feksroum_put_channel_close_ok(to.channel, to.max_payload, out.as_mut_ptr().cast(), out.len()) }
    }

    fn too_long(&self) -> Option<&'static str> {
        self.list().too_long(Self::FIELD_NAMES)
    }
}

impl Put for AccessRequest<'_> {
    #[inline]
    fn put(&self, to: To, out: &mut [MaybeUninit<u8>]) -> Made {
        // SAFETY: as it is said above.
        unsafe {
            sys::puts::feksroum_put_access_request(
                to.channel,
                self.realm.as_ptr(),
                self.realm.len(),
                self.exclusive,
                self.passive,
                self.active,
                self.write,
                self.read,
                to.max_payload,
                out.as_mut_ptr().cast(),
                out.len(),
            )
        }
    }

    fn too_long(&self) -> Option<&'static str> {
        self.list().too_long(Self::FIELD_NAMES)
    }
}

impl Put for AccessRequestOk {
    #[inline]
    fn put(&self, to: To, out: &mut [MaybeUninit<u8>]) -> Made {
        // SAFETY: as it is said above.
        unsafe { sys::puts::feksroum_put_access_request_ok(to.channel, to.max_payload, out.as_mut_ptr().cast(), out.len()) }
    }

    fn too_long(&self) -> Option<&'static str> {
        self.list().too_long(Self::FIELD_NAMES)
    }
}

impl Put for ExchangeDeclare<'_> {
    #[inline]
    fn put(&self, to: To, out: &mut [MaybeUninit<u8>]) -> Made {
        let arguments = tables!(self.arguments);
        // SAFETY: as it is said above.
        unsafe {
            sys::puts::feksroum_put_exchange_declare(
                to.channel,
                self.exchange.as_ptr(),
                self.exchange.len(),
                self.kind.as_ptr(),
                self.kind.len(),
                self.passive,
                self.durable,
                self.auto_delete,
                self.internal,
                self.no_wait,
                arguments.as_ptr(),
                arguments.len(),
                to.max_payload,
                out.as_mut_ptr().cast(),
                out.len(),
            )
        }
    }

    fn too_long(&self) -> Option<&'static str> {
        self.list().too_long(Self::FIELD_NAMES)
    }
}

impl Put for ExchangeDeclareOk {
    #[inline]
    fn put(&self, to: To, out: &mut [MaybeUninit<u8>]) -> Made {
        // SAFETY: as it is said above.
        unsafe { sys::puts::feksroum_put_exchange_declare_ok(to.channel, to.max_payload, out.as_mut_ptr().cast(), out.len()) }
    }

    fn too_long(&self) -> Option<&'static str> {
        self.list().too_long(Self::FIELD_NAMES)
    }
}

impl Put for ExchangeDelete<'_> {
    #[inline]
    fn put(&self, to: To, out: &mut [MaybeUninit<u8>]) -> Made {
        // SAFETY: as it is said above.
        unsafe {
            sys::puts::feksroum_put_exchange_delete(
                to.channel,
                self.exchange.as_ptr(),
                self.exchange.len(),
                self.if_unused,
                self.no_wait,
                to.max_payload,
                out.as_mut_ptr().cast(),
                out.len(),
            )
        }
    }

    fn too_long(&self) -> Option<&'static str> {
        self.list().too_long(Self::FIELD_NAMES)
    }
}

impl Put for ExchangeDeleteOk {
    #[inline]
    fn put(&self, to: To, out: &mut [MaybeUninit<u8>]) -> Made {
        // SAFETY: as it is said above.
        unsafe { sys::puts::feksroum_put_exchange_delete_ok(to.channel, to.max_payload, out.as_mut_ptr().cast(), out.len()) }
    }

    fn too_long(&self) -> Option<&'static str> {
        self.list().too_long(Self::FIELD_NAMES)
    }
}

impl Put for ExchangeBind<'_> {
    #[inline]
    fn put(&self, to: To, out: &mut [MaybeUninit<u8>]) -> Made {
        let arguments = tables!(self.arguments);
        // SAFETY: as it is said above.
        unsafe {
            sys::puts::feksroum_put_exchange_bind(
                to.channel,
                self.destination.as_ptr(),
                self.destination.len(),
                self.source.as_ptr(),
                self.source.len(),
                self.routing_key.as_ptr(),
                self.routing_key.len(),
                self.no_wait,
                arguments.as_ptr(),
                arguments.len(),
                to.max_payload,
                out.as_mut_ptr().cast(),
                out.len(),
            )
        }
    }

    fn too_long(&self) -> Option<&'static str> {
        self.list().too_long(Self::FIELD_NAMES)
    }
}

impl Put for ExchangeBindOk {
    #[inline]
    fn put(&self, to: To, out: &mut [MaybeUninit<u8>]) -> Made {
        // SAFETY: as it is said above.
        unsafe { sys::puts::feksroum_put_exchange_bind_ok(to.channel, to.max_payload, out.as_mut_ptr().cast(), out.len()) }
    }

    fn too_long(&self) -> Option<&'static str> {
        self.list().too_long(Self::FIELD_NAMES)
    }
}

impl Put for ExchangeUnbind<'_> {
    #[inline]
    fn put(&self, to: To, out: &mut [MaybeUninit<u8>]) -> Made {
        let arguments = tables!(self.arguments);
        // SAFETY: as it is said above.
        unsafe {
            sys::puts::feksroum_put_exchange_unbind(
                to.channel,
                self.destination.as_ptr(),
                self.destination.len(),
                self.source.as_ptr(),
                self.source.len(),
                self.routing_key.as_ptr(),
                self.routing_key.len(),
                self.no_wait,
                arguments.as_ptr(),
                arguments.len(),
                to.max_payload,
                out.as_mut_ptr().cast(),
                out.len(),
            )
        }
    }

    fn too_long(&self) -> Option<&'static str> {
        self.list().too_long(Self::FIELD_NAMES)
    }
}

impl Put for ExchangeUnbindOk {
    #[inline]
    fn put(&self, to: To, out: &mut [MaybeUninit<u8>]) -> Made {
        // SAFETY: as it is said above.
        unsafe { sys::puts::feksroum_put_exchange_unbind_ok(to.channel, to.max_payload, out.as_mut_ptr().cast(), out.len()) }
    }

    fn too_long(&self) -> Option<&'static str> {
        self.list().too_long(Self::FIELD_NAMES)
    }
}

impl Put for QueueDeclare<'_> {
    #[inline]
    fn put(&self, to: To, out: &mut [MaybeUninit<u8>]) -> Made {
        let arguments = tables!(self.arguments);
        // SAFETY: as it is said above.
        unsafe {
            sys::puts::feksroum_put_queue_declare(
                to.channel,
                self.queue.as_ptr(),
                self.queue.len(),
                self.passive,
                self.durable,
                self.exclusive,
                self.auto_delete,
                self.no_wait,
                arguments.as_ptr(),
                arguments.len(),
                to.max_payload,
                out.as_mut_ptr().cast(),
                out.len(),
            )
        }
    }

    fn too_long(&self) -> Option<&'static str> {
        self.list().too_long(Self::FIELD_NAMES)
    }
}

impl Put for QueueDeclareOk<'_> {
    #[inline]
    fn put(&self, to: To, out: &mut [MaybeUninit<u8>]) -> Made {
        // SAFETY: as it is said above.
        unsafe {
            sys::puts::feksroum_put_queue_declare_ok(
                to.channel,
                self.queue.as_ptr(),
                self.queue.len(),
                self.message_count,
                self.consumer_count,
                to.max_payload,
                out.as_mut_ptr().cast(),
                out.len(),
            )
        }
    }

    fn too_long(&self) -> Option<&'static str> {
        self.list().too_long(Self::FIELD_NAMES)
    }
}

impl Put for QueueBind<'_> {
    #[inline]
    fn put(&self, to: To, out: &mut [MaybeUninit<u8>]) -> Made {
        let arguments = tables!(self.arguments);
        // SAFETY: as it is said above.
        unsafe {
            sys::puts::feksroum_put_queue_bind(
                to.channel,
                self.queue.as_ptr(),
                self.queue.len(),
                self.exchange.as_ptr(),
                self.exchange.len(),
                self.routing_key.as_ptr(),
                self.routing_key.len(),
                self.no_wait,
                arguments.as_ptr(),
                arguments.len(),
                to.max_payload,
                out.as_mut_ptr().cast(),
                out.len(),
            )
        }
    }

    fn too_long(&self) -> Option<&'static str> {
        self.list().too_long(Self::FIELD_NAMES)
    }
}

impl Put for QueueBindOk {
    #[inline]
    fn put(&self, to: To, out: &mut [MaybeUninit<u8>]) -> Made {
        // SAFETY: as it is said above.
        unsafe { sys::puts::feksroum_put_queue_bind_ok(to.channel, to.max_payload, out.as_mut_ptr().cast(), out.len()) }
    }

    fn too_long(&self) -> Option<&'static str> {
        self.list().too_long(Self::FIELD_NAMES)
    }
}

impl Put for QueuePurge<'_> {
    #[inline]
    fn put(&self, to: To, out: &mut [MaybeUninit<u8>]) -> Made {
        // SAFETY: as it is said above.
        unsafe {
            sys::puts::feksroum_put_queue_purge(
                to.channel,
                self.queue.as_ptr(),
                self.queue.len(),
                self.no_wait,
                to.max_payload,
                out.as_mut_ptr().cast(),
                out.len(),
            )
        }
    }

    fn too_long(&self) -> Option<&'static str> {
        self.list().too_long(Self::FIELD_NAMES)
    }
}

impl Put for QueuePurgeOk {
    #[inline]
    fn put(&self, to: To, out: &mut [MaybeUninit<u8>]) -> Made {
        // SAFETY: as it is said above.
        unsafe {
            sys::puts::feksroum_put_queue_purge_ok(to.channel, self.message_count, to.max_payload, out.as_mut_ptr().cast(), out.len())
        }
    }

    fn too_long(&self) -> Option<&'static str> {
        self.list().too_long(Self::FIELD_NAMES)
    }
}

impl Put for QueueDelete<'_> {
    #[inline]
    fn put(&self, to: To, out: &mut [MaybeUninit<u8>]) -> Made {
        // SAFETY: as it is said above.
        unsafe {
            sys::puts::feksroum_put_queue_delete(
                to.channel,
                self.queue.as_ptr(),
                self.queue.len(),
                self.if_unused,
                self.if_empty,
                self.no_wait,
                to.max_payload,
                out.as_mut_ptr().cast(),
                out.len(),
            )
        }
    }

    fn too_long(&self) -> Option<&'static str> {
        self.list().too_long(Self::FIELD_NAMES)
    }
}

impl Put for QueueDeleteOk {
    #[inline]
    fn put(&self, to: To, out: &mut [MaybeUninit<u8>]) -> Made {
        // SAFETY: as it is said above.
        unsafe {
            sys::puts::feksroum_put_queue_delete_ok(to.channel, self.message_count, to.max_payload, out.as_mut_ptr().cast(), out.len())
        }
    }

    fn too_long(&self) -> Option<&'static str> {
        self.list().too_long(Self::FIELD_NAMES)
    }
}

impl Put for QueueUnbind<'_> {
    #[inline]
    fn put(&self, to: To, out: &mut [MaybeUninit<u8>]) -> Made {
        let arguments = tables!(self.arguments);
        // SAFETY: as it is said above.
        unsafe {
            sys::puts::feksroum_put_queue_unbind(
                to.channel,
                self.queue.as_ptr(),
                self.queue.len(),
                self.exchange.as_ptr(),
                self.exchange.len(),
                self.routing_key.as_ptr(),
                self.routing_key.len(),
                arguments.as_ptr(),
                arguments.len(),
                to.max_payload,
                out.as_mut_ptr().cast(),
                out.len(),
            )
        }
    }

    fn too_long(&self) -> Option<&'static str> {
        self.list().too_long(Self::FIELD_NAMES)
    }
}

impl Put for QueueUnbindOk {
    #[inline]
    fn put(&self, to: To, out: &mut [MaybeUninit<u8>]) -> Made {
        // SAFETY: as it is said above.
        unsafe { sys::puts::feksroum_put_queue_unbind_ok(to.channel, to.max_payload, out.as_mut_ptr().cast(), out.len()) }
    }

    fn too_long(&self) -> Option<&'static str> {
        self.list().too_long(Self::FIELD_NAMES)
    }
}

impl Put for BasicQos {
    #[inline]
    fn put(&self, to: To, out: &mut [MaybeUninit<u8>]) -> Made {
        // SAFETY: as it is said above.
        unsafe {
            sys::puts::feksroum_put_basic_qos(
                to.channel,
                self.prefetch_count,
                self.global,
                to.max_payload,
                out.as_mut_ptr().cast(),
                out.len(),
            )
        }
    }

    fn too_long(&self) -> Option<&'static str> {
        self.list().too_long(Self::FIELD_NAMES)
    }
}

impl Put for BasicQosOk {
    #[inline]
    fn put(&self, to: To, out: &mut [MaybeUninit<u8>]) -> Made {
        // SAFETY: as it is said above.
        unsafe { sys::puts::feksroum_put_basic_qos_ok(to.channel, to.max_payload, out.as_mut_ptr().cast(), out.len()) }
    }

    fn too_long(&self) -> Option<&'static str> {
        self.list().too_long(Self::FIELD_NAMES)
    }
}

impl Put for BasicConsume<'_> {
    #[inline]
    fn put(&self, to: To, out: &mut [MaybeUninit<u8>]) -> Made {
        let arguments = tables!(self.arguments);
        // SAFETY: as it is said above.
        unsafe {
            sys::puts::feksroum_put_basic_consume(
                to.channel,
                self.queue.as_ptr(),
                self.queue.len(),
                self.consumer_tag.as_ptr(),
                self.consumer_tag.len(),
                self.no_local,
                self.no_ack,
                self.exclusive,
                self.no_wait,
                arguments.as_ptr(),
                arguments.len(),
                to.max_payload,
                out.as_mut_ptr().cast(),
                out.len(),
            )
        }
    }

    fn too_long(&self) -> Option<&'static str> {
        self.list().too_long(Self::FIELD_NAMES)
    }
}

impl Put for BasicConsumeOk<'_> {
    #[inline]
    fn put(&self, to: To, out: &mut [MaybeUninit<u8>]) -> Made {
        // SAFETY: as it is said above.
        unsafe {
            sys::puts::feksroum_put_basic_consume_ok(
                to.channel,
                self.consumer_tag.as_ptr(),
                self.consumer_tag.len(),
                to.max_payload,
                out.as_mut_ptr().cast(),
                out.len(),
            )
        }
    }

    fn too_long(&self) -> Option<&'static str> {
        self.list().too_long(Self::FIELD_NAMES)
    }
}

impl Put for BasicCancel<'_> {
    #[inline]
    fn put(&self, to: To, out: &mut [MaybeUninit<u8>]) -> Made {
        // SAFETY: as it is said above.
        unsafe {
            sys::puts::feksroum_put_basic_cancel(
                to.channel,
                self.consumer_tag.as_ptr(),
                self.consumer_tag.len(),
                self.no_wait,
                to.max_payload,
                out.as_mut_ptr().cast(),
                out.len(),
            )
        }
    }

    fn too_long(&self) -> Option<&'static str> {
        self.list().too_long(Self::FIELD_NAMES)
    }
}

impl Put for BasicCancelOk<'_> {
    #[inline]
    fn put(&self, to: To, out: &mut [MaybeUninit<u8>]) -> Made {
        // SAFETY: as it is said above.
        unsafe {
            sys::puts::feksroum_put_basic_cancel_ok(
                to.channel,
                self.consumer_tag.as_ptr(),
                self.consumer_tag.len(),
                to.max_payload,
                out.as_mut_ptr().cast(),
                out.len(),
            )
        }
    }

    fn too_long(&self) -> Option<&'static str> {
        self.list().too_long(Self::FIELD_NAMES)
    }
}

impl Put for BasicPublish<'_> {
    #[inline]
    fn put(&self, to: To, out: &mut [MaybeUninit<u8>]) -> Made {
        // SAFETY: as it is said above.
        unsafe {
            sys::puts::feksroum_put_basic_publish(
                to.channel,
                self.exchange.as_ptr(),
                self.exchange.len(),
                self.routing_key.as_ptr(),
                self.routing_key.len(),
                self.mandatory,
                self.immediate,
                to.max_payload,
                out.as_mut_ptr().cast(),
                out.len(),
            )
        }
    }

    fn too_long(&self) -> Option<&'static str> {
        self.list().too_long(Self::FIELD_NAMES)
    }
}

impl Put for BasicReturn<'_> {
    #[inline]
    fn put(&self, to: To, out: &mut [MaybeUninit<u8>]) -> Made {
        // SAFETY: as it is said above.
        unsafe {
            sys::puts::feksroum_put_basic_return(
                to.channel,
                self.reply_code,
                self.reply_text.as_ptr(),
                self.reply_text.len(),
                self.exchange.as_ptr(),
                self.exchange.len(),
                self.routing_key.as_ptr(),
                self.routing_key.len(),
                to.max_payload,
                out.as_mut_ptr().cast(),
                out.len(),
            )
        }
    }

    fn too_long(&self) -> Option<&'static str> {
        self.list().too_long(Self::FIELD_NAMES)
    }
}

impl Put for BasicDeliver<'_> {
    #[inline]
    fn put(&self, to: To, out: &mut [MaybeUninit<u8>]) -> Made {
        // SAFETY: as it is said above.
        unsafe {
            sys::puts::feksroum_put_basic_deliver(
                to.channel,
                self.consumer_tag.as_ptr(),
                self.consumer_tag.len(),
                self.delivery_tag,
                self.redelivered,
                self.exchange.as_ptr(),
                self.exchange.len(),
                self.routing_key.as_ptr(),
                self.routing_key.len(),
                to.max_payload,
                out.as_mut_ptr().cast(),
                out.len(),
            )
        }
    }

    fn too_long(&self) -> Option<&'static str> {
        self.list().too_long(Self::FIELD_NAMES)
    }
}

impl Put for BasicGet<'_> {
    #[inline]
    fn put(&self, to: To, out: &mut [MaybeUninit<u8>]) -> Made {
        // SAFETY: as it is said above.
        unsafe {
            sys::puts::feksroum_put_basic_get(
                to.channel,
                self.queue.as_ptr(),
                self.queue.len(),
                self.no_ack,
                to.max_payload,
                out.as_mut_ptr().cast(),
                out.len(),
            )
        }
    }

    fn too_long(&self) -> Option<&'static str> {
        self.list().too_long(Self::FIELD_NAMES)
    }
}

impl Put for BasicGetOk<'_> {
    #[inline]
    fn put(&self, to: To, out: &mut [MaybeUninit<u8>]) -> Made {
        // SAFETY: as it is said above.
        unsafe {
            sys::puts::feksroum_put_basic_get_ok(
                to.channel,
                self.delivery_tag,
                self.redelivered,
                self.exchange.as_ptr(),
                self.exchange.len(),
                self.routing_key.as_ptr(),
                self.routing_key.len(),
                self.message_count,
                to.max_payload,
                out.as_mut_ptr().cast(),
                out.len(),
            )
        }
    }

    fn too_long(&self) -> Option<&'static str> {
        self.list().too_long(Self::FIELD_NAMES)
    }
}

impl Put for BasicGetEmpty {
    #[inline]
    fn put(&self, to: To, out: &mut [MaybeUninit<u8>]) -> Made {
        // SAFETY: as it is said above.
        unsafe { sys::puts::feksroum_put_basic_get_empty(to.channel, to.max_payload, out.as_mut_ptr().cast(), out.len()) }
    }

    fn too_long(&self) -> Option<&'static str> {
        self.list().too_long(Self::FIELD_NAMES)
    }
}

impl Put for BasicAck {
    #[inline]
    fn put(&self, to: To, out: &mut [MaybeUninit<u8>]) -> Made {
        // SAFETY: as it is said above.
        unsafe {
            sys::puts::feksroum_put_basic_ack(
                to.channel,
                self.delivery_tag,
                self.multiple,
                to.max_payload,
                out.as_mut_ptr().cast(),
                out.len(),
            )
        }
    }

    fn too_long(&self) -> Option<&'static str> {
        self.list().too_long(Self::FIELD_NAMES)
    }
}

impl Put for BasicReject {
    #[inline]
    fn put(&self, to: To, out: &mut [MaybeUninit<u8>]) -> Made {
        // SAFETY: as it is said above.
        unsafe {
            sys::puts::feksroum_put_basic_reject(
                to.channel,
                self.delivery_tag,
                self.requeue,
                to.max_payload,
                out.as_mut_ptr().cast(),
                out.len(),
            )
        }
    }

    fn too_long(&self) -> Option<&'static str> {
        self.list().too_long(Self::FIELD_NAMES)
    }
}

impl Put for BasicRecoverAsync {
    #[inline]
    fn put(&self, to: To, out: &mut [MaybeUninit<u8>]) -> Made {
        // SAFETY: as it is said above.
        unsafe { sys::puts::feksroum_put_basic_recover_async(to.channel, self.requeue, to.max_payload, out.as_mut_ptr().cast(), out.len()) }
    }

    fn too_long(&self) -> Option<&'static str> {
        self.list().too_long(Self::FIELD_NAMES)
    }
}

impl Put for BasicRecover {
    #[inline]
    fn put(&self, to: To, out: &mut [MaybeUninit<u8>]) -> Made {
        // SAFETY: as it is said above.
        unsafe { sys::puts::feksroum_put_basic_recover(to.channel, self.requeue, to.max_payload, out.as_mut_ptr().cast(), out.len()) }
    }

    fn too_long(&self) -> Option<&'static str> {
        self.list().too_long(Self::FIELD_NAMES)
    }
}

impl Put for BasicRecoverOk {
    #[inline]
    fn put(&self, to: To, out: &mut [MaybeUninit<u8>]) -> Made {
        // SAFETY: as it is said above.
        unsafe { sys::puts::feksroum_put_basic_recover_ok(to.channel, to.max_payload, out.as_mut_ptr().cast(), out.len()) }
    }

    fn too_long(&self) -> Option<&'static str> {
        self.list().too_long(Self::FIELD_NAMES)
    }
}

impl Put for BasicNack {
    #[inline]
    fn put(&self, to: To, out: &mut [MaybeUninit<u8>]) -> Made {
        // SAFETY: as it is said above.
        unsafe {
            sys::puts::feksroum_put_basic_nack(
                to.channel,
                self.delivery_tag,
                self.multiple,
                self.requeue,
                to.max_payload,
                out.as_mut_ptr().cast(),
                out.len(),
            )
        }
    }

    fn too_long(&self) -> Option<&'static str> {
        self.list().too_long(Self::FIELD_NAMES)
    }
}

impl Put for ConfirmSelect {
    #[inline]
    fn put(&self, to: To, out: &mut [MaybeUninit<u8>]) -> Made {
        // SAFETY: as it is said above.
        unsafe { sys::puts::feksroum_put_confirm_select(to.channel, self.nowait, to.max_payload, out.as_mut_ptr().cast(), out.len()) }
    }

    fn too_long(&self) -> Option<&'static str> {
        self.list().too_long(Self::FIELD_NAMES)
    }
}

impl Put for ConfirmSelectOk {
    #[inline]
    fn put(&self, to: To, out: &mut [MaybeUninit<u8>]) -> Made {
        // SAFETY: as it is said above.
        unsafe { sys::puts::feksroum_put_confirm_select_ok(to.channel, to.max_payload, out.as_mut_ptr().cast(), out.len()) }
    }

    fn too_long(&self) -> Option<&'static str> {
        self.list().too_long(Self::FIELD_NAMES)
    }
}

impl Put for TxSelect {
    #[inline]
    fn put(&self, to: To, out: &mut [MaybeUninit<u8>]) -> Made {
        // SAFETY: as it is said above.
        unsafe { sys::puts::feksroum_put_tx_select(to.channel, to.max_payload, out.as_mut_ptr().cast(), out.len()) }
    }

    fn too_long(&self) -> Option<&'static str> {
        self.list().too_long(Self::FIELD_NAMES)
    }
}

impl Put for TxSelectOk {
    #[inline]
    fn put(&self, to: To, out: &mut [MaybeUninit<u8>]) -> Made {
        // SAFETY: as it is said above.
        unsafe { sys::puts::feksroum_put_tx_select_ok(to.channel, to.max_payload, out.as_mut_ptr().cast(), out.len()) }
    }

    fn too_long(&self) -> Option<&'static str> {
        self.list().too_long(Self::FIELD_NAMES)
    }
}

impl Put for TxCommit {
    #[inline]
    fn put(&self, to: To, out: &mut [MaybeUninit<u8>]) -> Made {
        // SAFETY: as it is said above.
        unsafe { sys::puts::feksroum_put_tx_commit(to.channel, to.max_payload, out.as_mut_ptr().cast(), out.len()) }
    }

    fn too_long(&self) -> Option<&'static str> {
        self.list().too_long(Self::FIELD_NAMES)
    }
}

impl Put for TxCommitOk {
    #[inline]
    fn put(&self, to: To, out: &mut [MaybeUninit<u8>]) -> Made {
        // SAFETY: as it is said above.
        unsafe { sys::puts::feksroum_put_tx_commit_ok(to.channel, to.max_payload, out.as_mut_ptr().cast(), out.len()) }
    }

    fn too_long(&self) -> Option<&'static str> {
        self.list().too_long(Self::FIELD_NAMES)
    }
}

impl Put for TxRollback {
    #[inline]
    fn put(&self, to: To, out: &mut [MaybeUninit<u8>]) -> Made {
        // SAFETY: as it is said above.
        unsafe { sys::puts::feksroum_put_tx_rollback(to.channel, to.max_payload, out.as_mut_ptr().cast(), out.len()) }
    }

    fn too_long(&self) -> Option<&'static str> {
        self.list().too_long(Self::FIELD_NAMES)
    }
}

impl Put for TxRollbackOk {
    #[inline]
    fn put(&self, to: To, out: &mut [MaybeUninit<u8>]) -> Made {
        // SAFETY: as it is said above.
        unsafe { sys::puts::feksroum_put_tx_rollback_ok(to.channel, to.max_payload, out.as_mut_ptr().cast(), out.len()) }
    }

    fn too_long(&self) -> Option<&'static str> {
        self.list().too_long(Self::FIELD_NAMES)
    }
}
