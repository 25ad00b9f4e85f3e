//! Class queue: declaring, binding, purging and deleting queues.

// Made by `generate` out of the library's table. Change that, and not this file.

use crate::encode::Encode;
use crate::field::{Field, List, Listed};
use crate::library::fields::Fields;
use crate::method_info::{Built, MethodInfo};
use crate::table::Table;

/// `queue.declare`. Creates a queue, or checks that it is there. An empty name lets the server choose one.
///
/// Class 50, method 10, it wants an answer.
#[derive(Clone, Copy, Debug, Default, PartialEq, Eq)]
pub struct QueueDeclare<'a> {
    /// The queue's name, empty for one that the server chooses (`queue`).
    pub queue: &'a str,
    /// Whether to check only that it is there (`passive`).
    pub passive: bool,
    /// Whether it outlives the server's restart (`durable`).
    pub durable: bool,
    /// Whether only this connection may use it, and it is deleted with the connection (`exclusive`).
    pub exclusive: bool,
    /// Whether it is deleted once it is used no more (`auto-delete`).
    pub auto_delete: bool,
    /// Whether no answer is wanted (`no-wait`).
    pub no_wait: bool,
    /// What brokers have beside the standard (`arguments`).
    pub arguments: Table<'a>,
}

impl<'a> QueueDeclare<'a> {
    #[inline]
    pub(crate) fn read(fields: &Fields<'a>) -> Self {
        let fields = fields.places();
        QueueDeclare {
            queue: fields.short_string(0),
            passive: fields.flag(1),
            durable: fields.flag(2),
            exclusive: fields.flag(3),
            auto_delete: fields.flag(4),
            no_wait: fields.flag(5),
            arguments: fields.table(6),
        }
    }
}

impl MethodInfo for QueueDeclare<'_> {
    const ID: (u16, u16) = (50, 10);
    const NAME: &'static str = "queue.declare";
    const FIELD_NAMES: &'static [&'static str] = &["queue", "passive", "durable", "exclusive", "auto-delete", "no-wait", "arguments"];
}

impl Built for QueueDeclare<'_> {
    type Of<'a> = QueueDeclare<'a>;

    #[inline]
    fn built<'a>(fields: &Fields<'a>) -> QueueDeclare<'a> {
        QueueDeclare::read(fields)
    }
}

impl Listed for QueueDeclare<'_> {
    fn list(&self) -> List<'_> {
        List::of([
            Some(Field::ShortString(self.queue)),
            Some(Field::Flag(self.passive)),
            Some(Field::Flag(self.durable)),
            Some(Field::Flag(self.exclusive)),
            Some(Field::Flag(self.auto_delete)),
            Some(Field::Flag(self.no_wait)),
            Some(Field::Table(self.arguments)),
        ])
    }
}

impl Encode for QueueDeclare<'_> {}

/// `queue.declare-ok`. The queue is there, under this name.
///
/// Class 50, method 11.
#[derive(Clone, Copy, Debug, Default, PartialEq, Eq)]
pub struct QueueDeclareOk<'a> {
    /// The queue's name (`queue`).
    pub queue: &'a str,
    /// How many messages these are (`message-count`).
    pub message_count: u32,
    /// How many consumers it has (`consumer-count`).
    pub consumer_count: u32,
}

impl<'a> QueueDeclareOk<'a> {
    #[inline]
    pub(crate) fn read(fields: &Fields<'a>) -> Self {
        let fields = fields.places();
        QueueDeclareOk { queue: fields.short_string(0), message_count: fields.long(1), consumer_count: fields.long(2) }
    }
}

impl MethodInfo for QueueDeclareOk<'_> {
    const ID: (u16, u16) = (50, 11);
    const NAME: &'static str = "queue.declare-ok";
    const FIELD_NAMES: &'static [&'static str] = &["queue", "message-count", "consumer-count"];
}

impl Built for QueueDeclareOk<'_> {
    type Of<'a> = QueueDeclareOk<'a>;

    #[inline]
    fn built<'a>(fields: &Fields<'a>) -> QueueDeclareOk<'a> {
        QueueDeclareOk::read(fields)
    }
}

impl Listed for QueueDeclareOk<'_> {
    fn list(&self) -> List<'_> {
        List::of([Some(Field::ShortString(self.queue)), Some(Field::Long(self.message_count)), Some(Field::Long(self.consumer_count))])
    }
}

impl Encode for QueueDeclareOk<'_> {}

/// `queue.bind`. Binds a queue to an exchange.
///
/// Class 50, method 20, it wants an answer.
#[derive(Clone, Copy, Debug, Default, PartialEq, Eq)]
pub struct QueueBind<'a> {
    /// The queue's name, empty for the one declared last on the channel (`queue`).
    pub queue: &'a str,
    /// The exchange's name, empty for the default one (`exchange`).
    pub exchange: &'a str,
    /// What messages are routed by (`routing-key`).
    pub routing_key: &'a str,
    /// Whether no answer is wanted (`no-wait`).
    pub no_wait: bool,
    /// What brokers have beside the standard (`arguments`).
    pub arguments: Table<'a>,
}

impl<'a> QueueBind<'a> {
    #[inline]
    pub(crate) fn read(fields: &Fields<'a>) -> Self {
        let fields = fields.places();
        QueueBind {
            queue: fields.short_string(0),
            exchange: fields.short_string(1),
            routing_key: fields.short_string(2),
            no_wait: fields.flag(3),
            arguments: fields.table(4),
        }
    }
}

impl MethodInfo for QueueBind<'_> {
    const ID: (u16, u16) = (50, 20);
    const NAME: &'static str = "queue.bind";
    const FIELD_NAMES: &'static [&'static str] = &["queue", "exchange", "routing-key", "no-wait", "arguments"];
}

impl Built for QueueBind<'_> {
    type Of<'a> = QueueBind<'a>;

    #[inline]
    fn built<'a>(fields: &Fields<'a>) -> QueueBind<'a> {
        QueueBind::read(fields)
    }
}

impl Listed for QueueBind<'_> {
    fn list(&self) -> List<'_> {
        List::of([
            Some(Field::ShortString(self.queue)),
            Some(Field::ShortString(self.exchange)),
            Some(Field::ShortString(self.routing_key)),
            Some(Field::Flag(self.no_wait)),
            Some(Field::Table(self.arguments)),
        ])
    }
}

impl Encode for QueueBind<'_> {}

/// `queue.bind-ok`. The queue is bound.
///
/// Class 50, method 21.
#[derive(Clone, Copy, Debug, Default, PartialEq, Eq)]
pub struct QueueBindOk;

impl MethodInfo for QueueBindOk {
    const ID: (u16, u16) = (50, 21);
    const NAME: &'static str = "queue.bind-ok";
    const FIELD_NAMES: &'static [&'static str] = &[];
}

impl Built for QueueBindOk {
    type Of<'a> = QueueBindOk;

    #[inline]
    fn built(_: &Fields<'_>) -> QueueBindOk {
        QueueBindOk
    }
}

impl Listed for QueueBindOk {
    fn list(&self) -> List<'_> {
        List::of([])
    }
}

impl Encode for QueueBindOk {}

/// `queue.purge`. Drops the messages of a queue that wait for no acknowledgement.
///
/// Class 50, method 30, it wants an answer.
#[derive(Clone, Copy, Debug, Default, PartialEq, Eq)]
pub struct QueuePurge<'a> {
    /// The queue's name, empty for the one declared last on the channel (`queue`).
    pub queue: &'a str,
    /// Whether no answer is wanted (`no-wait`).
    pub no_wait: bool,
}

impl<'a> QueuePurge<'a> {
    #[inline]
    pub(crate) fn read(fields: &Fields<'a>) -> Self {
        let fields = fields.places();
        QueuePurge { queue: fields.short_string(0), no_wait: fields.flag(1) }
    }
}

impl MethodInfo for QueuePurge<'_> {
    const ID: (u16, u16) = (50, 30);
    const NAME: &'static str = "queue.purge";
    const FIELD_NAMES: &'static [&'static str] = &["queue", "no-wait"];
}

impl Built for QueuePurge<'_> {
    type Of<'a> = QueuePurge<'a>;

    #[inline]
    fn built<'a>(fields: &Fields<'a>) -> QueuePurge<'a> {
        QueuePurge::read(fields)
    }
}

impl Listed for QueuePurge<'_> {
    fn list(&self) -> List<'_> {
        List::of([Some(Field::ShortString(self.queue)), Some(Field::Flag(self.no_wait))])
    }
}

impl Encode for QueuePurge<'_> {}

/// `queue.purge-ok`. They are gone.
///
/// Class 50, method 31.
#[derive(Clone, Copy, Debug, Default, PartialEq, Eq)]
pub struct QueuePurgeOk {
    /// How many messages these are (`message-count`).
    pub message_count: u32,
}

impl QueuePurgeOk {
    #[inline]
    pub(crate) fn read(fields: &Fields<'_>) -> Self {
        let fields = fields.places();
        QueuePurgeOk { message_count: fields.long(0) }
    }
}

impl MethodInfo for QueuePurgeOk {
    const ID: (u16, u16) = (50, 31);
    const NAME: &'static str = "queue.purge-ok";
    const FIELD_NAMES: &'static [&'static str] = &["message-count"];
}

impl Built for QueuePurgeOk {
    type Of<'a> = QueuePurgeOk;

    #[inline]
    fn built(fields: &Fields<'_>) -> QueuePurgeOk {
        QueuePurgeOk::read(fields)
    }
}

impl Listed for QueuePurgeOk {
    fn list(&self) -> List<'_> {
        List::of([Some(Field::Long(self.message_count))])
    }
}

impl Encode for QueuePurgeOk {}

/// `queue.delete`. Deletes a queue.
///
/// Class 50, method 40, it wants an answer.
#[derive(Clone, Copy, Debug, Default, PartialEq, Eq)]
pub struct QueueDelete<'a> {
    /// The queue's name, empty for the one declared last on the channel (`queue`).
    pub queue: &'a str,
    /// Whether only an unused one is deleted (`if-unused`).
    pub if_unused: bool,
    /// Whether only an empty one is deleted (`if-empty`).
    pub if_empty: bool,
    /// Whether no answer is wanted (`no-wait`).
    pub no_wait: bool,
}

impl<'a> QueueDelete<'a> {
    #[inline]
    pub(crate) fn read(fields: &Fields<'a>) -> Self {
        let fields = fields.places();
        QueueDelete { queue: fields.short_string(0), if_unused: fields.flag(1), if_empty: fields.flag(2), no_wait: fields.flag(3) }
    }
}

impl MethodInfo for QueueDelete<'_> {
    const ID: (u16, u16) = (50, 40);
    const NAME: &'static str = "queue.delete";
    const FIELD_NAMES: &'static [&'static str] = &["queue", "if-unused", "if-empty", "no-wait"];
}

impl Built for QueueDelete<'_> {
    type Of<'a> = QueueDelete<'a>;

    #[inline]
    fn built<'a>(fields: &Fields<'a>) -> QueueDelete<'a> {
        QueueDelete::read(fields)
    }
}

impl Listed for QueueDelete<'_> {
    fn list(&self) -> List<'_> {
        List::of([
            Some(Field::ShortString(self.queue)),
            Some(Field::Flag(self.if_unused)),
            Some(Field::Flag(self.if_empty)),
            Some(Field::Flag(self.no_wait)),
        ])
    }
}

impl Encode for QueueDelete<'_> {}

/// `queue.delete-ok`. The queue is gone.
///
/// Class 50, method 41.
#[derive(Clone, Copy, Debug, Default, PartialEq, Eq)]
pub struct QueueDeleteOk {
    /// How many messages these are (`message-count`).
    pub message_count: u32,
}

impl QueueDeleteOk {
    #[inline]
    pub(crate) fn read(fields: &Fields<'_>) -> Self {
        let fields = fields.places();
        QueueDeleteOk { message_count: fields.long(0) }
    }
}

impl MethodInfo for QueueDeleteOk {
    const ID: (u16, u16) = (50, 41);
    const NAME: &'static str = "queue.delete-ok";
    const FIELD_NAMES: &'static [&'static str] = &["message-count"];
}

impl Built for QueueDeleteOk {
    type Of<'a> = QueueDeleteOk;

    #[inline]
    fn built(fields: &Fields<'_>) -> QueueDeleteOk {
        QueueDeleteOk::read(fields)
    }
}

impl Listed for QueueDeleteOk {
    fn list(&self) -> List<'_> {
        List::of([Some(Field::Long(self.message_count))])
    }
}

impl Encode for QueueDeleteOk {}

/// `queue.unbind`. Takes a binding back.
///
/// Class 50, method 50, it wants an answer.
#[derive(Clone, Copy, Debug, Default, PartialEq, Eq)]
pub struct QueueUnbind<'a> {
    /// The queue's name, empty for the one declared last on the channel (`queue`).
    pub queue: &'a str,
    /// The exchange's name, empty for the default one (`exchange`).
    pub exchange: &'a str,
    /// What messages are routed by (`routing-key`).
    pub routing_key: &'a str,
    /// What brokers have beside the standard (`arguments`).
    pub arguments: Table<'a>,
}

impl<'a> QueueUnbind<'a> {
    #[inline]
    pub(crate) fn read(fields: &Fields<'a>) -> Self {
        let fields = fields.places();
        QueueUnbind {
            queue: fields.short_string(0),
            exchange: fields.short_string(1),
            routing_key: fields.short_string(2),
            arguments: fields.table(3),
        }
    }
}

impl MethodInfo for QueueUnbind<'_> {
    const ID: (u16, u16) = (50, 50);
    const NAME: &'static str = "queue.unbind";
    const FIELD_NAMES: &'static [&'static str] = &["queue", "exchange", "routing-key", "arguments"];
}

impl Built for QueueUnbind<'_> {
    type Of<'a> = QueueUnbind<'a>;

    #[inline]
    fn built<'a>(fields: &Fields<'a>) -> QueueUnbind<'a> {
        QueueUnbind::read(fields)
    }
}

impl Listed for QueueUnbind<'_> {
    fn list(&self) -> List<'_> {
        List::of([
            Some(Field::ShortString(self.queue)),
            Some(Field::ShortString(self.exchange)),
            Some(Field::ShortString(self.routing_key)),
            Some(Field::Table(self.arguments)),
        ])
    }
}

impl Encode for QueueUnbind<'_> {}

/// `queue.unbind-ok`. The binding is gone.
///
/// Class 50, method 51.
#[derive(Clone, Copy, Debug, Default, PartialEq, Eq)]
pub struct QueueUnbindOk;

impl MethodInfo for QueueUnbindOk {
    const ID: (u16, u16) = (50, 51);
    const NAME: &'static str = "queue.unbind-ok";
    const FIELD_NAMES: &'static [&'static str] = &[];
}

impl Built for QueueUnbindOk {
    type Of<'a> = QueueUnbindOk;

    #[inline]
    fn built(_: &Fields<'_>) -> QueueUnbindOk {
        QueueUnbindOk
    }
}

impl Listed for QueueUnbindOk {
    fn list(&self) -> List<'_> {
        List::of([])
    }
}

impl Encode for QueueUnbindOk {}
