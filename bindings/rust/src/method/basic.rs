//! Class basic: publishing, consuming and settling messages.

// Made by `generate` out of the library's table. Change that, and not this file.

use crate::encode::Encode;
use crate::field::{Field, List, Listed};
use crate::library::fields::Fields;
use crate::method_info::{Built, MethodInfo};
use crate::table::Table;

/// `basic.qos`. Limits how many messages wait for their acknowledgement.
///
/// Class 60, method 10, it wants an answer.
#[derive(Clone, Copy, Debug, Default, PartialEq, Eq)]
pub struct BasicQos {
    /// How many messages may wait at once, 0 for no limit (`prefetch-count`).
    pub prefetch_count: u16,
    /// Whether the limit is that of the channel, and not of each new consumer (`global`).
    pub global: bool,
}

impl BasicQos {
    #[inline]
    pub(crate) fn read(fields: &Fields<'_>) -> Self {
        let fields = fields.places();
        BasicQos { prefetch_count: fields.short(0), global: fields.flag(1) }
    }
}

impl MethodInfo for BasicQos {
    const ID: (u16, u16) = (60, 10);
    const NAME: &'static str = "basic.qos";
    const FIELD_NAMES: &'static [&'static str] = &["prefetch-count", "global"];
}

impl Built for BasicQos {
    type Of<'a> = BasicQos;

    #[inline]
    fn built(fields: &Fields<'_>) -> BasicQos {
        BasicQos::read(fields)
    }
}

impl Listed for BasicQos {
    fn list(&self) -> List<'_> {
        List::of([Some(Field::Short(self.prefetch_count)), Some(Field::Flag(self.global))])
    }
}

impl Encode for BasicQos {}

/// `basic.qos-ok`. The limit holds.
///
/// Class 60, method 11.
#[derive(Clone, Copy, Debug, Default, PartialEq, Eq)]
pub struct BasicQosOk;

impl MethodInfo for BasicQosOk {
    const ID: (u16, u16) = (60, 11);
    const NAME: &'static str = "basic.qos-ok";
    const FIELD_NAMES: &'static [&'static str] = &[];
}

impl Built for BasicQosOk {
    type Of<'a> = BasicQosOk;

    #[inline]
    fn built(_: &Fields<'_>) -> BasicQosOk {
        BasicQosOk
    }
}

impl Listed for BasicQosOk {
    fn list(&self) -> List<'_> {
        List::of([])
    }
}

impl Encode for BasicQosOk {}

/// `basic.consume`. Starts a consumer on a queue.
///
/// Class 60, method 20, it wants an answer.
#[derive(Clone, Copy, Debug, Default, PartialEq, Eq)]
pub struct BasicConsume<'a> {
    /// The queue's name, empty for the one declared last on the channel (`queue`).
    pub queue: &'a str,
    /// The consumer's name, on its channel (`consumer-tag`).
    pub consumer_tag: &'a str,
    /// Whether messages of the same connection are left out (`no-local`).
    pub no_local: bool,
    /// Whether no acknowledgement is expected (`no-ack`).
    pub no_ack: bool,
    /// Whether no one else may consume from the queue (`exclusive`).
    pub exclusive: bool,
    /// Whether no answer is wanted (`no-wait`).
    pub no_wait: bool,
    /// What brokers have beside the standard (`arguments`).
    pub arguments: Table<'a>,
}

impl<'a> BasicConsume<'a> {
    #[inline]
    pub(crate) fn read(fields: &Fields<'a>) -> Self {
        let fields = fields.places();
        BasicConsume {
            queue: fields.short_string(0),
            consumer_tag: fields.short_string(1),
            no_local: fields.flag(2),
            no_ack: fields.flag(3),
            exclusive: fields.flag(4),
            no_wait: fields.flag(5),
            arguments: fields.table(6),
        }
    }
}

impl MethodInfo for BasicConsume<'_> {
    const ID: (u16, u16) = (60, 20);
    const NAME: &'static str = "basic.consume";
    const FIELD_NAMES: &'static [&'static str] = &["queue", "consumer-tag", "no-local", "no-ack", "exclusive", "no-wait", "arguments"];
}

impl Built for BasicConsume<'_> {
    type Of<'a> = BasicConsume<'a>;

    #[inline]
    fn built<'a>(fields: &Fields<'a>) -> BasicConsume<'a> {
        BasicConsume::read(fields)
    }
}

impl Listed for BasicConsume<'_> {
    fn list(&self) -> List<'_> {
        List::of([
            Some(Field::ShortString(self.queue)),
            Some(Field::ShortString(self.consumer_tag)),
            Some(Field::Flag(self.no_local)),
            Some(Field::Flag(self.no_ack)),
            Some(Field::Flag(self.exclusive)),
            Some(Field::Flag(self.no_wait)),
            Some(Field::Table(self.arguments)),
        ])
    }
}

impl Encode for BasicConsume<'_> {}

/// `basic.consume-ok`. The consumer has started, under this tag.
///
/// Class 60, method 21.
#[derive(Clone, Copy, Debug, Default, PartialEq, Eq)]
pub struct BasicConsumeOk<'a> {
    /// The consumer's name, on its channel (`consumer-tag`).
    pub consumer_tag: &'a str,
}

impl<'a> BasicConsumeOk<'a> {
    #[inline]
    pub(crate) fn read(fields: &Fields<'a>) -> Self {
        let fields = fields.places();
        BasicConsumeOk { consumer_tag: fields.short_string(0) }
    }
}

impl MethodInfo for BasicConsumeOk<'_> {
    const ID: (u16, u16) = (60, 21);
    const NAME: &'static str = "basic.consume-ok";
    const FIELD_NAMES: &'static [&'static str] = &["consumer-tag"];
}

impl Built for BasicConsumeOk<'_> {
    type Of<'a> = BasicConsumeOk<'a>;

    #[inline]
    fn built<'a>(fields: &Fields<'a>) -> BasicConsumeOk<'a> {
        BasicConsumeOk::read(fields)
    }
}

impl Listed for BasicConsumeOk<'_> {
    fn list(&self) -> List<'_> {
        List::of([Some(Field::ShortString(self.consumer_tag))])
    }
}

impl Encode for BasicConsumeOk<'_> {}

/// `basic.cancel`. Stops a consumer.
///
/// Class 60, method 30, it wants an answer.
#[derive(Clone, Copy, Debug, Default, PartialEq, Eq)]
pub struct BasicCancel<'a> {
    /// The consumer's name, on its channel (`consumer-tag`).
    pub consumer_tag: &'a str,
    /// Whether no answer is wanted (`no-wait`).
    pub no_wait: bool,
}

impl<'a> BasicCancel<'a> {
    #[inline]
    pub(crate) fn read(fields: &Fields<'a>) -> Self {
        let fields = fields.places();
        BasicCancel { consumer_tag: fields.short_string(0), no_wait: fields.flag(1) }
    }
}

impl MethodInfo for BasicCancel<'_> {
    const ID: (u16, u16) = (60, 30);
    const NAME: &'static str = "basic.cancel";
    const FIELD_NAMES: &'static [&'static str] = &["consumer-tag", "no-wait"];
}

impl Built for BasicCancel<'_> {
    type Of<'a> = BasicCancel<'a>;

    #[inline]
    fn built<'a>(fields: &Fields<'a>) -> BasicCancel<'a> {
        BasicCancel::read(fields)
    }
}

impl Listed for BasicCancel<'_> {
    fn list(&self) -> List<'_> {
        List::of([Some(Field::ShortString(self.consumer_tag)), Some(Field::Flag(self.no_wait))])
    }
}

impl Encode for BasicCancel<'_> {}

/// `basic.cancel-ok`. The consumer has stopped.
///
/// Class 60, method 31.
#[derive(Clone, Copy, Debug, Default, PartialEq, Eq)]
pub struct BasicCancelOk<'a> {
    /// The consumer's name, on its channel (`consumer-tag`).
    pub consumer_tag: &'a str,
}

impl<'a> BasicCancelOk<'a> {
    #[inline]
    pub(crate) fn read(fields: &Fields<'a>) -> Self {
        let fields = fields.places();
        BasicCancelOk { consumer_tag: fields.short_string(0) }
    }
}

impl MethodInfo for BasicCancelOk<'_> {
    const ID: (u16, u16) = (60, 31);
    const NAME: &'static str = "basic.cancel-ok";
    const FIELD_NAMES: &'static [&'static str] = &["consumer-tag"];
}

impl Built for BasicCancelOk<'_> {
    type Of<'a> = BasicCancelOk<'a>;

    #[inline]
    fn built<'a>(fields: &Fields<'a>) -> BasicCancelOk<'a> {
        BasicCancelOk::read(fields)
    }
}

impl Listed for BasicCancelOk<'_> {
    fn list(&self) -> List<'_> {
        List::of([Some(Field::ShortString(self.consumer_tag))])
    }
}

impl Encode for BasicCancelOk<'_> {}

/// `basic.publish`. Publishes a message to an exchange. Its content follows.
///
/// Class 60, method 40, content follows it.
#[derive(Clone, Copy, Debug, Default, PartialEq, Eq)]
pub struct BasicPublish<'a> {
    /// The exchange's name, empty for the default one (`exchange`).
    pub exchange: &'a str,
    /// What messages are routed by (`routing-key`).
    pub routing_key: &'a str,
    /// Whether the message comes back where no queue takes it (`mandatory`).
    pub mandatory: bool,
    /// Whether the message comes back where no consumer takes it at once (`immediate`).
    pub immediate: bool,
}

impl<'a> BasicPublish<'a> {
    #[inline]
    pub(crate) fn read(fields: &Fields<'a>) -> Self {
        let fields = fields.places();
        BasicPublish {
            exchange: fields.short_string(0),
            routing_key: fields.short_string(1),
            mandatory: fields.flag(2),
            immediate: fields.flag(3),
        }
    }
}

impl MethodInfo for BasicPublish<'_> {
    const ID: (u16, u16) = (60, 40);
    const NAME: &'static str = "basic.publish";
    const FIELD_NAMES: &'static [&'static str] = &["exchange", "routing-key", "mandatory", "immediate"];
}

impl Built for BasicPublish<'_> {
    type Of<'a> = BasicPublish<'a>;

    #[inline]
    fn built<'a>(fields: &Fields<'a>) -> BasicPublish<'a> {
        BasicPublish::read(fields)
    }
}

impl Listed for BasicPublish<'_> {
    fn list(&self) -> List<'_> {
        List::of([
            Some(Field::ShortString(self.exchange)),
            Some(Field::ShortString(self.routing_key)),
            Some(Field::Flag(self.mandatory)),
            Some(Field::Flag(self.immediate)),
        ])
    }
}

impl Encode for BasicPublish<'_> {}

/// `basic.return`. A message comes back that could not be delivered. Its content follows.
///
/// Class 60, method 50, content follows it.
#[derive(Clone, Copy, Debug, Default, PartialEq, Eq)]
pub struct BasicReturn<'a> {
    /// Why: 200, or the code of an error (`reply-code`).
    pub reply_code: u16,
    /// The same in words (`reply-text`).
    pub reply_text: &'a str,
    /// The exchange's name, empty for the default one (`exchange`).
    pub exchange: &'a str,
    /// What messages are routed by (`routing-key`).
    pub routing_key: &'a str,
}

impl<'a> BasicReturn<'a> {
    #[inline]
    pub(crate) fn read(fields: &Fields<'a>) -> Self {
        let fields = fields.places();
        BasicReturn {
            reply_code: fields.short(0),
            reply_text: fields.short_string(1),
            exchange: fields.short_string(2),
            routing_key: fields.short_string(3),
        }
    }
}

impl MethodInfo for BasicReturn<'_> {
    const ID: (u16, u16) = (60, 50);
    const NAME: &'static str = "basic.return";
    const FIELD_NAMES: &'static [&'static str] = &["reply-code", "reply-text", "exchange", "routing-key"];
}

impl Built for BasicReturn<'_> {
    type Of<'a> = BasicReturn<'a>;

    #[inline]
    fn built<'a>(fields: &Fields<'a>) -> BasicReturn<'a> {
        BasicReturn::read(fields)
    }
}

impl Listed for BasicReturn<'_> {
    fn list(&self) -> List<'_> {
        List::of([
            Some(Field::Short(self.reply_code)),
            Some(Field::ShortString(self.reply_text)),
            Some(Field::ShortString(self.exchange)),
            Some(Field::ShortString(self.routing_key)),
        ])
    }
}

impl Encode for BasicReturn<'_> {}

/// `basic.deliver`. A message for a consumer. Its content follows.
///
/// Class 60, method 60, content follows it.
#[derive(Clone, Copy, Debug, Default, PartialEq, Eq)]
pub struct BasicDeliver<'a> {
    /// The consumer's name, on its channel (`consumer-tag`).
    pub consumer_tag: &'a str,
    /// The message's number on its channel (`delivery-tag`).
    pub delivery_tag: u64,
    /// Whether the message may have been delivered before (`redelivered`).
    pub redelivered: bool,
    /// The exchange's name, empty for the default one (`exchange`).
    pub exchange: &'a str,
    /// What messages are routed by (`routing-key`).
    pub routing_key: &'a str,
}

impl<'a> BasicDeliver<'a> {
    #[inline]
    pub(crate) fn read(fields: &Fields<'a>) -> Self {
        let fields = fields.places();
        BasicDeliver {
            consumer_tag: fields.short_string(0),
            delivery_tag: fields.long_long(1),
            redelivered: fields.flag(2),
            exchange: fields.short_string(3),
            routing_key: fields.short_string(4),
        }
    }
}

impl MethodInfo for BasicDeliver<'_> {
    const ID: (u16, u16) = (60, 60);
    const NAME: &'static str = "basic.deliver";
    const FIELD_NAMES: &'static [&'static str] = &["consumer-tag", "delivery-tag", "redelivered", "exchange", "routing-key"];
}

impl Built for BasicDeliver<'_> {
    type Of<'a> = BasicDeliver<'a>;

    #[inline]
    fn built<'a>(fields: &Fields<'a>) -> BasicDeliver<'a> {
        BasicDeliver::read(fields)
    }
}

impl Listed for BasicDeliver<'_> {
    fn list(&self) -> List<'_> {
        List::of([
            Some(Field::ShortString(self.consumer_tag)),
            Some(Field::LongLong(self.delivery_tag)),
            Some(Field::Flag(self.redelivered)),
            Some(Field::ShortString(self.exchange)),
            Some(Field::ShortString(self.routing_key)),
        ])
    }
}

impl Encode for BasicDeliver<'_> {}

/// `basic.get`. Asks for one message of a queue.
///
/// Class 60, method 70, it wants an answer.
#[derive(Clone, Copy, Debug, Default, PartialEq, Eq)]
pub struct BasicGet<'a> {
    /// The queue's name, empty for the one declared last on the channel (`queue`).
    pub queue: &'a str,
    /// Whether no acknowledgement is expected (`no-ack`).
    pub no_ack: bool,
}

impl<'a> BasicGet<'a> {
    #[inline]
    pub(crate) fn read(fields: &Fields<'a>) -> Self {
        let fields = fields.places();
        BasicGet { queue: fields.short_string(0), no_ack: fields.flag(1) }
    }
}

impl MethodInfo for BasicGet<'_> {
    const ID: (u16, u16) = (60, 70);
    const NAME: &'static str = "basic.get";
    const FIELD_NAMES: &'static [&'static str] = &["queue", "no-ack"];
}

impl Built for BasicGet<'_> {
    type Of<'a> = BasicGet<'a>;

    #[inline]
    fn built<'a>(fields: &Fields<'a>) -> BasicGet<'a> {
        BasicGet::read(fields)
    }
}

impl Listed for BasicGet<'_> {
    fn list(&self) -> List<'_> {
        List::of([Some(Field::ShortString(self.queue)), Some(Field::Flag(self.no_ack))])
    }
}

impl Encode for BasicGet<'_> {}

/// `basic.get-ok`. The message that was asked for. Its content follows.
///
/// Class 60, method 71, content follows it.
#[derive(Clone, Copy, Debug, Default, PartialEq, Eq)]
pub struct BasicGetOk<'a> {
    /// The message's number on its channel (`delivery-tag`).
    pub delivery_tag: u64,
    /// Whether the message may have been delivered before (`redelivered`).
    pub redelivered: bool,
    /// The exchange's name, empty for the default one (`exchange`).
    pub exchange: &'a str,
    /// What messages are routed by (`routing-key`).
    pub routing_key: &'a str,
    /// How many messages these are (`message-count`).
    pub message_count: u32,
}

impl<'a> BasicGetOk<'a> {
    #[inline]
    pub(crate) fn read(fields: &Fields<'a>) -> Self {
        let fields = fields.places();
        BasicGetOk {
            delivery_tag: fields.long_long(0),
            redelivered: fields.flag(1),
            exchange: fields.short_string(2),
            routing_key: fields.short_string(3),
            message_count: fields.long(4),
        }
    }
}

impl MethodInfo for BasicGetOk<'_> {
    const ID: (u16, u16) = (60, 71);
    const NAME: &'static str = "basic.get-ok";
    const FIELD_NAMES: &'static [&'static str] = &["delivery-tag", "redelivered", "exchange", "routing-key", "message-count"];
}

impl Built for BasicGetOk<'_> {
    type Of<'a> = BasicGetOk<'a>;

    #[inline]
    fn built<'a>(fields: &Fields<'a>) -> BasicGetOk<'a> {
        BasicGetOk::read(fields)
    }
}

impl Listed for BasicGetOk<'_> {
    fn list(&self) -> List<'_> {
        List::of([
            Some(Field::LongLong(self.delivery_tag)),
            Some(Field::Flag(self.redelivered)),
            Some(Field::ShortString(self.exchange)),
            Some(Field::ShortString(self.routing_key)),
            Some(Field::Long(self.message_count)),
        ])
    }
}

impl Encode for BasicGetOk<'_> {}

/// `basic.get-empty`. The queue has none.
///
/// Class 60, method 72.
#[derive(Clone, Copy, Debug, Default, PartialEq, Eq)]
pub struct BasicGetEmpty;

impl MethodInfo for BasicGetEmpty {
    const ID: (u16, u16) = (60, 72);
    const NAME: &'static str = "basic.get-empty";
    const FIELD_NAMES: &'static [&'static str] = &[];
}

impl Built for BasicGetEmpty {
    type Of<'a> = BasicGetEmpty;

    #[inline]
    fn built(_: &Fields<'_>) -> BasicGetEmpty {
        BasicGetEmpty
    }
}

impl Listed for BasicGetEmpty {
    fn list(&self) -> List<'_> {
        List::of([])
    }
}

impl Encode for BasicGetEmpty {}

/// `basic.ack`. Acknowledges messages: of a client what was delivered, of a server what was published.
///
/// Class 60, method 80.
#[derive(Clone, Copy, Debug, Default, PartialEq, Eq)]
pub struct BasicAck {
    /// The message's number on its channel (`delivery-tag`).
    pub delivery_tag: u64,
    /// Whether all messages up to this number are meant (`multiple`).
    pub multiple: bool,
}

impl BasicAck {
    #[inline]
    pub(crate) fn read(fields: &Fields<'_>) -> Self {
        let fields = fields.places();
        BasicAck { delivery_tag: fields.long_long(0), multiple: fields.flag(1) }
    }
}

impl MethodInfo for BasicAck {
    const ID: (u16, u16) = (60, 80);
    const NAME: &'static str = "basic.ack";
    const FIELD_NAMES: &'static [&'static str] = &["delivery-tag", "multiple"];
}

impl Built for BasicAck {
    type Of<'a> = BasicAck;

    #[inline]
    fn built(fields: &Fields<'_>) -> BasicAck {
        BasicAck::read(fields)
    }
}

impl Listed for BasicAck {
    fn list(&self) -> List<'_> {
        List::of([Some(Field::LongLong(self.delivery_tag)), Some(Field::Flag(self.multiple))])
    }
}

impl Encode for BasicAck {}

/// `basic.reject`. Refuses a message.
///
/// Class 60, method 90.
#[derive(Clone, Copy, Debug, Default, PartialEq, Eq)]
pub struct BasicReject {
    /// The message's number on its channel (`delivery-tag`).
    pub delivery_tag: u64,
    /// Whether the messages go back to their queue (`requeue`).
    pub requeue: bool,
}

impl BasicReject {
    #[inline]
    pub(crate) fn read(fields: &Fields<'_>) -> Self {
        let fields = fields.places();
        BasicReject { delivery_tag: fields.long_long(0), requeue: fields.flag(1) }
    }
}

impl MethodInfo for BasicReject {
    const ID: (u16, u16) = (60, 90);
    const NAME: &'static str = "basic.reject";
    const FIELD_NAMES: &'static [&'static str] = &["delivery-tag", "requeue"];
}

impl Built for BasicReject {
    type Of<'a> = BasicReject;

    #[inline]
    fn built(fields: &Fields<'_>) -> BasicReject {
        BasicReject::read(fields)
    }
}

impl Listed for BasicReject {
    fn list(&self) -> List<'_> {
        List::of([Some(Field::LongLong(self.delivery_tag)), Some(Field::Flag(self.requeue))])
    }
}

impl Encode for BasicReject {}

/// `basic.recover-async`. Asks for all messages that were not acknowledged once more, without an answer.
///
/// Class 60, method 100.
#[derive(Clone, Copy, Debug, Default, PartialEq, Eq)]
pub struct BasicRecoverAsync {
    /// Whether the messages go back to their queue (`requeue`).
    pub requeue: bool,
}

impl BasicRecoverAsync {
    #[inline]
    pub(crate) fn read(fields: &Fields<'_>) -> Self {
        let fields = fields.places();
        BasicRecoverAsync { requeue: fields.flag(0) }
    }
}

impl MethodInfo for BasicRecoverAsync {
    const ID: (u16, u16) = (60, 100);
    const NAME: &'static str = "basic.recover-async";
    const FIELD_NAMES: &'static [&'static str] = &["requeue"];
}

impl Built for BasicRecoverAsync {
    type Of<'a> = BasicRecoverAsync;

    #[inline]
    fn built(fields: &Fields<'_>) -> BasicRecoverAsync {
        BasicRecoverAsync::read(fields)
    }
}

impl Listed for BasicRecoverAsync {
    fn list(&self) -> List<'_> {
        List::of([Some(Field::Flag(self.requeue))])
    }
}

impl Encode for BasicRecoverAsync {}

/// `basic.recover`. Asks for all messages that were not acknowledged once more.
///
/// Class 60, method 110, it wants an answer.
#[derive(Clone, Copy, Debug, Default, PartialEq, Eq)]
pub struct BasicRecover {
    /// Whether the messages go back to their queue (`requeue`).
    pub requeue: bool,
}

impl BasicRecover {
    #[inline]
    pub(crate) fn read(fields: &Fields<'_>) -> Self {
        let fields = fields.places();
        BasicRecover { requeue: fields.flag(0) }
    }
}

impl MethodInfo for BasicRecover {
    const ID: (u16, u16) = (60, 110);
    const NAME: &'static str = "basic.recover";
    const FIELD_NAMES: &'static [&'static str] = &["requeue"];
}

impl Built for BasicRecover {
    type Of<'a> = BasicRecover;

    #[inline]
    fn built(fields: &Fields<'_>) -> BasicRecover {
        BasicRecover::read(fields)
    }
}

impl Listed for BasicRecover {
    fn list(&self) -> List<'_> {
        List::of([Some(Field::Flag(self.requeue))])
    }
}

impl Encode for BasicRecover {}

/// `basic.recover-ok`. They come.
///
/// Class 60, method 111.
#[derive(Clone, Copy, Debug, Default, PartialEq, Eq)]
pub struct BasicRecoverOk;

impl MethodInfo for BasicRecoverOk {
    const ID: (u16, u16) = (60, 111);
    const NAME: &'static str = "basic.recover-ok";
    const FIELD_NAMES: &'static [&'static str] = &[];
}

impl Built for BasicRecoverOk {
    type Of<'a> = BasicRecoverOk;

    #[inline]
    fn built(_: &Fields<'_>) -> BasicRecoverOk {
        BasicRecoverOk
    }
}

impl Listed for BasicRecoverOk {
    fn list(&self) -> List<'_> {
        List::of([])
    }
}

impl Encode for BasicRecoverOk {}

/// `basic.nack`. Refuses messages: of a client what was delivered, of a server what was published.
///
/// Class 60, method 120.
#[derive(Clone, Copy, Debug, Default, PartialEq, Eq)]
pub struct BasicNack {
    /// The message's number on its channel (`delivery-tag`).
    pub delivery_tag: u64,
    /// Whether all messages up to this number are meant (`multiple`).
    pub multiple: bool,
    /// Whether the messages go back to their queue (`requeue`).
    pub requeue: bool,
}

impl BasicNack {
    #[inline]
    pub(crate) fn read(fields: &Fields<'_>) -> Self {
        let fields = fields.places();
        BasicNack { delivery_tag: fields.long_long(0), multiple: fields.flag(1), requeue: fields.flag(2) }
    }
}

impl MethodInfo for BasicNack {
    const ID: (u16, u16) = (60, 120);
    const NAME: &'static str = "basic.nack";
    const FIELD_NAMES: &'static [&'static str] = &["delivery-tag", "multiple", "requeue"];
}

impl Built for BasicNack {
    type Of<'a> = BasicNack;

    #[inline]
    fn built(fields: &Fields<'_>) -> BasicNack {
        BasicNack::read(fields)
    }
}

impl Listed for BasicNack {
    fn list(&self) -> List<'_> {
        List::of([Some(Field::LongLong(self.delivery_tag)), Some(Field::Flag(self.multiple)), Some(Field::Flag(self.requeue))])
    }
}

impl Encode for BasicNack {}
