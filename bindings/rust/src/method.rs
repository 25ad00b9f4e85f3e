//! The 66 methods: a struct for each, and [`Method`], which is any of them.
//!
//! Names are those of the standard: `basic.get-ok` is [`BasicGetOk`], its field `delivery-tag` is `delivery_tag`. The one name
//! that Rust does not allow, `type` of `exchange.declare`, is `kind`. Reserved fields are left out: they are read and dropped, and
//! written as their constants. Those are also what the library holds to be reserved: tickets, the prefetch size of `basic.qos`, and
//! all fields but the virtual host of `connection.open`, `channel.open` and their answers.
//!
//! ```
//! use feksroum::method::{Method, QueueDeclare};
//! use feksroum::Encode;
//!
//! let declare = QueueDeclare { queue: "orders", durable: true, ..QueueDeclare::default() };
//! let mut out = Vec::new();
//! declare.encode(1, &mut out)?;
//! assert_eq!(Method::from(declare).name(), "queue.declare");
//! # Ok::<(), feksroum::EncodeError>(())
//! ```

// Made by `generate` out of the library's table. Change that, and not this file.

mod access;
mod basic;
mod channel;
mod confirm;
mod connection;
mod exchange;
mod queue;
mod tx;

pub use access::{AccessRequest, AccessRequestOk};
pub use basic::{
    BasicAck, BasicCancel, BasicCancelOk, BasicConsume, BasicConsumeOk, BasicDeliver, BasicGet, BasicGetEmpty, BasicGetOk, BasicNack,
    BasicPublish, BasicQos, BasicQosOk, BasicRecover, BasicRecoverAsync, BasicRecoverOk, BasicReject, BasicReturn,
};
pub use channel::{ChannelClose, ChannelCloseOk, ChannelFlow, ChannelFlowOk, ChannelOpen, ChannelOpenOk};
pub use confirm::{ConfirmSelect, ConfirmSelectOk};
pub use connection::{
    ConnectionBlocked, ConnectionClose, ConnectionCloseOk, ConnectionOpen, ConnectionOpenOk, ConnectionSecure, ConnectionSecureOk,
    ConnectionStart, ConnectionStartOk, ConnectionTune, ConnectionTuneOk, ConnectionUnblocked, ConnectionUpdateSecret,
    ConnectionUpdateSecretOk,
};
pub use exchange::{
    ExchangeBind, ExchangeBindOk, ExchangeDeclare, ExchangeDeclareOk, ExchangeDelete, ExchangeDeleteOk, ExchangeUnbind, ExchangeUnbindOk,
};
pub use queue::{
    QueueBind, QueueBindOk, QueueDeclare, QueueDeclareOk, QueueDelete, QueueDeleteOk, QueuePurge, QueuePurgeOk, QueueUnbind, QueueUnbindOk,
};
pub use tx::{TxCommit, TxCommitOk, TxRollback, TxRollbackOk, TxSelect, TxSelectOk};

pub use crate::method_info::{MethodInfo, OtherMethod};

use crate::encode::Encode;
use crate::error::Error;
use crate::field::{Field, List, Listed};
use crate::library::fields::Fields;
use crate::method_info::Built;
use crate::payload::Payload;
use crate::put::{Put, To};
use crate::sys::Made;
use std::mem::MaybeUninit;

/// Any method.
#[derive(Clone, Copy, Debug, PartialEq, Eq)]
pub enum Method<'a> {
    /// The server begins: its version, what it is, and how a client may log in.
    ConnectionStart(ConnectionStart<'a>),
    /// The client logs in, and says what it is. `response` may have its password, which `Debug` shows.
    ConnectionStartOk(ConnectionStartOk<'a>),
    /// The server asks for more in order to log the client in.
    ConnectionSecure(ConnectionSecure<'a>),
    /// The client answers that. It may be a secret, which `Debug` shows.
    ConnectionSecureOk(ConnectionSecureOk<'a>),
    /// The server proposes limits.
    ConnectionTune(ConnectionTune),
    /// The client says which limits hold.
    ConnectionTuneOk(ConnectionTuneOk),
    /// The client opens a virtual host.
    ConnectionOpen(ConnectionOpen<'a>),
    /// The virtual host is open.
    ConnectionOpenOk(ConnectionOpenOk),
    /// One side closes the connection, and says why.
    ConnectionClose(ConnectionClose<'a>),
    /// The other side has closed it too.
    ConnectionCloseOk(ConnectionCloseOk),
    /// The server takes no messages for now.
    ConnectionBlocked(ConnectionBlocked<'a>),
    /// The server takes messages again.
    ConnectionUnblocked(ConnectionUnblocked),
    /// The client gives a new secret before the old one expires; `Debug` shows it.
    ConnectionUpdateSecret(ConnectionUpdateSecret<'a>),
    /// The server has taken it.
    ConnectionUpdateSecretOk(ConnectionUpdateSecretOk),
    /// The client opens the channel.
    ChannelOpen(ChannelOpen),
    /// The channel is open.
    ChannelOpenOk(ChannelOpenOk),
    /// One side asks the other to pause or to go on with content.
    ChannelFlow(ChannelFlow),
    /// The other side does so.
    ChannelFlowOk(ChannelFlowOk),
    /// One side closes the channel, and says why.
    ChannelClose(ChannelClose<'a>),
    /// The other side has closed it too.
    ChannelCloseOk(ChannelCloseOk),
    /// The client asks for access to a realm.
    AccessRequest(AccessRequest<'a>),
    /// It has it.
    AccessRequestOk(AccessRequestOk),
    /// Creates an exchange, or checks that it is there.
    ExchangeDeclare(ExchangeDeclare<'a>),
    /// The exchange is there.
    ExchangeDeclareOk(ExchangeDeclareOk),
    /// Deletes an exchange.
    ExchangeDelete(ExchangeDelete<'a>),
    /// The exchange is gone.
    ExchangeDeleteOk(ExchangeDeleteOk),
    /// Binds an exchange to another.
    ExchangeBind(ExchangeBind<'a>),
    /// The exchange is bound.
    ExchangeBindOk(ExchangeBindOk),
    /// Takes such a binding back.
    ExchangeUnbind(ExchangeUnbind<'a>),
    /// The binding is gone.
    ExchangeUnbindOk(ExchangeUnbindOk),
    /// Creates a queue, or checks that it is there. An empty name lets the server choose one.
    QueueDeclare(QueueDeclare<'a>),
    /// The queue is there, under this name.
    QueueDeclareOk(QueueDeclareOk<'a>),
    /// Binds a queue to an exchange.
    QueueBind(QueueBind<'a>),
    /// The queue is bound.
    QueueBindOk(QueueBindOk),
    /// Drops the messages of a queue that wait for no acknowledgement.
    QueuePurge(QueuePurge<'a>),
    /// They are gone.
    QueuePurgeOk(QueuePurgeOk),
    /// Deletes a queue.
    QueueDelete(QueueDelete<'a>),
    /// The queue is gone.
    QueueDeleteOk(QueueDeleteOk),
    /// Takes a binding back.
    QueueUnbind(QueueUnbind<'a>),
    /// The binding is gone.
    QueueUnbindOk(QueueUnbindOk),
    /// Limits how many messages wait for their acknowledgement.
    BasicQos(BasicQos),
    /// The limit holds.
    BasicQosOk(BasicQosOk),
    /// Starts a consumer on a queue.
    BasicConsume(BasicConsume<'a>),
    /// The consumer has started, under this tag.
    BasicConsumeOk(BasicConsumeOk<'a>),
    /// Stops a consumer.
    BasicCancel(BasicCancel<'a>),
    /// The consumer has stopped.
    BasicCancelOk(BasicCancelOk<'a>),
    /// Publishes a message to an exchange. Its content follows.
    BasicPublish(BasicPublish<'a>),
    /// A message comes back that could not be delivered. Its content follows.
    BasicReturn(BasicReturn<'a>),
    /// A message for a consumer. Its content follows.
    BasicDeliver(BasicDeliver<'a>),
    /// Asks for one message of a queue.
    BasicGet(BasicGet<'a>),
    /// The message that was asked for. Its content follows.
    BasicGetOk(BasicGetOk<'a>),
    /// The queue has none.
    BasicGetEmpty(BasicGetEmpty),
    /// Acknowledges messages: of a client what was delivered, of a server what was published.
    BasicAck(BasicAck),
    /// Refuses a message.
    BasicReject(BasicReject),
    /// Asks for all messages that were not acknowledged once more, without an answer.
    BasicRecoverAsync(BasicRecoverAsync),
    /// Asks for all messages that were not acknowledged once more.
    BasicRecover(BasicRecover),
    /// They come.
    BasicRecoverOk(BasicRecoverOk),
    /// Refuses messages: of a client what was delivered, of a server what was published.
    BasicNack(BasicNack),
    /// Asks the server to acknowledge what is published on the channel.
    ConfirmSelect(ConfirmSelect),
    /// It will.
    ConfirmSelectOk(ConfirmSelectOk),
    /// Makes the channel one of transactions.
    TxSelect(TxSelect),
    /// It is one.
    TxSelectOk(TxSelectOk),
    /// Commits what was published and acknowledged.
    TxCommit(TxCommit),
    /// It is committed.
    TxCommitOk(TxCommitOk),
    /// Takes back what was published and acknowledged.
    TxRollback(TxRollback),
    /// It is taken back.
    TxRollbackOk(TxRollbackOk),
}

/// The same of each method.
macro_rules! each {
    ($any:expr, $method:ident => $what:expr) => {
        match $any {
            Method::ConnectionStart($method) => $what,
            Method::ConnectionStartOk($method) => $what,
            Method::ConnectionSecure($method) => $what,
            Method::ConnectionSecureOk($method) => $what,
            Method::ConnectionTune($method) => $what,
            Method::ConnectionTuneOk($method) => $what,
            Method::ConnectionOpen($method) => $what,
            Method::ConnectionOpenOk($method) => $what,
            Method::ConnectionClose($method) => $what,
            Method::ConnectionCloseOk($method) => $what,
            Method::ConnectionBlocked($method) => $what,
            Method::ConnectionUnblocked($method) => $what,
            Method::ConnectionUpdateSecret($method) => $what,
            Method::ConnectionUpdateSecretOk($method) => $what,
            Method::ChannelOpen($method) => $what,
            Method::ChannelOpenOk($method) => $what,
            Method::ChannelFlow($method) => $what,
            Method::ChannelFlowOk($method) => $what,
            Method::ChannelClose($method) => $what,
            Method::ChannelCloseOk($method) => $what,
            Method::AccessRequest($method) => $what,
            Method::AccessRequestOk($method) => $what,
            Method::ExchangeDeclare($method) => $what,
            Method::ExchangeDeclareOk($method) => $what,
            Method::ExchangeDelete($method) => $what,
            Method::ExchangeDeleteOk($method) => $what,
            Method::ExchangeBind($method) => $what,
            Method::ExchangeBindOk($method) => $what,
            Method::ExchangeUnbind($method) => $what,
            Method::ExchangeUnbindOk($method) => $what,
            Method::QueueDeclare($method) => $what,
            Method::QueueDeclareOk($method) => $what,
            Method::QueueBind($method) => $what,
            Method::QueueBindOk($method) => $what,
            Method::QueuePurge($method) => $what,
            Method::QueuePurgeOk($method) => $what,
            Method::QueueDelete($method) => $what,
            Method::QueueDeleteOk($method) => $what,
            Method::QueueUnbind($method) => $what,
            Method::QueueUnbindOk($method) => $what,
            Method::BasicQos($method) => $what,
            Method::BasicQosOk($method) => $what,
            Method::BasicConsume($method) => $what,
            Method::BasicConsumeOk($method) => $what,
            Method::BasicCancel($method) => $what,
            Method::BasicCancelOk($method) => $what,
            Method::BasicPublish($method) => $what,
            Method::BasicReturn($method) => $what,
            Method::BasicDeliver($method) => $what,
            Method::BasicGet($method) => $what,
            Method::BasicGetOk($method) => $what,
            Method::BasicGetEmpty($method) => $what,
            Method::BasicAck($method) => $what,
            Method::BasicReject($method) => $what,
            Method::BasicRecoverAsync($method) => $what,
            Method::BasicRecover($method) => $what,
            Method::BasicRecoverOk($method) => $what,
            Method::BasicNack($method) => $what,
            Method::ConfirmSelect($method) => $what,
            Method::ConfirmSelectOk($method) => $what,
            Method::TxSelect($method) => $what,
            Method::TxSelectOk($method) => $what,
            Method::TxCommit($method) => $what,
            Method::TxCommitOk($method) => $what,
            Method::TxRollback($method) => $what,
            Method::TxRollbackOk($method) => $what,
        }
    };
}

/// A method with spans: a call of its own for each, which writes what it returns where that is wanted.
#[inline(never)]
#[allow(clippy::unnecessary_wraps)]
fn placed<'a, M: Built>(fields: &Fields<'a>) -> Result<Payload<'a>, Error>
where
    M::Of<'a>: Into<Method<'a>>,
{
    Ok(Payload::Method(M::built(fields).into()))
}

impl<'a> Method<'a> {
    /// The method with these fields, whose kinds have to be its own: four bits each, the last one lowest.
    // Each is written where it is returned: one that is chosen first and wrapped then would be moved.
    #[inline(never)]
    pub(crate) fn read(fields: &Fields<'a>) -> Result<Payload<'a>, Error> {
        let kinds = fields.kinds();
        match fields.ids() {
            (10, 10) if kinds == 0x11877 => placed::<ConnectionStart<'_>>(fields),
            (10, 11) if kinds == 0x8676 => placed::<ConnectionStartOk<'_>>(fields),
            (10, 20) if kinds == 0x7 => placed::<ConnectionSecure<'_>>(fields),
            (10, 21) if kinds == 0x7 => placed::<ConnectionSecureOk<'_>>(fields),
            (10, 30) if kinds == 0x232 => Ok(Payload::Method(Method::ConnectionTune(ConnectionTune::read(fields)))),
            (10, 31) if kinds == 0x232 => Ok(Payload::Method(Method::ConnectionTuneOk(ConnectionTuneOk::read(fields)))),
            (10, 40) if kinds == 0x6 => placed::<ConnectionOpen<'_>>(fields),
            (10, 41) if kinds == 0x0 => Ok(Payload::Method(Method::ConnectionOpenOk(ConnectionOpenOk))),
            (10, 50) if kinds == 0x2622 => placed::<ConnectionClose<'_>>(fields),
            (10, 51) if kinds == 0x0 => Ok(Payload::Method(Method::ConnectionCloseOk(ConnectionCloseOk))),
            (10, 60) if kinds == 0x6 => placed::<ConnectionBlocked<'_>>(fields),
            (10, 61) if kinds == 0x0 => Ok(Payload::Method(Method::ConnectionUnblocked(ConnectionUnblocked))),
            (10, 70) if kinds == 0x76 => placed::<ConnectionUpdateSecret<'_>>(fields),
            (10, 71) if kinds == 0x0 => Ok(Payload::Method(Method::ConnectionUpdateSecretOk(ConnectionUpdateSecretOk))),
            (20, 10) if kinds == 0x0 => Ok(Payload::Method(Method::ChannelOpen(ChannelOpen))),
            (20, 11) if kinds == 0x0 => Ok(Payload::Method(Method::ChannelOpenOk(ChannelOpenOk))),
            (20, 20) if kinds == 0x5 => Ok(Payload::Method(Method::ChannelFlow(ChannelFlow::read(fields)))),
            (20, 21) if kinds == 0x5 => Ok(Payload::Method(Method::ChannelFlowOk(ChannelFlowOk::read(fields)))),
            (20, 40) if kinds == 0x2622 => placed::<ChannelClose<'_>>(fields),
            (20, 41) if kinds == 0x0 => Ok(Payload::Method(Method::ChannelCloseOk(ChannelCloseOk))),
            (30, 10) if kinds == 0x655555 => placed::<AccessRequest<'_>>(fields),
            (30, 11) if kinds == 0x0 => Ok(Payload::Method(Method::AccessRequestOk(AccessRequestOk))),
            (40, 10) if kinds == 0x66555558 => placed::<ExchangeDeclare<'_>>(fields),
            (40, 11) if kinds == 0x0 => Ok(Payload::Method(Method::ExchangeDeclareOk(ExchangeDeclareOk))),
            (40, 20) if kinds == 0x655 => placed::<ExchangeDelete<'_>>(fields),
            (40, 21) if kinds == 0x0 => Ok(Payload::Method(Method::ExchangeDeleteOk(ExchangeDeleteOk))),
            (40, 30) if kinds == 0x66658 => placed::<ExchangeBind<'_>>(fields),
            (40, 31) if kinds == 0x0 => Ok(Payload::Method(Method::ExchangeBindOk(ExchangeBindOk))),
            (40, 40) if kinds == 0x66658 => placed::<ExchangeUnbind<'_>>(fields),
            (40, 51) if kinds == 0x0 => Ok(Payload::Method(Method::ExchangeUnbindOk(ExchangeUnbindOk))),
            (50, 10) if kinds == 0x6555558 => placed::<QueueDeclare<'_>>(fields),
            (50, 11) if kinds == 0x633 => placed::<QueueDeclareOk<'_>>(fields),
            (50, 20) if kinds == 0x66658 => placed::<QueueBind<'_>>(fields),
            (50, 21) if kinds == 0x0 => Ok(Payload::Method(Method::QueueBindOk(QueueBindOk))),
            (50, 30) if kinds == 0x65 => placed::<QueuePurge<'_>>(fields),
            (50, 31) if kinds == 0x3 => Ok(Payload::Method(Method::QueuePurgeOk(QueuePurgeOk::read(fields)))),
            (50, 40) if kinds == 0x6555 => placed::<QueueDelete<'_>>(fields),
            (50, 41) if kinds == 0x3 => Ok(Payload::Method(Method::QueueDeleteOk(QueueDeleteOk::read(fields)))),
            (50, 50) if kinds == 0x6668 => placed::<QueueUnbind<'_>>(fields),
            (50, 51) if kinds == 0x0 => Ok(Payload::Method(Method::QueueUnbindOk(QueueUnbindOk))),
            (60, 10) if kinds == 0x25 => Ok(Payload::Method(Method::BasicQos(BasicQos::read(fields)))),
            (60, 11) if kinds == 0x0 => Ok(Payload::Method(Method::BasicQosOk(BasicQosOk))),
            (60, 20) if kinds == 0x6655558 => placed::<BasicConsume<'_>>(fields),
            (60, 21) if kinds == 0x6 => placed::<BasicConsumeOk<'_>>(fields),
            (60, 30) if kinds == 0x65 => placed::<BasicCancel<'_>>(fields),
            (60, 31) if kinds == 0x6 => placed::<BasicCancelOk<'_>>(fields),
            (60, 40) if kinds == 0x6655 => placed::<BasicPublish<'_>>(fields),
            (60, 50) if kinds == 0x2666 => placed::<BasicReturn<'_>>(fields),
            (60, 60) if kinds == 0x64566 => placed::<BasicDeliver<'_>>(fields),
            (60, 70) if kinds == 0x65 => placed::<BasicGet<'_>>(fields),
            (60, 71) if kinds == 0x45663 => placed::<BasicGetOk<'_>>(fields),
            (60, 72) if kinds == 0x0 => Ok(Payload::Method(Method::BasicGetEmpty(BasicGetEmpty))),
            (60, 80) if kinds == 0x45 => Ok(Payload::Method(Method::BasicAck(BasicAck::read(fields)))),
            (60, 90) if kinds == 0x45 => Ok(Payload::Method(Method::BasicReject(BasicReject::read(fields)))),
            (60, 100) if kinds == 0x5 => Ok(Payload::Method(Method::BasicRecoverAsync(BasicRecoverAsync::read(fields)))),
            (60, 110) if kinds == 0x5 => Ok(Payload::Method(Method::BasicRecover(BasicRecover::read(fields)))),
            (60, 111) if kinds == 0x0 => Ok(Payload::Method(Method::BasicRecoverOk(BasicRecoverOk))),
            (60, 120) if kinds == 0x455 => Ok(Payload::Method(Method::BasicNack(BasicNack::read(fields)))),
            (85, 10) if kinds == 0x5 => Ok(Payload::Method(Method::ConfirmSelect(ConfirmSelect::read(fields)))),
            (85, 11) if kinds == 0x0 => Ok(Payload::Method(Method::ConfirmSelectOk(ConfirmSelectOk))),
            (90, 10) if kinds == 0x0 => Ok(Payload::Method(Method::TxSelect(TxSelect))),
            (90, 11) if kinds == 0x0 => Ok(Payload::Method(Method::TxSelectOk(TxSelectOk))),
            (90, 20) if kinds == 0x0 => Ok(Payload::Method(Method::TxCommit(TxCommit))),
            (90, 21) if kinds == 0x0 => Ok(Payload::Method(Method::TxCommitOk(TxCommitOk))),
            (90, 30) if kinds == 0x0 => Ok(Payload::Method(Method::TxRollback(TxRollback))),
            (90, 31) if kinds == 0x0 => Ok(Payload::Method(Method::TxRollbackOk(TxRollbackOk))),

            _ => Err(Error::Incompatible(0)),
        }
    }

    fn id(&self) -> (u16, u16) {
        fn of<T: MethodInfo>(_: &T) -> (u16, u16) {
            T::ID
        }
        each!(self, method => of(method))
    }

    /// The id of its class.
    ///
    /// ```
    /// use feksroum::method::{Method, TxCommit};
    ///
    /// let method = Method::from(TxCommit);
    /// assert_eq!((method.class_id(), method.method_id(), method.name()), (90, 20, "tx.commit"));
    /// ```
    #[must_use]
    pub fn class_id(&self) -> u16 {
        self.id().0
    }

    /// Its id in its class.
    #[must_use]
    pub fn method_id(&self) -> u16 {
        self.id().1
    }

    /// Its class and name as the standard has them, as `basic.get-ok`.
    #[must_use]
    pub fn name(&self) -> &'static str {
        fn of<T: MethodInfo>(_: &T) -> &'static str {
            T::NAME
        }
        each!(self, method => of(method))
    }

    /// Its fields in their order, with their names as the standard has them.
    ///
    /// ```
    /// use feksroum::method::{BasicAck, Method};
    /// use feksroum::Field;
    ///
    /// let method = Method::from(BasicAck { delivery_tag: 7, multiple: false });
    /// let fields: Vec<_> = method.fields().collect();
    /// assert_eq!(fields, [("delivery-tag", Field::LongLong(7)), ("multiple", Field::Flag(false))]);
    /// ```
    pub fn fields(&self) -> impl Iterator<Item = (&'static str, Field<'_>)> {
        fn of<T: MethodInfo>(_: &T) -> &'static [&'static str] {
            T::FIELD_NAMES
        }
        self.list().named(each!(self, method => of(method)))
    }

    /// Whether a content header and a body follow it.
    #[must_use]
    pub fn carries_content(&self) -> bool {
        matches!(self, Method::BasicPublish(_) | Method::BasicReturn(_) | Method::BasicDeliver(_) | Method::BasicGetOk(_))
    }

    /// Whether the standard has an answer to it. Where it has a flag `no-wait` that is set, none comes.
    #[must_use]
    pub fn wants_answer(&self) -> bool {
        matches!(
            self,
            Method::ConnectionStart(_)
                | Method::ConnectionSecure(_)
                | Method::ConnectionTune(_)
                | Method::ConnectionOpen(_)
                | Method::ConnectionClose(_)
                | Method::ConnectionUpdateSecret(_)
                | Method::ChannelOpen(_)
                | Method::ChannelFlow(_)
                | Method::ChannelClose(_)
                | Method::AccessRequest(_)
                | Method::ExchangeDeclare(_)
                | Method::ExchangeDelete(_)
                | Method::ExchangeBind(_)
                | Method::ExchangeUnbind(_)
                | Method::QueueDeclare(_)
                | Method::QueueBind(_)
                | Method::QueuePurge(_)
                | Method::QueueDelete(_)
                | Method::QueueUnbind(_)
                | Method::BasicQos(_)
                | Method::BasicConsume(_)
                | Method::BasicCancel(_)
                | Method::BasicGet(_)
                | Method::BasicRecover(_)
                | Method::ConfirmSelect(_)
                | Method::TxSelect(_)
                | Method::TxCommit(_)
                | Method::TxRollback(_)
        )
    }
}

impl Listed for Method<'_> {
    fn list(&self) -> List<'_> {
        each!(self, method => method.list())
    }
}

impl Put for Method<'_> {
    fn put(&self, to: To, out: &mut [MaybeUninit<u8>]) -> Made {
        each!(self, method => method.put(to, out))
    }

    fn too_long(&self) -> Option<&'static str> {
        each!(self, method => method.too_long())
    }
}

impl Encode for Method<'_> {}

macro_rules! from {
($($name:ident($method:ty),)*) => {
$(
impl<'a> From<$method> for Method<'a> {
fn from(method: $method) -> Method<'a> {
Method::$name(method)
}
}

impl<'a> TryFrom<Method<'a>> for $method {
type Error = OtherMethod;

fn try_from(method: Method<'a>) -> Result<Self, OtherMethod> {
match method {
Method::$name(method) => Ok(method),
other => Err(OtherMethod::new(<$method>::NAME, other.name())),
}
}
}
)*
};
}

from! {
ConnectionStart(ConnectionStart<'a>),
ConnectionStartOk(ConnectionStartOk<'a>),
ConnectionSecure(ConnectionSecure<'a>),
ConnectionSecureOk(ConnectionSecureOk<'a>),
ConnectionTune(ConnectionTune),
ConnectionTuneOk(ConnectionTuneOk),
ConnectionOpen(ConnectionOpen<'a>),
ConnectionOpenOk(ConnectionOpenOk),
ConnectionClose(ConnectionClose<'a>),
ConnectionCloseOk(ConnectionCloseOk),
ConnectionBlocked(ConnectionBlocked<'a>),
ConnectionUnblocked(ConnectionUnblocked),
ConnectionUpdateSecret(ConnectionUpdateSecret<'a>),
ConnectionUpdateSecretOk(ConnectionUpdateSecretOk),
ChannelOpen(ChannelOpen),
ChannelOpenOk(ChannelOpenOk),
ChannelFlow(ChannelFlow),
ChannelFlowOk(ChannelFlowOk),
ChannelClose(ChannelClose<'a>),
ChannelCloseOk(ChannelCloseOk),
AccessRequest(AccessRequest<'a>),
AccessRequestOk(AccessRequestOk),
ExchangeDeclare(ExchangeDeclare<'a>),
ExchangeDeclareOk(ExchangeDeclareOk),
ExchangeDelete(ExchangeDelete<'a>),
ExchangeDeleteOk(ExchangeDeleteOk),
ExchangeBind(ExchangeBind<'a>),
ExchangeBindOk(ExchangeBindOk),
ExchangeUnbind(ExchangeUnbind<'a>),
ExchangeUnbindOk(ExchangeUnbindOk),
QueueDeclare(QueueDeclare<'a>),
QueueDeclareOk(QueueDeclareOk<'a>),
QueueBind(QueueBind<'a>),
QueueBindOk(QueueBindOk),
QueuePurge(QueuePurge<'a>),
QueuePurgeOk(QueuePurgeOk),
QueueDelete(QueueDelete<'a>),
QueueDeleteOk(QueueDeleteOk),
QueueUnbind(QueueUnbind<'a>),
QueueUnbindOk(QueueUnbindOk),
BasicQos(BasicQos),
BasicQosOk(BasicQosOk),
BasicConsume(BasicConsume<'a>),
BasicConsumeOk(BasicConsumeOk<'a>),
BasicCancel(BasicCancel<'a>),
BasicCancelOk(BasicCancelOk<'a>),
BasicPublish(BasicPublish<'a>),
BasicReturn(BasicReturn<'a>),
BasicDeliver(BasicDeliver<'a>),
BasicGet(BasicGet<'a>),
BasicGetOk(BasicGetOk<'a>),
BasicGetEmpty(BasicGetEmpty),
BasicAck(BasicAck),
BasicReject(BasicReject),
BasicRecoverAsync(BasicRecoverAsync),
BasicRecover(BasicRecover),
BasicRecoverOk(BasicRecoverOk),
BasicNack(BasicNack),
ConfirmSelect(ConfirmSelect),
ConfirmSelectOk(ConfirmSelectOk),
TxSelect(TxSelect),
TxSelectOk(TxSelectOk),
TxCommit(TxCommit),
TxCommitOk(TxCommitOk),
TxRollback(TxRollback),
TxRollbackOk(TxRollbackOk),
}
