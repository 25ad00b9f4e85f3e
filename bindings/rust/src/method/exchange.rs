//! Class exchange: declaring, deleting and binding exchanges.

// Made by `generate` out of the library's table. Change that, and not this file.

use crate::encode::Encode;
use crate::field::{Field, List, Listed};
use crate::library::fields::Fields;
use crate::method_info::{Built, MethodInfo};
use crate::table::Table;

/// `exchange.declare`. Creates an exchange, or checks that it is there.
///
/// Class 40, method 10, it wants an answer.
#[derive(Clone, Copy, Debug, Default, PartialEq, Eq)]
pub struct ExchangeDeclare<'a> {
    /// The exchange's name, empty for the default one (`exchange`).
    pub exchange: &'a str,
    /// How it routes, as `direct` or `topic` (`type`).
    pub kind: &'a str,
    /// Whether to check only that it is there (`passive`).
    pub passive: bool,
    /// Whether it outlives the server's restart (`durable`).
    pub durable: bool,
    /// Whether it is deleted once it is used no more (`auto-delete`).
    pub auto_delete: bool,
    /// Whether only other exchanges may publish to it (`internal`).
    pub internal: bool,
    /// Whether no answer is wanted (`no-wait`).
    pub no_wait: bool,
    /// What brokers have beside the standard (`arguments`).
    pub arguments: Table<'a>,
}

impl<'a> ExchangeDeclare<'a> {
    #[inline]
    pub(crate) fn read(fields: &Fields<'a>) -> Self {
        let fields = fields.places();
        ExchangeDeclare {
            exchange: fields.short_string(0),
            kind: fields.short_string(1),
            passive: fields.flag(2),
            durable: fields.flag(3),
            auto_delete: fields.flag(4),
            internal: fields.flag(5),
            no_wait: fields.flag(6),
            arguments: fields.table(7),
        }
    }
}

impl MethodInfo for ExchangeDeclare<'_> {
    const ID: (u16, u16) = (40, 10);
    const NAME: &'static str = "exchange.declare";
    const FIELD_NAMES: &'static [&'static str] =
        &["exchange", "type", "passive", "durable", "auto-delete", "internal", "no-wait", "arguments"];
}

impl Built for ExchangeDeclare<'_> {
    type Of<'a> = ExchangeDeclare<'a>;

    #[inline]
    fn built<'a>(fields: &Fields<'a>) -> ExchangeDeclare<'a> {
        ExchangeDeclare::read(fields)
    }
}

impl Listed for ExchangeDeclare<'_> {
    fn list(&self) -> List<'_> {
        List::of([
            Some(Field::ShortString(self.exchange)),
            Some(Field::ShortString(self.kind)),
            Some(Field::Flag(self.passive)),
            Some(Field::Flag(self.durable)),
            Some(Field::Flag(self.auto_delete)),
            Some(Field::Flag(self.internal)),
            Some(Field::Flag(self.no_wait)),
            Some(Field::Table(self.arguments)),
        ])
    }
}

impl Encode for ExchangeDeclare<'_> {}

/// `exchange.declare-ok`. The exchange is there.
///
/// Class 40, method 11.
#[derive(Clone, Copy, Debug, Default, PartialEq, Eq)]
pub struct ExchangeDeclareOk;

impl MethodInfo for ExchangeDeclareOk {
    const ID: (u16, u16) = (40, 11);
    const NAME: &'static str = "exchange.declare-ok";
    const FIELD_NAMES: &'static [&'static str] = &[];
}

impl Built for ExchangeDeclareOk {
    type Of<'a> = ExchangeDeclareOk;

    #[inline]
    fn built(_: &Fields<'_>) -> ExchangeDeclareOk {
        ExchangeDeclareOk
    }
}

impl Listed for ExchangeDeclareOk {
    fn list(&self) -> List<'_> {
        List::of([])
    }
}

impl Encode for ExchangeDeclareOk {}

/// `exchange.delete`. Deletes an exchange.
///
/// Class 40, method 20, it wants an answer.
#[derive(Clone, Copy, Debug, Default, PartialEq, Eq)]
pub struct ExchangeDelete<'a> {
    /// The exchange's name, empty for the default one (`exchange`).
    pub exchange: &'a str,
    /// Whether only an unused one is deleted (`if-unused`).
    pub if_unused: bool,
    /// Whether no answer is wanted (`no-wait`).
    pub no_wait: bool,
}

impl<'a> ExchangeDelete<'a> {
    #[inline]
    pub(crate) fn read(fields: &Fields<'a>) -> Self {
        let fields = fields.places();
        ExchangeDelete { exchange: fields.short_string(0), if_unused: fields.flag(1), no_wait: fields.flag(2) }
    }
}

impl MethodInfo for ExchangeDelete<'_> {
    const ID: (u16, u16) = (40, 20);
    const NAME: &'static str = "exchange.delete";
    const FIELD_NAMES: &'static [&'static str] = &["exchange", "if-unused", "no-wait"];
}

impl Built for ExchangeDelete<'_> {
    type Of<'a> = ExchangeDelete<'a>;

    #[inline]
    fn built<'a>(fields: &Fields<'a>) -> ExchangeDelete<'a> {
        ExchangeDelete::read(fields)
    }
}

impl Listed for ExchangeDelete<'_> {
    fn list(&self) -> List<'_> {
        List::of([Some(Field::ShortString(self.exchange)), Some(Field::Flag(self.if_unused)), Some(Field::Flag(self.no_wait))])
    }
}

impl Encode for ExchangeDelete<'_> {}

/// `exchange.delete-ok`. The exchange is gone.
///
/// Class 40, method 21.
#[derive(Clone, Copy, Debug, Default, PartialEq, Eq)]
pub struct ExchangeDeleteOk;

impl MethodInfo for ExchangeDeleteOk {
    const ID: (u16, u16) = (40, 21);
    const NAME: &'static str = "exchange.delete-ok";
    const FIELD_NAMES: &'static [&'static str] = &[];
}

impl Built for ExchangeDeleteOk {
    type Of<'a> = ExchangeDeleteOk;

    #[inline]
    fn built(_: &Fields<'_>) -> ExchangeDeleteOk {
        ExchangeDeleteOk
    }
}

impl Listed for ExchangeDeleteOk {
    fn list(&self) -> List<'_> {
        List::of([])
    }
}

impl Encode for ExchangeDeleteOk {}

/// `exchange.bind`. Binds an exchange to another.
///
/// Class 40, method 30, it wants an answer.
#[derive(Clone, Copy, Debug, Default, PartialEq, Eq)]
pub struct ExchangeBind<'a> {
    /// The exchange that messages go to (`destination`).
    pub destination: &'a str,
    /// The exchange that messages come from (`source`).
    pub source: &'a str,
    /// What messages are routed by (`routing-key`).
    pub routing_key: &'a str,
    /// Whether no answer is wanted (`no-wait`).
    pub no_wait: bool,
    /// What brokers have beside the standard (`arguments`).
    pub arguments: Table<'a>,
}

impl<'a> ExchangeBind<'a> {
    #[inline]
    pub(crate) fn read(fields: &Fields<'a>) -> Self {
        let fields = fields.places();
        ExchangeBind {
            destination: fields.short_string(0),
            source: fields.short_string(1),
            routing_key: fields.short_string(2),
            no_wait: fields.flag(3),
            arguments: fields.table(4),
        }
    }
}

impl MethodInfo for ExchangeBind<'_> {
    const ID: (u16, u16) = (40, 30);
    const NAME: &'static str = "exchange.bind";
    const FIELD_NAMES: &'static [&'static str] = &["destination", "source", "routing-key", "no-wait", "arguments"];
}

impl Built for ExchangeBind<'_> {
    type Of<'a> = ExchangeBind<'a>;

    #[inline]
    fn built<'a>(fields: &Fields<'a>) -> ExchangeBind<'a> {
        ExchangeBind::read(fields)
    }
}

impl Listed for ExchangeBind<'_> {
    fn list(&self) -> List<'_> {
        List::of([
            Some(Field::ShortString(self.destination)),
            Some(Field::ShortString(self.source)),
            Some(Field::ShortString(self.routing_key)),
            Some(Field::Flag(self.no_wait)),
            Some(Field::Table(self.arguments)),
        ])
    }
}

impl Encode for ExchangeBind<'_> {}

/// `exchange.bind-ok`. The exchange is bound.
///
/// Class 40, method 31.
#[derive(Clone, Copy, Debug, Default, PartialEq, Eq)]
pub struct ExchangeBindOk;

impl MethodInfo for ExchangeBindOk {
    const ID: (u16, u16) = (40, 31);
    const NAME: &'static str = "exchange.bind-ok";
    const FIELD_NAMES: &'static [&'static str] = &[];
}

impl Built for ExchangeBindOk {
    type Of<'a> = ExchangeBindOk;

    #[inline]
    fn built(_: &Fields<'_>) -> ExchangeBindOk {
        ExchangeBindOk
    }
}

impl Listed for ExchangeBindOk {
    fn list(&self) -> List<'_> {
        List::of([])
    }
}

impl Encode for ExchangeBindOk {}

/// `exchange.unbind`. Takes such a binding back.
///
/// Class 40, method 40, it wants an answer.
#[derive(Clone, Copy, Debug, Default, PartialEq, Eq)]
pub struct ExchangeUnbind<'a> {
    /// The exchange that messages go to (`destination`).
    pub destination: &'a str,
    /// The exchange that messages come from (`source`).
    pub source: &'a str,
    /// What messages are routed by (`routing-key`).
    pub routing_key: &'a str,
    /// Whether no answer is wanted (`no-wait`).
    pub no_wait: bool,
    /// What brokers have beside the standard (`arguments`).
    pub arguments: Table<'a>,
}

impl<'a> ExchangeUnbind<'a> {
    #[inline]
    pub(crate) fn read(fields: &Fields<'a>) -> Self {
        let fields = fields.places();
        ExchangeUnbind {
            destination: fields.short_string(0),
            source: fields.short_string(1),
            routing_key: fields.short_string(2),
            no_wait: fields.flag(3),
            arguments: fields.table(4),
        }
    }
}

impl MethodInfo for ExchangeUnbind<'_> {
    const ID: (u16, u16) = (40, 40);
    const NAME: &'static str = "exchange.unbind";
    const FIELD_NAMES: &'static [&'static str] = &["destination", "source", "routing-key", "no-wait", "arguments"];
}

impl Built for ExchangeUnbind<'_> {
    type Of<'a> = ExchangeUnbind<'a>;

    #[inline]
    fn built<'a>(fields: &Fields<'a>) -> ExchangeUnbind<'a> {
        ExchangeUnbind::read(fields)
    }
}

impl Listed for ExchangeUnbind<'_> {
    fn list(&self) -> List<'_> {
        List::of([
            Some(Field::ShortString(self.destination)),
            Some(Field::ShortString(self.source)),
            Some(Field::ShortString(self.routing_key)),
            Some(Field::Flag(self.no_wait)),
            Some(Field::Table(self.arguments)),
        ])
    }
}

impl Encode for ExchangeUnbind<'_> {}

/// `exchange.unbind-ok`. The binding is gone.
///
/// Class 40, method 51.
#[derive(Clone, Copy, Debug, Default, PartialEq, Eq)]
pub struct ExchangeUnbindOk;

impl MethodInfo for ExchangeUnbindOk {
    const ID: (u16, u16) = (40, 51);
    const NAME: &'static str = "exchange.unbind-ok";
    const FIELD_NAMES: &'static [&'static str] = &[];
}

impl Built for ExchangeUnbindOk {
    type Of<'a> = ExchangeUnbindOk;

    #[inline]
    fn built(_: &Fields<'_>) -> ExchangeUnbindOk {
        ExchangeUnbindOk
    }
}

impl Listed for ExchangeUnbindOk {
    fn list(&self) -> List<'_> {
        List::of([])
    }
}

impl Encode for ExchangeUnbindOk {}
