//! Class access: asking for access, which brokers of AMQP 0-9-1 no longer need.

// Made by `generate` out of the library's table. Change that, and not this file.

use crate::encode::Encode;
use crate::field::{Field, List, Listed};
use crate::library::fields::Fields;
use crate::method_info::{Built, MethodInfo};

/// `access.request`. The client asks for access to a realm.
///
/// Class 30, method 10, it wants an answer.
#[derive(Clone, Copy, Debug, Default, PartialEq, Eq)]
pub struct AccessRequest<'a> {
    /// The realm's name (`realm`).
    pub realm: &'a str,
    /// Whether no one else may have it (`exclusive`).
    pub exclusive: bool,
    /// Whether entities are to be looked at (`passive`).
    pub passive: bool,
    /// Whether entities are to be created (`active`).
    pub active: bool,
    /// Whether messages are to be written (`write`).
    pub write: bool,
    /// Whether messages are to be read (`read`).
    pub read: bool,
}

impl<'a> AccessRequest<'a> {
    #[inline]
    pub(crate) fn read(fields: &Fields<'a>) -> Self {
        let fields = fields.places();
        AccessRequest {
            realm: fields.short_string(0),
            exclusive: fields.flag(1),
            passive: fields.flag(2),
            active: fields.flag(3),
            write: fields.flag(4),
            read: fields.flag(5),
        }
    }
}

impl MethodInfo for AccessRequest<'_> {
    const ID: (u16, u16) = (30, 10);
    const NAME: &'static str = "access.request";
    const FIELD_NAMES: &'static [&'static str] = &["realm", "exclusive", "passive", "active", "write", "read"];
}

impl Built for AccessRequest<'_> {
    type Of<'a> = AccessRequest<'a>;

    #[inline]
    fn built<'a>(fields: &Fields<'a>) -> AccessRequest<'a> {
        AccessRequest::read(fields)
    }
}

impl Listed for AccessRequest<'_> {
    fn list(&self) -> List<'_> {
        List::of([
            Some(Field::ShortString(self.realm)),
            Some(Field::Flag(self.exclusive)),
            Some(Field::Flag(self.passive)),
            Some(Field::Flag(self.active)),
            Some(Field::Flag(self.write)),
            Some(Field::Flag(self.read)),
        ])
    }
}

impl Encode for AccessRequest<'_> {}

/// `access.request-ok`. It has it.
///
/// Class 30, method 11.
#[derive(Clone, Copy, Debug, Default, PartialEq, Eq)]
pub struct AccessRequestOk;

impl MethodInfo for AccessRequestOk {
    const ID: (u16, u16) = (30, 11);
    const NAME: &'static str = "access.request-ok";
    const FIELD_NAMES: &'static [&'static str] = &[];
}

impl Built for AccessRequestOk {
    type Of<'a> = AccessRequestOk;

    #[inline]
    fn built(_: &Fields<'_>) -> AccessRequestOk {
        AccessRequestOk
    }
}

impl Listed for AccessRequestOk {
    fn list(&self) -> List<'_> {
        List::of([])
    }
}

impl Encode for AccessRequestOk {}
