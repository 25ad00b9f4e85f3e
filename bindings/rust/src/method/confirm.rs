//! Class confirm: confirms of what was published.

// Made by `generate` out of the library's table. Change that, and not this file.

use crate::encode::Encode;
use crate::field::{Field, List, Listed};
use crate::library::fields::Fields;
use crate::method_info::{Built, MethodInfo};

/// `confirm.select`. Asks the server to acknowledge what is published on the channel.
///
/// Class 85, method 10, it wants an answer.
#[derive(Clone, Copy, Debug, Default, PartialEq, Eq)]
pub struct ConfirmSelect {
    /// Whether no answer is wanted (`nowait`).
    pub nowait: bool,
}

impl ConfirmSelect {
    #[inline]
    pub(crate) fn read(fields: &Fields<'_>) -> Self {
        let fields = fields.places();
        ConfirmSelect { nowait: fields.flag(0) }
    }
}

impl MethodInfo for ConfirmSelect {
    const ID: (u16, u16) = (85, 10);
    const NAME: &'static str = "confirm.select";
    const FIELD_NAMES: &'static [&'static str] = &["nowait"];
}

impl Built for ConfirmSelect {
    type Of<'a> = ConfirmSelect;

    #[inline]
    fn built(fields: &Fields<'_>) -> ConfirmSelect {
        ConfirmSelect::read(fields)
    }
}

impl Listed for ConfirmSelect {
    fn list(&self) -> List<'_> {
        List::of([Some(Field::Flag(self.nowait))])
    }
}

impl Encode for ConfirmSelect {}

/// `confirm.select-ok`. It will.
///
/// Class 85, method 11.
#[derive(Clone, Copy, Debug, Default, PartialEq, Eq)]
pub struct ConfirmSelectOk;

impl MethodInfo for ConfirmSelectOk {
    const ID: (u16, u16) = (85, 11);
    const NAME: &'static str = "confirm.select-ok";
    const FIELD_NAMES: &'static [&'static str] = &[];
}

impl Built for ConfirmSelectOk {
    type Of<'a> = ConfirmSelectOk;

    #[inline]
    fn built(_: &Fields<'_>) -> ConfirmSelectOk {
        ConfirmSelectOk
    }
}

impl Listed for ConfirmSelectOk {
    fn list(&self) -> List<'_> {
        List::of([])
    }
}

impl Encode for ConfirmSelectOk {}
