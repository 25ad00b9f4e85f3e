//! Class tx: transactions.

// Made by `generate` out of the library's table. Change that, and not this file.

use crate::encode::Encode;
use crate::field::{List, Listed};
use crate::library::fields::Fields;
use crate::method_info::{Built, MethodInfo};

/// `tx.select`. Makes the channel one of transactions.
///
/// Class 90, method 10, it wants an answer.
#[derive(Clone, Copy, Debug, Default, PartialEq, Eq)]
pub struct TxSelect;

impl MethodInfo for TxSelect {
    const ID: (u16, u16) = (90, 10);
    const NAME: &'static str = "tx.select";
    const FIELD_NAMES: &'static [&'static str] = &[];
}

impl Built for TxSelect {
    type Of<'a> = TxSelect;

    #[inline]
    fn built(_: &Fields<'_>) -> TxSelect {
        TxSelect
    }
}

impl Listed for TxSelect {
    fn list(&self) -> List<'_> {
        List::of([])
    }
}

impl Encode for TxSelect {}

/// `tx.select-ok`. It is one.
///
/// Class 90, method 11.
#[derive(Clone, Copy, Debug, Default, PartialEq, Eq)]
pub struct TxSelectOk;

impl MethodInfo for TxSelectOk {
    const ID: (u16, u16) = (90, 11);
    const NAME: &'static str = "tx.select-ok";
    const FIELD_NAMES: &'static [&'static str] = &[];
}

impl Built for TxSelectOk {
    type Of<'a> = TxSelectOk;

    #[inline]
    fn built(_: &Fields<'_>) -> TxSelectOk {
        TxSelectOk
    }
}

impl Listed for TxSelectOk {
    fn list(&self) -> List<'_> {
        List::of([])
    }
}

impl Encode for TxSelectOk {}

/// `tx.commit`. Commits what was published and acknowledged.
///
/// Class 90, method 20, it wants an answer.
#[derive(Clone, Copy, Debug, Default, PartialEq, Eq)]
pub struct TxCommit;

impl MethodInfo for TxCommit {
    const ID: (u16, u16) = (90, 20);
    const NAME: &'static str = "tx.commit";
    const FIELD_NAMES: &'static [&'static str] = &[];
}

impl Built for TxCommit {
    type Of<'a> = TxCommit;

    #[inline]
    fn built(_: &Fields<'_>) -> TxCommit {
        TxCommit
    }
}

impl Listed for TxCommit {
    fn list(&self) -> List<'_> {
        List::of([])
    }
}

impl Encode for TxCommit {}

/// `tx.commit-ok`. It is committed.
///
/// Class 90, method 21.
#[derive(Clone, Copy, Debug, Default, PartialEq, Eq)]
pub struct TxCommitOk;

impl MethodInfo for TxCommitOk {
    const ID: (u16, u16) = (90, 21);
    const NAME: &'static str = "tx.commit-ok";
    const FIELD_NAMES: &'static [&'static str] = &[];
}

impl Built for TxCommitOk {
    type Of<'a> = TxCommitOk;

    #[inline]
    fn built(_: &Fields<'_>) -> TxCommitOk {
        TxCommitOk
    }
}

impl Listed for TxCommitOk {
    fn list(&self) -> List<'_> {
        List::of([])
    }
}

impl Encode for TxCommitOk {}

/// `tx.rollback`. Takes back what was published and acknowledged.
///
/// Class 90, method 30, it wants an answer.
#[derive(Clone, Copy, Debug, Default, PartialEq, Eq)]
pub struct TxRollback;

impl MethodInfo for TxRollback {
    const ID: (u16, u16) = (90, 30);
    const NAME: &'static str = "tx.rollback";
    const FIELD_NAMES: &'static [&'static str] = &[];
}

impl Built for TxRollback {
    type Of<'a> = TxRollback;

    #[inline]
    fn built(_: &Fields<'_>) -> TxRollback {
        TxRollback
    }
}

impl Listed for TxRollback {
    fn list(&self) -> List<'_> {
        List::of([])
    }
}

impl Encode for TxRollback {}

/// `tx.rollback-ok`. It is taken back.
///
/// Class 90, method 31.
#[derive(Clone, Copy, Debug, Default, PartialEq, Eq)]
pub struct TxRollbackOk;

impl MethodInfo for TxRollbackOk {
    const ID: (u16, u16) = (90, 31);
    const NAME: &'static str = "tx.rollback-ok";
    const FIELD_NAMES: &'static [&'static str] = &[];
}

impl Built for TxRollbackOk {
    type Of<'a> = TxRollbackOk;

    #[inline]
    fn built(_: &Fields<'_>) -> TxRollbackOk {
        TxRollbackOk
    }
}

impl Listed for TxRollbackOk {
    fn list(&self) -> List<'_> {
        List::of([])
    }
}

impl Encode for TxRollbackOk {}
