//! Class channel: opening and closing a channel, and holding its flow.

// Made by `generate` out of the library's table. Change that, and not this file.

use crate::encode::Encode;
use crate::field::{Field, List, Listed};
use crate::library::fields::Fields;
use crate::method_info::{Built, MethodInfo};

/// `channel.open`. The client opens the channel.
///
/// Class 20, method 10, it wants an answer.
#[derive(Clone, Copy, Debug, Default, PartialEq, Eq)]
pub struct ChannelOpen;

impl MethodInfo for ChannelOpen {
    const ID: (u16, u16) = (20, 10);
    const NAME: &'static str = "channel.open";
    const FIELD_NAMES: &'static [&'static str] = &[];
}

impl Built for ChannelOpen {
    type Of<'a> = ChannelOpen;

    #[inline]
    fn built(_: &Fields<'_>) -> ChannelOpen {
        ChannelOpen
    }
}

impl Listed for ChannelOpen {
    fn list(&self) -> List<'_> {
        List::of([])
    }
}

impl Encode for ChannelOpen {}

/// `channel.open-ok`. The channel is open.
///
/// Class 20, method 11.
#[derive(Clone, Copy, Debug, Default, PartialEq, Eq)]
pub struct ChannelOpenOk;

impl MethodInfo for ChannelOpenOk {
    const ID: (u16, u16) = (20, 11);
    const NAME: &'static str = "channel.open-ok";
    const FIELD_NAMES: &'static [&'static str] = &[];
}

impl Built for ChannelOpenOk {
    type Of<'a> = ChannelOpenOk;

    #[inline]
    fn built(_: &Fields<'_>) -> ChannelOpenOk {
        ChannelOpenOk
    }
}

impl Listed for ChannelOpenOk {
    fn list(&self) -> List<'_> {
        List::of([])
    }
}

impl Encode for ChannelOpenOk {}

/// `channel.flow`. One side asks the other to pause or to go on with content.
///
/// Class 20, method 20, it wants an answer.
#[derive(Clone, Copy, Debug, Default, PartialEq, Eq)]
pub struct ChannelFlow {
    /// Whether content may come (`active`).
    pub active: bool,
}

impl ChannelFlow {
    #[inline]
    pub(crate) fn read(fields: &Fields<'_>) -> Self {
        let fields = fields.places();
        ChannelFlow { active: fields.flag(0) }
    }
}

impl MethodInfo for ChannelFlow {
    const ID: (u16, u16) = (20, 20);
    const NAME: &'static str = "channel.flow";
    const FIELD_NAMES: &'static [&'static str] = &["active"];
}

impl Built for ChannelFlow {
    type Of<'a> = ChannelFlow;

    #[inline]
    fn built(fields: &Fields<'_>) -> ChannelFlow {
        ChannelFlow::read(fields)
    }
}

impl Listed for ChannelFlow {
    fn list(&self) -> List<'_> {
        List::of([Some(Field::Flag(self.active))])
    }
}

impl Encode for ChannelFlow {}

/// `channel.flow-ok`. The other side does so.
///
/// Class 20, method 21.
#[derive(Clone, Copy, Debug, Default, PartialEq, Eq)]
pub struct ChannelFlowOk {
    /// Whether content may come (`active`).
    pub active: bool,
}

impl ChannelFlowOk {
    #[inline]
    pub(crate) fn read(fields: &Fields<'_>) -> Self {
        let fields = fields.places();
        ChannelFlowOk { active: fields.flag(0) }
    }
}

impl MethodInfo for ChannelFlowOk {
    const ID: (u16, u16) = (20, 21);
    const NAME: &'static str = "channel.flow-ok";
    const FIELD_NAMES: &'static [&'static str] = &["active"];
}

impl Built for ChannelFlowOk {
    type Of<'a> = ChannelFlowOk;

    #[inline]
    fn built(fields: &Fields<'_>) -> ChannelFlowOk {
        ChannelFlowOk::read(fields)
    }
}

impl Listed for ChannelFlowOk {
    fn list(&self) -> List<'_> {
        List::of([Some(Field::Flag(self.active))])
    }
}

impl Encode for ChannelFlowOk {}

/// `channel.close`. One side closes the channel, and says why.
///
/// Class 20, method 40, it wants an answer.
#[derive(Clone, Copy, Debug, Default, PartialEq, Eq)]
pub struct ChannelClose<'a> {
    /// Why: 200, or the code of an error (`reply-code`).
    pub reply_code: u16,
    /// The same in words (`reply-text`).
    pub reply_text: &'a str,
    /// The class of the method that was at fault, else 0 (`class-id`).
    pub class_id: u16,
    /// The id of the method that was at fault, else 0 (`method-id`).
    pub method_id: u16,
}

impl<'a> ChannelClose<'a> {
    #[inline]
    pub(crate) fn read(fields: &Fields<'a>) -> Self {
        let fields = fields.places();
        ChannelClose {
            reply_code: fields.short(0),
            reply_text: fields.short_string(1),
            class_id: fields.short(2),
            method_id: fields.short(3),
        }
    }
}

impl MethodInfo for ChannelClose<'_> {
    const ID: (u16, u16) = (20, 40);
    const NAME: &'static str = "channel.close";
    const FIELD_NAMES: &'static [&'static str] = &["reply-code", "reply-text", "class-id", "method-id"];
}

impl Built for ChannelClose<'_> {
    type Of<'a> = ChannelClose<'a>;

    #[inline]
    fn built<'a>(fields: &Fields<'a>) -> ChannelClose<'a> {
        ChannelClose::read(fields)
    }
}

impl Listed for ChannelClose<'_> {
    fn list(&self) -> List<'_> {
        List::of([
            Some(Field::Short(self.reply_code)),
            Some(Field::ShortString(self.reply_text)),
            Some(Field::Short(self.class_id)),
            Some(Field::Short(self.method_id)),
        ])
    }
}

impl Encode for ChannelClose<'_> {}

/// `channel.close-ok`. The other side has closed it too.
///
/// Class 20, method 41.
#[derive(Clone, Copy, Debug, Default, PartialEq, Eq)]
pub struct ChannelCloseOk;

impl MethodInfo for ChannelCloseOk {
    const ID: (u16, u16) = (20, 41);
    const NAME: &'static str = "channel.close-ok";
    const FIELD_NAMES: &'static [&'static str] = &[];
}

impl Built for ChannelCloseOk {
    type Of<'a> = ChannelCloseOk;

    #[inline]
    fn built(_: &Fields<'_>) -> ChannelCloseOk {
        ChannelCloseOk
    }
}

impl Listed for ChannelCloseOk {
    fn list(&self) -> List<'_> {
        List::of([])
    }
}

impl Encode for ChannelCloseOk {}
