//! A close as an error.

use crate::method::{ChannelClose, ConnectionClose};
use crate::reply_code::ReplyCode;
use std::error;
use std::fmt;

/// Why the other side closed a connection or a channel: a [`ConnectionClose`] or a [`ChannelClose`] that owns its text.
///
/// ```
/// use feksroum::method::ChannelClose;
/// use feksroum::{Closed, ReplyCode};
///
/// let close = ChannelClose { reply_code: 404, reply_text: "no queue 'orders'", class_id: 60, method_id: 20 };
/// let closed = Closed::from(close);
/// assert_eq!(closed.reply(), Some(ReplyCode::NotFound));
/// assert_eq!(closed.to_string(), "the channel was closed: 404 no queue 'orders'");
/// ```
#[derive(Clone, Debug, PartialEq, Eq, Hash)]
#[non_exhaustive]
pub struct Closed {
    /// Whether it is the whole connection, and not a channel alone.
    pub is_connection: bool,
    /// 200, or the code of an error.
    pub reply_code: u16,
    /// The same in words.
    pub reply_text: String,
    /// The class of the method that was at fault, else 0.
    pub class_id: u16,
    /// The id of the method that was at fault, else 0.
    pub method_id: u16,
}

impl Closed {
    /// The error of this code, where the standard has it.
    #[must_use]
    pub fn reply(&self) -> Option<ReplyCode> {
        ReplyCode::from_code(self.reply_code)
    }
}

impl From<ConnectionClose<'_>> for Closed {
    fn from(close: ConnectionClose<'_>) -> Closed {
        let ConnectionClose { reply_code, reply_text, class_id, method_id } = close;
        Closed { is_connection: true, reply_code, reply_text: reply_text.into(), class_id, method_id }
    }
}

impl From<ChannelClose<'_>> for Closed {
    fn from(close: ChannelClose<'_>) -> Closed {
        let ChannelClose { reply_code, reply_text, class_id, method_id } = close;
        Closed { is_connection: false, reply_code, reply_text: reply_text.into(), class_id, method_id }
    }
}

impl fmt::Display for Closed {
    fn fmt(&self, f: &mut fmt::Formatter<'_>) -> fmt::Result {
        let what = if self.is_connection { "connection" } else { "channel" };
        write!(f, "the {what} was closed: {} {}", self.reply_code, self.reply_text)
    }
}

impl error::Error for Closed {}
