//! Why channels and connections are closed.

// Made by `generate` out of the library's table. Change that, and not this file.

use std::fmt;

/// An error that closes a channel, or the connection where it is a hard one.
///
/// ```
/// use feksroum::method::ChannelClose;
/// use feksroum::ReplyCode;
///
/// let close = ChannelClose { reply_code: ReplyCode::NotFound.code(), reply_text: "no queue 'orders'", ..ChannelClose::default() };
/// assert_eq!(ReplyCode::from_code(close.reply_code), Some(ReplyCode::NotFound));
/// assert_eq!(ReplyCode::NotFound.to_string(), "404 not-found");
/// ```
#[derive(Clone, Copy, Debug, PartialEq, Eq, Hash)]
#[non_exhaustive]
pub enum ReplyCode {
    /// The content is larger than the other side takes.
    ContentTooLarge = 311,
    /// No queue takes the message.
    NoRoute = 312,
    /// No consumer takes the message at once.
    NoConsumers = 313,
    /// An operator closes the connection.
    ConnectionForced = 320,
    /// There is no such virtual host.
    InvalidPath = 402,
    /// The user has no right to it.
    AccessRefused = 403,
    /// There is no such thing.
    NotFound = 404,
    /// Another connection holds it.
    ResourceLocked = 405,
    /// What is asked for does not fit what is there.
    PreconditionFailed = 406,
    /// A frame that cannot be decoded.
    FrameError = 501,
    /// A field that does not hold what it should.
    SyntaxError = 502,
    /// A method that may not come now.
    CommandInvalid = 503,
    /// A channel that is not open.
    ChannelError = 504,
    /// A frame that may not come now.
    UnexpectedFrame = 505,
    /// The server is short of something.
    ResourceError = 506,
    /// Something that is not allowed.
    NotAllowed = 530,
    /// Something that the server does not have.
    NotImplemented = 540,
    /// A fault of the server itself.
    InternalError = 541,
}

impl ReplyCode {
    /// Each, in ascending order.
    pub const ALL: &'static [ReplyCode] = &[
        ReplyCode::ContentTooLarge,
        ReplyCode::NoRoute,
        ReplyCode::NoConsumers,
        ReplyCode::ConnectionForced,
        ReplyCode::InvalidPath,
        ReplyCode::AccessRefused,
        ReplyCode::NotFound,
        ReplyCode::ResourceLocked,
        ReplyCode::PreconditionFailed,
        ReplyCode::FrameError,
        ReplyCode::SyntaxError,
        ReplyCode::CommandInvalid,
        ReplyCode::ChannelError,
        ReplyCode::UnexpectedFrame,
        ReplyCode::ResourceError,
        ReplyCode::NotAllowed,
        ReplyCode::NotImplemented,
        ReplyCode::InternalError,
    ];

    /// The error with this code. 200, which is success, and codes that brokers have of their own are none.
    #[must_use]
    pub fn from_code(code: u16) -> Option<ReplyCode> {
        ReplyCode::ALL.iter().copied().find(|reply| reply.code() == code)
    }

    /// Its code.
    #[must_use]
    pub fn code(self) -> u16 {
        self as u16
    }

    /// Its name as the standard has it.
    #[must_use]
    pub fn name(self) -> &'static str {
        match self {
            ReplyCode::ContentTooLarge => "content-too-large",
            ReplyCode::NoRoute => "no-route",
            ReplyCode::NoConsumers => "no-consumers",
            ReplyCode::ConnectionForced => "connection-forced",
            ReplyCode::InvalidPath => "invalid-path",
            ReplyCode::AccessRefused => "access-refused",
            ReplyCode::NotFound => "not-found",
            ReplyCode::ResourceLocked => "resource-locked",
            ReplyCode::PreconditionFailed => "precondition-failed",
            ReplyCode::FrameError => "frame-error",
            ReplyCode::SyntaxError => "syntax-error",
            ReplyCode::CommandInvalid => "command-invalid",
            ReplyCode::ChannelError => "channel-error",
            ReplyCode::UnexpectedFrame => "unexpected-frame",
            ReplyCode::ResourceError => "resource-error",
            ReplyCode::NotAllowed => "not-allowed",
            ReplyCode::NotImplemented => "not-implemented",
            ReplyCode::InternalError => "internal-error",
        }
    }

    /// Whether it closes the connection, and not its channel alone.
    #[must_use]
    pub fn is_hard(self) -> bool {
        matches!(
            self,
            ReplyCode::ConnectionForced
                | ReplyCode::InvalidPath
                | ReplyCode::FrameError
                | ReplyCode::SyntaxError
                | ReplyCode::CommandInvalid
                | ReplyCode::ChannelError
                | ReplyCode::UnexpectedFrame
                | ReplyCode::ResourceError
                | ReplyCode::NotAllowed
                | ReplyCode::NotImplemented
                | ReplyCode::InternalError
        )
    }
}

impl fmt::Display for ReplyCode {
    /// Its code and its name, as `404 not-found`.
    fn fmt(&self, f: &mut fmt::Formatter<'_>) -> fmt::Result {
        write!(f, "{} {}", self.code(), self.name())
    }
}
