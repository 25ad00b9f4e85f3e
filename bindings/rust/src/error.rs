//! Why bytes are no frames, why lines are those of none, why streams end early, and why something is not written.

use crate::turns::ContentFault;
use std::error;
use std::fmt;
use std::io;

/// Why no whole frame is in front of some bytes, or no line of one in front of some text; or why frames are no messages.
#[derive(Clone, Copy, Debug, PartialEq, Eq, Hash)]
#[non_exhaustive]
pub enum Error {
    /// Out of memory.
    NoMemory,
    /// The first byte of a frame names no frame type.
    UnknownFrameType,
    /// A first byte 65 that does not begin a protocol header.
    BadProtocolHeader,
    /// A payload above the limit.
    TooLarge,
    /// The byte after the payload is not 206.
    BadFrameEnd,
    /// A method of no class.
    UnknownClass {
        /// The id of that class; 0 where it is not known, as of a line of text.
        class_id: u16,
        /// The method's id.
        method_id: u16,
    },
    /// A method that its class does not have.
    UnknownMethod {
        /// The id of its class; 0 where it is not known.
        class_id: u16,
        /// The id that the class does not have.
        method_id: u16,
    },
    /// Something passes the end of the payload, or of a table or array in it.
    ShortPayload,
    /// Bytes are left after the last field of the payload.
    TrailingBytes,
    /// A short string that is not UTF-8.
    NotUtf8,
    /// A field tag that names no type.
    UnknownTag,
    /// Tables or arrays nested more than 64 deep.
    TooDeep,
    /// The bytes end inside a frame: more are needed, and at the end of input it is a fault.
    CutShort,
    /// A frame that can be read and is not tidy, where only tidy frames are taken.
    NotTidy,
    /// A frame that may not come next on its channel.
    BadContent {
        /// The channel.
        channel: u16,
        /// Why it may not come.
        fault: ContentFault,
    },
    /// The end came between two frames, inside a message.
    OpenContent {
        /// How many messages are open.
        messages: usize,
    },
    /// A line that is the line of no frame.
    BadText,
    /// A frame was not taken, since open messages would have more bytes than an [`Assembler`](crate::Assembler) may hold.
    AssemblerFull,
    /// A slice that is to be written is shorter than the one that is read.
    BufferTooSmall,
    /// The library answered with this status, which the call that was made does not have in this version of the crate: another
    /// version of the library is linked.
    Incompatible(u32),
}

impl Error {
    /// Each error that the library's calls return by a status of their own, in the order of these.
    pub const ALL: &'static [Error] = &[
        Error::NoMemory,
        Error::UnknownFrameType,
        Error::BadProtocolHeader,
        Error::TooLarge,
        Error::BadFrameEnd,
        Error::UnknownClass { class_id: 0, method_id: 0 },
        Error::UnknownMethod { class_id: 0, method_id: 0 },
        Error::ShortPayload,
        Error::TrailingBytes,
        Error::NotUtf8,
        Error::UnknownTag,
        Error::TooDeep,
        Error::CutShort,
        Error::NotTidy,
        Error::BadText,
    ];

    /// The status of the C functions for it, which is the exit status of the program; 255 for a status above, and for
    /// [`AssemblerFull`](Error::AssemblerFull), for which there is none.
    ///
    /// ```
    /// assert_eq!(feksroum::Error::CutShort.status(), 21);
    /// ```
    #[must_use]
    pub fn status(self) -> u8 {
        match self {
            Error::NoMemory => 3,
            Error::UnknownFrameType => 10,
            Error::BadProtocolHeader => 11,
            Error::TooLarge => 12,
            Error::BadFrameEnd => 13,
            Error::UnknownClass { .. } => 14,
            Error::UnknownMethod { .. } => 15,
            Error::ShortPayload => 16,
            Error::TrailingBytes => 17,
            Error::NotUtf8 => 18,
            Error::UnknownTag => 19,
            Error::TooDeep => 20,
            Error::CutShort => 21,
            Error::NotTidy => 23,
            Error::BadContent { .. } => 24,
            Error::OpenContent { .. } => 25,
            Error::BadText => 26,
            Error::AssemblerFull => u8::MAX,
            Error::BufferTooSmall => 40,
            Error::Incompatible(status) => u8::try_from(status).unwrap_or(u8::MAX),
        }
    }

    /// Its name, as the program prints it.
    #[must_use]
    pub fn name(self) -> &'static str {
        match self {
            Error::NoMemory => "NoMemory",
            Error::UnknownFrameType => "UnknownFrameType",
            Error::BadProtocolHeader => "BadProtocolHeader",
            Error::TooLarge => "TooLarge",
            Error::BadFrameEnd => "BadFrameEnd",
            Error::UnknownClass { .. } => "UnknownClass",
            Error::UnknownMethod { .. } => "UnknownMethod",
            Error::ShortPayload => "ShortPayload",
            Error::TrailingBytes => "TrailingBytes",
            Error::NotUtf8 => "NotUtf8",
            Error::UnknownTag => "UnknownTag",
            Error::TooDeep => "TooDeep",
            Error::CutShort => "CutShort",
            Error::NotTidy => "NotTidy",
            Error::BadContent { .. } => "BadContent",
            Error::OpenContent { .. } => "OpenContent",
            Error::BadText => "BadText",
            Error::AssemblerFull => "AssemblerFull",
            Error::BufferTooSmall => "BufferTooSmall",
            Error::Incompatible(_) => "Incompatible",
        }
    }

    /// The error with a status that a C function returned of this payload.
    #[cold]
    pub(crate) fn of_payload(status: u8, payload: &[u8]) -> Error {
        Error::of_status(status).map_or_else(|error| error.with_ids(payload), |()| Error::Incompatible(status.into()))
    }

    /// The same, which these bytes of a frame have.
    pub(crate) fn in_frame(self, frame: &[u8]) -> Error {
        const PAYLOAD: usize = 7;
        self.with_ids(frame.get(PAYLOAD..).unwrap_or_default())
    }

    /// The same of a method with this payload, whose ids are in front.
    fn with_ids(self, payload: &[u8]) -> Error {
        let [a, b, c, d, ..] = *payload else { return self };
        let (class_id, method_id) = (u16::from_be_bytes([a, b]), u16::from_be_bytes([c, d]));
        match self {
            Error::UnknownClass { .. } => Error::UnknownClass { class_id, method_id },
            Error::UnknownMethod { .. } => Error::UnknownMethod { class_id, method_id },
            other => other,
        }
    }

    /// The error with a status that a C function returned; none with 0 alone.
    #[inline]
    pub(crate) fn of_status(status: impl Into<u32>) -> Result<(), Error> {
        match status.into() {
            0 => Ok(()),
            status => Err(Error::of_fault(status)),
        }
    }

    #[cold]
    fn of_fault(status: u32) -> Error {
        let known = Error::ALL.iter().find(|error| u32::from(error.status()) == status);
        known.copied().unwrap_or(Error::Incompatible(status))
    }
}

impl fmt::Display for Error {
    fn fmt(&self, f: &mut fmt::Formatter<'_>) -> fmt::Result {
        f.write_str(match self {
            Error::NoMemory => "out of memory",
            Error::UnknownFrameType => "the first byte of a frame is none of 1, 2, 3, 8 and 65",
            Error::BadProtocolHeader => "a frame begins as a protocol header and is none",
            Error::TooLarge => "a payload is longer than the limit",
            Error::BadFrameEnd => "the byte after the payload is not 206",
            Error::UnknownClass { class_id, method_id } => return write!(f, "a method of no class, {class_id}.{method_id}"),
            Error::UnknownMethod { class_id, method_id } => {
                return write!(f, "a method that its class does not have, {class_id}.{method_id}");
            }
            Error::ShortPayload => "something passes the end of the payload, or of a table or an array in it",
            Error::TrailingBytes => "bytes are left after the last field of a payload",
            Error::NotUtf8 => "a short string is not UTF-8",
            Error::UnknownTag => "a field tag of no kind of value",
            Error::TooDeep => "tables or arrays nest more than 64 deep",
            Error::CutShort => "the input ends inside a frame, or inside a line",
            Error::NotTidy => "a frame whose ignored parts are not canonical",
            Error::BadContent { channel, fault } => return write!(f, "{fault} ({}), on channel {channel}", fault.name()),
            Error::OpenContent { messages: 1 } => "the input ends inside a message",
            Error::OpenContent { messages } => return write!(f, "the input ends inside a message: {messages} are open"),
            Error::BadText => "a line is not the exact text form of any frame with a payload within the limit",
            Error::BufferTooSmall => "the buffer is too short for what is written",
            Error::AssemblerFull => "open messages would have more bytes than may be held",
            Error::Incompatible(status) => return write!(f, "the library answered with status {status}: is it of another version?"),
        })
    }
}

impl error::Error for Error {}

/// Why a stream was not read and written to its end.
#[derive(Debug)]
#[non_exhaustive]
pub enum StreamError {
    /// What was read is no sequence of frames, or of messages, or memory ran out.
    Frame {
        /// Why.
        error: Error,
        /// Where in the stream that is: how many bytes the frames before it have.
        offset: u64,
    },
    /// A read failed.
    Read(io::Error),
    /// A write failed.
    Write(io::Error),
}

impl StreamError {
    /// The exit status of the program for it.
    #[must_use]
    pub fn status(&self) -> u8 {
        match self {
            StreamError::Frame { error, .. } => error.status(),
            StreamError::Read(_) => 4,
            StreamError::Write(_) => 5,
        }
    }
}

impl fmt::Display for StreamError {
    fn fmt(&self, f: &mut fmt::Formatter<'_>) -> fmt::Result {
        match self {
            StreamError::Frame { error, offset } => write!(f, "{error}, at byte {offset}"),
            StreamError::Read(_) => f.write_str("a read failed"),
            StreamError::Write(_) => f.write_str("a write failed"),
        }
    }
}

impl error::Error for StreamError {
    /// What the system said of a read or a write, which `Display` does not repeat.
    fn source(&self) -> Option<&(dyn error::Error + 'static)> {
        match self {
            StreamError::Frame { .. } => None,
            StreamError::Read(error) | StreamError::Write(error) => Some(error),
        }
    }
}

#[cfg(test)]
mod tests {
    use super::*;
    use crate::library;

    #[test]
    fn names_are_those_of_the_library() {
        let contents = [Error::BadContent { channel: 1, fault: ContentFault::Faulted }, Error::OpenContent { messages: 1 }];
        for error in Error::ALL.iter().chain(&contents) {
            assert_eq!(library::name(error.status()), error.name().as_bytes());
        }
    }

    #[test]
    fn each_status_but_zero_is_an_error() {
        assert_eq!(Error::of_status(0_u8), Ok(()));
        for status in (1..=u32::from(u8::MAX)).chain([256, 1 << 24, u32::MAX]) {
            let error = Error::of_status(status).unwrap_err();
            assert_eq!(u32::from(error.status()), status.min(255));
            assert!(Error::ALL.contains(&error) || error == Error::Incompatible(status));
        }
    }
}
