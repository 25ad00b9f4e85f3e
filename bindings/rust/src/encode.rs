//! Frames written out of what stands in them.

use crate::error::Error;
use crate::library;
use crate::put::{Put, To};
use crate::sys::Made;
use crate::{max_payload, SENT_PAYLOAD};
use std::error;
use std::fmt;

/// Why a frame, a table or an array is not written.
#[derive(Clone, Copy, Debug, PartialEq, Eq, Hash)]
#[non_exhaustive]
pub enum EncodeError {
    /// A short string of more than 255 bytes.
    TooLong {
        /// The field as the standard has it, as `routing-key`; `key` is that of an entry of a table.
        field: &'static str,
    },
    /// The payload is longer than the limit, or something in it has 2^32 bytes or more.
    TooLarge,
    /// Tables or arrays are nested more than 64 deep.
    TooDeep,
    /// The slice is too short.
    BufferTooSmall {
        /// How many bytes the frame has.
        needed: usize,
    },
    /// Out of memory.
    NoMemory,
    /// The library refused what it writes in this version: another version of it is linked.
    Incompatible(u32),
}

impl EncodeError {
    /// The error for a status that a C function returned, other than 0 and that of a short buffer; the field is what it is
    /// about.
    pub(crate) fn of_status(status: u32, field: Option<&'static str>) -> EncodeError {
        const TOO_LONG: u32 = 42;
        match (status, Error::of_status(status)) {
            (TOO_LONG, _) => EncodeError::TooLong { field: field.unwrap_or("key") },
            (_, Err(error)) => error.into(),
            (_, Ok(())) => EncodeError::Incompatible(status),
        }
    }

    /// What a call that puts has answered: how many bytes, or why none.
    fn of_made(made: Made, what: &(impl Put + ?Sized)) -> Result<usize, EncodeError> {
        const BUFFER_TOO_SMALL: u32 = 40;
        const TOO_LONG: u32 = 42;
        let length = usize::try_from(made.length).map_err(|_| EncodeError::TooLarge)?;
        match made.status {
            0 => Ok(length),
            BUFFER_TOO_SMALL => Err(EncodeError::BufferTooSmall { needed: length }),
            TOO_LONG => Err(what.too_long().map_or(EncodeError::TooLarge, |field| EncodeError::TooLong { field })),
            status => Err(EncodeError::of_status(status, None)),
        }
    }
}

impl From<Error> for EncodeError {
    /// The same fault, of what is written.
    fn from(error: Error) -> EncodeError {
        match error {
            Error::NoMemory => EncodeError::NoMemory,
            Error::TooLarge => EncodeError::TooLarge,
            Error::TooDeep => EncodeError::TooDeep,
            Error::Incompatible(status) => EncodeError::Incompatible(status),
            error => EncodeError::Incompatible(error.status().into()),
        }
    }
}

impl fmt::Display for EncodeError {
    fn fmt(&self, f: &mut fmt::Formatter<'_>) -> fmt::Result {
        match self {
            EncodeError::TooLong { field } => write!(f, "{field} has more than 255 bytes"),
            EncodeError::BufferTooSmall { needed } => write!(f, "the slice is too short: {needed} bytes are to be written"),
            EncodeError::TooLarge => Error::TooLarge.fmt(f),
            EncodeError::TooDeep => Error::TooDeep.fmt(f),
            EncodeError::NoMemory => Error::NoMemory.fmt(f),
            EncodeError::Incompatible(status) => Error::Incompatible(*status).fmt(f),
        }
    }
}

impl error::Error for EncodeError {}

/// What can be written as frames: a [`Payload`](crate::Payload), a [`Method`](crate::Method) and each of the structs of
/// [`method`](crate::method), a [`ContentHeader`](crate::ContentHeader), a [`ProtocolHeader`](crate::ProtocolHeader); a
/// [`Content`](crate::Content) and a [`Message`](crate::Message), which are more than one frame.
///
/// What is written is canonical: tables in ascending order of their keys, of duplicate keys the last, reserved fields as their
/// constants. A protocol header has no channel, and the one that is given is not looked at.
///
/// Payloads have at most [`SENT_PAYLOAD`] bytes; after another frame-max was agreed on, an [`Encoder`] has that limit.
///
/// ```
/// use feksroum::{method::BasicAck, Encode};
///
/// let mut out = Vec::new();
/// BasicAck { delivery_tag: 7, multiple: true }.encode(1, &mut out)?;
/// assert_eq!(out, [1, 0, 1, 0, 0, 0, 13, 0, 60, 0, 80, 0, 0, 0, 0, 0, 0, 0, 7, 1, 206]);
/// # Ok::<(), feksroum::EncodeError>(())
/// ```
pub trait Encode: Put {
    /// Appends the frames on this channel to `out`, and returns how many bytes they have. Where one is refused, `out` is as it
    /// was.
    ///
    /// # Errors
    ///
    /// Why it is refused.
    #[inline]
    fn encode(&self, channel: u16, out: &mut Vec<u8>) -> Result<usize, EncodeError> {
        Encoder::new(channel).encode(self, out)
    }

    /// Writes the frames at the front of a slice, and returns how many bytes they have. Where one is refused, the slice is as it
    /// was.
    ///
    /// ```
    /// use feksroum::{Encode, EncodeError, Payload};
    ///
    /// let mut out = [0; 8];
    /// assert_eq!(Payload::Heartbeat.encode_to_slice(0, &mut out), Ok(8));
    /// assert_eq!(Payload::Body(b"hi").encode_to_slice(1, &mut out), Err(EncodeError::BufferTooSmall { needed: 10 }));
    /// ```
    ///
    /// # Errors
    ///
    /// Why it is refused: [`EncodeError::BufferTooSmall`] last.
    #[inline]
    fn encode_to_slice(&self, channel: u16, out: &mut [u8]) -> Result<usize, EncodeError> {
        Encoder::new(channel).encode_to_slice(self, out)
    }
}

/// Writes frames on one channel, within the limit of a connection.
///
/// ```
/// use feksroum::method::BasicPublish;
/// use feksroum::{Content, EncodeError, Encoder, Payload};
///
/// let encoder = Encoder::new(1).with_frame_max(4096);
/// let mut out = Vec::new();
/// encoder.encode(&BasicPublish { routing_key: "orders", ..BasicPublish::default() }, &mut out)?;
/// encoder.encode(&Content { body: &[b'-'; 20_000], ..Content::default() }, &mut out)?;
/// assert_eq!(encoder.encode(&Payload::Body(&[0; 4089]), &mut out), Err(EncodeError::TooLarge));
/// # Ok::<(), EncodeError>(())
/// ```
#[derive(Clone, Copy, Debug, PartialEq, Eq, Hash)]
pub struct Encoder {
    channel: u16,
    max_payload: u32,
}

impl Encoder {
    /// An encoder for this channel, whose payloads have at most [`SENT_PAYLOAD`] bytes.
    #[must_use]
    pub const fn new(channel: u16) -> Encoder {
        Encoder { channel, max_payload: SENT_PAYLOAD }
    }

    /// The same within the frame-max that was agreed on: of frames with at most so many bytes, 0 for no limit.
    #[must_use]
    pub fn with_frame_max(self, frame_max: u32) -> Encoder {
        self.with_max_payload(max_payload(frame_max))
    }

    /// The same with payloads of at most so many bytes.
    #[must_use]
    pub const fn with_max_payload(self, max_payload: u32) -> Encoder {
        Encoder { max_payload, ..self }
    }

    /// The same on another channel.
    #[must_use]
    pub const fn on_channel(self, channel: u16) -> Encoder {
        Encoder { channel, ..self }
    }

    /// Its channel.
    #[must_use]
    pub const fn channel(&self) -> u16 {
        self.channel
    }

    /// The longest payload that it writes.
    #[must_use]
    pub const fn max_payload(&self) -> u32 {
        self.max_payload
    }

    /// Appends frames to `out`, and returns how many bytes they have. Where one is refused, `out` is as it was.
    ///
    /// # Errors
    ///
    /// Why it is refused.
    #[inline]
    pub fn encode<E: Encode + ?Sized>(&self, what: &E, out: &mut Vec<u8>) -> Result<usize, EncodeError> {
        let to = self.to();
        EncodeError::of_made(library::append(out, |room| what.put(to, room)), what)
    }

    /// Writes frames at the front of a slice, and returns how many bytes they have. Where one is refused, the slice is as it
    /// was.
    ///
    /// # Errors
    ///
    /// Why it is refused: [`EncodeError::BufferTooSmall`] last.
    #[inline]
    pub fn encode_to_slice<E: Encode + ?Sized>(&self, what: &E, out: &mut [u8]) -> Result<usize, EncodeError> {
        EncodeError::of_made(what.put(self.to(), library::room(out)), what)
    }

    fn to(self) -> To {
        To { channel: self.channel, max_payload: self.max_payload }
    }
}
