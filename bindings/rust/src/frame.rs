//! Frames out of a byte slice, with borrowed payloads.

use crate::error::Error;
use crate::library;
use crate::library::fields::{Fields, Found};
use crate::owned::OwnedFrame;
use crate::payload::Payload;
use std::fmt;
use std::hash::{Hash, Hasher};

/// What the first byte of a frame names.
#[derive(Clone, Copy, Debug, PartialEq, Eq, Hash)]
pub enum FrameType {
    /// 1.
    Method = 1,
    /// 2, a content header.
    Header = 2,
    /// 3.
    Body = 3,
    /// 8.
    Heartbeat = 8,
    /// 65, the letter `A` of `AMQP`.
    ProtocolHeader = 65,
}

impl FrameType {
    /// The type that a frame's first byte names.
    ///
    /// # Errors
    ///
    /// [`Error::UnknownFrameType`] where it names none.
    #[inline]
    pub fn from_byte(byte: u8) -> Result<FrameType, Error> {
        match byte {
            1 => Ok(FrameType::Method),
            2 => Ok(FrameType::Header),
            3 => Ok(FrameType::Body),
            8 => Ok(FrameType::Heartbeat),
            65 => Ok(FrameType::ProtocolHeader),
            _ => Err(Error::UnknownFrameType),
        }
    }
}

/// What stands in a whole payload, without its fields.
#[derive(Clone, Copy, Debug, PartialEq, Eq, Hash)]
#[non_exhaustive]
pub struct Summary {
    /// The class of a method or content header, else 0.
    pub class_id: u16,
    /// The method's id in its class, else 0.
    pub method_id: u16,
    /// The size in bytes of the body that a content header announces, else 0.
    pub body_size: u64,
    /// How many fields there are: of a method those that are not reserved, each flag one; the properties that are set; three
    /// numbers of a protocol header.
    pub fields: u8,
    /// Whether the payload is the canonical one.
    pub canonical: bool,
    /// Whether the payload is tidy.
    pub tidy: bool,
}

/// What stands in a whole payload of this type, which is the same on each channel. The payload of a protocol header is its
/// three version bytes.
///
/// ```
/// use feksroum::{check, FrameType};
///
/// let summary = check(FrameType::Method, &[0, 60, 0, 80, 0, 0, 0, 0, 0, 0, 0, 7, 0])?;
/// assert_eq!((summary.class_id, summary.method_id, summary.fields), (60, 80, 2));
/// # Ok::<(), feksroum::Error>(())
/// ```
///
/// # Errors
///
/// The payload's fault, where it is no frame.
pub fn check(frame_type: FrameType, payload: &[u8]) -> Result<Summary, Error> {
    let found = library::check(frame_type as u8, payload);
    if found.status != 0 {
        return Err(Error::of_payload(found.status, payload));
    }
    Ok(Summary {
        class_id: found.class_id,
        method_id: found.method_id,
        body_size: found.body_size,
        fields: found.fields,
        canonical: found.canonical,
        tidy: found.tidy,
    })
}

/// A whole frame, borrowed from the bytes that it was found in. It is read once: [`decode`](Frame::decode) does not look at its
/// bytes again. What it says is what its bytes say, so nothing of it is set:
///
/// ```compile_fail,E0615
/// # use feksroum::{Frame, MAX_PAYLOAD};
/// let mut frame = Frame::first(&[3, 0, 1, 0, 0, 0, 1, b'x', 206], MAX_PAYLOAD)?;
/// frame.payload = b"y";
/// # Ok::<(), feksroum::Error>(())
/// ```
#[derive(Clone, Copy)]
pub struct Frame<'a> {
    fields: Fields<'a>,
}

impl<'a> Frame<'a> {
    /// The frame in front of some bytes, with a payload of at most so many.
    ///
    /// # Errors
    ///
    /// [`Error::CutShort`] where the bytes end inside it, or there are none; else its fault. These stay the same, whatever
    /// bytes follow.
    #[inline]
    pub fn first(bytes: &'a [u8], max_payload: u32) -> Result<Frame<'a>, Error> {
        let mut found = Found::default();
        let (bytes, frame_type) = found.first(bytes, max_payload)?;
        Ok(Frame { fields: Fields::of(bytes, found, frame_type) })
    }

    /// The frame that is kept.
    #[inline]
    pub(crate) fn kept(fields: Fields<'a>) -> Frame<'a> {
        Frame { fields }
    }

    /// What was found in its payload.
    #[inline]
    pub(crate) fn fields(&self) -> &Fields<'a> {
        &self.fields
    }

    /// What it is.
    #[must_use]
    #[inline]
    pub fn frame_type(&self) -> FrameType {
        self.fields.frame_type()
    }

    /// Its channel, 0 for a protocol header.
    #[must_use]
    #[inline]
    pub fn channel(&self) -> u16 {
        self.fields.channel()
    }

    /// Its payload, of a protocol header the three version bytes.
    #[must_use]
    #[inline]
    pub fn payload(&self) -> &'a [u8] {
        self.fields.payload()
    }

    /// All of its bytes.
    #[must_use]
    #[inline]
    pub fn bytes(&self) -> &'a [u8] {
        self.fields.bytes()
    }

    /// What stands in the payload, without its fields.
    #[must_use]
    #[inline]
    pub fn summary(&self) -> Summary {
        self.fields.summary()
    }

    /// What stands in the payload, with all fields, borrowed.
    ///
    /// ```
    /// use feksroum::{Frames, Method, Payload, MAX_PAYLOAD};
    ///
    /// let bytes = [1, 0, 1, 0, 0, 0, 13, 0, 60, 0, 80, 0, 0, 0, 0, 0, 0, 0, 7, 1, 206];
    /// for frame in Frames::new(&bytes, MAX_PAYLOAD) {
    ///     if let Payload::Method(Method::BasicAck(ack)) = frame?.decode()? {
    ///         assert_eq!((ack.delivery_tag, ack.multiple), (7, true));
    ///     }
    /// }
    /// # Ok::<(), feksroum::Error>(())
    /// ```
    ///
    /// # Errors
    ///
    /// [`Error::Incompatible`] alone, where another version of the library is linked.
    #[inline]
    pub fn decode(&self) -> Result<Payload<'a>, Error> {
        Payload::of(&self.fields)
    }

    /// The frame with bytes of its own.
    #[must_use]
    pub fn into_owned(self) -> OwnedFrame {
        OwnedFrame::from(self)
    }
}

impl PartialEq for Frame<'_> {
    /// By their bytes, which say all.
    fn eq(&self, other: &Self) -> bool {
        self.bytes() == other.bytes()
    }
}

impl Eq for Frame<'_> {}

impl Hash for Frame<'_> {
    fn hash<H: Hasher>(&self, state: &mut H) {
        self.bytes().hash(state);
    }
}

impl fmt::Debug for Frame<'_> {
    /// Its type, its channel, the ids of a method or a content header, and how many bytes its payload has.
    fn fmt(&self, f: &mut fmt::Formatter<'_>) -> fmt::Result {
        let (class_id, method_id) = self.fields.ids();
        write!(f, "{:?} on {}", self.frame_type(), self.channel())?;
        match self.frame_type() {
            FrameType::Method => write!(f, ", {class_id}.{method_id}")?,
            FrameType::Header => write!(f, ", of {} bytes", self.fields.body_size())?,
            _ => {}
        }
        write!(f, ", payload {}", self.payload().len())
    }
}

/// How many bytes the frame in front has at least, as far as these bytes say; 8 where they do not have its length. It is no more
/// than there are where a whole frame or a fault is in front.
///
/// ```
/// use feksroum::{needed, MAX_PAYLOAD};
///
/// assert_eq!(needed(&[3, 0, 1], MAX_PAYLOAD), 8);
/// assert_eq!(needed(&[3, 0, 1, 0, 0, 0, 2, b'h'], MAX_PAYLOAD), 10);
/// ```
#[must_use]
pub fn needed(bytes: &[u8], max_payload: u32) -> usize {
    let outer = library::next(bytes, max_payload);
    usize::try_from(outer.needed.max(outer.used)).unwrap_or(usize::MAX)
}

/// The frames in front of some bytes, one after another. The last item is the error, where they do not all belong to whole
/// frames.
///
/// ```
/// use feksroum::{Error, Frames, MAX_PAYLOAD};
///
/// let bytes = [8, 0, 0, 0, 0, 0, 0, 206, 3, 0, 1, 0, 0, 0, 2, b'h'];
/// let mut frames = Frames::new(&bytes, MAX_PAYLOAD);
/// assert!(frames.next().is_some_and(|frame| frame.is_ok()));
/// assert_eq!(frames.next(), Some(Err(Error::CutShort)));
/// assert_eq!((frames.used(), frames.rest().len()), (8, 8));
/// ```
#[derive(Clone, Debug)]
pub struct Frames<'a> {
    bytes: &'a [u8],
    used: usize,
    max_payload: u32,
    ended: bool,
}

impl<'a> Frames<'a> {
    /// The frames of these bytes, with payloads of at most so many bytes.
    #[must_use]
    pub fn new(bytes: &'a [u8], max_payload: u32) -> Frames<'a> {
        Frames { bytes, used: 0, max_payload, ended: false }
    }

    /// How many bytes the frames have that were given. After an error that is the offset of what it is about.
    #[must_use]
    pub fn used(&self) -> usize {
        self.used
    }

    /// How many bytes the frame after those that were given has at least, as [`needed`] has it: after [`Error::CutShort`] so many
    /// have to be there.
    #[must_use]
    pub fn needed(&self) -> usize {
        needed(self.rest(), self.max_payload)
    }

    /// The bytes after the frames that were given. After an error they begin with what it is about.
    #[must_use]
    #[inline]
    pub fn rest(&self) -> &'a [u8] {
        self.bytes.get(self.used..).unwrap_or_default()
    }
}

impl<'a> Iterator for Frames<'a> {
    type Item = Result<Frame<'a>, Error>;

    #[inline]
    fn next(&mut self) -> Option<Self::Item> {
        if self.ended || self.rest().is_empty() {
            return None;
        }
        let rest = self.rest();
        Some(match Frame::first(rest, self.max_payload) {
            Ok(frame) => {
                self.used += frame.bytes().len();
                Ok(frame)
            }
            Err(error) => {
                self.ended = true;
                Err(error)
            }
        })
    }
}

impl std::iter::FusedIterator for Frames<'_> {}
