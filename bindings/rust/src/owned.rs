//! Frames that own their memory.
//!
//! An owned frame is its bytes, and is looked at through the borrowed types: [`OwnedFrame::as_frame`] gives the [`Frame`], and
//! that decodes as any other. So there is one set of 66 structs, one `match` serves what is borrowed and what is owned, and a
//! frame that is kept or sent to another thread takes one allocation, however many strings it has.
//! [`TableBuf`](crate::TableBuf) and [`ArrayBuf`](crate::ArrayBuf) are this for tables and arrays.

use crate::encode::{Encode, EncodeError, Encoder};
use crate::error::Error;
use crate::frame::Frame;
use crate::library::fields::OwnedFields;
use crate::method_info::MethodInfo;
use crate::payload::Payload;
use std::fmt;
use std::hash::{Hash, Hasher};
use std::marker::PhantomData;

/// A frame that owns its bytes.
///
/// ```
/// use feksroum::{Frames, Method, Payload, MAX_PAYLOAD};
///
/// let bytes = [1, 0, 1, 0, 0, 0, 13, 0, 60, 0, 80, 0, 0, 0, 0, 0, 0, 0, 7, 1, 206];
/// let mut kept = Vec::new();
/// for frame in Frames::new(&bytes, MAX_PAYLOAD) {
///     kept.push(frame?.into_owned());
/// }
/// let Payload::Method(Method::BasicAck(ack)) = kept[0].decode()? else { panic!("an ack was read") };
/// assert_eq!(ack.delivery_tag, 7);
/// # Ok::<(), feksroum::Error>(())
/// ```
#[derive(Clone)]
pub struct OwnedFrame {
    fields: OwnedFields,
}

impl OwnedFrame {
    /// A frame on a channel, out of what stands in it.
    ///
    /// ```
    /// use feksroum::{method::BasicAck, Method, OwnedFrame, Payload};
    ///
    /// let frame = OwnedFrame::new(1, &BasicAck { delivery_tag: 7, multiple: false })?;
    /// assert!(matches!(frame.decode(), Ok(Payload::Method(Method::BasicAck(_)))));
    /// # Ok::<(), feksroum::EncodeError>(())
    /// ```
    ///
    /// # Errors
    ///
    /// As [`Encoder::encode`] with no limit; of more than one frame the first is taken.
    pub fn new(channel: u16, what: &impl Encode) -> Result<OwnedFrame, EncodeError> {
        let mut bytes = Vec::new();
        Encoder::new(channel).with_max_payload(u32::MAX).encode(what, &mut bytes)?;
        Ok(Frame::first(&bytes, u32::MAX)?.into_owned())
    }

    /// The frame, borrowed.
    #[must_use]
    pub fn as_frame(&self) -> Frame<'_> {
        Frame::kept(self.fields.fields())
    }

    /// What stands in the payload, as [`Frame::decode`] gives it.
    ///
    /// # Errors
    ///
    /// As [`Frame::decode`].
    pub fn decode(&self) -> Result<Payload<'_>, Error> {
        self.as_frame().decode()
    }
}

impl From<Frame<'_>> for OwnedFrame {
    /// Copies the frame's bytes.
    fn from(frame: Frame<'_>) -> OwnedFrame {
        OwnedFrame { fields: frame.fields().into_owned() }
    }
}

impl PartialEq for OwnedFrame {
    fn eq(&self, other: &Self) -> bool {
        self.as_frame() == other.as_frame()
    }
}

impl Eq for OwnedFrame {}

impl Hash for OwnedFrame {
    fn hash<H: Hasher>(&self, state: &mut H) {
        self.as_frame().hash(state);
    }
}

impl fmt::Debug for OwnedFrame {
    fn fmt(&self, f: &mut fmt::Formatter<'_>) -> fmt::Result {
        self.as_frame().fmt(f)
    }
}

/// A method that owns its memory, as a client keeps one answer: [`MethodInfo::keep`] makes it.
#[derive(Clone)]
pub struct OwnedMethod<M> {
    frame: OwnedFrame,
    method: PhantomData<fn() -> M>,
}

impl<M: MethodInfo> OwnedMethod<M> {
    /// The same method.
    pub(crate) fn of(method: &impl MethodInfo) -> Result<OwnedMethod<M>, EncodeError> {
        let frame = OwnedFrame::new(0, method)?;
        match frame.decode()? {
            Payload::Method(found) if found.name() == M::NAME => Ok(OwnedMethod { frame, method: PhantomData }),
            _ => Err(EncodeError::Incompatible(0)),
        }
    }

    /// The method, borrowed.
    #[must_use]
    pub fn get(&self) -> M::Of<'_> {
        M::built(self.frame.as_frame().fields())
    }
}

impl<M> fmt::Debug for OwnedMethod<M> {
    fn fmt(&self, f: &mut fmt::Formatter<'_>) -> fmt::Result {
        self.frame.fmt(f)
    }
}
