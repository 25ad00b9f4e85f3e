//! Whole messages.

use crate::content::{Content, BUFFER_TOO_SMALL};
use crate::encode::{Encode, EncodeError};
use crate::error::Error;
use crate::frame::FrameType;
use crate::method::{BasicDeliver, BasicGetOk, BasicPublish, BasicReturn, Method};
use crate::owned::OwnedFrame;
use crate::payload::{ContentHeader, Payload};
use crate::properties::Properties;
use crate::put::{Put, To};
use crate::sys::Made;
use std::mem::MaybeUninit;

/// The method that opens a message.
#[derive(Clone, Copy, Debug, PartialEq, Eq)]
pub enum Opening<'a> {
    /// A client publishes it.
    Publish(BasicPublish<'a>),
    /// The broker gives back one that it could not route.
    Return(BasicReturn<'a>),
    /// The broker delivers it to a consumer.
    Deliver(BasicDeliver<'a>),
    /// The broker answers a client that asked for one.
    GetOk(BasicGetOk<'a>),
}

impl<'a> Opening<'a> {
    /// The opening that a method is, where it is one.
    #[must_use]
    pub fn from_method(method: Method<'a>) -> Option<Opening<'a>> {
        match method {
            Method::BasicPublish(publish) => Some(Opening::Publish(publish)),
            Method::BasicReturn(returned) => Some(Opening::Return(returned)),
            Method::BasicDeliver(deliver) => Some(Opening::Deliver(deliver)),
            Method::BasicGetOk(get_ok) => Some(Opening::GetOk(get_ok)),
            _ => None,
        }
    }

    /// The exchange that it is published to, or was.
    #[must_use]
    pub fn exchange(&self) -> &'a str {
        match self {
            Opening::Publish(publish) => publish.exchange,
            Opening::Return(returned) => returned.exchange,
            Opening::Deliver(deliver) => deliver.exchange,
            Opening::GetOk(get_ok) => get_ok.exchange,
        }
    }

    /// What it is routed by, or was.
    #[must_use]
    pub fn routing_key(&self) -> &'a str {
        match self {
            Opening::Publish(publish) => publish.routing_key,
            Opening::Return(returned) => returned.routing_key,
            Opening::Deliver(deliver) => deliver.routing_key,
            Opening::GetOk(get_ok) => get_ok.routing_key,
        }
    }
}

impl<'a> From<Opening<'a>> for Method<'a> {
    fn from(opening: Opening<'a>) -> Method<'a> {
        match opening {
            Opening::Publish(publish) => publish.into(),
            Opening::Return(returned) => returned.into(),
            Opening::Deliver(deliver) => deliver.into(),
            Opening::GetOk(get_ok) => get_ok.into(),
        }
    }
}

impl<'a> From<BasicPublish<'a>> for Opening<'a> {
    fn from(publish: BasicPublish<'a>) -> Opening<'a> {
        Opening::Publish(publish)
    }
}

impl<'a> From<BasicReturn<'a>> for Opening<'a> {
    fn from(returned: BasicReturn<'a>) -> Opening<'a> {
        Opening::Return(returned)
    }
}

impl<'a> From<BasicDeliver<'a>> for Opening<'a> {
    fn from(deliver: BasicDeliver<'a>) -> Opening<'a> {
        Opening::Deliver(deliver)
    }
}

impl<'a> From<BasicGetOk<'a>> for Opening<'a> {
    fn from(get_ok: BasicGetOk<'a>) -> Opening<'a> {
        Opening::GetOk(get_ok)
    }
}

impl Put for Opening<'_> {
    fn put(&self, to: To, out: &mut [MaybeUninit<u8>]) -> Made {
        Method::from(*self).put(to, out)
    }

    fn too_long(&self) -> Option<&'static str> {
        Method::from(*self).too_long()
    }
}

impl Encode for Opening<'_> {}

/// Which method opens a message.
#[derive(Clone, Copy, Debug, PartialEq, Eq, Hash)]
enum Opens {
    Publish,
    Return,
    Deliver,
    GetOk,
}

/// A whole message that owns its memory, as it came on a channel, or as it is made.
///
/// ```
/// use feksroum::method::{BasicDeliver, BasicPublish};
/// use feksroum::{Encode, Message, Opening, Properties};
///
/// let deliver = BasicDeliver { consumer_tag: "c", delivery_tag: 1, routing_key: "orders", ..BasicDeliver::default() };
/// let mut message = Message::new(1, deliver, Properties::default().with_priority(5), b"hello".to_vec())?;
/// message.set_opening(BasicPublish { routing_key: "copies", ..BasicPublish::default() })?;
/// message.body_mut().extend(b", world");
/// assert_eq!((message.opening().routing_key(), message.properties().priority), ("copies", Some(5)));
///
/// let mut wire = Vec::new();
/// message.encode(message.channel(), &mut wire)?;
/// # Ok::<(), feksroum::EncodeError>(())
/// ```
#[derive(Clone, Debug, PartialEq, Eq, Hash)]
pub struct Message {
    channel: u16,
    opens: Opens,
    opening: OwnedFrame,
    header: OwnedFrame,
    body: Vec<u8>,
}

impl Message {
    /// A message.
    ///
    /// # Errors
    ///
    /// Why its opening or its properties cannot be written.
    pub fn new<'a>(
        channel: u16,
        opening: impl Into<Opening<'a>>,
        properties: Properties<'_>,
        body: Vec<u8>,
    ) -> Result<Message, EncodeError> {
        let header = OwnedFrame::new(channel, &ContentHeader::new(body.len() as u64, properties))?;
        Ok(Message::of_frames(channel, OwnedFrame::new(channel, &opening.into())?, header, body)?)
    }

    /// The message of these frames, which have to be an opening and a content header.
    pub(crate) fn of_frames(channel: u16, opening: OwnedFrame, header: OwnedFrame, body: Vec<u8>) -> Result<Message, Error> {
        let opens = opens(&opening).ok_or(Error::Incompatible(0))?;
        if header.as_frame().frame_type() != FrameType::Header {
            return Err(Error::Incompatible(0));
        }
        Ok(Message { channel, opens, opening, header, body })
    }

    /// The channel on which it came.
    #[must_use]
    pub fn channel(&self) -> u16 {
        self.channel
    }

    /// Puts it on another channel.
    pub fn set_channel(&mut self, channel: u16) {
        self.channel = channel;
    }

    /// The method that opened it, borrowed.
    #[must_use]
    pub fn opening(&self) -> Opening<'_> {
        let frame = self.opening.as_frame();
        let fields = frame.fields();
        match self.opens {
            Opens::Publish => Opening::Publish(BasicPublish::read(fields)),
            Opens::Return => Opening::Return(BasicReturn::read(fields)),
            Opens::Deliver => Opening::Deliver(BasicDeliver::read(fields)),
            Opens::GetOk => Opening::GetOk(BasicGetOk::read(fields)),
        }
    }

    /// Opens it by another method.
    ///
    /// # Errors
    ///
    /// Why that cannot be written; the message is as it was then.
    pub fn set_opening<'a>(&mut self, opening: impl Into<Opening<'a>>) -> Result<(), EncodeError> {
        let frame = OwnedFrame::new(self.channel, &opening.into())?;
        self.opens = opens(&frame).ok_or(EncodeError::Incompatible(0))?;
        self.opening = frame;
        Ok(())
    }

    /// What is said of the body, borrowed.
    #[must_use]
    pub fn properties(&self) -> Properties<'_> {
        Properties::read(self.header.as_frame().fields())
    }

    /// Says something else of the body.
    ///
    /// # Errors
    ///
    /// Why that cannot be written; the message is as it was then.
    pub fn set_properties(&mut self, properties: Properties<'_>) -> Result<(), EncodeError> {
        self.header = OwnedFrame::new(self.channel, &ContentHeader::new(self.body.len() as u64, properties))?;
        Ok(())
    }

    /// The body.
    #[must_use]
    pub fn body(&self) -> &[u8] {
        &self.body
    }

    /// The body, to be changed.
    #[must_use]
    pub fn body_mut(&mut self) -> &mut Vec<u8> {
        &mut self.body
    }

    /// The body, without the rest.
    #[must_use]
    pub fn into_body(self) -> Vec<u8> {
        self.body
    }

    /// The frame of the opening, that of the content header, and the body. The frames are as they came: what their channel is, and
    /// which body the header announces, was true then.
    #[must_use]
    pub fn into_parts(self) -> (OwnedFrame, OwnedFrame, Vec<u8>) {
        (self.opening, self.header, self.body)
    }
}

/// Which method opens a message with this frame.
fn opens(opening: &OwnedFrame) -> Option<Opens> {
    let Ok(Payload::Method(method)) = opening.decode() else { return None };
    Opening::from_method(method).map(|opening| match opening {
        Opening::Publish(_) => Opens::Publish,
        Opening::Return(_) => Opens::Return,
        Opening::Deliver(_) => Opens::Deliver,
        Opening::GetOk(_) => Opens::GetOk,
    })
}

/// All of its frames, on the channel of the encoder: [`Message::channel`] is the one on which it came.
impl Encode for Message {}

impl Put for Message {
    fn put(&self, to: To, out: &mut [MaybeUninit<u8>]) -> Made {
        let content = Content { properties: self.properties(), body: &self.body };
        let rest = content.put(to, &mut []);
        if rest.status != BUFFER_TOO_SMALL {
            return rest;
        }
        let after = usize::try_from(rest.length).unwrap_or(usize::MAX);
        let room = out.len().saturating_sub(after);
        let opening = self.opening().put(to, out.get_mut(..room).unwrap_or_default());
        let length = opening.length.saturating_add(rest.length);
        match (opening.status, usize::try_from(opening.length)) {
            (0, Ok(start)) => Made { length, ..content.put(to, out.get_mut(start..).unwrap_or_default()) },
            (BUFFER_TOO_SMALL, _) => Made { length, ..opening },
            _ => opening,
        }
    }

    fn too_long(&self) -> Option<&'static str> {
        self.opening().too_long().or_else(|| ContentHeader::new(0, self.properties()).too_long())
    }
}
