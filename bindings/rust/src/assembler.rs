//! Whole messages out of frames.

use crate::error::Error;
use crate::frame::Frame;
use crate::message::Message;
use crate::owned::OwnedFrame;
use crate::turns::{Part, Turns};
use std::collections::HashMap;
use std::iter::FusedIterator;

/// What has become of a frame.
#[derive(Clone, Debug, PartialEq, Eq)]
#[must_use]
// It is looked at where it is returned, and a box would take memory for each.
#[allow(clippy::large_enum_variant)]
pub enum Pushed<'a> {
    /// It is part of no message.
    Passed(Frame<'a>),
    /// Its message goes on.
    Taken,
    /// Its message is complete.
    Complete(Message),
}

/// A message, or a frame that is part of none, with memory of its own.
#[derive(Clone, Debug, PartialEq, Eq, Hash)]
// As of `Pushed`.
#[allow(clippy::large_enum_variant)]
pub enum Received {
    /// A whole message.
    Message(Message),
    /// A frame that is part of no message: each method without content, a heartbeat, a protocol header.
    Frame(OwnedFrame),
}

impl Received {
    /// The message, where it is one.
    #[must_use]
    pub fn message(self) -> Option<Message> {
        match self {
            Received::Message(message) => Some(message),
            Received::Frame(_) => None,
        }
    }
}

impl Pushed<'_> {
    /// What was received, where something was.
    pub(crate) fn received(self) -> Option<Received> {
        match self {
            Pushed::Passed(frame) => Some(Received::Frame(frame.into_owned())),
            Pushed::Taken => None,
            Pushed::Complete(message) => Some(Received::Message(message)),
        }
    }
}

/// A message that is not complete.
#[derive(Debug)]
struct Open {
    opening: OwnedFrame,
    header: Option<OwnedFrame>,
    body: Vec<u8>,
    /// How many bytes the payloads of its frames have.
    held: u64,
}

/// Puts the frames of one direction of a connection together to messages, each channel by itself.
///
/// ```
/// use feksroum::method::BasicPublish;
/// use feksroum::{Assembler, Content, Encoder, Frames, Properties, Received, MAX_BODY, MAX_PAYLOAD};
///
/// let (encoder, mut wire) = (Encoder::new(1).with_max_payload(20), Vec::new());
/// encoder.encode(&BasicPublish { routing_key: "orders", ..BasicPublish::default() }, &mut wire)?;
/// encoder.encode(&Content { properties: Properties::default().with_priority(1), body: b"hello" }, &mut wire)?;
///
/// for received in Assembler::new(MAX_BODY, u64::MAX).messages(Frames::new(&wire, MAX_PAYLOAD)) {
///     let Received::Message(message) = received? else { continue };
///     assert_eq!((message.channel(), message.opening().routing_key()), (1, "orders"));
///     assert_eq!((message.properties().priority, message.body()), (Some(1), &b"hello"[..]));
/// }
/// # Ok::<(), Box<dyn std::error::Error>>(())
/// ```
#[derive(Debug)]
pub struct Assembler {
    turns: Turns,
    open: HashMap<u16, Open>,
    max_open: u64,
    held: u64,
}

impl Assembler {
    /// An assembler on whose channels no message is open. A content header may announce a body of at most `max_body` bytes, and the
    /// payloads of the frames of open messages may have at most `max_open` bytes together.
    #[must_use]
    pub fn new(max_body: u64, max_open: u64) -> Assembler {
        Assembler { turns: Turns::new(max_body), open: HashMap::new(), max_open, held: 0 }
    }

    /// Takes a frame.
    ///
    /// # Errors
    ///
    /// [`Error::BadContent`] where it may not come next on its channel. The channel is at fault then, what was held of it is dropped,
    /// and each later frame of it is refused as [`Faulted`](crate::ContentFault::Faulted), until [`forget`](Assembler::forget);
    /// other channels go on. [`Error::AssemblerFull`] where more bytes would be held than are allowed, and [`Error::NoMemory`]:
    /// nothing changes then, and the frame may be pushed again.
    pub fn push<'a>(&mut self, frame: Frame<'a>) -> Result<Pushed<'a>, Error> {
        let turn = self.turns.look(&frame)?;
        match turn.part {
            Ok(Part::None) => {}
            Ok(part) => self.reserve(&frame, part)?,
            Err(_) => self.remove(frame.channel()),
        }
        self.turns.keep(frame.channel(), &turn)?;
        match turn.part {
            Ok(Part::None) => return Ok(Pushed::Passed(frame)),
            Ok(part) => self.add(&frame, part)?,
            Err(fault) => return Err(Error::BadContent { channel: frame.channel(), fault }),
        }
        if turn.finished {
            return self.complete(frame.channel());
        }
        Ok(Pushed::Taken)
    }

    /// Begins anew with a channel, as one that was closed and opened again does. What was held of it is dropped.
    pub fn forget(&mut self, channel: u16) {
        self.turns.forget(channel);
        self.remove(channel);
    }

    /// How many messages are open.
    #[must_use]
    pub fn open_messages(&self) -> usize {
        self.open.len()
    }

    /// How many bytes the payloads of the frames of open messages have together.
    #[must_use]
    pub fn held(&self) -> u64 {
        self.held
    }

    /// Ends all channels.
    ///
    /// # Errors
    ///
    /// [`Error::OpenContent`] where messages are open.
    pub fn finish(self) -> Result<(), Error> {
        match self.open.len() {
            0 => Ok(()),
            messages => Err(Error::OpenContent { messages }),
        }
    }

    /// The messages of some frames, as they are complete, and the other frames, as they come. The last item is the error, where there is one:
    /// that of the frames, of [`push`](Assembler::push), or of [`finish`](Assembler::finish).
    pub fn messages<'a, I>(self, frames: I) -> Messages<I::IntoIter>
    where
        I: IntoIterator<Item = Result<Frame<'a>, Error>>,
    {
        Messages { assembler: Some(self), frames: frames.into_iter() }
    }

    /// Makes room for a frame that is part of a message, where it may be held.
    fn reserve(&mut self, frame: &Frame<'_>, part: Part) -> Result<(), Error> {
        let length = frame.payload().len();
        if self.held.saturating_add(length as u64) > self.max_open {
            return Err(Error::AssemblerFull);
        }
        let reserved = match self.open.get_mut(&frame.channel()) {
            Some(message) if part == Part::Body => message.body.try_reserve(length),
            Some(_) => Ok(()),
            None => return self.open.try_reserve(1).map_err(|_| Error::NoMemory),
        };
        reserved.map_err(|_| Error::NoMemory)
    }

    /// Adds a frame to the message that is open on its channel.
    fn add(&mut self, frame: &Frame<'_>, part: Part) -> Result<(), Error> {
        let length = frame.payload().len() as u64;
        if part == Part::Opening {
            let open = Open { opening: frame.into_owned(), header: None, body: Vec::new(), held: length };
            self.open.insert(frame.channel(), open);
        } else {
            let message = self.open.get_mut(&frame.channel()).ok_or(Error::Incompatible(0))?;
            message.held += length;
            match part {
                Part::Header => message.header = Some(frame.into_owned()),
                _ => message.body.extend_from_slice(frame.payload()),
            }
        }
        self.held += length;
        Ok(())
    }

    fn complete(&mut self, channel: u16) -> Result<Pushed<'static>, Error> {
        let Open { opening, header, body, held } = self.open.remove(&channel).ok_or(Error::Incompatible(0))?;
        self.held -= held;
        let header = header.ok_or(Error::Incompatible(0))?;
        Ok(Pushed::Complete(Message::of_frames(channel, opening, header, body)?))
    }

    fn remove(&mut self, channel: u16) {
        self.held -= self.open.remove(&channel).map_or(0, |message| message.held);
    }
}

/// The messages of some frames: [`Assembler::messages`] gives them.
#[derive(Debug)]
pub struct Messages<I> {
    /// None after the last item.
    assembler: Option<Assembler>,
    frames: I,
}

impl<'a, I: Iterator<Item = Result<Frame<'a>, Error>>> Messages<I> {
    /// What is received next, or the end.
    fn advance(&mut self, assembler: &mut Assembler) -> Result<Option<Received>, Error> {
        for frame in self.frames.by_ref() {
            if let Some(received) = assembler.push(frame?)?.received() {
                return Ok(Some(received));
            }
        }
        Ok(None)
    }
}

impl<'a, I: Iterator<Item = Result<Frame<'a>, Error>>> Iterator for Messages<I> {
    type Item = Result<Received, Error>;

    fn next(&mut self) -> Option<Self::Item> {
        let mut assembler = self.assembler.take()?;
        match self.advance(&mut assembler) {
            Ok(Some(received)) => {
                self.assembler = Some(assembler);
                Some(Ok(received))
            }
            Ok(None) => assembler.finish().err().map(Err),
            Err(error) => Some(Err(error)),
        }
    }
}

impl<'a, I: Iterator<Item = Result<Frame<'a>, Error>>> FusedIterator for Messages<I> {}
