//! Whose turn it is on each channel: which messages are open, and how far they have come.

use crate::error::Error;
use crate::frame::{Frame, FrameType};
use crate::library;
use crate::sys::Channel;
use std::collections::HashMap;
use std::fmt;

/// Why a frame may not come next on its channel.
#[derive(Clone, Copy, Debug, PartialEq, Eq, Hash)]
#[non_exhaustive]
pub enum ContentFault {
    /// A method inside a message.
    UnexpectedMethod = 1,
    /// A content header outside of a message, or a second one.
    UnexpectedHeader = 2,
    /// A body outside of a message, or before the content header.
    UnexpectedBody = 3,
    /// A content header of a class other than 60.
    WrongClass = 4,
    /// A content header that announces more bytes than are allowed.
    BodyTooLarge = 5,
    /// A body that goes beyond the announced size.
    BodyOverrun = 6,
    /// A frame after one that was not in turn.
    Faulted = 7,
}

impl ContentFault {
    /// Each of them, by their numbers.
    pub const ALL: &'static [ContentFault] = &[
        ContentFault::UnexpectedMethod,
        ContentFault::UnexpectedHeader,
        ContentFault::UnexpectedBody,
        ContentFault::WrongClass,
        ContentFault::BodyTooLarge,
        ContentFault::BodyOverrun,
        ContentFault::Faulted,
    ];

    /// Its number in the library, 1 to 7.
    #[must_use]
    pub fn number(self) -> u8 {
        self as u8
    }

    /// Its name, as docs/FORMAT.md has it.
    #[must_use]
    pub fn name(self) -> &'static str {
        match self {
            ContentFault::UnexpectedMethod => "UnexpectedMethod",
            ContentFault::UnexpectedHeader => "UnexpectedHeader",
            ContentFault::UnexpectedBody => "UnexpectedBody",
            ContentFault::WrongClass => "WrongClass",
            ContentFault::BodyTooLarge => "BodyTooLarge",
            ContentFault::BodyOverrun => "BodyOverrun",
            ContentFault::Faulted => "Faulted",
        }
    }

    fn of_number(number: u8) -> Option<ContentFault> {
        ContentFault::ALL.iter().find(|fault| fault.number() == number).copied()
    }
}

impl fmt::Display for ContentFault {
    fn fmt(&self, f: &mut fmt::Formatter<'_>) -> fmt::Result {
        f.write_str(match self {
            ContentFault::UnexpectedMethod => "a method inside a message",
            ContentFault::UnexpectedHeader => "a content header outside of a message, or a second one",
            ContentFault::UnexpectedBody => "a body outside of a message, or before the content header",
            ContentFault::WrongClass => "a content header of a class other than 60",
            ContentFault::BodyTooLarge => "a content header that announces more bytes than are allowed",
            ContentFault::BodyOverrun => "a body that goes beyond the announced size",
            ContentFault::Faulted => "a frame after one that was not in turn",
        })
    }
}

/// What a frame in turn is to its channel.
#[derive(Clone, Copy, Debug, PartialEq, Eq)]
pub enum Part {
    /// No part of a message.
    None,
    /// The method that opens one.
    Opening,
    Header,
    Body,
}

/// What a frame is to its channel: its part, or why it may not come next.
#[derive(Clone, Copy, Debug)]
pub struct Turn {
    pub part: Result<Part, ContentFault>,
    /// Whether the message is complete with it.
    pub finished: bool,
    after: Channel,
}

/// The channels that are inside a message or at fault.
#[derive(Debug)]
pub struct Turns {
    channels: HashMap<u16, Channel>,
    max_body: u64,
}

/// The status of a frame that may not come next on its channel.
const BAD_CONTENT: u8 = 24;

/// The state of a channel at fault.
const FAULTED: u32 = 3;

impl Turns {
    pub fn new(max_body: u64) -> Turns {
        Turns { channels: HashMap::new(), max_body }
    }

    /// What a frame is to its channel.
    pub fn look(&self, frame: &Frame<'_>) -> Result<Turn, Error> {
        let (class_id, method_id) = frame.fields().ids();
        let size = match frame.frame_type() {
            FrameType::Header => frame.fields().body_size(),
            _ => frame.payload().len() as u64,
        };
        let channel = self.channels.get(&frame.channel()).copied().unwrap_or_default();
        let found = library::step(channel, frame.frame_type() as u8, class_id, method_id, size, self.max_body);
        let part = match (found.status, found.part, ContentFault::of_number(found.fault)) {
            (0, 0, None) => Ok(Part::None),
            (0, 1, None) => Ok(Part::Opening),
            (0, 2, None) => Ok(Part::Header),
            (0, 3, None) => Ok(Part::Body),
            (BAD_CONTENT, _, Some(fault)) => Err(fault),
            _ => return Err(Error::Incompatible(found.status.into())),
        };
        Ok(Turn { part, finished: found.finished, after: found.after })
    }

    /// Keeps what the channel is after a frame.
    pub fn keep(&mut self, channel: u16, turn: &Turn) -> Result<(), Error> {
        if turn.after == Channel::default() {
            self.channels.remove(&channel);
            return Ok(());
        }
        self.channels.try_reserve(1).map_err(|_| Error::NoMemory)?;
        self.channels.insert(channel, turn.after);
        Ok(())
    }

    /// Both at once: its part of a message, and whether that is complete with it.
    pub fn step(&mut self, frame: &Frame<'_>) -> Result<(Part, bool), Error> {
        let turn = self.look(frame)?;
        self.keep(frame.channel(), &turn)?;
        let part = turn.part.map_err(|fault| Error::BadContent { channel: frame.channel(), fault })?;
        Ok((part, turn.finished))
    }

    pub fn forget(&mut self, channel: u16) {
        self.channels.remove(&channel);
    }

    /// How many messages are open.
    pub fn open_messages(&self) -> usize {
        self.channels.values().filter(|channel| channel.state != FAULTED).count()
    }

    /// At the end, no message may be open.
    pub fn finish(&self) -> Result<(), Error> {
        match self.open_messages() {
            0 => Ok(()),
            messages => Err(Error::OpenContent { messages }),
        }
    }
}
