//! Streams whose messages are followed: what filtering and recutting have in common.

use crate::canonicalize::Level;
use crate::error::Error;
use crate::frame::{Frame, Frames};
use crate::held::{Held, Passed};
use crate::stream::Stream;
use crate::turns::{Part, Turns};
use crate::writer::Writer;

/// What writes the frames in turn.
pub trait Take {
    /// Writes what is written for a frame: `ends` where its message is complete with it.
    fn take(&mut self, frame: &Frame<'_>, part: Part, ends: bool, writer: &mut Writer, out: &mut Vec<u8>) -> Result<(), Error>;
}

/// A stream of frames, which goes on to the first that is not in turn.
#[derive(Debug)]
pub struct MessageStream<T> {
    held: Held,
    frames: TurningFrames<T>,
    end: Result<(), Error>,
}

#[derive(Debug)]
struct TurningFrames<T> {
    turns: Turns,
    writer: Writer,
    max_payload: u32,
    take: T,
}

impl<T: Take> TurningFrames<T> {
    fn take(&mut self, frame: &Frame<'_>, out: &mut Vec<u8>) -> Result<(), Error> {
        let (part, ends) = self.turns.step(frame)?;
        self.take.take(frame, part, ends, &mut self.writer, out)
    }

    /// Takes the whole frames in front.
    fn pass(&mut self, bytes: &[u8], out: &mut Vec<u8>) -> Passed {
        pass_frames(bytes, self.max_payload, |frame| self.take(&frame, out))
    }
}

/// Takes the whole frames in front, up to the first that is refused.
pub fn pass_frames<'a>(bytes: &'a [u8], max_payload: u32, mut take: impl FnMut(Frame<'a>) -> Result<(), Error>) -> Passed {
    let mut used = 0;
    for frame in Frames::new(bytes, max_payload) {
        let taken = frame.and_then(|frame| take(frame).map(|()| frame.bytes().len()));
        match taken {
            Ok(length) => used += length,
            Err(Error::CutShort) => break,
            Err(error) => return Passed { used, end: Err(error) },
        }
    }
    Passed { used, end: Ok(()) }
}

impl<T: Take> MessageStream<T> {
    /// Where in the stream what follows the frames begins that were taken.
    pub fn position(&self) -> u64 {
        self.held.taken()
    }

    pub fn new(max_payload: u32, take: T) -> MessageStream<T> {
        let (turns, writer) = (Turns::new(u64::MAX), Writer::new(max_payload, Level::Plain));
        MessageStream { held: Held::new(max_payload), frames: TurningFrames { turns, writer, max_payload, take }, end: Ok(()) }
    }

    /// How many messages are open.
    pub fn open_messages(&self) -> usize {
        self.frames.turns.open_messages()
    }
}

impl<T: Take> Stream for MessageStream<T> {
    fn feed(&mut self, piece: &[u8], out: &mut Vec<u8>) -> Result<(), Error> {
        self.end?;
        let MessageStream { held, frames, .. } = self;
        self.end = held.feed(piece, |bytes| frames.pass(bytes, out));
        self.end
    }

    fn position(&self) -> u64 {
        MessageStream::position(self)
    }

    fn finish(&self) -> Result<(), Error> {
        self.end?;
        self.held.finish()?;
        self.frames.turns.finish()
    }
}
