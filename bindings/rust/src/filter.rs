//! Whole messages kept or dropped by rules.

use crate::error::{Error, StreamError};
use crate::frame::Frame;
use crate::message::Opening;
use crate::message_stream::{MessageStream, Take};
use crate::payload::Payload;
use crate::rules::Rules;
use crate::stream::{self, Stream};
use crate::turns::Part;
use crate::writer::Writer;
use std::collections::HashSet;
use std::fmt;
use std::io::{Read, Write};

/// Writes of a stream what rules keep, as canonical bytes. They decide once a message, at the method that opens it; its content
/// header and bodies follow, and each other frame is decided by itself. So what is written is in turn wherever the stream is.
///
/// A broker never sees a publish that is dropped: it is not confirmed, and confirms that follow count without it. So where a publisher
/// waits for confirms, whoever drops its messages has to confirm them, and to number the others anew.
///
/// ```
/// use feksroum::method::BasicPublish;
/// use feksroum::{Content, Encode, Filter, Rules, MAX_PAYLOAD};
///
/// let mut wire = Vec::new();
/// BasicPublish::default().encode(1, &mut wire)?;
/// Content { body: b"hello", ..Content::default() }.encode(1, &mut wire)?;
/// wire.extend([8, 0, 0, 0, 0, 0, 0, 206]);
///
/// let mut stream = Filter::new(MAX_PAYLOAD, Rules::new(["drop,class=60,method=40", "keep"])?);
/// let mut out = Vec::new();
/// for piece in wire.chunks(5) {
///     stream.feed(piece, &mut out)?;
/// }
/// stream.finish()?;
/// assert_eq!(out, [8, 0, 0, 0, 0, 0, 0, 206]);
/// # Ok::<(), Box<dyn std::error::Error>>(())
/// ```
#[derive(Debug)]
pub struct Filter<'k> {
    stream: MessageStream<Keeper<'k>>,
}

impl<'k> Filter<'k> {
    /// A stream at its beginning, with payloads of at most so many bytes.
    #[must_use]
    pub fn new(max_payload: u32, rules: Rules) -> Filter<'static> {
        Filter::by(max_payload, Keeps::Rules(rules))
    }

    /// The same, which keeps the messages whose opening, on its channel, a closure wants, and all frames that are part of no message.
    ///
    /// ```
    /// use feksroum::method::BasicPublish;
    /// use feksroum::{Content, Encode, Filter, MAX_PAYLOAD};
    ///
    /// let mut wire = Vec::new();
    /// for routing_key in ["orders", "trace.orders"] {
    ///     BasicPublish { routing_key, ..BasicPublish::default() }.encode(1, &mut wire)?;
    ///     Content { body: b"hello", ..Content::default() }.encode(1, &mut wire)?;
    /// }
    /// let mut stream = Filter::of_openings(MAX_PAYLOAD, |_, opening| !opening.routing_key().starts_with("trace."));
    /// let mut out = Vec::new();
    /// stream.feed(&wire, &mut out)?;
    /// assert!(wire.starts_with(&out) && out.len() < wire.len());
    /// # Ok::<(), Box<dyn std::error::Error>>(())
    /// ```
    #[must_use]
    pub fn of_openings(max_payload: u32, keeps: impl FnMut(u16, &Opening<'_>) -> bool + Send + 'k) -> Filter<'k> {
        Filter::by(max_payload, Keeps::Openings(Box::new(keeps)))
    }

    fn by(max_payload: u32, keeps: Keeps<'k>) -> Filter<'k> {
        Filter { stream: MessageStream::new(max_payload, Keeper { keeps, dropped: HashSet::new() }) }
    }

    /// Appends to `out` what is written for the frames that this piece completes.
    ///
    /// # Errors
    ///
    /// The fault of what follows these frames; [`Error::BadContent`] where a frame may not come next on its channel. Nothing is
    /// written after it, and each further call returns it again.
    pub fn feed(&mut self, piece: &[u8], out: &mut Vec<u8>) -> Result<(), Error> {
        self.stream.feed(piece, out)
    }

    /// How many messages are open.
    #[must_use]
    pub fn open_messages(&self) -> usize {
        self.stream.open_messages()
    }

    /// Where in the stream what follows the frames begins that were taken: after an error, the offset of what it is about.
    #[must_use]
    pub fn position(&self) -> u64 {
        self.stream.position()
    }

    /// Ends the stream.
    ///
    /// # Errors
    ///
    /// The fault that was met; [`Error::CutShort`] where the stream ends inside a frame, and [`Error::OpenContent`] where it ends
    /// between two frames, inside a message.
    pub fn finish(self) -> Result<(), Error> {
        self.stream.finish()
    }
}

/// Writes the canonical bytes of the messages and of the other frames that rules keep, as the program's `filter RULE..` does.
///
/// ```
/// use feksroum::{filter, Rules, MAX_PAYLOAD};
///
/// let mut out = Vec::new();
/// filter(&[8, 0, 0, 0, 0, 0, 1, 7, 206][..], &mut out, MAX_PAYLOAD, Rules::new(["keep,kind=beat"])?)?;
/// assert_eq!(out, [8, 0, 0, 0, 0, 0, 0, 206]);
/// # Ok::<(), Box<dyn std::error::Error>>(())
/// ```
///
/// # Errors
///
/// As [`Filter`] returns them, or that of a read or a write. What is kept of all that comes before is written.
pub fn filter<R: Read, W: Write>(reader: R, writer: W, max_payload: u32, rules: Rules) -> Result<(), StreamError> {
    stream::run(Filter::new(max_payload, rules).stream, reader, writer)
}

/// Whether a message is kept that this opens, on its channel.
type KeepsOpening<'k> = dyn FnMut(u16, &Opening<'_>) -> bool + Send + 'k;

/// What is kept.
enum Keeps<'k> {
    Rules(Rules),
    Openings(Box<KeepsOpening<'k>>),
}

impl Keeps<'_> {
    /// Whether a frame is kept that is no header and no body.
    fn keeps(&mut self, frame: &Frame<'_>) -> Result<bool, Error> {
        match self {
            Keeps::Rules(rules) => rules.decide(frame),
            Keeps::Openings(keeps) => match frame.decode()? {
                Payload::Method(method) => Ok(Opening::from_method(method).map_or(true, |opening| keeps(frame.channel(), &opening))),
                _ => Ok(true),
            },
        }
    }
}

impl fmt::Debug for Keeps<'_> {
    fn fmt(&self, f: &mut fmt::Formatter<'_>) -> fmt::Result {
        match self {
            Keeps::Rules(rules) => rules.fmt(f),
            Keeps::Openings(_) => f.write_str("Openings"),
        }
    }
}

/// Keeps or drops.
#[derive(Debug)]
struct Keeper<'k> {
    keeps: Keeps<'k>,
    /// The channels whose message is dropped.
    dropped: HashSet<u16>,
}

impl Keeper<'_> {
    fn keeps(&mut self, frame: &Frame<'_>, part: Part) -> Result<bool, Error> {
        if matches!(part, Part::Header | Part::Body) {
            return Ok(!self.dropped.contains(&frame.channel()));
        }
        let is_kept = self.keeps.keeps(frame)?;
        if part == Part::Opening && is_kept {
            self.dropped.remove(&frame.channel());
        } else if part == Part::Opening {
            self.dropped.try_reserve(1).map_err(|_| Error::NoMemory)?;
            self.dropped.insert(frame.channel());
        }
        Ok(is_kept)
    }
}

impl Take for Keeper<'_> {
    fn take(&mut self, frame: &Frame<'_>, part: Part, _: bool, writer: &mut Writer, out: &mut Vec<u8>) -> Result<(), Error> {
        if self.keeps(frame, part)? {
            writer.frame(frame, out)?;
        }
        Ok(())
    }
}
