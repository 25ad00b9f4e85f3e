//! The bodies of messages cut anew into frames of one size.

use crate::content::{body_head, FRAME_END};
use crate::error::{Error, StreamError};
use crate::frame::Frame;
use crate::library;
use crate::message_stream::{MessageStream, Take};
use crate::stream::{self, Stream};
use crate::sys::Piece;
use crate::turns::Part;
use crate::writer::{put, Writer};
use std::collections::HashMap;
use std::io::{Read, Write};
use std::num::NonZeroU32;

/// Writes a stream as canonical bytes, with the bodies of messages cut into pieces of one size, and the last of each as long as it
/// comes. Other frames stay as they are. Of each open message fewer bytes are held than a piece has. A peer takes pieces of at most
/// [`max_payload`](crate::max_payload) of the frame-max that was agreed on.
///
/// ```
/// use feksroum::method::BasicPublish;
/// use feksroum::{Content, Encode, Frames, Recutter, MAX_PAYLOAD};
/// use std::num::NonZeroU32;
///
/// let mut wire = Vec::new();
/// BasicPublish::default().encode(1, &mut wire)?;
/// Content { body: b"hello", ..Content::default() }.encode(1, &mut wire)?;
///
/// let mut stream = Recutter::new(MAX_PAYLOAD, NonZeroU32::new(2).expect("2 is not 0"));
/// let mut out = Vec::new();
/// stream.feed(&wire, &mut out)?;
/// stream.finish()?;
/// let payloads: Vec<_> = Frames::new(&out, MAX_PAYLOAD).map(|frame| Ok(frame?.payload())).collect::<Result<_, feksroum::Error>>()?;
/// assert_eq!(payloads[2..], [&b"he"[..], b"ll", b"o"]);
/// # Ok::<(), Box<dyn std::error::Error>>(())
/// ```
#[derive(Debug)]
pub struct Recutter {
    stream: MessageStream<Cutter>,
}

impl Recutter {
    /// A stream at its beginning, with payloads of at most so many bytes, whose bodies are cut into pieces of `size` bytes.
    #[must_use]
    pub fn new(max_payload: u32, size: NonZeroU32) -> Recutter {
        Recutter { stream: MessageStream::new(max_payload, Cutter { size: size.get(), bodies: HashMap::new() }) }
    }

    /// Appends to `out` what is written for the frames that this piece completes.
    ///
    /// # Errors
    ///
    /// The fault of what follows these frames; [`Error::BadContent`] where a frame may not come next on its channel. Nothing is
    /// written after it, and each further call returns it again.
    pub fn feed(&mut self, piece: &[u8], out: &mut Vec<u8>) -> Result<(), Error> {
        self.stream.feed(piece, out)
    }

    /// How many messages are open.
    #[must_use]
    pub fn open_messages(&self) -> usize {
        self.stream.open_messages()
    }

    /// Where in the stream what follows the frames begins that were taken: after an error, the offset of what it is about.
    #[must_use]
    pub fn position(&self) -> u64 {
        self.stream.position()
    }

    /// Ends the stream.
    ///
    /// # Errors
    ///
    /// As [`Filter::finish`](crate::Filter::finish).
    pub fn finish(self) -> Result<(), Error> {
        self.stream.finish()
    }
}

/// Writes the canonical bytes of all frames that a reader gives, with the bodies of messages cut into pieces of `size` bytes, as the
/// program's `recut N` does.
///
/// # Errors
///
/// As [`Recutter`] returns them, or that of a read or a write. What comes before is written.
pub fn recut<R: Read, W: Write>(reader: R, writer: W, max_payload: u32, size: NonZeroU32) -> Result<(), StreamError> {
    stream::run(Recutter::new(max_payload, size).stream, reader, writer)
}

/// Cuts.
#[derive(Debug)]
struct Cutter {
    size: u32,
    /// The last bytes of a channel's body so far, which are too few for a piece.
    bodies: HashMap<u16, Vec<u8>>,
}

impl Take for Cutter {
    fn take(&mut self, frame: &Frame<'_>, part: Part, ends: bool, writer: &mut Writer, out: &mut Vec<u8>) -> Result<(), Error> {
        if part != Part::Body {
            return writer.frame(frame, out);
        }
        let mut held = self.bodies.remove(&frame.channel()).unwrap_or_default();
        let left = self.cut(&held, frame, ends, out)?;
        if left > 0 {
            hold(&mut held, frame.payload(), left)?;
            self.bodies.try_reserve(1).map_err(|_| Error::NoMemory)?;
            self.bodies.insert(frame.channel(), held);
        }
        Ok(())
    }
}

impl Cutter {
    /// Writes the pieces of what is held and of a body, and returns how many bytes are to be held after them.
    fn cut(&self, held: &[u8], frame: &Frame<'_>, ends: bool, out: &mut Vec<u8>) -> Result<usize, Error> {
        let length = |bytes: &[u8]| u32::try_from(bytes.len()).map_err(|_| Error::NoMemory);
        let (held_length, new_length) = (length(held)?, length(frame.payload())?);
        let cut = library::recut(self.size, held_length, new_length, ends);
        Error::of_status(cut.status)?;
        for k in 0..cut.pieces {
            let piece = library::piece_at(self.size, held_length, new_length, ends, k);
            let (front, back) = parts(&piece, held, frame.payload()).ok_or(Error::Incompatible(0))?;
            let before = body_head(frame.channel(), piece.held_length + piece.length);
            put(out, &[&before, front, back, &[FRAME_END]])?;
        }
        usize::try_from(cut.left).map_err(|_| Error::NoMemory)
    }
}

/// The two parts of a piece, where they are there.
fn parts<'a>(piece: &Piece, held: &'a [u8], body: &'a [u8]) -> Option<(&'a [u8], &'a [u8])> {
    let part = |bytes: &'a [u8], start: u32, length: u32| bytes.get(usize::try_from(start).ok()?..)?.get(..usize::try_from(length).ok()?);
    piece.held_length.checked_add(piece.length)?;
    Some((part(held, piece.held_start, piece.held_length)?, part(body, piece.start, piece.length)?))
}

/// Holds the last bytes of what was held and of the new ones.
fn hold(held: &mut Vec<u8>, body: &[u8], left: usize) -> Result<(), Error> {
    let of_body = left.min(body.len());
    let of_held = (left - of_body).min(held.len());
    held.drain(..held.len() - of_held);
    put(held, &[&body[body.len() - of_body..]])
}

#[cfg(test)]
mod tests {
    use super::*;

    #[test]
    fn parts_beyond_the_bytes_are_none() {
        let piece = |held_start, held_length, start, length| Piece { held_start, held_length, start, length };
        assert_eq!(parts(&piece(1, 1, 0, 2), b"ab", b"xyz"), Some((&b"b"[..], &b"xy"[..])));
        for (a, b, c, d) in [(0, 3, 0, 0), (3, 0, 0, 0), (0, 0, 2, 2), (0, 0, u32::MAX, 1), (0, u32::MAX, 0, 1)] {
            assert_eq!(parts(&piece(a, b, c, d), b"ab", b"xyz"), None);
        }
    }

    #[test]
    fn the_last_bytes_are_held() {
        for (left, wanted) in [(0, &b""[..]), (2, b"yz"), (4, b"bxyz"), (5, b"abxyz"), (9, b"abxyz")] {
            let mut held = b"ab".to_vec();
            hold(&mut held, b"xyz", left).unwrap();
            assert_eq!(held, wanted);
        }
    }
}
