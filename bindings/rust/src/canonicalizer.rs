//! Canonical bytes of a stream that comes in pieces.

use crate::canonicalize::Level;
use crate::error::Error;
use crate::held::Held;
use crate::stream::Stream;
use crate::writer::Writer;

/// Canonicalizes a stream that is pushed to it in pieces of any size, as an event loop does that reads by itself.
///
/// What is written for all pieces together is what one call would write for the whole stream. It holds the part of a frame that
/// has not come to its end, and looks at it again only once as many bytes are there as the frame needs: so time is linear,
/// however small the pieces are. Memory is taken for the frames that come, and not for the limit.
///
/// ```
/// use feksroum::{Canonicalizer, Level, MAX_PAYLOAD};
///
/// let mut stream = Canonicalizer::new(MAX_PAYLOAD, Level::Plain);
/// let mut out = Vec::new();
/// for piece in [&[8, 0, 0][..], &[0, 0, 0, 1, 7], &[206, 3, 0, 1, 0, 0, 0, 0, 206]] {
///     stream.feed(piece, &mut out)?;
/// }
/// assert_eq!(out, [8, 0, 0, 0, 0, 0, 0, 206, 3, 0, 1, 0, 0, 0, 0, 206]);
/// stream.finish()?;
/// # Ok::<(), feksroum::Error>(())
/// ```
#[derive(Debug)]
pub struct Canonicalizer {
    held: Held,
    writer: Writer,
    end: Result<(), Error>,
}

impl Canonicalizer {
    /// A stream at its beginning, with payloads of at most so many bytes. It takes no memory yet.
    #[must_use]
    pub fn new(max_payload: u32, level: Level) -> Canonicalizer {
        Canonicalizer { held: Held::new(max_payload), writer: Writer::new(max_payload, level), end: Ok(()) }
    }

    /// Appends to `out` the canonical bytes of the frames that this piece completes.
    ///
    /// # Errors
    ///
    /// The fault of what follows these frames. Nothing is written after it, and each further call returns it again.
    pub fn feed(&mut self, piece: &[u8], out: &mut Vec<u8>) -> Result<(), Error> {
        self.end?;
        let Canonicalizer { held, writer, .. } = self;
        self.end = held.feed(piece, |bytes| writer.frames(bytes, out));
        self.end
    }

    /// The part of a frame that is held until the rest of it comes.
    #[must_use]
    pub fn held(&self) -> &[u8] {
        self.held.bytes()
    }

    /// Where in the stream what follows the frames begins that were written: after an error, the offset of what it is about.
    #[must_use]
    pub fn position(&self) -> u64 {
        self.held.taken()
    }

    /// Ends the stream.
    ///
    /// # Errors
    ///
    /// The fault that was met; that of the bytes which are held, and [`Error::CutShort`] where they begin a frame.
    pub fn finish(self) -> Result<(), Error> {
        Stream::finish(&self)
    }
}

impl Stream for Canonicalizer {
    fn feed(&mut self, piece: &[u8], out: &mut Vec<u8>) -> Result<(), Error> {
        Canonicalizer::feed(self, piece, out)
    }

    fn position(&self) -> u64 {
        Canonicalizer::position(self)
    }

    fn finish(&self) -> Result<(), Error> {
        self.end?;
        self.held.finish()
    }
}
