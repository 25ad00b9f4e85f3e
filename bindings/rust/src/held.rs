//! The part of a frame that a stream in pieces has not brought to its end.

use crate::error::Error;
use crate::library;

/// What was made of some bytes.
pub struct Passed {
    /// How many bytes the whole frames in front have that were taken.
    pub used: usize,
    /// The fault of what follows them, where there is one that more bytes do not mend.
    pub end: Result<(), Error>,
}

/// Holds it, and looks at it again only once as many bytes are there as the frame needs: so time is linear, however small the pieces
/// are.
#[derive(Debug)]
pub struct Held {
    bytes: Vec<u8>,
    /// How many bytes the frame has at least, as far as is known; more than are held.
    needed: usize,
    /// How many bytes the frames have that were taken.
    taken: u64,
    max_payload: u32,
}

impl Held {
    pub fn new(max_payload: u32) -> Held {
        Held { bytes: Vec::new(), needed: 0, taken: 0, max_payload }
    }

    pub fn bytes(&self) -> &[u8] {
        &self.bytes
    }

    /// How many bytes of the stream the frames have that were taken: where what follows begins.
    pub fn taken(&self) -> u64 {
        self.taken
    }

    /// Hands one more piece on, in front of it what is held: `pass` takes the whole frames in front of some bytes.
    pub fn feed<P>(&mut self, mut piece: &[u8], mut pass: P) -> Result<(), Error>
    where
        P: FnMut(&[u8]) -> Passed,
    {
        while !self.bytes.is_empty() {
            let missing = self.needed.saturating_sub(self.bytes.len());
            let (front, rest) = piece.split_at(missing.min(piece.len()));
            self.hold(front)?;
            piece = rest;
            if front.len() < missing {
                return Ok(());
            }
            self.complete(&mut pass)?;
        }
        let used = self.pass(piece, &mut pass)?;
        let rest = piece.get(used..).unwrap_or_default();
        self.hold(rest)?;
        self.scan(rest)
    }

    /// The fault of what is held at the end of the stream.
    pub fn finish(&self) -> Result<(), Error> {
        if self.bytes.is_empty() {
            return Ok(());
        }
        Error::of_status(library::next(&self.bytes, self.max_payload).status)?;
        Err(Error::CutShort)
    }

    fn hold(&mut self, bytes: &[u8]) -> Result<(), Error> {
        self.bytes.try_reserve(bytes.len()).map_err(|_| Error::NoMemory)?;
        self.bytes.extend_from_slice(bytes);
        Ok(())
    }

    fn pass<P>(&mut self, bytes: &[u8], pass: &mut P) -> Result<usize, Error>
    where
        P: FnMut(&[u8]) -> Passed,
    {
        let passed = pass(bytes);
        self.taken += passed.used as u64;
        passed.end.map(|()| passed.used)
    }

    /// As many bytes are held as the frame was known to need: hands it on, or finds out how many more it needs.
    fn complete<P>(&mut self, pass: &mut P) -> Result<(), Error>
    where
        P: FnMut(&[u8]) -> Passed,
    {
        let mut held = std::mem::take(&mut self.bytes);
        let used = self.pass(&held, pass)?;
        let scanned = self.scan(held.get(used..).unwrap_or_default());
        held.drain(..used.min(held.len()));
        self.bytes = held;
        scanned
    }

    /// Finds out how many bytes the frame needs that these begin.
    fn scan(&mut self, bytes: &[u8]) -> Result<(), Error> {
        if bytes.is_empty() {
            return Ok(());
        }
        let found = library::next(bytes, self.max_payload);
        self.needed = usize::try_from(found.needed).map_err(|_| Error::NoMemory)?;
        if self.needed > bytes.len() {
            Ok(())
        } else {
            Err(Error::Incompatible(found.status.into()))
        }
    }
}
