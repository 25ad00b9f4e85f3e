//! The frames of a connection, out of pieces or out of a reader.

use crate::error::{Error, StreamError};
use crate::frame::{needed, Frame};
use crate::stream::{self, PIECE};
use std::io::Read;

/// Holds the bytes that come, and gives the frames in front of them, which are borrowed from it.
///
/// A client that waits reads with it:
///
/// ```
/// use feksroum::{FrameReader, MAX_PAYLOAD};
///
/// let mut socket = &[8, 0, 0, 0, 0, 0, 0, 206, 3, 0, 1, 0, 0, 0, 2, b'h', b'i', 206][..];
/// let mut reader = FrameReader::new(MAX_PAYLOAD);
/// let mut lengths = Vec::new();
/// while let Some(frame) = reader.read_frame(&mut socket)? {
///     lengths.push(frame.payload().len());
/// }
/// assert_eq!(lengths, [0, 2]);
/// # Ok::<(), feksroum::StreamError>(())
/// ```
///
/// An event loop pushes pieces of any size to it:
///
/// ```
/// use feksroum::{FrameReader, MAX_PAYLOAD};
///
/// let mut reader = FrameReader::new(MAX_PAYLOAD);
/// for piece in [&[8, 0, 0][..], &[0, 0, 0, 0, 206, 3, 0, 1, 0, 0], &[0, 2, b'h', b'i', 206]] {
///     reader.feed(piece)?;
///     while let Some(frame) = reader.next_frame()? {
///         println!("{frame:?}");
///     }
/// }
/// assert_eq!((reader.position(), reader.held().len()), (18, 0));
/// reader.finish()?;
/// # Ok::<(), feksroum::Error>(())
/// ```
#[derive(Debug)]
pub struct FrameReader {
    /// What has come lies from `start` to `end`.
    bytes: Vec<u8>,
    start: usize,
    end: usize,
    /// How many bytes the frame in front has at least, as far as is known.
    needed: usize,
    /// How many bytes the frames have that were given.
    given: u64,
    max_payload: u32,
    fault: Option<Error>,
}

impl FrameReader {
    /// A stream at its beginning, with payloads of at most so many bytes.
    #[must_use]
    pub fn new(max_payload: u32) -> FrameReader {
        FrameReader { bytes: Vec::new(), start: 0, end: 0, needed: 0, given: 0, max_payload, fault: None }
    }

    /// From now on payloads have at most so many bytes, as [`max_payload`](crate::max_payload) of the frame-max that was agreed on.
    pub fn set_max_payload(&mut self, max_payload: u32) {
        self.max_payload = max_payload;
        self.needed = 0;
    }

    /// Holds one more piece.
    ///
    /// # Errors
    ///
    /// [`Error::NoMemory`] alone; nothing is held of the piece then.
    pub fn feed(&mut self, piece: &[u8]) -> Result<(), Error> {
        self.room(piece.len())?.copy_from_slice(piece);
        self.end += piece.len();
        Ok(())
    }

    /// Reads once, holds what was read, and returns how many bytes that is: none at the end of the input.
    ///
    /// # Errors
    ///
    /// [`StreamError::Read`], or that memory ran out.
    pub fn read_from(&mut self, reader: &mut impl Read) -> Result<usize, StreamError> {
        let offset = self.given;
        let room = self.room(PIECE).map_err(|error| StreamError::Frame { error, offset })?;
        let length = stream::read(reader, room).map_err(StreamError::Read)?.len();
        self.end += length;
        Ok(length)
    }

    /// The frame in front of what is held, or none where that is not a whole one.
    ///
    /// # Errors
    ///
    /// Its fault. It stays, whatever comes.
    pub fn next_frame(&mut self) -> Result<Option<Frame<'_>>, Error> {
        if let Some(fault) = self.fault {
            return Err(fault);
        }
        let held = self.bytes.get(self.start..self.end).unwrap_or_default();
        if held.len() < self.needed || held.is_empty() {
            return Ok(None);
        }
        match Frame::first(held, self.max_payload) {
            Ok(frame) => {
                self.start += frame.bytes().len();
                self.given += frame.bytes().len() as u64;
                self.needed = 0;
                Ok(Some(frame))
            }
            Err(Error::CutShort) => {
                self.needed = needed(held, self.max_payload);
                Ok(None)
            }
            Err(fault) => {
                self.fault = Some(fault);
                Err(fault)
            }
        }
    }

    /// The next frame, for which it reads as often as it takes, or none where the input ends after a frame.
    ///
    /// # Errors
    ///
    /// As [`read_from`](FrameReader::read_from) and [`next_frame`](FrameReader::next_frame); [`Error::CutShort`] where the input ends
    /// inside a frame.
    pub fn read_frame(&mut self, reader: &mut impl Read) -> Result<Option<Frame<'_>>, StreamError> {
        let offset = self.given;
        while !self.is_ready() {
            if self.read_from(reader)? == 0 {
                return self.at_end().map(|()| None).map_err(|error| StreamError::Frame { error, offset });
            }
        }
        self.next_frame().map_err(|error| StreamError::Frame { error, offset })
    }

    /// Whether a whole frame, or a fault, is in front of what is held.
    fn is_ready(&mut self) -> bool {
        let held = self.held().len();
        if self.fault.is_none() && held >= self.needed {
            self.needed = needed(self.held(), self.max_payload);
        }
        self.fault.is_some() || held > 0 && held >= self.needed
    }

    /// How many bytes the frame in front has at least, as far as what is held says: where more than are held, so many have to be there
    /// before it is given.
    #[must_use]
    pub fn needed(&self) -> usize {
        needed(self.held(), self.max_payload)
    }

    /// What has come and was not given.
    #[must_use]
    pub fn held(&self) -> &[u8] {
        self.bytes.get(self.start..self.end).unwrap_or_default()
    }

    /// How many bytes the frames have that were given: after an error the offset of what it is about.
    #[must_use]
    pub fn position(&self) -> u64 {
        self.given
    }

    /// Ends the stream.
    ///
    /// # Errors
    ///
    /// The fault that was met, or that of what is held, [`Error::CutShort`] where that begins a frame.
    pub fn finish(mut self) -> Result<(), Error> {
        while self.next_frame()?.is_some() {}
        self.at_end()
    }

    fn at_end(&self) -> Result<(), Error> {
        match self.fault {
            Some(fault) => Err(fault),
            None if self.held().is_empty() => Ok(()),
            // Fewer bytes than were waited for may begin no frame at all.
            None => Err(Frame::first(self.held(), self.max_payload).err().unwrap_or(Error::CutShort)),
        }
    }

    /// Room for so many bytes after what is held, which is moved to the front where that is wanted.
    fn room(&mut self, length: usize) -> Result<&mut [u8], Error> {
        if self.bytes.len() - self.end < length {
            self.bytes.copy_within(self.start..self.end, 0);
            (self.start, self.end) = (0, self.end - self.start);
            let missing = length.saturating_sub(self.bytes.len() - self.end);
            self.bytes.try_reserve(missing).map_err(|_| Error::NoMemory)?;
            self.bytes.resize(self.bytes.len() + missing, 0);
        }
        self.bytes.get_mut(self.end..).and_then(|rest| rest.get_mut(..length)).ok_or(Error::NoMemory)
    }
}
