//! Canonical bytes of frames, out of a slice or a reader.

use crate::canonicalizer::Canonicalizer;
use crate::error::{Error, StreamError};
use crate::library;
use crate::scratch::Scratch;
use crate::stream;
use crate::sys;
use std::io::{Read, Write};

/// How closely frames have to keep to their canonical bytes.
#[derive(Clone, Copy, Debug, Default, PartialEq, Eq, Hash)]
pub enum Level {
    /// Whatever the standard's grammar allows, which is what peers send.
    #[default]
    Plain = 0,
    /// Frames alone in which all that reading drops is canonical.
    Tidy = 1,
}

/// How far a call came.
#[derive(Clone, Copy, Debug, PartialEq, Eq)]
#[non_exhaustive]
pub struct Progress {
    /// How many bytes the whole frames in front have.
    pub used: usize,
    /// How many canonical bytes were written for them, no more than `used`.
    pub written: usize,
    /// What follows these frames: nothing, or why no whole frame does.
    pub end: Result<(), Error>,
}

impl Progress {
    /// What was answered for these bytes. Counts beyond them are no answer of this library.
    fn of(found: sys::Progress, bytes: &[u8]) -> Progress {
        let within = |count: u64| usize::try_from(count).ok().filter(|count| *count <= bytes.len());
        match (within(found.used), within(found.written)) {
            (Some(used), Some(written)) => {
                let end = Error::of_status(found.status).map_err(|error| error.in_frame(bytes.get(used..).unwrap_or_default()));
                Progress { used, written, end }
            }
            _ => Progress { used: 0, written: 0, end: Err(Error::Incompatible(found.status)) },
        }
    }
}

/// Writes the canonical bytes of the whole frames in front. What is not used may be put in front of further bytes;
/// [`Canonicalizer`] does that.
///
/// ```
/// use feksroum::{canonicalize_slice, Error, Level, Scratch, MAX_PAYLOAD};
///
/// let bytes = [8, 0, 0, 0, 0, 0, 1, 7, 206, 8, 0, 0];
/// let mut out = [0; 12];
/// let progress = canonicalize_slice(&bytes, &mut out, &mut Scratch::new(), MAX_PAYLOAD, Level::Plain);
/// assert_eq!((progress.used, progress.written, progress.end), (9, 8, Err(Error::CutShort)));
/// ```
///
/// Where `out` is shorter than `bytes`, nothing is used or written, and the end is [`Error::BufferTooSmall`].
pub fn canonicalize_slice(bytes: &[u8], out: &mut [u8], scratch: &mut Scratch, max_payload: u32, level: Level) -> Progress {
    if out.len() < bytes.len() {
        return Progress { used: 0, written: 0, end: Err(Error::BufferTooSmall) };
    }
    Progress::of(library::canonicalize(bytes, out, scratch.marks(), max_payload, level as u8), bytes)
}

/// Writes the canonical bytes of all frames that a reader gives, before each further read. What is held is less than a frame,
/// and memory is taken for the frames that come, not for the limit.
///
/// ```
/// use feksroum::{canonicalize, Level, MAX_PAYLOAD};
///
/// let mut out = Vec::new();
/// canonicalize(&[8, 0, 0, 0, 0, 0, 1, 7, 206][..], &mut out, MAX_PAYLOAD, Level::Plain)?;
/// assert_eq!(out, [8, 0, 0, 0, 0, 0, 0, 206]);
/// # Ok::<(), feksroum::StreamError>(())
/// ```
///
/// # Errors
///
/// The first fault of the bytes, or of a read or a write. The canonical bytes of all frames before a fault of the bytes are
/// written.
pub fn canonicalize<R: Read, W: Write>(reader: R, writer: W, max_payload: u32, level: Level) -> Result<(), StreamError> {
    stream::run(Canonicalizer::new(max_payload, level), reader, writer)
}

#[cfg(test)]
mod tests {
    use super::*;

    fn answer(used: u64, written: u64, status: u32) -> Progress {
        Progress::of(sys::Progress { used, written, status, unused: 0 }, &[8, 0, 0, 0, 0, 0, 1, 7, 206])
    }

    #[test]
    fn an_unknown_status_is_an_error() {
        assert_eq!(answer(9, 8, 0).end, Ok(()));
        assert_eq!(answer(9, 8, 21).end, Err(Error::CutShort));
        for status in [1, 22, 24, 40, 41, 256, u32::MAX] {
            assert_eq!(answer(9, 8, status), Progress { used: 9, written: 8, end: Err(Error::Incompatible(status)) });
        }
    }

    #[test]
    fn counts_beyond_the_bytes_are_an_error() {
        for (used, written) in [(10, 8), (9, 10), (u64::MAX, 0)] {
            assert_eq!(answer(used, written, 0), Progress { used: 0, written: 0, end: Err(Error::Incompatible(0)) });
        }
    }
}
