//! Canonical bytes of whole frames, appended to a vector.

use crate::canonicalize::{canonicalize_slice, Level};
use crate::error::Error;
use crate::frame::Frame;
use crate::held::Passed;
use crate::scratch::Scratch;

/// Writes frames, with the scratch that they need: memory is taken for the frames that come, and not for the limit.
#[derive(Debug)]
pub struct Writer {
    scratch: Scratch,
    max_payload: u32,
    level: Level,
}

impl Writer {
    pub fn new(max_payload: u32, level: Level) -> Writer {
        Writer { scratch: Scratch::new(), max_payload, level }
    }

    /// Appends the canonical bytes of the whole frames in front.
    pub fn frames(&mut self, bytes: &[u8], out: &mut Vec<u8>) -> Passed {
        let longest = usize::try_from(self.max_payload).unwrap_or(usize::MAX);
        let reserved = out.try_reserve(bytes.len()).map_err(|_| Error::NoMemory);
        if let Err(error) = self.scratch.grow(longest.min(bytes.len())).and(reserved) {
            return Passed { used: 0, end: Err(error) };
        }
        let start = out.len();
        out.resize(start + bytes.len(), 0);
        let progress = canonicalize_slice(bytes, &mut out[start..], &mut self.scratch, self.max_payload, self.level);
        out.truncate(start + progress.written);
        let end = progress.end.or_else(|error| if error == Error::CutShort { Ok(()) } else { Err(error) });
        Passed { used: progress.used, end }
    }

    /// Appends the canonical bytes of a frame.
    pub fn frame(&mut self, frame: &Frame<'_>, out: &mut Vec<u8>) -> Result<(), Error> {
        if frame.fields().is_canonical() {
            return put(out, &[frame.bytes()]);
        }
        self.frames(frame.bytes(), out).end
    }
}

/// Appends some bytes.
pub fn put(out: &mut Vec<u8>, parts: &[&[u8]]) -> Result<(), Error> {
    out.try_reserve(parts.iter().map(|part| part.len()).sum()).map_err(|_| Error::NoMemory)?;
    for part in parts {
        out.extend_from_slice(part);
    }
    Ok(())
}
