//! Memory in which large tables are sorted.

use crate::error::Error;
use crate::library;
use crate::sys::Mark;

/// How many marks each call has on the stack, so that fewer are of no use.
const ON_THE_STACK: usize = 256;

/// Where the entries of tables in no order are sorted. Only the time depends on it: without one, a table of more than 256
/// entries takes time quadratic in their number. What it holds means nothing between two calls, so one serves any number of
/// them.
///
/// ```
/// use feksroum::{canonicalize_slice, Level, Scratch, MAX_PAYLOAD};
///
/// let mut scratch = Scratch::for_payloads(MAX_PAYLOAD)?;
/// let (bytes, mut out) = ([8, 0, 0, 0, 0, 0, 1, 7, 206], [0; 9]);
/// let progress = canonicalize_slice(&bytes, &mut out, &mut scratch, MAX_PAYLOAD, Level::Plain);
/// assert_eq!(out[..progress.written], [8, 0, 0, 0, 0, 0, 0, 206]);
/// # Ok::<(), feksroum::Error>(())
/// ```
#[derive(Debug, Default)]
pub struct Scratch {
    marks: Box<[Mark]>,
}

impl Scratch {
    /// No scratch, which takes no memory: small tables are sorted on the stack.
    #[must_use]
    pub fn new() -> Scratch {
        Scratch::default()
    }

    /// Enough for each table in payloads of so many bytes: eight times their size, of which the system gives what is used.
    ///
    /// # Errors
    ///
    /// [`Error::NoMemory`] where so much is not to be had.
    pub fn for_payloads(max_payload: u32) -> Result<Scratch, Error> {
        let length = usize::try_from(max_payload).map_err(|_| Error::NoMemory)?;
        Ok(Scratch { marks: library::zeroed_marks(library::scratch(length))? })
    }

    /// Makes it enough for payloads of so many bytes, where it is not: at least twice as long as it was, so that growing costs
    /// little.
    pub(crate) fn grow(&mut self, payload_length: usize) -> Result<(), Error> {
        let needed = library::scratch(payload_length);
        if needed > self.marks.len().max(ON_THE_STACK) {
            let length = needed.max(self.marks.len().saturating_mul(2));
            self.marks = Box::default();
            self.marks = library::zeroed_marks(length)?;
        }
        Ok(())
    }

    pub(crate) fn marks(&mut self) -> &mut [Mark] {
        &mut self.marks
    }
}

#[cfg(test)]
mod tests {
    use super::*;

    #[test]
    fn grows_by_what_is_needed_and_never_shrinks() {
        let mut scratch = Scratch::new();
        for (length, marks) in [(0, 0), (512, 0), (600, 300), (90, 300), (602, 600), (9000, 4500)] {
            scratch.grow(length).unwrap();
            assert_eq!(scratch.marks().len(), marks);
        }
    }

    #[test]
    fn what_is_not_to_be_had_is_an_error() {
        assert!(matches!(library::zeroed_marks(usize::MAX), Err(Error::NoMemory)));
        assert!(matches!(library::zeroed_marks(usize::MAX / 64), Err(Error::NoMemory)));
        assert!(library::zeroed_marks(0).unwrap().is_empty());
    }
}
