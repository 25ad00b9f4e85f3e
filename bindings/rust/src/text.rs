//! Frames as lines of text, and back.

use crate::error::Error;
use crate::library;
use crate::sys::{self, Convert};

/// The status of a call whose buffer was too short.
const BUFFER_TOO_SMALL: u32 = 40;

/// What was written for frames or lines one after another, and what follows them.
#[derive(Clone, Debug, PartialEq, Eq)]
#[non_exhaustive]
pub struct Converted<T> {
    /// What was written for those in front.
    pub written: T,
    /// How many bytes they have.
    pub used: usize,
    /// What follows them: nothing, or why no whole one does.
    pub end: Result<(), Error>,
}

/// The lines of the whole frames in front, each of which ends with a newline. They show every field, passwords too.
///
/// ```
/// use feksroum::{dump, MAX_PAYLOAD};
///
/// assert_eq!(dump(&[3, 0, 1, 0, 0, 0, 2, 104, 105, 206], MAX_PAYLOAD).written, "body 1 x6869\n");
/// ```
#[must_use]
pub fn dump(bytes: &[u8], max_payload: u32) -> Converted<String> {
    let Converted { written, used, end } = convert_all(sys::feksroum_dump, line_room, bytes, max_payload);
    match String::from_utf8(written) {
        Ok(written) => Converted { written, used, end },
        Err(_) => Converted { written: String::new(), used: 0, end: Err(Error::Incompatible(0)) },
    }
}

/// The canonical bytes of the frames whose lines are in front. The end is [`Error::CutShort`] where the last line has no
/// newline, and [`Error::BadText`] where a line is not the exact text form of any frame with a payload of at most so many bytes.
///
/// ```
/// use feksroum::{undump, MAX_PAYLOAD};
///
/// assert_eq!(undump(b"beat\n", MAX_PAYLOAD).written, [8, 0, 0, 0, 0, 0, 0, 206]);
/// ```
#[must_use]
pub fn undump(text: &[u8], max_payload: u32) -> Converted<Vec<u8>> {
    convert_all(sys::feksroum_undump, frame_room, text, max_payload)
}

/// About how many bytes a function writes at most for what is in front of some bytes.
type Room = fn(&[u8], u32) -> usize;

/// A byte becomes at most four: an array of numbers of one byte has as many of `b:-128,` as pairs of bytes.
fn line_room(bytes: &[u8], max_payload: u32) -> usize {
    usize::try_from(library::next(bytes, max_payload).used).unwrap_or(0).saturating_mul(4)
}

/// Three bytes, as `T:0`, become at most nine.
fn frame_room(text: &[u8], _: u32) -> usize {
    text.iter().position(|byte| *byte == b'\n').unwrap_or(0).saturating_mul(3)
}

/// What a function writes for each of those in front. By their rooms mostly none is written a second time into a longer buffer.
fn convert_all(convert: Convert, room: Room, bytes: &[u8], max_payload: u32) -> Converted<Vec<u8>> {
    let mut buffer = Buffer::default();
    let (mut used, mut end) = (0, Ok(()));
    while let Some(rest) = bytes.get(used..).filter(|rest| !rest.is_empty()) {
        match buffer.append(convert, room(rest, max_payload), rest, max_payload) {
            Ok(more) => used += more,
            Err(error) => {
                end = Err(error.in_frame(rest));
                break;
            }
        }
    }
    Converted { written: buffer.written(), used, end }
}

/// What was written so far, and zeros after it.
#[derive(Default)]
struct Buffer {
    bytes: Vec<u8>,
    length: usize,
}

impl Buffer {
    fn written(mut self) -> Vec<u8> {
        self.bytes.truncate(self.length);
        self.bytes
    }

    /// Makes room for so many bytes after what was written. It grows at least by half, so that this costs little.
    fn make_room(&mut self, room: usize) -> Result<(), Error> {
        let needed = self.length.checked_add(room).ok_or(Error::NoMemory)?;
        if needed > self.bytes.len() {
            let length = needed.max(self.length + self.length / 2);
            self.bytes.try_reserve(length - self.bytes.len()).map_err(|_| Error::NoMemory)?;
            self.bytes.resize(length, 0);
        }
        Ok(())
    }

    /// Appends what a function writes for what is in front, and returns how many bytes that has.
    fn append(&mut self, convert: Convert, room: usize, bytes: &[u8], max_payload: u32) -> Result<usize, Error> {
        const AROUND: usize = 256;
        self.make_room(room.saturating_add(AROUND))?;
        loop {
            let out = self.bytes.get_mut(self.length..).unwrap_or_default();
            let found = library::convert(convert, bytes, out, max_payload);
            let incompatible = Error::Incompatible(found.status);
            let (Ok(length), Ok(used)) = (usize::try_from(found.length), usize::try_from(found.used)) else {
                return Err(incompatible);
            };
            if found.status == BUFFER_TOO_SMALL && length > out.len() {
                self.make_room(length)?;
                continue;
            }
            Error::of_status(found.status)?;
            if length > out.len() || used > bytes.len() || used == 0 {
                return Err(incompatible);
            }
            self.length += length;
            return Ok(used);
        }
    }
}

#[cfg(test)]
#[allow(unsafe_code)]
mod tests {
    use super::*;
    use crate::MAX_PAYLOAD;
    use std::sync::atomic::{AtomicUsize, Ordering};

    static DUMPED: AtomicUsize = AtomicUsize::new(0);
    static UNDUMPED: AtomicUsize = AtomicUsize::new(0);

    unsafe extern "C" fn counted_dump(bytes: *const u8, length: usize, out: *mut u8, room: usize, max_payload: u32) -> sys::Line {
        DUMPED.fetch_add(1, Ordering::Relaxed);
        // SAFETY: the caller keeps what it owes to the function that is called in place of this one.
        unsafe { sys::feksroum_dump(bytes, length, out, room, max_payload) }
    }

    unsafe extern "C" fn counted_undump(text: *const u8, length: usize, out: *mut u8, room: usize, max_payload: u32) -> sys::Line {
        UNDUMPED.fetch_add(1, Ordering::Relaxed);
        // SAFETY: as above.
        unsafe { sys::feksroum_undump(text, length, out, room, max_payload) }
    }

    unsafe extern "C" fn answers_99(_: *const u8, _: usize, _: *mut u8, _: usize, _: u32) -> sys::Line {
        sys::Line { status: 99, ..sys::Line::default() }
    }

    unsafe extern "C" fn wants_no_more(_: *const u8, _: usize, _: *mut u8, _: usize, _: u32) -> sys::Line {
        sys::Line { status: BUFFER_TOO_SMALL, ..sys::Line::default() }
    }

    unsafe extern "C" fn uses_nothing(_: *const u8, _: usize, _: *mut u8, _: usize, _: u32) -> sys::Line {
        sys::Line::default()
    }

    /// A frame of this type with this payload.
    fn frame(frame_type: u8, payload: &[u8]) -> Vec<u8> {
        let length = u32::try_from(payload.len()).unwrap().to_be_bytes();
        [&[frame_type, 0, 1][..], &length, payload, &[206]].concat()
    }

    /// A `queue.declare` whose arguments have one array, which is filled so.
    fn declare(values: &[u8]) -> Vec<u8> {
        let length = |extra: usize| u32::try_from(values.len() + extra).unwrap().to_be_bytes();
        frame(1, &[&[0, 50, 0, 10, 0, 0, 0, 0][..], &length(6), &[0, b'A'], &length(0), values].concat())
    }

    #[test]
    fn each_line_and_each_frame_is_written_once() {
        let mut frames = vec![frame(8, &[])];
        frames.extend([0, 1, 200, 5000, 100_000].map(|length| frame(3, &vec![7; length])));
        frames.extend([b"b\x80", b"t\x01"].map(|value| declare(&value.repeat(3000))));
        frames.extend([b"T".as_slice(), b"l", b"d"].map(|tag| declare(&[tag, &[0; 8]].concat().repeat(3000))));
        frames.push(declare(&b"V".repeat(3000)));
        for bytes in &frames {
            let line = convert_all(counted_dump, line_room, bytes, MAX_PAYLOAD);
            assert_eq!((line.used, line.end), (bytes.len(), Ok(())));
            let again = convert_all(counted_undump, frame_room, &line.written, MAX_PAYLOAD);
            assert!((again.used, again.end, &again.written) == (line.written.len(), Ok(()), bytes));
        }
        assert_eq!((DUMPED.load(Ordering::Relaxed), UNDUMPED.load(Ordering::Relaxed)), (frames.len(), frames.len()));
        let bytes = frames.concat();
        let lines = dump(&bytes, MAX_PAYLOAD);
        assert!(undump(lines.written.as_bytes(), MAX_PAYLOAD).written == bytes);
    }

    #[test]
    fn a_room_that_is_too_small_is_mended() {
        let body = frame(3, &[7; 4096]);
        let lines = convert_all(sys::feksroum_dump, |_, _| 0, &body, MAX_PAYLOAD);
        assert_eq!(lines.written, dump(&body, MAX_PAYLOAD).written.into_bytes());
    }

    #[test]
    fn an_unknown_status_ends_with_an_error() {
        for (function, status) in [(answers_99 as Convert, 99), (wants_no_more, 40), (uses_nothing, 0)] {
            let converted = convert_all(function, |_, _| 0, &[8], MAX_PAYLOAD);
            assert_eq!((converted.written.len(), converted.used, converted.end), (0, 0, Err(Error::Incompatible(status))));
        }
    }
}
