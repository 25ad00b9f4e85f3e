//! The C functions over slices. All unsafe code of the crate stands here: each call passes pointers and lengths of slices that
//! live for the call, and those that are written are borrowed mutably, so that they overlap nothing else. The library keeps no
//! pointer, tests everything else that it is given, and has written what it says that it has.

pub mod fields;
mod headers;
mod puts;

use crate::error::Error;
use crate::put::To;
use crate::sys::{self, Channel, Convert, Cut, Fields, Frame, FrameRule, Line, Made, Mark, Node, Payload, Piece, Progress, Turn, Written};
use std::alloc::{alloc_zeroed, Layout};
use std::mem::MaybeUninit;
use std::ops::Range;
use std::ptr::slice_from_raw_parts_mut;

/// The header scan of the frame in front.
#[inline]
pub fn next(bytes: &[u8], max_payload: u32) -> Frame {
    // SAFETY: pointer and length are those of `bytes`.
    unsafe { sys::feksroum_next(bytes.as_ptr(), bytes.len(), max_payload) }
}

/// What stands in a whole payload.
pub fn check(frame_type: u8, payload: &[u8]) -> Payload {
    // SAFETY: pointer and length are those of `payload`.
    unsafe { sys::feksroum_check(frame_type, payload.as_ptr(), payload.len()) }
}

/// What fills a table (`F`) or an array (`A`), with all that lies inside.
pub fn open(kind: u8, content: &[u8], nodes: &mut [Node]) -> Fields {
    // SAFETY: pointers and lengths are those of the slices, which do not overlap. A node is numbers, of any bits.
    unsafe { sys::feksroum_open(kind, content.as_ptr(), content.len(), nodes.as_mut_ptr(), nodes.len()) }
}

/// Appends what a call puts into the room behind a vector: first into that which is there, and where it is too short, into as much
/// as the call says. Where it is refused, the vector is as it was.
// The call stands here once, so that it is written where it is used.
#[inline]
pub fn append(out: &mut Vec<u8>, put: impl Fn(&mut [MaybeUninit<u8>]) -> Made) -> Made {
    const BUFFER_TOO_SMALL: u32 = 40;
    let mut is_first = true;
    let made = loop {
        let made = put(out.spare_capacity_mut());
        if made.status != BUFFER_TOO_SMALL || !is_first {
            break made;
        }
        if let Err(error) = make_room(out, made.length) {
            return refused(error);
        }
        is_first = false;
    };
    if made.status == 0 {
        let length = usize::try_from(made.length).unwrap_or(usize::MAX);
        if length > out.spare_capacity_mut().len() {
            return Made::refused(u32::MAX);
        }
        // SAFETY: so many bytes after the vector's were put, within its capacity.
        unsafe { out.set_len(out.len() + length) };
    }
    made
}

/// Room for so many bytes behind a vector.
#[cold]
fn make_room(out: &mut Vec<u8>, length: u64) -> Result<(), Error> {
    usize::try_from(length).ok().and_then(|length| out.try_reserve(length).ok()).ok_or(Error::NoMemory)
}

/// What a table says that cannot be handed on.
#[cold]
fn refused(error: Error) -> Made {
    const NO_MEMORY: u32 = 3;
    const TOO_LARGE: u32 = 12;
    Made::refused(if error == Error::NoMemory { NO_MEMORY } else { TOO_LARGE })
}

/// A slice as room, in which nothing but bytes is put.
pub fn room(out: &mut [u8]) -> &mut [MaybeUninit<u8>] {
    let (pointer, length) = (out.as_mut_ptr().cast(), out.len());
    // SAFETY: it is the same memory, borrowed for as long, and all calls that put write bytes.
    unsafe { std::slice::from_raw_parts_mut(pointer, length) }
}

/// Puts the frame of a body.
pub fn put_body(body: &[u8], to: To, out: &mut [MaybeUninit<u8>]) -> Made {
    // SAFETY: pointers and lengths are those of the slices, which do not overlap.
    unsafe { sys::feksroum_put_body(to.channel, body.as_ptr(), body.len(), to.max_payload, out.as_mut_ptr().cast(), out.len()) }
}

/// Puts a heartbeat. The call has no channel, which is written over the one that it puts.
pub fn put_heartbeat(channel: u16, out: &mut [MaybeUninit<u8>]) -> Made {
    const CHANNEL: Range<usize> = 1..3;
    // SAFETY: pointer and length are those of `out`.
    let made = unsafe { sys::feksroum_put_heartbeat(out.as_mut_ptr().cast(), out.len()) };
    if made.status == 0 {
        overwrite(out, CHANNEL, channel);
    }
    made
}

/// Writes a number over what was put there.
fn overwrite(out: &mut [MaybeUninit<u8>], place: Range<usize>, number: u16) {
    for (byte, new) in out.get_mut(place).unwrap_or_default().iter_mut().zip(number.to_be_bytes()) {
        byte.write(new);
    }
}

/// Puts a protocol header of this version.
pub fn put_protocol_header(version: [u8; 3], out: &mut [MaybeUninit<u8>]) -> Made {
    let [major, minor, revision] = version;
    // SAFETY: pointer and length are those of `out`.
    unsafe { sys::feksroum_put_protocol_header(major, minor, revision, out.as_mut_ptr().cast(), out.len()) }
}

/// What fills a table (`F`) or an array (`A`), out of nodes whose spans lie in the pool.
pub fn write_content(kind: u8, nodes: &[Node], pool: &[u8], out: &mut [u8]) -> Written {
    // SAFETY: pointers and lengths are those of the slices, of which none overlaps `out`.
    unsafe { sys::feksroum_write_content(kind, nodes.as_ptr(), nodes.len(), pool.as_ptr(), pool.len(), out.as_mut_ptr(), out.len()) }
}

/// How many marks are enough for the tables in so many bytes.
pub fn scratch(length: usize) -> usize {
    // SAFETY: the call takes a number alone.
    unsafe { sys::feksroum_scratch(length) }
}

/// The canonical bytes of the whole frames in front.
pub fn canonicalize(bytes: &[u8], out: &mut [u8], marks: &mut [Mark], max_payload: u32, level: u8) -> Progress {
    // SAFETY: pointers and lengths are those of the slices, which do not overlap. A mark is numbers, of any bits.
    unsafe {
        sys::feksroum_canonicalize(
            bytes.as_ptr(),
            bytes.len(),
            out.as_mut_ptr(),
            out.len(),
            marks.as_mut_ptr(),
            marks.len(),
            max_payload,
            level,
        )
    }
}

/// What `feksroum_dump` or `feksroum_undump` writes for what is in front.
pub fn convert(convert: Convert, bytes: &[u8], out: &mut [u8], max_payload: u32) -> Line {
    // SAFETY: pointers and lengths are those of the slices, which do not overlap.
    unsafe { convert(bytes.as_ptr(), bytes.len(), out.as_mut_ptr(), out.len(), max_payload) }
}

/// What a frame is to its channel, by its numbers.
pub fn step(channel: Channel, frame_type: u8, class_id: u16, method_id: u16, size: u64, max_body: u64) -> Turn {
    // SAFETY: the call takes numbers alone.
    unsafe { sys::feksroum_step(channel, frame_type, class_id, method_id, size, max_body) }
}

/// The rule that a word is.
pub fn rule(word: &[u8]) -> FrameRule {
    // SAFETY: pointer and length are those of `word`.
    unsafe { sys::feksroum_rule(word.as_ptr(), word.len()) }
}

/// Whether rules keep a frame, by its numbers.
pub fn decide(rules: &[FrameRule], frame_type: u8, channel: u16, class_id: u16, method_id: u16) -> u8 {
    // SAFETY: pointer and length are those of `rules`.
    unsafe { sys::feksroum_decide(rules.as_ptr(), rules.len(), frame_type, channel, class_id, method_id) }
}

/// How a body of so many bytes is cut, where so many are held.
pub fn recut(size: u32, held: u32, length: u32, ends: bool) -> Cut {
    // SAFETY: the call takes numbers alone.
    unsafe { sys::feksroum_recut(size, held, length, ends.into()) }
}

/// One of its pieces.
pub fn piece_at(size: u32, held: u32, length: u32, ends: bool, k: u64) -> Piece {
    // SAFETY: the call takes numbers alone.
    unsafe { sys::feksroum_piece_at(size, held, length, ends.into(), k) }
}

/// Writes what comes before a body, where it fits, and returns how many bytes that has.
pub fn body_head(channel: u16, length: u32, out: &mut [u8]) -> usize {
    // SAFETY: pointer and length are those of `out`.
    unsafe { sys::feksroum_body_head(channel, length, out.as_mut_ptr(), out.len()) }
}

/// The longest payload that a frame-max leaves.
pub fn max_payload(frame_max: u32) -> u32 {
    // SAFETY: the call takes a number alone.
    unsafe { sys::feksroum_max_payload(frame_max) }
}

/// The library's version.
pub fn version() -> u32 {
    // SAFETY: the call takes nothing.
    unsafe { sys::feksroum_version() }
}

/// The name of a status, empty where it is no error's.
#[cfg(test)]
pub fn name(status: u8) -> Vec<u8> {
    let mut name = vec![0; 17];
    // SAFETY: pointer and length are those of `name`.
    let length = unsafe { sys::feksroum_name(status, name.as_mut_ptr(), name.len()) };
    name.truncate(length);
    name
}

/// So many marks that are zero, in memory that is not touched before they are used.
///
/// # Errors
///
/// [`Error::NoMemory`] where so much is not to be had.
// The layout is that of marks, and so is the alignment.
#[allow(clippy::cast_ptr_alignment)]
pub fn zeroed_marks(length: usize) -> Result<Box<[Mark]>, Error> {
    let layout = Layout::array::<Mark>(length).map_err(|_| Error::NoMemory)?;
    if layout.size() == 0 {
        return Ok(Box::default());
    }
    // SAFETY: the layout has a size other than 0.
    let pointer = unsafe { alloc_zeroed(layout) }.cast::<Mark>();
    if pointer.is_null() {
        return Err(Error::NoMemory);
    }
    // SAFETY: the global allocator gave the pointer for an array of so many marks, and zeros are marks.
    Ok(unsafe { Box::from_raw(slice_from_raw_parts_mut(pointer, length)) })
}
