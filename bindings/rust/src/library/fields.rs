//! The fields of a payload that the library has read: numbers, and where strings and tables lie.

use crate::error::Error;
use crate::field::MOST_FIELDS;
use crate::frame::{FrameType, Summary};
use crate::properties::Properties;
use crate::sys::{self, Node};
use crate::table::Table;
use std::mem::MaybeUninit;
use std::ops::Range;

/// An answer that does not fit what was asked: no status says so.
const UNFIT: Error = Error::Incompatible(0);

/// The most fields of a method. Four bits for each are one number.
const MOST_OF_A_METHOD: usize = 8;

/// The fields by their places, in little room, since frames are moved about.
#[repr(C)]
#[derive(Clone, Copy, Debug, Default, PartialEq, Eq)]
struct Slots {
    /// A number of at most four bytes, or where in the payload a string or table begins.
    numbers: [u32; MOST_FIELDS],
    /// The upper half of the number of eight bytes: no method has two, and of the properties one is such.
    upper: u32,
    /// Of a content header, a bit for each property that is set, the first one lowest; else the kinds of the fields, four bits each, the
    /// last one lowest.
    found: u32,
}

impl Slots {
    /// Takes as many nodes as a frame other than a content header has.
    #[inline]
    fn in_order(&mut self, nodes: &[Node]) {
        let (mut all, mut kinds) = (0, 0);
        for (slot, node) in self.numbers.iter_mut().zip(nodes) {
            *slot = packed(node);
            all |= node.number;
            kinds = kinds << 4 | u32::from(node.kind);
        }
        (self.upper, self.found) = (upper(all), kinds);
    }

    /// Takes the properties that are set.
    #[inline]
    fn by_place(&mut self, nodes: &[Node]) -> Result<(), Error> {
        let (mut all, mut set) = (0, 0);
        for node in nodes {
            let place = usize::from(node.place);
            let (Some(slot), Some(kind)) = (self.numbers.get_mut(place), Properties::KINDS.get(place)) else { return Err(UNFIT) };
            if *kind != node.kind {
                return Err(UNFIT);
            }
            *slot = packed(node);
            all |= node.number;
            set |= 1 << place;
        }
        (self.upper, self.found) = (upper(all), set);
        Ok(())
    }
}

/// A node is a number, and then it has no span, or a span and no number. Of a number the upper half is kept elsewhere.
#[inline]
#[allow(clippy::cast_possible_truncation)]
fn packed(node: &Node) -> u32 {
    node.number as u32 | node.start
}

/// What stands at a place that is beyond the payload, as the library gives none.
#[cold]
fn nothing<'a>() -> &'a [u8] {
    &[]
}

/// The upper half of all numbers, of which one has some at most.
#[inline]
#[allow(clippy::cast_possible_truncation)]
fn upper(all: u64) -> u32 {
    (all >> 32) as u32
}

/// What was found of a frame beside its bytes and its type.
#[repr(C)]
#[derive(Clone, Copy, Debug, Default)]
pub struct Found {
    slots: Slots,
    body_size: u64,
    payload_start: u32,
    payload_length: u32,
    class_id: u16,
    method_id: u16,
    channel: u16,
    is_canonical: bool,
    is_tidy: bool,
}

impl Found {
    /// The payload, where the bytes have it.
    #[inline]
    fn payload<'a>(&self, bytes: &'a [u8]) -> Option<&'a [u8]> {
        let start = usize::try_from(self.payload_start).ok()?;
        bytes.get(start..usize::try_from(self.payload_length).ok()?.saturating_add(start))
    }

    /// Reads the frame in front of some bytes, with a payload of at most so many, and gives its bytes and its type.
    #[inline]
    pub fn first<'a>(&mut self, bytes: &'a [u8], max_payload: u32) -> Result<(&'a [u8], FrameType), Error> {
        let outer = super::next(bytes, max_payload);
        Error::of_status(outer.status)?;
        let frame_type = FrameType::from_byte(outer.frame_type)?;
        let bytes = usize::try_from(outer.used).ok().and_then(|used| bytes.get(..used)).ok_or(UNFIT)?;
        self.payload_start = outer.payload_start;
        self.payload_length = u32::try_from(outer.payload_length).map_err(|_| UNFIT)?;
        self.channel = outer.channel;
        self.read(frame_type, bytes)?;
        Ok((bytes, frame_type))
    }

    /// Reads the payload, without what lies inside its tables. Where that is refused, it stays unread.
    #[inline]
    fn read(&mut self, frame_type: FrameType, bytes: &[u8]) -> Result<(), Error> {
        const SHALLOW: u8 = 0;
        let payload = self.payload(bytes).ok_or(UNFIT)?;
        let mut nodes = [MaybeUninit::<Node>::uninit(); MOST_FIELDS];
        let pointer = nodes.as_mut_ptr().cast::<Node>();
        // SAFETY: pointers and lengths are those of the slices, which do not overlap.
        let read = unsafe { sys::feksroum_read(frame_type as u8, payload.as_ptr(), payload.len(), SHALLOW, pointer, MOST_FIELDS) };
        if read.status != 0 {
            return Err(Error::of_payload(read.status, payload));
        }
        let count = usize::try_from(read.nodes).unwrap_or(usize::MAX);
        // SAFETY: at status 0 the library has written so many nodes, no more than `most`, for which there is room.
        let given = |most| (count <= most).then(|| unsafe { std::slice::from_raw_parts(pointer, count) }).ok_or(UNFIT);
        if frame_type == FrameType::Header {
            self.slots.by_place(given(MOST_FIELDS)?)?;
        } else {
            self.slots.in_order(given(MOST_OF_A_METHOD)?);
        }
        (self.body_size, self.class_id, self.method_id) = (read.body_size, read.class_id, read.method_id);
        (self.is_canonical, self.is_tidy) = (read.canonical, read.tidy);
        Ok(())
    }
}

/// A frame with the fields of its payload. They are none until the library has read it, so short strings are UTF-8.
// Options and results are told apart by a bool of what was found, which is looked at where the library has given it: so a frame that is
// returned is moved once.
#[repr(C)]
#[derive(Clone, Copy, Debug)]
pub struct Fields<'a> {
    bytes: &'a [u8],
    found: Found,
    frame_type: FrameType,
}

impl<'a> Fields<'a> {
    /// Those of a frame with these bytes, in which this was found.
    #[inline]
    pub fn of(bytes: &'a [u8], found: Found, frame_type: FrameType) -> Fields<'a> {
        Fields { bytes, found, frame_type }
    }

    /// Those of a frame that was not read, with its payload at this place in its bytes.
    pub fn unread(frame_type: FrameType, channel: u16, bytes: &'a [u8], payload_start: u16, payload_length: u32) -> Fields<'a> {
        Fields { bytes, found: Found { channel, payload_start: payload_start.into(), payload_length, ..Found::default() }, frame_type }
    }

    /// Reads the payload, without what lies inside its tables. Where that is refused, it stays unread.
    pub fn read(&mut self) -> Result<(), Error> {
        self.found.read(self.frame_type, self.bytes)
    }

    #[inline]
    pub fn frame_type(&self) -> FrameType {
        self.frame_type
    }

    #[inline]
    pub fn channel(&self) -> u16 {
        self.found.channel
    }

    /// What stands in the payload beside the fields, and how many these are.
    pub fn summary(&self) -> Summary {
        let Found { body_size, class_id, method_id, is_canonical, is_tidy, .. } = self.found;
        Summary { class_id, method_id, body_size, fields: self.count(), canonical: is_canonical, tidy: is_tidy }
    }

    /// How many fields there are: each kind is a digit other than 0.
    #[allow(clippy::cast_possible_truncation)]
    fn count(&self) -> u8 {
        let found = self.found.slots.found;
        (if self.frame_type == FrameType::Header { found.count_ones() } else { (u32::BITS - found.leading_zeros()).div_ceil(4) }) as u8
    }

    /// The size of the body that a content header announces.
    #[inline]
    pub fn body_size(&self) -> u64 {
        self.found.body_size
    }

    /// The class of a method or a content header, and the method in it.
    #[inline]
    pub fn ids(&self) -> (u16, u16) {
        (self.found.class_id, self.found.method_id)
    }

    #[inline]
    pub fn is_canonical(&self) -> bool {
        self.found.is_canonical
    }

    /// All bytes of the frame.
    #[inline]
    pub fn bytes(&self) -> &'a [u8] {
        self.bytes
    }

    #[inline]
    pub fn payload(&self) -> &'a [u8] {
        self.found.payload(self.bytes).unwrap_or_else(nothing)
    }

    /// The kinds, four bits each, the last one lowest.
    #[inline]
    pub fn kinds(&self) -> u32 {
        self.found.slots.found
    }

    /// The fields, each by its place.
    #[inline]
    pub fn places(&self) -> Places<'_, 'a> {
        Places { payload: self.payload(), slots: &self.found.slots }
    }

    /// The same with bytes of its own.
    pub fn into_owned(self) -> OwnedFields {
        OwnedFields { bytes: self.bytes.into(), found: self.found, frame_type: self.frame_type }
    }
}

/// The fields of a payload, each by its place.
#[derive(Clone, Copy, Debug)]
pub struct Places<'f, 'a> {
    payload: &'a [u8],
    slots: &'f Slots,
}

// A kind says how wide a number is.
#[allow(clippy::cast_possible_truncation)]
impl<'a> Places<'_, 'a> {
    /// Whether the property at this place is set.
    #[inline]
    pub fn has(self, place: usize) -> bool {
        self.slots.found >> place & 1 != 0
    }

    /// Whether one of the properties at these places is set.
    #[inline]
    pub fn has_any(self, mut places: Range<usize>) -> bool {
        places.any(|place| self.has(place))
    }

    /// A number of at most four bytes, or where a string or table begins.
    #[inline]
    pub fn long(self, place: usize) -> u32 {
        self.slots.numbers.get(place).copied().unwrap_or_default()
    }

    #[inline]
    pub fn octet(self, place: usize) -> u8 {
        self.long(place) as u8
    }

    #[inline]
    pub fn short(self, place: usize) -> u16 {
        self.long(place) as u16
    }

    /// The one number of eight bytes.
    #[inline]
    pub fn long_long(self, place: usize) -> u64 {
        u64::from(self.slots.upper) << 32 | u64::from(self.long(place))
    }

    #[inline]
    pub fn flag(self, place: usize) -> bool {
        self.long(place) != 0
    }

    /// A short string: the caller has seen its kind.
    #[inline]
    pub fn short_string(self, place: usize) -> &'a str {
        let start = self.start(place);
        // SAFETY: the library has read the payload, and says that a short string begins there. So the byte before it is its length, it
        // lies in the payload, and it is UTF-8.
        unsafe {
            let length = usize::from(*self.payload.get_unchecked(start - 1));
            std::str::from_utf8_unchecked(self.payload.get_unchecked(start..start + length))
        }
    }

    #[inline]
    pub fn long_string(self, place: usize) -> &'a [u8] {
        let start = self.start(place);
        let Some(&[a, b, c, d]) = self.payload.get(start.wrapping_sub(4)..start) else { return &[] };
        let length = usize::try_from(u32::from_be_bytes([a, b, c, d])).unwrap_or(usize::MAX);
        self.payload.get(start..start.saturating_add(length)).unwrap_or_else(nothing)
    }

    /// Where a string or table begins.
    #[inline]
    fn start(self, place: usize) -> usize {
        usize::try_from(self.long(place)).unwrap_or(usize::MAX)
    }

    #[inline]
    pub fn table(self, place: usize) -> Table<'a> {
        Table::accepted(self.long_string(place))
    }
}

/// A frame with bytes of its own.
#[derive(Clone, Debug)]
pub struct OwnedFields {
    bytes: Box<[u8]>,
    found: Found,
    frame_type: FrameType,
}

impl OwnedFields {
    #[inline]
    pub fn fields(&self) -> Fields<'_> {
        Fields { bytes: &self.bytes, found: self.found, frame_type: self.frame_type }
    }
}

#[cfg(test)]
mod tests {
    use super::*;

    #[test]
    fn results_and_options_of_it_are_no_larger() {
        use std::mem::size_of;
        let size = size_of::<&[u8]>() + 96;
        assert_eq!((size_of::<Fields<'_>>(), size_of::<Option<Result<Fields<'_>, Error>>>()), (size, size));
    }

    #[test]
    fn spans_beyond_the_bytes_are_unfit() {
        let bytes = [3, 0, 1, 0, 0, 0, 2, 104, 105, 206];
        let mut fields = Fields::unread(FrameType::Body, 1, &bytes, 7, 2);
        assert_eq!((fields.read(), fields.payload()), (Ok(()), &b"hi"[..]));
        for (start, length) in [(7, 4), (11, 0), (u16::MAX, 2), (7, u32::MAX)] {
            assert_eq!(Fields::unread(FrameType::Body, 1, &bytes, start, length).read(), Err(UNFIT));
        }
    }

    #[test]
    fn a_property_of_another_kind_or_place_is_unfit() {
        let node = |place, kind| Node { kind, place, ..Node::default() };
        let mut slots = Slots::default();
        assert_eq!((slots.by_place(&[node(0, 6), node(13, 6)]), slots.found), (Ok(()), 0x2001));
        for other in [node(0, 1), node(14, 6), node(255, 6)] {
            assert_eq!(Slots::default().by_place(&[other]), Err(UNFIT));
        }
    }

    #[test]
    fn fields_are_counted_as_the_library_counts_them() {
        let ack = [0, 60, 0, 80, 0, 0, 0, 0, 0, 0, 0, 7, 0];
        let header = [0, 60, 0, 0, 0, 0, 0, 0, 0, 0, 0, 0, 0x90, 4, 1, b'a', 2, 0];
        let declare = [0, 40, 0, 10, 0, 0, 1, b'e', 1, b't', 0, 0, 0, 0, 0];
        let kinds = [(FrameType::Method, &ack[..], 2), (FrameType::Method, &declare, 8), (FrameType::Header, &header, 3)];
        for (frame_type, payload, count) in
            kinds.into_iter().chain([(FrameType::ProtocolHeader, &[0, 9, 1][..], 3), (FrameType::Body, &ack, 0)])
        {
            let mut fields = Fields::unread(frame_type, 0, payload, 0, u32::try_from(payload.len()).unwrap());
            assert_eq!((fields.read(), fields.count()), (Ok(()), count));
            assert_eq!(crate::frame::check(frame_type, payload), Ok(fields.summary()));
        }
    }
}
