//! The C functions and structs, as `feksroum.h` and `feksroum_methods.h` declare them. `library` calls them, and nothing else does.

pub mod puts;

use std::mem::MaybeUninit;

#[repr(C)]
#[derive(Clone, Copy, Debug, Default)]
pub struct Frame {
    pub used: u64,
    pub needed: u64,
    pub payload_length: u64,
    pub payload_start: u32,
    pub channel: u16,
    pub frame_type: u8,
    pub status: u8,
}

#[repr(C)]
#[derive(Clone, Copy, Debug, Default)]
pub struct Payload {
    pub body_size: u64,
    pub class_id: u16,
    pub method_id: u16,
    pub canonical: bool,
    pub tidy: bool,
    pub status: u8,
    pub fields: u8,
}

/// A field, or a value in a table or an array: a number, or where its bytes lie.
#[repr(C)]
#[derive(Clone, Copy, Debug, Default, PartialEq, Eq)]
pub struct Node {
    pub number: u64,
    pub start: u32,
    pub length: u32,
    pub key_start: u32,
    pub inside: u32,
    pub items: u32,
    pub key_length: u8,
    pub kind: u8,
    pub place: u8,
    pub scale: u8,
}

#[repr(C)]
#[derive(Clone, Copy, Debug, Default)]
pub struct Fields {
    pub body_size: u64,
    pub nodes: u64,
    pub class_id: u16,
    pub method_id: u16,
    pub canonical: bool,
    pub tidy: bool,
    pub status: u8,
    pub unused: u8,
}

#[repr(C)]
#[derive(Clone, Copy, Debug, Default)]
pub struct Written {
    pub length: u64,
    pub head: u32,
    pub node: u32,
    pub status: u32,
    pub unused: u32,
}

impl Written {
    /// Which one of all nodes is refused; none where a head itself is, or a content as a whole.
    pub fn node(&self) -> Option<u32> {
        const NO_NODE: u32 = u32::MAX;
        (self.node != NO_NODE).then_some(self.node)
    }
}

/// How many bytes were put, or why none.
#[repr(C)]
#[derive(Clone, Copy, Debug, Default)]
pub struct Made {
    pub length: u64,
    pub status: u32,
    pub unused: u32,
}

impl Made {
    /// Nothing was put.
    pub fn refused(status: u32) -> Made {
        Made { status, ..Made::default() }
    }
}

/// Bytes of a caller.
#[repr(C)]
#[derive(Clone, Copy, Debug)]
pub struct Bytes {
    pub bytes: *const u8,
    pub length: usize,
}

/// The properties that `set` names; the others are not looked at.
#[repr(C)]
#[derive(Clone, Copy, Debug)]
pub struct BasicProperties {
    pub set: u16,
    pub delivery_mode: u8,
    pub priority: u8,
    pub unused: u32,
    pub timestamp: u64,
    pub content_type: MaybeUninit<Bytes>,
    pub content_encoding: MaybeUninit<Bytes>,
    pub headers: MaybeUninit<Bytes>,
    pub correlation_id: MaybeUninit<Bytes>,
    pub reply_to: MaybeUninit<Bytes>,
    pub expiration: MaybeUninit<Bytes>,
    pub message_id: MaybeUninit<Bytes>,
    pub kind: MaybeUninit<Bytes>,
    pub user_id: MaybeUninit<Bytes>,
    pub app_id: MaybeUninit<Bytes>,
    pub cluster_id: MaybeUninit<Bytes>,
}

#[repr(C)]
#[derive(Clone, Copy, Debug, Default)]
pub struct Progress {
    pub used: u64,
    pub written: u64,
    pub status: u32,
    pub unused: u32,
}

/// A mark of an entry of a table.
#[repr(C)]
#[derive(Clone, Copy, Debug, Default)]
pub struct Mark {
    numbers: [u64; 2],
}

#[repr(C)]
#[derive(Clone, Copy, Debug, Default)]
pub struct Line {
    pub used: u64,
    pub length: u64,
    pub status: u32,
    pub unused: u32,
}

/// What is kept of a channel between two of its frames.
#[repr(C)]
#[derive(Clone, Copy, Debug, Default, PartialEq, Eq)]
pub struct Channel {
    pub size: u64,
    pub seen: u64,
    pub state: u32,
    pub unused: u32,
}

/// What a frame is to its channel.
#[repr(C)]
#[derive(Clone, Copy, Debug, Default)]
pub struct Turn {
    pub after: Channel,
    pub before: u64,
    pub up_to: u64,
    pub size: u64,
    pub part: u8,
    pub finished: bool,
    pub fault: u8,
    pub status: u8,
    pub unused: u32,
}

#[repr(C)]
#[derive(Clone, Copy, Debug, Default, PartialEq, Eq, Hash)]
pub struct FrameRule {
    pub first_channel: u16,
    pub last_channel: u16,
    pub class_id: u16,
    pub method_id: u16,
    pub keep: u8,
    pub has_channels: u8,
    pub frame_type: u8,
    pub has_class: u8,
    pub has_method: u8,
    pub status: u8,
}

/// How a body is cut.
#[repr(C)]
#[derive(Clone, Copy, Debug, Default)]
pub struct Cut {
    pub pieces: u64,
    pub left: u32,
    pub status: u32,
}

/// The payload of a body frame: first these bytes of those held, then these of the new ones.
#[repr(C)]
#[derive(Clone, Copy, Debug, Default)]
pub struct Piece {
    pub held_start: u32,
    pub held_length: u32,
    pub start: u32,
    pub length: u32,
}

/// `feksroum_dump` or `feksroum_undump`.
pub type Convert = unsafe extern "C" fn(*const u8, usize, *mut u8, usize, u32) -> Line;

extern "C" {
    pub fn feksroum_next(bytes: *const u8, length: usize, max_payload: u32) -> Frame;
    pub fn feksroum_check(frame_type: u8, payload: *const u8, length: usize) -> Payload;
    pub fn feksroum_read(frame_type: u8, payload: *const u8, length: usize, detail: u8, nodes: *mut Node, room: usize) -> Fields;
    pub fn feksroum_open(kind: u8, content: *const u8, length: usize, nodes: *mut Node, room: usize) -> Fields;
    pub fn feksroum_put_content_header(
        channel: u16,
        body_size: u64,
        properties: *const BasicProperties,
        max_payload: u32,
        out: *mut u8,
        out_length: usize,
    ) -> Made;
    pub fn feksroum_put_body(channel: u16, body: *const u8, body_length: usize, max_payload: u32, out: *mut u8, out_length: usize) -> Made;
    pub fn feksroum_put_heartbeat(out: *mut u8, out_length: usize) -> Made;
    pub fn feksroum_put_protocol_header(major: u8, minor: u8, revision: u8, out: *mut u8, out_length: usize) -> Made;
    pub fn feksroum_write_content(
        kind: u8,
        nodes: *const Node,
        node_count: usize,
        pool: *const u8,
        pool_length: usize,
        out: *mut u8,
        out_length: usize,
    ) -> Written;
    pub fn feksroum_scratch(length: usize) -> usize;
    pub fn feksroum_canonicalize(
        bytes: *const u8,
        length: usize,
        out: *mut u8,
        out_length: usize,
        scratch: *mut Mark,
        scratch_length: usize,
        max_payload: u32,
        level: u8,
    ) -> Progress;
    pub fn feksroum_dump(bytes: *const u8, length: usize, out: *mut u8, out_length: usize, max_payload: u32) -> Line;
    pub fn feksroum_undump(text: *const u8, length: usize, out: *mut u8, out_length: usize, max_payload: u32) -> Line;
    pub fn feksroum_step(channel: Channel, frame_type: u8, class_id: u16, method_id: u16, size: u64, max_body: u64) -> Turn;
    pub fn feksroum_rule(word: *const u8, length: usize) -> FrameRule;
    pub fn feksroum_decide(rules: *const FrameRule, count: usize, frame_type: u8, channel: u16, class_id: u16, method_id: u16) -> u8;
    pub fn feksroum_recut(size: u32, held: u32, length: u32, ends: u8) -> Cut;
    pub fn feksroum_piece_at(size: u32, held: u32, length: u32, ends: u8, k: u64) -> Piece;
    pub fn feksroum_body_head(channel: u16, length: u32, out: *mut u8, out_length: usize) -> usize;
    pub fn feksroum_max_payload(frame_max: u32) -> u32;
    pub fn feksroum_version() -> u32;
    #[cfg(test)]
    pub fn feksroum_name(status: u8, out: *mut u8, out_length: usize) -> usize;
}

/// Layouts are those of the header, on 32 bits too.
const _: () = {
    assert!(std::mem::size_of::<Frame>() == 32);
    assert!(std::mem::size_of::<Payload>() == 16);
    assert!(std::mem::size_of::<Node>() == 32);
    assert!(std::mem::size_of::<Fields>() == 24);
    assert!(std::mem::size_of::<Made>() == 16);
    assert!(std::mem::size_of::<Written>() == 24);
    assert!(std::mem::size_of::<Progress>() == 24);
    assert!(std::mem::size_of::<Mark>() == 16);
    assert!(std::mem::size_of::<Line>() == 24);
    assert!(std::mem::size_of::<Channel>() == 24);
    assert!(std::mem::size_of::<Turn>() == 56);
    assert!(std::mem::size_of::<FrameRule>() == 14);
    assert!(std::mem::size_of::<Cut>() == 16);
    assert!(std::mem::size_of::<Piece>() == 16);
};
