//! The nodes of what fills a table or an array, as the library gives them.

use feksroum::Value;
use std::ops::Range;

#[repr(C)]
#[derive(Clone, Copy, Debug, Default)]
pub struct Node {
    number: u64,
    start: u32,
    length: u32,
    key_start: u32,
    pub inside: u32,
    pub items: u32,
    key_length: u8,
    kind: u8,
    place: u8,
    scale: u8,
}

#[repr(C)]
struct Fields {
    body_size: u64,
    nodes: u64,
    ids: [u16; 2],
    truths: [bool; 2],
    status: u8,
    unused: u8,
}

extern "C" {
    fn feksroum_open(kind: u8, content: *const u8, length: usize, nodes: *mut Node, room: usize) -> Fields;
}

/// What the library reads, at most as many nodes as bytes.
pub fn open(kind: u8, content: &[u8]) -> Vec<Node> {
    let mut nodes = vec![Node::default(); content.len()];
    // SAFETY: pointers and lengths are those of the slices.
    let found = unsafe { feksroum_open(kind, content.as_ptr(), content.len(), nodes.as_mut_ptr(), nodes.len()) };
    assert_eq!(found.status, 0);
    nodes.truncate(found.nodes as usize);
    nodes
}

/// Where a part of some bytes lies in them.
fn place(part: &[u8], whole: &[u8]) -> Range<u32> {
    let start = part.as_ptr() as usize - whole.as_ptr() as usize;
    start as u32..(start + part.len()) as u32
}

/// Whether an entry, or a value without a key, is what its node says.
pub fn is_said(node: &Node, key: Option<&str>, value: Value<'_>, content: &[u8]) {
    if let Some(key) = key {
        assert_eq!(place(key.as_bytes(), content), node.key_start..node.key_start + u32::from(node.key_length));
    }
    let (number, bytes) = match value {
        Value::Boolean(truth) => (truth.into(), None),
        Value::ShortShortUint(number) => (number.into(), None),
        Value::ShortUint(number) => (number.into(), None),
        Value::LongUint(number) => (number.into(), None),
        Value::ShortShortInt(_) | Value::ShortInt(_) | Value::LongInt(_) | Value::LongLongInt(_) => (value.as_i64().unwrap() as u64, None),
        Value::Float(fraction) => (fraction.to_bits().into(), None),
        Value::Double(fraction) => (fraction.to_bits(), None),
        Value::Decimal(decimal) => (decimal.value.into(), None),
        Value::Timestamp(seconds) => (seconds, None),
        Value::LongString(bytes) | Value::ByteArray(bytes) => (0, Some(bytes)),
        Value::Array(array) => (0, Some(array.content())),
        Value::Table(table) => (0, Some(table.content())),
        Value::Void => (0, None),
    };
    assert_eq!((node.kind, node.number, node.place), (value.tag(), number, 0));
    assert_eq!(node.scale, if let Value::Decimal(decimal) = value { decimal.scale } else { 0 });
    match bytes {
        Some(bytes) => assert_eq!(place(bytes, content), node.start..node.start + node.length),
        None => assert_eq!((node.start, node.length, node.inside), (0, 0, 0)),
    }
}
