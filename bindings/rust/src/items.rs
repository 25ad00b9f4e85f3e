//! What tables and arrays are made of: nodes, and a pool in which their spans lie.

use crate::encode::EncodeError;
use crate::library;
use crate::sys::Node;
use crate::value::Value;

/// The status of a call whose buffer was too short.
const BUFFER_TOO_SMALL: u32 = 40;

/// The status of a call that was to write more than a length counts.
const TOO_LONG: u32 = 42;

/// The strings and contents, one after another.
#[derive(Debug, Default)]
struct Pool {
    bytes: Vec<u8>,
}

impl Pool {
    /// Puts bytes into the pool, and returns a node with their span.
    fn span(&mut self, bytes: &[u8]) -> Result<Node, EncodeError> {
        let start = u32::try_from(self.bytes.len()).map_err(|_| EncodeError::TooLarge)?;
        let length = u32::try_from(bytes.len()).map_err(|_| EncodeError::TooLarge)?;
        self.bytes.try_reserve(bytes.len()).map_err(|_| EncodeError::NoMemory)?;
        self.bytes.extend_from_slice(bytes);
        Ok(Node { start, length, ..Node::default() })
    }

    /// The node of a value, without a key.
    fn value(&mut self, value: Value<'_>) -> Result<Node, EncodeError> {
        let node = match value {
            Value::Boolean(truth) => number(truth),
            Value::ShortShortInt(number) => signed(number),
            Value::ShortShortUint(unsigned) => number(unsigned),
            Value::ShortInt(number) => signed(number),
            Value::ShortUint(unsigned) => number(unsigned),
            Value::LongInt(number) => signed(number),
            Value::LongUint(unsigned) => number(unsigned),
            Value::LongLongInt(number) => signed(number),
            Value::Float(fraction) => number(fraction.to_bits()),
            Value::Double(fraction) => number(fraction.to_bits()),
            Value::Decimal(decimal) => Node { scale: decimal.scale, ..number(decimal.value) },
            Value::LongString(bytes) | Value::ByteArray(bytes) => self.span(bytes)?,
            Value::Array(array) => self.span(array.content())?,
            Value::Timestamp(seconds) => number(seconds),
            Value::Table(table) => self.span(table.content())?,
            Value::Void => Node::default(),
        };
        Ok(Node { kind: value.tag(), ..node })
    }
}

/// A node with a number.
fn number(number: impl Into<u64>) -> Node {
    Node { number: number.into(), ..Node::default() }
}

/// A node with a signed number, in two's complement.
fn signed(number: impl Into<i64>) -> Node {
    Node { number: u64::from_ne_bytes(number.into().to_ne_bytes()), ..Node::default() }
}

/// The entries of a table, or the values of an array, that are to be written.
#[derive(Debug, Default)]
pub struct Items {
    nodes: Vec<Node>,
    pool: Pool,
}

impl Items {
    pub fn entry(&mut self, key: &str, value: Value<'_>) -> Result<(), EncodeError> {
        let key_length = u8::try_from(key.len()).map_err(|_| EncodeError::TooLong { field: "key" })?;
        let key_start = self.pool.span(key.as_bytes())?.start;
        let node = self.pool.value(value)?;
        self.put(Node { key_start, key_length, ..node })
    }

    pub fn value(&mut self, value: Value<'_>) -> Result<(), EncodeError> {
        let node = self.pool.value(value)?;
        self.put(node)
    }

    fn put(&mut self, node: Node) -> Result<(), EncodeError> {
        self.nodes.try_reserve(1).map_err(|_| EncodeError::NoMemory)?;
        self.nodes.push(node);
        Ok(())
    }

    /// What fills the table (`F`) or the array (`A`).
    pub fn write(&self, kind: u8) -> Result<Vec<u8>, EncodeError> {
        let mut content = Vec::new();
        let mut room = self.pool.bytes.len().saturating_add(self.nodes.len().saturating_mul(10));
        loop {
            content.try_reserve_exact(room).map_err(|_| EncodeError::NoMemory)?;
            content.resize(room, 0);
            let written = library::write_content(kind, &self.nodes, &self.pool.bytes, &mut content);
            let length = usize::try_from(written.length).map_err(|_| EncodeError::TooLarge)?;
            match written.status {
                0 if length <= room => {
                    content.truncate(length);
                    return Ok(content);
                }
                BUFFER_TOO_SMALL if length > room => room = length,
                TOO_LONG if written.node().is_none() => return Err(EncodeError::TooLarge),
                status => return Err(EncodeError::of_status(status, None)),
            }
        }
    }
}

#[cfg(test)]
mod tests {
    use super::*;

    /// Values of 2^20 bytes each, with their tags and lengths: long strings that all lie in one pool.
    fn mebibytes(count: usize) -> Items {
        let node = Node { kind: b'S', length: (1 << 20) - 5, ..Node::default() };
        Items { nodes: vec![node; count], pool: Pool { bytes: vec![b'a'; 1 << 20] } }
    }

    #[test]
    fn more_than_a_length_counts_is_too_large() {
        assert_eq!(mebibytes(4096).write(b'A'), Err(EncodeError::TooLarge));
    }
}
