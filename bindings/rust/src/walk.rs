//! A step over what fills a table or an array: a key, a tag and a value.
//!
//! The library has no call that goes on from entry to entry: `feksroum_open` gives a list of all, for which memory would have
//! to be taken. So a [`Table`](crate::Table) keeps bytes that the library has accepted, and this goes over them again, each
//! step in constant time. It ends at bytes that it cannot read, and it meets none in what was accepted: the tests compare each
//! step with the nodes of `feksroum_open`.

use crate::array::Array;
use crate::error::Error;
use crate::library;
use crate::table::Table;
use crate::value::{Decimal, Value};

/// Takes what fills a table (`F`) or an array (`A`).
pub fn accept(kind: u8, content: &[u8]) -> Result<(), Error> {
    /// Said after all faults of the content: there is no list for its nodes.
    const LIST_TOO_SHORT: u8 = 40;
    match library::open(kind, content, &mut []).status {
        LIST_TOO_SHORT => Ok(()),
        status => Error::of_status(status),
    }
}

/// The bytes that are left.
#[derive(Clone, Copy, Debug, Default)]
pub struct Walk<'a> {
    rest: &'a [u8],
}

impl<'a> Walk<'a> {
    pub fn new(content: &'a [u8]) -> Walk<'a> {
        Walk { rest: content }
    }

    /// The bytes that are left.
    pub fn rest(&self) -> &'a [u8] {
        self.rest
    }

    /// The next entry of a table.
    pub fn entry(&mut self) -> Option<(&'a str, Value<'a>)> {
        let [length] = self.take()?;
        let key = std::str::from_utf8(self.bytes(length.into())?).ok()?;
        Some((key, self.value()?))
    }

    /// The next value of an array, or that of an entry after its key.
    pub fn value(&mut self) -> Option<Value<'a>> {
        let [tag] = self.take()?;
        Some(match tag {
            b't' => Value::Boolean(self.take()? != [0]),
            b'b' => Value::ShortShortInt(i8::from_be_bytes(self.take()?)),
            b'B' => Value::ShortShortUint(u8::from_be_bytes(self.take()?)),
            b's' | b'U' => Value::ShortInt(i16::from_be_bytes(self.take()?)),
            b'u' => Value::ShortUint(u16::from_be_bytes(self.take()?)),
            b'I' => Value::LongInt(i32::from_be_bytes(self.take()?)),
            b'i' => Value::LongUint(u32::from_be_bytes(self.take()?)),
            b'l' | b'L' => Value::LongLongInt(i64::from_be_bytes(self.take()?)),
            b'f' => Value::Float(f32::from_be_bytes(self.take()?)),
            b'd' => Value::Double(f64::from_be_bytes(self.take()?)),
            b'D' => self.decimal()?,
            b'S' => Value::LongString(self.long_string()?),
            b'A' => Value::Array(Array::accepted(self.long_string()?)),
            b'T' => Value::Timestamp(u64::from_be_bytes(self.take()?)),
            b'F' => Value::Table(Table::accepted(self.long_string()?)),
            b'x' => Value::ByteArray(self.long_string()?),
            b'V' => Value::Void,
            _ => return None,
        })
    }

    fn decimal(&mut self) -> Option<Value<'a>> {
        let [scale] = self.take()?;
        Some(Value::Decimal(Decimal { scale, value: u32::from_be_bytes(self.take()?) }))
    }

    fn long_string(&mut self) -> Option<&'a [u8]> {
        let length = u32::from_be_bytes(self.take()?);
        self.bytes(usize::try_from(length).ok()?)
    }

    fn bytes(&mut self, length: usize) -> Option<&'a [u8]> {
        let bytes = self.rest.get(..length)?;
        self.rest = self.rest.get(length..)?;
        Some(bytes)
    }

    fn take<const N: usize>(&mut self) -> Option<[u8; N]> {
        self.bytes(N)?.try_into().ok()
    }
}

#[cfg(test)]
mod tests {
    use super::*;

    /// Bytes by a linear congruential generator, of those that mean something.
    fn bytes(state: &mut u32) -> Vec<u8> {
        const SOME: &[u8] = b"tbBsuIilfdDSATFxVUL\0\0\0\0\x01\x02\x05\xff";
        let mut next = || {
            *state = state.wrapping_mul(1_664_525).wrapping_add(1_013_904_223);
            SOME[(*state >> 24) as usize % SOME.len()]
        };
        (0..40).map(|_| next()).collect()
    }

    #[test]
    fn any_bytes_come_to_an_end() {
        let mut state = 1;
        let mut done = 0;
        for _ in 0..20_000 {
            let bytes = bytes(&mut state);
            let mut walk = Walk::new(&bytes);
            let entries = std::iter::from_fn(|| walk.entry()).count();
            let mut walk = Walk::new(&bytes);
            let values = std::iter::from_fn(|| walk.value()).count();
            assert!(entries <= bytes.len() / 2 && values <= bytes.len());
            done += entries + values;
        }
        assert!(done > 20_000, "{done}");
    }

    #[test]
    fn what_is_accepted_is_gone_over_to_its_end() {
        let mut state = 7;
        let mut done = 0;
        for _ in 0..100_000 {
            let bytes = bytes(&mut state);
            for length in [6, 12, 20] {
                let content = &bytes[..length];
                let mut walk = Walk::new(content);
                let end = std::iter::from_fn(|| walk.entry()).last();
                if accept(b'F', content).is_ok() {
                    assert!(end.is_some() && walk.rest.is_empty(), "{content:?}");
                    done += 1;
                }
            }
        }
        assert!(done > 1000, "{done}");
    }
}
