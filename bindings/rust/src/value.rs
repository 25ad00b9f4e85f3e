//! Values of tables and arrays.

use crate::array::{Array, ArrayBuf};
use crate::table::{Table, TableBuf};

/// A value in a table or an array, of one of seventeen kinds.
///
/// Brokers and clients pick the kind of a number by its size, so two peers may send the same number as two kinds:
/// [`as_i64`](Value::as_i64) reads it out of each.
///
/// ```
/// use feksroum::Value;
///
/// assert_eq!(Value::from("orders"), Value::LongString(b"orders"));
/// assert_eq!(Value::ShortShortUint(7).as_i64(), Value::LongLongInt(7).as_i64());
/// assert_ne!(Value::ShortShortUint(7), Value::LongLongInt(7));
/// ```
///
/// Fractions are equal where their bits are, so that what is written and read again is equal to what it was.
#[derive(Clone, Copy, Debug)]
pub enum Value<'a> {
    /// A truth value, tag `t`. Any byte but 0 is true.
    Boolean(bool),
    /// A signed number of one byte, tag `b`.
    ShortShortInt(i8),
    /// An unsigned number of one byte, tag `B`.
    ShortShortUint(u8),
    /// A signed number of two bytes, tag `s`; `U` is read as the same.
    ShortInt(i16),
    /// An unsigned number of two bytes, tag `u`.
    ShortUint(u16),
    /// A signed number of four bytes, tag `I`.
    LongInt(i32),
    /// An unsigned number of four bytes, tag `i`.
    LongUint(u32),
    /// A signed number of eight bytes, tag `l`; `L` is read as the same.
    LongLongInt(i64),
    /// A fraction of four bytes, tag `f`.
    Float(f32),
    /// A fraction of eight bytes, tag `d`.
    Double(f64),
    /// A decimal number, tag `D`.
    Decimal(Decimal),
    /// A string of any bytes, mostly text, tag `S`.
    LongString(&'a [u8]),
    /// An array, tag `A`.
    Array(Array<'a>),
    /// Seconds since 1970 began in UTC, tag `T`.
    Timestamp(u64),
    /// A table, tag `F`.
    Table(Table<'a>),
    /// Bytes, tag `x`.
    ByteArray(&'a [u8]),
    /// Nothing, tag `V`.
    Void,
}

/// A decimal number: `value` with its point `scale` digits from the right. Both are unsigned.
#[derive(Clone, Copy, Debug, Default, PartialEq, Eq, Hash)]
pub struct Decimal {
    /// How many digits are behind the point.
    pub scale: u8,
    /// The digits.
    pub value: u32,
}

impl<'a> Value<'a> {
    /// The number, of whichever integer kind.
    #[must_use]
    pub fn as_i64(self) -> Option<i64> {
        match self {
            Value::ShortShortInt(number) => Some(number.into()),
            Value::ShortShortUint(number) => Some(number.into()),
            Value::ShortInt(number) => Some(number.into()),
            Value::ShortUint(number) => Some(number.into()),
            Value::LongInt(number) => Some(number.into()),
            Value::LongUint(number) => Some(number.into()),
            Value::LongLongInt(number) => Some(number),
            _ => None,
        }
    }

    /// The text of a long string that is UTF-8.
    ///
    /// ```
    /// use feksroum::Value;
    ///
    /// assert_eq!(Value::LongString(b"quorum").as_str(), Some("quorum"));
    /// assert_eq!(Value::LongString(b"\xff").as_str(), None);
    /// ```
    #[must_use]
    pub fn as_str(self) -> Option<&'a str> {
        match self {
            Value::LongString(bytes) => std::str::from_utf8(bytes).ok(),
            _ => None,
        }
    }

    /// The truth value, of a boolean.
    #[must_use]
    pub fn as_bool(self) -> Option<bool> {
        match self {
            Value::Boolean(truth) => Some(truth),
            _ => None,
        }
    }

    /// The bytes of a long string or a byte array.
    #[must_use]
    pub fn as_bytes(self) -> Option<&'a [u8]> {
        match self {
            Value::LongString(bytes) | Value::ByteArray(bytes) => Some(bytes),
            _ => None,
        }
    }

    /// The fraction, of either size.
    #[must_use]
    pub fn as_f64(self) -> Option<f64> {
        match self {
            Value::Float(fraction) => Some(fraction.into()),
            Value::Double(fraction) => Some(fraction),
            _ => None,
        }
    }

    /// The seconds since 1970 began in UTC, of a timestamp.
    ///
    /// ```
    /// use feksroum::Value;
    ///
    /// assert_eq!(Value::Timestamp(1_700_000_000).as_timestamp(), Some(1_700_000_000));
    /// assert_eq!(Value::LongLongInt(1_700_000_000).as_timestamp(), None);
    /// ```
    #[must_use]
    pub fn as_timestamp(self) -> Option<u64> {
        match self {
            Value::Timestamp(seconds) => Some(seconds),
            _ => None,
        }
    }

    /// The table, of one.
    #[must_use]
    pub fn as_table(self) -> Option<Table<'a>> {
        match self {
            Value::Table(table) => Some(table),
            _ => None,
        }
    }

    /// The array, of one.
    #[must_use]
    pub fn as_array(self) -> Option<Array<'a>> {
        match self {
            Value::Array(array) => Some(array),
            _ => None,
        }
    }

    /// The byte that stands before the value.
    ///
    /// ```
    /// assert_eq!(feksroum::Value::Void.tag(), b'V');
    /// ```
    #[must_use]
    pub fn tag(self) -> u8 {
        match self {
            Value::Boolean(_) => b't',
            Value::ShortShortInt(_) => b'b',
            Value::ShortShortUint(_) => b'B',
            Value::ShortInt(_) => b's',
            Value::ShortUint(_) => b'u',
            Value::LongInt(_) => b'I',
            Value::LongUint(_) => b'i',
            Value::LongLongInt(_) => b'l',
            Value::Float(_) => b'f',
            Value::Double(_) => b'd',
            Value::Decimal(_) => b'D',
            Value::LongString(_) => b'S',
            Value::Array(_) => b'A',
            Value::Timestamp(_) => b'T',
            Value::Table(_) => b'F',
            Value::ByteArray(_) => b'x',
            Value::Void => b'V',
        }
    }
}

impl PartialEq for Value<'_> {
    fn eq(&self, other: &Self) -> bool {
        match (*self, *other) {
            (Value::Boolean(one), Value::Boolean(two)) => one == two,
            (Value::ShortShortInt(one), Value::ShortShortInt(two)) => one == two,
            (Value::ShortShortUint(one), Value::ShortShortUint(two)) => one == two,
            (Value::ShortInt(one), Value::ShortInt(two)) => one == two,
            (Value::ShortUint(one), Value::ShortUint(two)) => one == two,
            (Value::LongInt(one), Value::LongInt(two)) => one == two,
            (Value::LongUint(one), Value::LongUint(two)) => one == two,
            (Value::LongLongInt(one), Value::LongLongInt(two)) => one == two,
            (Value::Float(one), Value::Float(two)) => one.to_bits() == two.to_bits(),
            (Value::Double(one), Value::Double(two)) => one.to_bits() == two.to_bits(),
            (Value::Decimal(one), Value::Decimal(two)) => one == two,
            (Value::Array(one), Value::Array(two)) => one == two,
            (Value::Timestamp(one), Value::Timestamp(two)) => one == two,
            (Value::Table(one), Value::Table(two)) => one == two,
            (Value::LongString(one), Value::LongString(two)) | (Value::ByteArray(one), Value::ByteArray(two)) => one == two,
            (Value::Void, Value::Void) => true,
            _ => false,
        }
    }
}

impl Eq for Value<'_> {}

/// Conversions of what has one kind alone.
macro_rules! from {
    ($($from:ty => $kind:ident;)*) => {
        $(
            impl<'a> From<$from> for Value<'a> {
                fn from(value: $from) -> Value<'a> {
                    Value::$kind(value.into())
                }
            }
        )*
    };
}

from! {
    bool => Boolean;
    i8 => ShortShortInt;
    u8 => ShortShortUint;
    i16 => ShortInt;
    u16 => ShortUint;
    i32 => LongInt;
    u32 => LongUint;
    i64 => LongLongInt;
    f32 => Float;
    f64 => Double;
    Decimal => Decimal;
    Array<'a> => Array;
    Table<'a> => Table;
    &'a ArrayBuf => Array;
    &'a TableBuf => Table;
}

impl<'a> From<&'a str> for Value<'a> {
    /// A long string.
    fn from(text: &'a str) -> Value<'a> {
        Value::LongString(text.as_bytes())
    }
}

impl<'a> From<&'a String> for Value<'a> {
    /// A long string.
    fn from(text: &'a String) -> Value<'a> {
        Value::LongString(text.as_bytes())
    }
}
