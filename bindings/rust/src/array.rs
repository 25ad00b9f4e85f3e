//! Arrays: values in a row.

use crate::encode::EncodeError;
use crate::error::Error;
use crate::items::Items;
use crate::value::Value;
use crate::walk::{self, Walk};
use std::fmt;
use std::iter::FusedIterator;

/// An array, borrowed: what fills it on the wire. Its values are read as they are gone over, which takes no memory.
///
/// ```
/// use feksroum::{ArrayBuf, Value};
///
/// let array = ArrayBuf::from_values(["one", "two"])?;
/// assert_eq!(array.as_array().iter().filter_map(Value::as_str).collect::<Vec<_>>(), ["one", "two"]);
/// # Ok::<(), feksroum::EncodeError>(())
/// ```
#[derive(Clone, Copy, Default)]
pub struct Array<'a> {
    content: &'a [u8],
}

impl<'a> Array<'a> {
    /// The array without values.
    #[must_use]
    pub fn new() -> Array<'a> {
        Array::default()
    }

    /// The array that these bytes fill, without its length.
    ///
    /// # Errors
    ///
    /// Why they fill none, as [`Table::from_content`](crate::Table::from_content) has it.
    pub fn from_content(content: &'a [u8]) -> Result<Array<'a>, Error> {
        walk::accept(b'A', content)?;
        Ok(Array::accepted(content))
    }

    /// The array that these bytes fill, which the library has accepted.
    pub(crate) fn accepted(content: &'a [u8]) -> Array<'a> {
        Array { content }
    }

    /// What fills the array on the wire.
    #[must_use]
    pub fn content(self) -> &'a [u8] {
        self.content
    }

    /// Whether the array has no values.
    #[must_use]
    pub fn is_empty(self) -> bool {
        self.content.is_empty()
    }

    /// The values.
    #[must_use]
    pub fn iter(self) -> Values<'a> {
        Values { walk: Walk::new(self.content) }
    }

    /// The array with bytes of its own.
    #[must_use]
    pub fn into_owned(self) -> ArrayBuf {
        ArrayBuf { content: self.content.into() }
    }
}

impl fmt::Debug for Array<'_> {
    fn fmt(&self, f: &mut fmt::Formatter<'_>) -> fmt::Result {
        f.debug_list().entries(self.iter()).finish()
    }
}

impl PartialEq for Array<'_> {
    fn eq(&self, other: &Self) -> bool {
        self.content == other.content || self.iter().eq(other.iter())
    }
}

impl Eq for Array<'_> {}

impl<'a> IntoIterator for Array<'a> {
    type Item = Value<'a>;
    type IntoIter = Values<'a>;

    fn into_iter(self) -> Values<'a> {
        self.iter()
    }
}

impl<'a> From<&'a ArrayBuf> for Array<'a> {
    fn from(array: &'a ArrayBuf) -> Array<'a> {
        array.as_array()
    }
}

/// The values of an array.
#[derive(Clone, Debug)]
pub struct Values<'a> {
    walk: Walk<'a>,
}

impl<'a> Iterator for Values<'a> {
    type Item = Value<'a>;

    fn next(&mut self) -> Option<Value<'a>> {
        self.walk.value()
    }
}

impl FusedIterator for Values<'_> {}

/// An array that owns its memory, and is looked at as an [`Array`].
#[derive(Clone, Default)]
pub struct ArrayBuf {
    content: Vec<u8>,
}

impl ArrayBuf {
    /// The array without values.
    #[must_use]
    pub fn new() -> ArrayBuf {
        ArrayBuf::default()
    }

    /// The array of these values.
    ///
    /// # Errors
    ///
    /// [`EncodeError::TooDeep`] where tables or arrays are nested more than 64 deep, the new one counted,
    /// [`EncodeError::TooLarge`] where it would have 2^32 bytes or more.
    pub fn from_values<'v, V>(values: impl IntoIterator<Item = V>) -> Result<ArrayBuf, EncodeError>
    where
        V: Into<Value<'v>>,
    {
        let mut items = Items::default();
        for value in values {
            items.value(value.into())?;
        }
        Ok(ArrayBuf { content: items.write(b'A')? })
    }

    /// The array, borrowed.
    #[must_use]
    pub fn as_array(&self) -> Array<'_> {
        Array::accepted(&self.content)
    }
}

impl PartialEq for ArrayBuf {
    fn eq(&self, other: &Self) -> bool {
        self.as_array() == other.as_array()
    }
}

impl Eq for ArrayBuf {}

impl fmt::Debug for ArrayBuf {
    fn fmt(&self, f: &mut fmt::Formatter<'_>) -> fmt::Result {
        self.as_array().fmt(f)
    }
}
