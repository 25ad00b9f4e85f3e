//! Tables: keys with values.

use crate::encode::EncodeError;
use crate::error::Error;
use crate::items::Items;
use crate::settle;
use crate::value::Value;
use crate::walk::{self, Walk};
use std::borrow::Cow;
use std::collections::BTreeMap;
use std::fmt;
use std::iter::FusedIterator;

/// A table, borrowed: what fills it on the wire.
///
/// Its entries are read as they are gone over, which takes no memory. A peer may send a key more than once, and then the last
/// entry counts; [`iter`](Table::iter) gives all of them, [`get`](Table::get) and [`to_map`](Table::to_map) those that count.
/// Two tables are equal where these are.
///
/// ```
/// use feksroum::{TableBuf, Value};
///
/// let table = TableBuf::from_entries([("x-queue-type", Value::from("quorum")), ("x-max-length", 1000.into())])?;
/// let table = table.as_table();
/// assert_eq!(table.get("x-max-length"), Some(Value::LongInt(1000)));
/// assert_eq!(table.iter().map(|(key, _)| key).collect::<Vec<_>>(), ["x-max-length", "x-queue-type"]);
/// # Ok::<(), feksroum::EncodeError>(())
/// ```
#[derive(Clone, Copy, Default)]
pub struct Table<'a> {
    content: &'a [u8],
}

impl<'a> Table<'a> {
    /// The table without entries.
    #[must_use]
    pub fn new() -> Table<'a> {
        Table::default()
    }

    /// The table that these bytes fill, without its length. The response of a login by `AMQPLAIN` is such a table.
    ///
    /// ```
    /// use feksroum::{Table, Value};
    ///
    /// let table = Table::from_content(b"\x05LOGINS\0\0\0\x05guest\x08PASSWORDS\0\0\0\x05guest")?;
    /// assert_eq!(table.get("LOGIN"), Some(Value::from("guest")));
    /// # Ok::<(), feksroum::Error>(())
    /// ```
    ///
    /// # Errors
    ///
    /// Why they fill none: [`ShortPayload`](Error::ShortPayload), [`NotUtf8`](Error::NotUtf8),
    /// [`UnknownTag`](Error::UnknownTag), [`TooDeep`](Error::TooDeep), or [`TooLarge`](Error::TooLarge) for 2^32 bytes or more.
    pub fn from_content(content: &'a [u8]) -> Result<Table<'a>, Error> {
        walk::accept(b'F', content)?;
        Ok(Table::accepted(content))
    }

    /// The table that these bytes fill, which the library has accepted.
    pub(crate) fn accepted(content: &'a [u8]) -> Table<'a> {
        Table { content }
    }

    /// What fills the table on the wire.
    #[must_use]
    pub fn content(self) -> &'a [u8] {
        self.content
    }

    /// What fills it, as it is handed to the library to be written.
    #[inline]
    pub(crate) fn settled(self) -> Result<Cow<'a, [u8]>, Error> {
        settle::settled(self)
    }

    /// Whether the table has no entries.
    #[must_use]
    pub fn is_empty(self) -> bool {
        self.content.is_empty()
    }

    /// The entries as they were sent, duplicate keys too.
    #[must_use]
    pub fn iter(self) -> Entries<'a> {
        Entries { walk: Walk::new(self.content) }
    }

    /// The value of a key: of duplicate keys the last.
    #[must_use]
    pub fn get(self, key: &str) -> Option<Value<'a>> {
        self.iter().filter(|(other, _)| *other == key).last().map(|(_, value)| value)
    }

    /// The entries that count, by their keys.
    #[must_use]
    pub fn to_map(self) -> BTreeMap<&'a str, Value<'a>> {
        self.iter().collect()
    }

    /// The table with bytes of its own.
    #[must_use]
    pub fn into_owned(self) -> TableBuf {
        TableBuf { content: self.content.into() }
    }
}

impl fmt::Debug for Table<'_> {
    fn fmt(&self, f: &mut fmt::Formatter<'_>) -> fmt::Result {
        f.debug_map().entries(self.iter()).finish()
    }
}

impl PartialEq for Table<'_> {
    fn eq(&self, other: &Self) -> bool {
        self.content == other.content || self.to_map() == other.to_map()
    }
}

impl Eq for Table<'_> {}

impl<'a> IntoIterator for Table<'a> {
    type Item = (&'a str, Value<'a>);
    type IntoIter = Entries<'a>;

    fn into_iter(self) -> Entries<'a> {
        self.iter()
    }
}

impl<'a> From<Table<'a>> for BTreeMap<&'a str, Value<'a>> {
    fn from(table: Table<'a>) -> Self {
        table.to_map()
    }
}

impl<'a> From<&'a TableBuf> for Table<'a> {
    fn from(table: &'a TableBuf) -> Table<'a> {
        table.as_table()
    }
}

/// The entries of a table, as they were sent.
#[derive(Clone, Debug)]
pub struct Entries<'a> {
    walk: Walk<'a>,
}

impl<'a> Iterator for Entries<'a> {
    type Item = (&'a str, Value<'a>);

    fn next(&mut self) -> Option<Self::Item> {
        self.walk.entry()
    }
}

impl FusedIterator for Entries<'_> {}

/// A table that owns its memory, and is looked at as a [`Table`].
#[derive(Clone, Default)]
pub struct TableBuf {
    content: Vec<u8>,
}

impl TableBuf {
    /// The table without entries.
    #[must_use]
    pub fn new() -> TableBuf {
        TableBuf::default()
    }

    /// The table of these entries: of duplicate keys the last one counts, and they are kept in ascending order of their keys,
    /// as they are written.
    ///
    /// ```
    /// use feksroum::{TableBuf, Value};
    /// use std::collections::BTreeMap;
    ///
    /// let ticks = TableBuf::from_entries([("attempt", 1), ("priority", 5)])?;
    /// let headers = TableBuf::from_entries(BTreeMap::from([("ticks", Value::from(&ticks)), ("who", "me".into())]))?;
    /// assert_eq!(headers.as_table().get("ticks"), Some(ticks.as_table().into()));
    /// # Ok::<(), feksroum::EncodeError>(())
    /// ```
    ///
    /// # Errors
    ///
    /// [`EncodeError::TooLong`] of a key of more than 255 bytes, [`EncodeError::TooDeep`] where tables or arrays are nested
    /// more than 64 deep, the new one counted, [`EncodeError::TooLarge`] where it would have 2^32 bytes or more.
    pub fn from_entries<'k, 'v, V>(entries: impl IntoIterator<Item = (&'k str, V)>) -> Result<TableBuf, EncodeError>
    where
        V: Into<Value<'v>>,
    {
        let sorted: BTreeMap<&str, V> = entries.into_iter().collect();
        let mut items = Items::default();
        for (key, value) in sorted {
            items.entry(key, value.into())?;
        }
        Ok(TableBuf { content: items.write(b'F')? })
    }

    /// The table, borrowed.
    #[must_use]
    pub fn as_table(&self) -> Table<'_> {
        Table::accepted(&self.content)
    }

    /// Sets the value of a key, in place of each that it has. It takes time that is linear in the table.
    ///
    /// ```
    /// use feksroum::TableBuf;
    ///
    /// let mut headers = TableBuf::new();
    /// headers.insert("who", "me")?;
    /// headers.insert("attempt", 1)?;
    /// headers.insert("attempt", 2)?;
    /// assert_eq!(headers.get("attempt").and_then(|value| value.as_i64()), Some(2));
    /// assert_eq!(headers.iter().map(|(key, _)| key).collect::<Vec<_>>(), ["attempt", "who"]);
    /// # Ok::<(), feksroum::EncodeError>(())
    /// ```
    ///
    /// # Errors
    ///
    /// As [`from_entries`](TableBuf::from_entries); the table is as it was then.
    pub fn insert<'v>(&mut self, key: &str, value: impl Into<Value<'v>>) -> Result<(), EncodeError> {
        let mut items = Items::default();
        items.entry(key, value.into())?;
        let entry = items.write(b'F')?;
        let (before, after) = self.without(key);
        let length = before.len() + entry.len() + after.len();
        u32::try_from(length).map_err(|_| EncodeError::TooLarge)?;
        let mut content = Vec::new();
        content.try_reserve_exact(length).map_err(|_| EncodeError::NoMemory)?;
        for part in [before, entry, after] {
            content.extend(part);
        }
        self.content = content;
        Ok(())
    }

    /// Takes a key out, and says whether it was there.
    pub fn remove(&mut self, key: &str) -> bool {
        let (mut content, after) = self.without(key);
        content.extend_from_slice(&after);
        let was_there = content.len() < self.content.len();
        self.content = content;
        was_there
    }

    /// The entries of other keys that stand before the first greater key, and those from it on.
    fn without(&self, key: &str) -> (Vec<u8>, Vec<u8>) {
        let (mut before, mut after) = (Vec::new(), Vec::new());
        let mut walk = Walk::new(&self.content);
        loop {
            let from = walk.rest();
            let Some((other, _)) = walk.entry() else {
                return (before, after);
            };
            let entry = from.get(..from.len() - walk.rest().len()).unwrap_or_default();
            if other > key || !after.is_empty() && other != key {
                after.extend_from_slice(entry);
            } else if other < key {
                before.extend_from_slice(entry);
            }
        }
    }

    /// The value of a key: of duplicate keys the last.
    #[must_use]
    pub fn get(&self, key: &str) -> Option<Value<'_>> {
        self.as_table().get(key)
    }

    /// The entries: in ascending order of their keys, or as they were sent, where the table was read.
    #[must_use]
    pub fn iter(&self) -> Entries<'_> {
        self.as_table().iter()
    }

    /// Whether the table has no entries.
    #[must_use]
    pub fn is_empty(&self) -> bool {
        self.content.is_empty()
    }
}

impl<'a> IntoIterator for &'a TableBuf {
    type Item = (&'a str, Value<'a>);
    type IntoIter = Entries<'a>;

    fn into_iter(self) -> Entries<'a> {
        self.iter()
    }
}

impl<'k, 'v, V: Into<Value<'v>>> FromIterator<(&'k str, V)> for TableBuf {
    /// As [`from_entries`](TableBuf::from_entries), for keys that are known to be short.
    ///
    /// ```
    /// use feksroum::TableBuf;
    ///
    /// let arguments: TableBuf = [("x-queue-type", "quorum")].into_iter().collect();
    /// assert_eq!(arguments.get("x-queue-type"), Some("quorum".into()));
    /// ```
    ///
    /// # Panics
    ///
    /// Where `from_entries` returns an error.
    fn from_iter<I: IntoIterator<Item = (&'k str, V)>>(entries: I) -> TableBuf {
        TableBuf::from_entries(entries).unwrap_or_else(|error| panic!("these entries are no table: {error}"))
    }
}

impl PartialEq for TableBuf {
    fn eq(&self, other: &Self) -> bool {
        self.as_table() == other.as_table()
    }
}

impl Eq for TableBuf {}

impl fmt::Debug for TableBuf {
    fn fmt(&self, f: &mut fmt::Formatter<'_>) -> fmt::Result {
        self.as_table().fmt(f)
    }
}
