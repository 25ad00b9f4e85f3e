//! Fields of methods and properties, of whichever kind.

use crate::table::Table;

/// The kinds as nodes have them.
pub mod kind {
    pub const OCTET: u8 = 1;
    pub const SHORT: u8 = 2;
    pub const LONG: u8 = 3;
    pub const LONG_LONG: u8 = 4;
    pub const FLAG: u8 = 5;
    pub const SHORT_STRING: u8 = 6;
    pub const LONG_STRING: u8 = 7;
    pub const TABLE: u8 = 8;
}

/// The most fields that a frame has: a content header with each property.
pub const MOST_FIELDS: usize = 14;

/// A field of a method, or a property, for whoever goes over all of them: [`Method::fields`](crate::Method::fields) and
/// [`Properties::fields`](crate::Properties::fields) give them.
#[derive(Clone, Copy, Debug, PartialEq, Eq)]
pub enum Field<'a> {
    /// A number of one byte.
    Octet(u8),
    /// A number of two bytes.
    Short(u16),
    /// A number of four bytes.
    Long(u32),
    /// A number of eight bytes, or a time in seconds.
    LongLong(u64),
    /// One bit.
    Flag(bool),
    /// At most 255 bytes of text.
    ShortString(&'a str),
    /// Any bytes.
    LongString(&'a [u8]),
    /// Keys with values.
    Table(Table<'a>),
}

impl Field<'_> {
    /// The number of its kind in the C interface, from 1 on in the order of the variants.
    ///
    /// ```
    /// assert_eq!(feksroum::Field::Flag(true).kind(), 5);
    /// ```
    #[must_use]
    pub fn kind(self) -> u8 {
        match self {
            Field::Octet(_) => kind::OCTET,
            Field::Short(_) => kind::SHORT,
            Field::Long(_) => kind::LONG,
            Field::LongLong(_) => kind::LONG_LONG,
            Field::Flag(_) => kind::FLAG,
            Field::ShortString(_) => kind::SHORT_STRING,
            Field::LongString(_) => kind::LONG_STRING,
            Field::Table(_) => kind::TABLE,
        }
    }
}

/// The fields of a frame by their places. A property that is not set leaves its place empty.
#[derive(Clone, Copy, Debug, Default)]
pub struct List<'a> {
    fields: [Option<Field<'a>>; MOST_FIELDS],
}

impl<'a> List<'a> {
    /// Of as many fields as there are, at most [`MOST_FIELDS`].
    pub fn of<const N: usize>(fields: [Option<Field<'a>>; N]) -> List<'a> {
        let mut list = List::default();
        for (place, field) in list.fields.iter_mut().zip(fields) {
            *place = field;
        }
        list
    }

    /// The fields that are there, with their names.
    pub fn named(self, names: &'static [&'static str]) -> impl Iterator<Item = (&'static str, Field<'a>)> {
        names.iter().copied().zip(self.fields).filter_map(|(name, field)| Some((name, field?)))
    }

    /// The name of the first short string that is too long to be written.
    #[cold]
    pub fn too_long(self, names: &'static [&'static str]) -> Option<&'static str> {
        const MOST: usize = 255;
        self.named(names).find(|(_, field)| matches!(field, Field::ShortString(text) if text.len() > MOST)).map(|(name, _)| name)
    }
}

/// What has fields.
pub trait Listed {
    /// Its fields.
    fn list(&self) -> List<'_>;
}
