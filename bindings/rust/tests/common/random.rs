//! Random fields and values, always the same ones.

use feksroum::{ArrayBuf, Decimal, Field, Table, TableBuf, Value};

/// Numbers by xorshift, as Marsaglia has it.
pub struct Random(u64);

impl Random {
    pub fn new(seed: u64) -> Random {
        Random(seed * 2 + 1)
    }

    pub fn number(&mut self) -> u64 {
        self.0 ^= self.0 << 13;
        self.0 ^= self.0 >> 7;
        self.0 ^= self.0 << 17;
        self.0
    }

    /// A number below another.
    pub fn below(&mut self, limit: usize) -> usize {
        (self.number() >> 11) as usize % limit
    }

    /// A number of any size: as often small as large, and now and then one of the ends.
    pub fn sized(&mut self) -> u64 {
        match self.below(4) {
            0 => [0, 1, u64::MAX, u64::MAX / 2, u64::MAX / 2 + 1][self.below(5)],
            1 => self.number() >> 56,
            _ => self.number() >> self.below(64),
        }
    }

    pub fn is_true(&mut self) -> bool {
        self.below(2) == 1
    }

    /// Text of at most so many characters, of all that UTF-8 has.
    pub fn text(&mut self, most: usize) -> String {
        const CHARACTERS: [char; 12] = ['a', 'b', 'Z', '0', ' ', '"', '\\', '\n', '\0', 'é', '→', '🐇'];
        (0..self.below(most + 1)).map(|_| CHARACTERS[self.below(CHARACTERS.len())]).collect()
    }

    pub fn bytes(&mut self, most: usize) -> Vec<u8> {
        (0..self.below(most + 1)).map(|_| self.number() as u8).collect()
    }

    pub fn table(&mut self, depth: usize) -> TableBuf {
        let entries: Vec<(String, Owned)> = (0..self.below(5)).map(|_| (self.text(4), Owned::random(self, depth))).collect();
        TableBuf::from_entries(entries.iter().map(|(key, value)| (key.as_str(), value.as_value()))).unwrap()
    }

    pub fn array(&mut self, depth: usize) -> ArrayBuf {
        let values: Vec<Owned> = (0..self.below(5)).map(|_| Owned::random(self, depth)).collect();
        ArrayBuf::from_values(values.iter().map(Owned::as_value)).unwrap()
    }
}

/// A value, or what it borrows from.
pub enum Owned {
    Plain(Value<'static>),
    Bytes(Vec<u8>, fn(&[u8]) -> Value<'_>),
    Array(ArrayBuf),
    Table(TableBuf),
}

impl Owned {
    fn random(random: &mut Random, depth: usize) -> Owned {
        let number = random.sized();
        Owned::Plain(match random.below(17) {
            0 => Value::Boolean(random.is_true()),
            1 => Value::ShortShortInt(number as i8),
            2 => Value::ShortShortUint(number as u8),
            3 => Value::ShortInt(number as i16),
            4 => Value::ShortUint(number as u16),
            5 => Value::LongInt(number as i32),
            6 => Value::LongUint(number as u32),
            7 => Value::LongLongInt(number as i64),
            8 => Value::Float(f32::from_bits(number as u32)),
            9 => Value::Double(f64::from_bits(number)),
            10 => Value::Decimal(Decimal { scale: random.number() as u8, value: number as u32 }),
            11 => return Owned::Bytes(random.bytes(40), |bytes| Value::LongString(bytes)),
            12 => Value::Timestamp(number),
            13 => return Owned::Bytes(random.bytes(40), |bytes| Value::ByteArray(bytes)),
            14 if depth > 0 => return Owned::Array(random.array(depth - 1)),
            15 if depth > 0 => return Owned::Table(random.table(depth - 1)),
            _ => Value::Void,
        })
    }

    fn as_value(&self) -> Value<'_> {
        match self {
            Owned::Plain(value) => *value,
            Owned::Bytes(bytes, of) => of(bytes),
            Owned::Array(array) => array.into(),
            Owned::Table(table) => table.into(),
        }
    }
}

/// A field that owns its memory.
#[derive(Debug)]
pub enum OwnedField {
    Plain(Field<'static>),
    ShortString(String),
    LongString(Vec<u8>),
    Table(TableBuf),
}

impl OwnedField {
    /// A field of a kind.
    pub fn random(random: &mut Random, kind: u8) -> OwnedField {
        let number = random.sized();
        match kind {
            1 => OwnedField::Plain(Field::Octet(number as u8)),
            2 => OwnedField::Plain(Field::Short(number as u16)),
            3 => OwnedField::Plain(Field::Long(number as u32)),
            4 => OwnedField::Plain(Field::LongLong(number)),
            5 => OwnedField::Plain(Field::Flag(random.is_true())),
            6 => OwnedField::ShortString(random.text(60)),
            7 => OwnedField::LongString(random.bytes(300)),
            8 => OwnedField::Table(random.table(4)),
            _ => panic!("no kind {kind}"),
        }
    }

    pub fn as_field(&self) -> Field<'_> {
        match self {
            OwnedField::Plain(field) => *field,
            OwnedField::ShortString(text) => Field::ShortString(text),
            OwnedField::LongString(bytes) => Field::LongString(bytes),
            OwnedField::Table(table) => Field::Table(Table::from(table)),
        }
    }
}
