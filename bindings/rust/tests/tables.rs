//! Tables, arrays and values: what is gone over is what the library reads, and what is built is read back.

mod common;

use common::nodes::{is_said, open, Node};
use common::random::Random;
use feksroum::{Array, ArrayBuf, Decimal, EncodeError, Error, Table, TableBuf, Value};
use std::collections::BTreeMap;

#[test]
fn random_tables_are_read_back() {
    let mut random = Random::new(3);
    for _ in 0..5000 {
        let table = random.table(5);
        let content = table.as_table().content();
        assert_eq!(Table::from_content(content).unwrap(), table.as_table());
        let again = TableBuf::from_entries(table.as_table()).unwrap();
        assert_eq!((again.as_table().content(), &again), (content, &table));
        let map: BTreeMap<&str, Value<'_>> = table.as_table().into();
        assert_eq!(TableBuf::from_entries(map.clone()).unwrap(), table);
        for (key, value) in map {
            assert_eq!(table.as_table().get(key), Some(value));
        }
        let array = random.array(5);
        let content = array.as_array().content();
        assert_eq!(Array::from_content(content).unwrap(), array.as_array());
        assert_eq!(ArrayBuf::from_values(array.as_array()).unwrap().as_array().content(), content);
    }
}

/// A table is gone over as the library lists it, with all that lies inside, and returns how many values that are.
fn is_listed(table: Table<'_>, mut nodes: &[Node], content: &[u8]) -> usize {
    let mut count = 0;
    for (key, value) in table {
        is_said(&nodes[0], Some(key), value, content);
        count += lies_inside(value, &mut nodes, content);
    }
    assert!(nodes.is_empty());
    count
}

/// The same of what lies inside a value, whose node is the first: these nodes are left out then.
fn lies_inside(value: Value<'_>, nodes: &mut &[Node], content: &[u8]) -> usize {
    let (inside, rest) = nodes[1..].split_at(nodes[0].inside as usize);
    let items = nodes[0].items as usize;
    *nodes = rest;
    match value {
        Value::Table(table) => {
            assert_eq!(table.iter().count(), items);
            1 + is_listed(table, inside, content)
        }
        Value::Array(array) => {
            assert_eq!(array.iter().count(), items);
            let mut inside = inside;
            let counts = array.iter().map(|value| {
                is_said(&inside[0], None, value, content);
                lies_inside(value, &mut inside, content)
            });
            let count = 1 + counts.sum::<usize>();
            assert!(inside.is_empty());
            count
        }
        _ => 1,
    }
}

/// What fills a table in no order, with duplicate keys and all that peers may send.
fn loose_content(random: &mut Random, depth: usize) -> Vec<u8> {
    let mut content = Vec::new();
    for _ in 0..random.below(6) {
        let key = random.text(2);
        content.push(key.len() as u8);
        content.extend(key.bytes());
        let kind = random.below(if depth > 0 { 7 } else { 5 });
        match kind {
            0 => content.extend([b't', random.number() as u8]),
            1 => content.extend([b'U', random.number() as u8, 1]),
            2 => content.extend([b"L", &random.number().to_be_bytes()[..]].concat()),
            3 => content.push(b'V'),
            4 => content.extend([b"x\0\0\0\x02", &[random.number() as u8, 0][..]].concat()),
            _ => {
                let inner =
                    if kind == 5 { loose_content(random, depth - 1) } else { random.array(depth - 1).as_array().content().to_vec() };
                content.push(if kind == 5 { b'F' } else { b'A' });
                content.extend(u32::try_from(inner.len()).unwrap().to_be_bytes());
                content.extend(inner);
            }
        }
    }
    content
}

#[test]
fn tables_are_gone_over_as_the_library_lists_them() {
    let mut random = Random::new(5);
    let mut done = 0;
    for _ in 0..5000 {
        let content = loose_content(&mut random, 4);
        done += is_listed(Table::from_content(&content).unwrap(), &open(b'F', &content), &content);
        let table = random.table(5);
        let content = table.as_table().content();
        done += is_listed(table.as_table(), &open(b'F', content), content);
    }
    assert!(done > 30_000, "{done}");
}

#[test]
fn each_kind_stands_as_the_standard_has_it() {
    let inner = TableBuf::from_entries([("k", Value::Void)]).unwrap();
    let values = ArrayBuf::from_values([true, false]).unwrap();
    let cases: [(Value<'_>, &[u8]); 17] = [
        (Value::Boolean(true), b"t\x01"),
        (Value::ShortShortInt(-2), b"b\xfe"),
        (Value::ShortShortUint(254), b"B\xfe"),
        (Value::ShortInt(-2), b"s\xff\xfe"),
        (Value::ShortUint(0x102), b"u\x01\x02"),
        (Value::LongInt(-2), b"I\xff\xff\xff\xfe"),
        (Value::LongUint(0x0102_0304), b"i\x01\x02\x03\x04"),
        (Value::LongLongInt(-2), b"l\xff\xff\xff\xff\xff\xff\xff\xfe"),
        (Value::Float(1.5), b"f\x3f\xc0\0\0"),
        (Value::Double(1.5), b"d\x3f\xf8\0\0\0\0\0\0"),
        (Value::Decimal(Decimal { scale: 2, value: 314 }), b"D\x02\0\0\x01\x3a"),
        (Value::LongString(b"ab"), b"S\0\0\0\x02ab"),
        (Value::Array(values.as_array()), b"A\0\0\0\x04t\x01t\0"),
        (Value::Timestamp(0x0102), b"T\0\0\0\0\0\0\x01\x02"),
        (Value::Table(inner.as_table()), b"F\0\0\0\x03\x01kV"),
        (Value::ByteArray(b"\0\xff"), b"x\0\0\0\x02\0\xff"),
        (Value::Void, b"V"),
    ];
    for (value, bytes) in cases {
        let array = ArrayBuf::from_values([value]).unwrap();
        assert_eq!(array.as_array().content(), bytes);
        let table = TableBuf::from_entries([("key", value)]).unwrap();
        assert_eq!(table.as_table().content(), [b"\x03key", bytes].concat());
        assert_eq!(Array::from_content(bytes).unwrap().iter().collect::<Vec<_>>(), [value]);
        assert_eq!(value.tag(), bytes[0]);
    }
}

#[test]
fn what_peers_may_send_is_read() {
    let table = Table::from_content(b"\x01at\x07\x01bU\xff\xfe\x01aL\0\0\0\0\0\0\0\x07").unwrap();
    let entries: Vec<_> = table.iter().collect();
    assert_eq!(entries, [("a", Value::Boolean(true)), ("b", Value::ShortInt(-2)), ("a", Value::LongLongInt(7))]);
    assert_eq!((table.get("a"), table.get("c")), (Some(Value::LongLongInt(7)), None));
    assert_eq!(table, TableBuf::from_entries([("a", Value::LongLongInt(7)), ("b", Value::ShortInt(-2))]).unwrap().as_table());
    assert_ne!(table, Table::new());
    assert_eq!(format!("{:?}", table.to_map()), "{\"a\": LongLongInt(7), \"b\": ShortInt(-2)}");
}

#[test]
fn fractions_are_equal_by_their_bits() {
    let nan = Value::Double(f64::NAN);
    assert_eq!(nan, nan);
    assert_ne!(Value::Float(0.0), Value::Float(-0.0));
    for bits in [0x7fa0_0001, 0xffff_ffff, 0x8000_0000] {
        let array = ArrayBuf::from_values([f32::from_bits(bits)]).unwrap();
        assert_eq!(array.as_array().content()[1..], bits.to_be_bytes());
    }
}

#[test]
fn faults_of_contents_are_told() {
    for (content, error) in [
        (&b"\x02aV"[..], Error::ShortPayload),
        (b"\x01aS\0\0\0\x02a", Error::ShortPayload),
        (b"\x01\xffV", Error::NotUtf8),
        (b"\x01az", Error::UnknownTag),
    ] {
        assert_eq!(Table::from_content(content), Err(error));
    }
    assert_eq!(Array::from_content(b"z"), Err(Error::UnknownTag));
    assert_eq!(Array::from_content(b"t"), Err(Error::ShortPayload));
    assert_eq!((Table::from_content(b""), Array::from_content(b"")), (Ok(Table::new()), Ok(Array::new())));
}

#[test]
fn what_cannot_be_written_is_refused() {
    let key = "k".repeat(256);
    assert_eq!(TableBuf::from_entries([(key.as_str(), 1)]), Err(EncodeError::TooLong { field: "key" }));
    assert!(TableBuf::from_entries([(&key[1..], 1)]).is_ok());
    let mut deep = ArrayBuf::new();
    for _ in 1..64 {
        deep = ArrayBuf::from_values([&deep]).unwrap();
    }
    assert_eq!(ArrayBuf::from_values([&deep]), Err(EncodeError::TooDeep));
    assert_eq!(TableBuf::from_entries([("deep", &deep)]), Err(EncodeError::TooDeep));
}

#[test]
fn entries_are_inserted_and_removed_as_in_a_map() {
    let mut random = Random::new(9);
    for _ in 0..300 {
        let read = loose_content(&mut random, 2);
        let mut table = if random.is_true() { TableBuf::new() } else { Table::from_content(&read).unwrap().into_owned() };
        let mut map: BTreeMap<String, Value<'_>> =
            Table::from_content(&read).unwrap().iter().map(|(key, value)| (key.into(), value)).collect();
        if table.is_empty() {
            map.clear();
        }
        for _ in 0..20 {
            let (key, number) = (random.text(1), random.number() as i32);
            if random.is_true() {
                assert_eq!(table.remove(&key), map.remove(&key).is_some());
            } else {
                table.insert(&key, number).unwrap();
                map.insert(key.clone(), number.into());
            }
            assert_eq!(table.get(&key), map.get(key.as_str()).copied());
            let wanted: TableBuf = map.iter().map(|(key, value)| (key.as_str(), *value)).collect();
            assert_eq!(table, wanted);
        }
        if read.is_empty() {
            assert!(table.iter().zip(table.iter().skip(1)).all(|((one, _), (two, _))| one < two));
        }
    }
    let mut table = TableBuf::new();
    assert_eq!(table.insert(&"k".repeat(256), 1), Err(EncodeError::TooLong { field: "key" }));
    assert_eq!((table.is_empty(), (&table).into_iter().count()), (true, 0));
}

#[test]
fn values_are_taken_by_what_they_are() {
    let text = String::from("quorum");
    assert_eq!((Value::from(&text), Value::from(&text).as_bytes()), (Value::LongString(b"quorum"), Some(&b"quorum"[..])));
    assert_eq!((Value::ByteArray(b"\xff").as_bytes(), Value::Void.as_bytes()), (Some(&b"\xff"[..]), None));
    assert_eq!((Value::Float(1.5).as_f64(), Value::Double(-2.5).as_f64(), Value::LongInt(1).as_f64()), (Some(1.5), Some(-2.5), None));
    assert_eq!((Value::Timestamp(7).as_timestamp(), Value::LongUint(7).as_timestamp()), (Some(7), None));
}
