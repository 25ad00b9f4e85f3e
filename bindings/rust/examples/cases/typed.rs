//! All frames of a case with their fields: numbers little-endian; `bindings/cases.py` has the form.

use crate::case::{bytes, Case};
use feksroum::{Error, Field, Frame, Frames, Payload, Table, Value, MAX_PAYLOAD};

/// The frames in front with all their fields, and why they end.
pub fn typed(case: &Case<'_>, results: &mut Vec<u8>) {
    let mut frames = Frames::new(case.bytes, MAX_PAYLOAD);
    let end = frames.by_ref().try_for_each(|read| frame(&read?, results));
    results.extend([255, end.map_or_else(Error::status, |()| 0)]);
    results.extend((frames.used() as u64).to_le_bytes());
}

fn frame(frame: &Frame<'_>, results: &mut Vec<u8>) -> Result<(), Error> {
    results.push(frame.frame_type() as u8);
    results.extend(frame.channel().to_le_bytes());
    match frame.decode()? {
        Payload::ProtocolHeader(header) => results.extend([header.major, header.minor, header.revision]),
        Payload::Method(method) => {
            results.extend(method.class_id().to_le_bytes());
            results.extend(method.method_id().to_le_bytes());
            method.fields().for_each(|(_, of)| field(of, results));
        }
        Payload::Header(header) => {
            results.extend(header.class_id.to_le_bytes());
            results.extend(header.body_size.to_le_bytes());
            header.properties.fields().for_each(|(name, of)| property(name, of, results));
        }
        Payload::Body(body) => bytes(body, results),
        Payload::Heartbeat => {}
    }
    Ok(())
}

fn property(name: &str, of: Field<'_>, results: &mut Vec<u8>) {
    const NAMES: [&str; 14] = [
        "content-type",
        "content-encoding",
        "headers",
        "delivery-mode",
        "priority",
        "correlation-id",
        "reply-to",
        "expiration",
        "message-id",
        "timestamp",
        "type",
        "user-id",
        "app-id",
        "cluster-id",
    ];
    results.extend((0..).zip(NAMES).filter(|(_, other)| *other == name).map(|(place, _)| place));
    field(of, results);
}

fn field(field: Field<'_>, results: &mut Vec<u8>) {
    results.push(field.kind());
    match field {
        Field::Octet(octet) => number(octet, results),
        Field::Short(short) => number(short, results),
        Field::Long(long) => number(long, results),
        Field::LongLong(long_long) => number(long_long, results),
        Field::Flag(flag) => number(flag, results),
        Field::ShortString(text) => bytes(text.as_bytes(), results),
        Field::LongString(string) => bytes(string, results),
        Field::Table(entries) => table(entries, results),
    }
}

fn table(table: Table<'_>, results: &mut Vec<u8>) {
    let map = table.to_map();
    results.extend((map.len() as u32).to_le_bytes());
    for (key, of) in map {
        bytes(key.as_bytes(), results);
        value(of, results);
    }
}

fn value(value: Value<'_>, results: &mut Vec<u8>) {
    results.push(value.tag());
    match value {
        Value::Boolean(truth) => number(truth, results),
        Value::ShortShortUint(unsigned) => number(unsigned, results),
        Value::ShortUint(unsigned) => number(unsigned, results),
        Value::LongUint(unsigned) => number(unsigned, results),
        Value::ShortShortInt(_) | Value::ShortInt(_) | Value::LongInt(_) | Value::LongLongInt(_) => {
            results.extend(value.as_i64().unwrap_or_default().to_le_bytes());
        }
        Value::Float(fraction) => number(fraction.to_bits(), results),
        Value::Double(fraction) => number(fraction.to_bits(), results),
        Value::Timestamp(seconds) => number(seconds, results),
        Value::Decimal(decimal) => {
            results.push(decimal.scale);
            number(decimal.value, results);
        }
        Value::LongString(string) | Value::ByteArray(string) => bytes(string, results),
        Value::Array(array) => {
            results.extend((array.iter().count() as u32).to_le_bytes());
            array.iter().for_each(|inner| self::value(inner, results));
        }
        Value::Table(entries) => table(entries, results),
        Value::Void => {}
    }
}

fn number(number: impl Into<u64>, results: &mut Vec<u8>) {
    results.extend(number.into().to_le_bytes());
}
