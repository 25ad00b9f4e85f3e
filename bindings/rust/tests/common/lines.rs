//! The line of a typed frame, put together by what this crate has read: it has to be the one that the library writes.

use feksroum::{Field, Frame, Payload, ProtocolHeader, Table, Value};

/// The line of a frame, as docs/FORMAT.md has it.
pub fn line(frame: &Frame<'_>) -> String {
    let channel = frame.channel();
    let mut words = match frame.decode().unwrap() {
        Payload::ProtocolHeader(ProtocolHeader { major, minor, revision }) => vec![format!("proto {major}.{minor}.{revision}")],
        Payload::Method(method) => {
            let mut words = vec![format!("method {channel} {}.{}", method.class_id(), method.method_id())];
            words.extend(field_words(method.fields().map(|(_, field)| field)));
            words
        }
        Payload::Header(header) => {
            let mut words = vec![format!("header {channel} {} {}", header.class_id, header.body_size)];
            words.extend(header.properties.fields().map(|(name, field)| format!("{}={}", snake(name), field_word(field))));
            words
        }
        Payload::Body(body) => vec![format!("body {channel} x{}", super::to_hex(body))],
        Payload::Heartbeat if channel == 0 => vec!["beat".to_owned()],
        Payload::Heartbeat => vec![format!("beat {channel}")],
    };
    words.push("\n".to_owned());
    words.join(" ").replace(" \n", "\n")
}

/// A name of the standard as Rust has it.
pub fn snake(name: &str) -> String {
    if name == "type" {
        "kind".to_owned()
    } else {
        name.replace('-', "_")
    }
}

/// The words of fields: flags one after another are one.
pub fn field_words<'a>(fields: impl Iterator<Item = Field<'a>>) -> Vec<String> {
    let mut words: Vec<String> = Vec::new();
    let mut inside_flags = false;
    for field in fields {
        match (field, words.last_mut()) {
            (Field::Flag(_), Some(word)) if inside_flags => word.push_str(&field_word(field)),
            _ => words.push(field_word(field)),
        }
        inside_flags = matches!(field, Field::Flag(_));
    }
    words
}

pub fn field_word(field: Field<'_>) -> String {
    match field {
        Field::Octet(number) => number.to_string(),
        Field::Short(number) => number.to_string(),
        Field::Long(number) => number.to_string(),
        Field::LongLong(number) => number.to_string(),
        Field::Flag(flag) => if flag { "+" } else { "-" }.to_owned(),
        Field::ShortString(text) => string(text.as_bytes()),
        Field::LongString(bytes) => string(bytes),
        Field::Table(entries) => table(entries),
    }
}

fn string(bytes: &[u8]) -> String {
    let mut text = String::from("\"");
    for byte in bytes {
        match byte {
            b'"' | b'\\' => text.push_str(&format!("\\{byte:02x}")),
            0x20..=0x7e => text.push(char::from(*byte)),
            _ => text.push_str(&format!("\\{byte:02x}")),
        }
    }
    text + "\""
}

fn table(table: Table<'_>) -> String {
    let entries: Vec<String> = table.to_map().into_iter().map(|(key, of)| format!("{}={}", string(key.as_bytes()), value(of))).collect();
    format!("{{{}}}", entries.join(","))
}

fn value(value: Value<'_>) -> String {
    let text = match value {
        Value::Boolean(truth) => u8::from(truth).to_string(),
        Value::ShortShortInt(number) => number.to_string(),
        Value::ShortShortUint(number) => number.to_string(),
        Value::ShortInt(number) => number.to_string(),
        Value::ShortUint(number) => number.to_string(),
        Value::LongInt(number) => number.to_string(),
        Value::LongUint(number) => number.to_string(),
        Value::LongLongInt(number) => number.to_string(),
        Value::Float(fraction) => fraction.to_bits().to_string(),
        Value::Double(fraction) => fraction.to_bits().to_string(),
        Value::Decimal(decimal) => format!("{}/{}", decimal.scale, decimal.value),
        Value::LongString(bytes) => string(bytes),
        Value::Array(array) => format!("[{}]", array.iter().map(self::value).collect::<Vec<_>>().join(",")),
        Value::Timestamp(seconds) => seconds.to_string(),
        Value::Table(entries) => table(entries),
        Value::ByteArray(bytes) => super::to_hex(bytes),
        Value::Void => return "V".to_owned(),
    };
    format!("{}:{text}", char::from(value.tag()))
}
