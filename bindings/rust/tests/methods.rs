//! Each method and each property of the library's table, written and read back.

mod common;

use common::lines::{field_word, field_words, line, snake};
use common::random::{OwnedField, Random};
use common::table;
use feksroum::method::{BasicDeliver, BasicPublish, ExchangeDeclare, QueueDeclare};
use feksroum::{canonicalize, dump, undump, ContentHeader, Encode, Field, Frame, Level, Method, OwnedFrame, Payload, Properties, TableBuf};
use feksroum::{Canonicalizer, FrameType, ReplyCode, Scratch, MAX_PAYLOAD};

/// The frame that a line says, by the library.
fn frame_of(line: &str) -> OwnedFrame {
    let undumped = undump(line.as_bytes(), MAX_PAYLOAD);
    assert_eq!((undumped.used, undumped.end), (line.len(), Ok(())), "{line}");
    Frame::first(&undumped.written, MAX_PAYLOAD).unwrap().into_owned()
}

/// What stands in a frame is written as the frame's bytes, in each way, and its line is the one that the library writes.
fn is_written_back(frame: Frame<'_>) {
    let payload = frame.decode().unwrap();
    let mut out = b"in front".to_vec();
    assert_eq!(payload.encode(frame.channel(), &mut out), Ok(frame.bytes().len()));
    assert_eq!(out, [b"in front", frame.bytes()].concat());
    let mut slice = vec![0; frame.bytes().len()];
    assert_eq!(payload.encode_to_slice(frame.channel(), &mut slice), Ok(slice.len()));
    assert_eq!(slice, frame.bytes());
    assert_eq!(OwnedFrame::new(frame.channel(), &payload).unwrap().as_frame(), frame);
    assert_eq!(line(&frame), dump(frame.bytes(), MAX_PAYLOAD).written);
    let mut canonical = Vec::new();
    canonicalize(frame.bytes(), &mut canonical, MAX_PAYLOAD, Level::Plain).unwrap();
    assert_eq!(canonical, frame.bytes());
}

/// Each field is shown by its name.
fn shows_fields(shown: &str, names: &[String], fields: &[Field<'_>]) {
    for (name, field) in names.iter().zip(fields) {
        let value = match field {
            Field::Octet(number) => format!("{number:?}"),
            Field::Short(number) => format!("{number:?}"),
            Field::Long(number) => format!("{number:?}"),
            Field::LongLong(number) => format!("{number:?}"),
            Field::Flag(flag) => format!("{flag:?}"),
            Field::ShortString(text) => format!("{text:?}"),
            Field::LongString(bytes) => format!("{bytes:?}"),
            Field::Table(table) => format!("{table:?}"),
        };
        assert!(shown.contains(&format!("{}: {value}", snake(name))), "{name} of {shown}");
    }
}

#[test]
fn each_method_is_read_and_written() {
    let mut random = Random::new(1);
    let methods = table::methods();
    assert_eq!(methods.len(), 66);
    for shape in &methods {
        for channel in [0, 1, 7, 256, u16::MAX].repeat(20) {
            let fields: Vec<OwnedField> = shape.kinds.iter().map(|kind| OwnedField::random(&mut random, *kind)).collect();
            let fields: Vec<Field<'_>> = fields.iter().map(OwnedField::as_field).collect();
            let words = [vec![format!("method {channel} {}.{}", shape.class_id, shape.method_id)], field_words(fields.iter().copied())];
            let frame = frame_of(&format!("{}\n", words.concat().join(" ")));
            let Payload::Method(method) = frame.decode().unwrap() else { panic!("a method: {frame:?}") };
            assert_eq!((method.class_id(), method.method_id(), method.name()), (shape.class_id, shape.method_id, &*shape.name));
            assert_eq!((method.carries_content(), method.wants_answer()), (shape.carries_content, shape.wants_answer), "{}", shape.name);
            let (names, read): (Vec<_>, Vec<_>) = method.fields().unzip();
            assert_eq!((names, &read), (shape.names.iter().map(String::as_str).collect(), &fields), "{}", shape.name);
            shows_fields(&format!("{method:?}"), &shape.names, &fields);
            assert_eq!(usize::from(frame.as_frame().summary().fields), fields.len());
            is_written_back(frame.as_frame());
        }
    }
}

#[test]
fn each_property_is_read_and_written() {
    let mut random = Random::new(2);
    let properties = table::properties();
    assert_eq!(properties.len(), 14);
    for mask in (0..14).map(|place| 1 << place).chain([0, (1 << 14) - 1]).chain((0..1000).map(|k| k * 7919 % (1 << 14))) {
        let set: Vec<(&str, OwnedField)> = (0..14)
            .filter(|place| mask >> place & 1 == 1)
            .map(|place| (properties[place].1.as_str(), OwnedField::random(&mut random, properties[place].0)))
            .collect();
        let body_size = random.sized();
        let words: Vec<String> = set.iter().map(|(name, field)| format!(" {}={}", snake(name), field_word(field.as_field()))).collect();
        let frame = frame_of(&format!("header 3 60 {body_size}{}\n", words.concat()));
        let Payload::Header(header) = frame.decode().unwrap() else { panic!("a content header: {frame:?}") };
        assert_eq!((header.class_id, header.body_size), (60, body_size));
        let wanted: Vec<(&str, Field<'_>)> = set.iter().map(|(name, field)| (*name, field.as_field())).collect();
        assert_eq!(header.properties.fields().collect::<Vec<_>>(), wanted);
        is_written_back(frame.as_frame());
    }
}

#[test]
fn each_property_is_set_by_its_name() {
    let headers = TableBuf::from_entries([("k", 1)]).unwrap();
    let properties = Properties::default()
        .with_content_type("content-type")
        .with_content_encoding("content-encoding")
        .with_headers(headers.as_table())
        .with_delivery_mode(2)
        .with_priority(5)
        .with_correlation_id("correlation-id")
        .with_reply_to("reply-to")
        .with_expiration("expiration")
        .with_message_id("message-id")
        .with_timestamp(1 << 33)
        .with_kind("type")
        .with_user_id("user-id")
        .with_app_id("app-id")
        .with_cluster_id("cluster-id");
    let wanted: Vec<(&str, Field<'_>)> = properties.fields().collect();
    assert_eq!(wanted.len(), 14);
    for (name, field) in wanted {
        let others = [Field::Table(headers.as_table()), Field::Octet(2), Field::Octet(5), Field::LongLong(1 << 33)];
        assert!(field == Field::ShortString(name) || others.contains(&field), "{name} is {field:?}");
    }
    let frame = OwnedFrame::new(1, &ContentHeader::new(0, properties)).unwrap();
    assert_eq!(frame.decode(), Ok(Payload::Header(ContentHeader::new(0, properties))));
}

#[test]
fn content_headers_have_any_class() {
    for class_id in [10, 60, 90, 0, 61, u16::MAX] {
        let header = ContentHeader { class_id, body_size: 5, properties: Properties::default().with_user_id("guest") };
        let frame = OwnedFrame::new(9, &header).unwrap();
        assert_eq!(frame.decode(), Ok(Payload::Header(header)));
        assert_eq!(dump(frame.as_frame().bytes(), MAX_PAYLOAD).written, format!("header 9 {class_id} 5 user_id=\"guest\"\n"));
    }
}

#[test]
fn other_frames_are_read_and_written() {
    for line in ["proto 0.9.1\n", "proto 255.0.7\n", "beat\n", "beat 65535\n", "body 1 x\n", "body 65535 x00ff\n"] {
        is_written_back(frame_of(line).as_frame());
    }
}

#[test]
fn structs_are_written_by_their_names() {
    let arguments = TableBuf::from_entries([("x-max-length", 10), ("a", -1)]).unwrap();
    let cases: [(Method<'_>, &str); 4] = [
        (
            QueueDeclare { queue: "q", durable: true, exclusive: true, arguments: arguments.as_table(), ..QueueDeclare::default() }.into(),
            "50.10 \"q\" -++-- {\"a\"=I:-1,\"x-max-length\"=I:10}",
        ),
        (
            ExchangeDeclare { exchange: "e", kind: "topic", internal: true, ..ExchangeDeclare::default() }.into(),
            "40.10 \"e\" \"topic\" ---+- {}",
        ),
        (BasicPublish { exchange: "e", routing_key: "k", mandatory: true, immediate: false }.into(), "60.40 \"e\" \"k\" +-"),
        (
            BasicDeliver { consumer_tag: "t", delivery_tag: 9, redelivered: true, exchange: "e", routing_key: "k" }.into(),
            "60.60 \"t\" 9 + \"e\" \"k\"",
        ),
    ];
    for (method, words) in cases {
        let frame = OwnedFrame::new(2, &method).unwrap();
        assert_eq!(dump(frame.as_frame().bytes(), MAX_PAYLOAD).written, format!("method 2 {words}\n"));
        assert_eq!(frame.decode(), Ok(Payload::Method(method)));
        assert_eq!(frame.as_frame().frame_type(), FrameType::Method);
    }
}

#[test]
fn reply_codes_have_numbers_and_names() {
    assert_eq!(ReplyCode::ALL.len(), 18);
    for reply in ReplyCode::ALL {
        assert_eq!(ReplyCode::from_code(reply.code()), Some(*reply));
    }
    assert_eq!((ReplyCode::from_code(200), ReplyCode::from_code(65_535)), (None, None));
    assert_eq!((ReplyCode::PreconditionFailed.name(), ReplyCode::PreconditionFailed.code()), ("precondition-failed", 406));
    assert_eq!(ReplyCode::ALL.iter().filter(|reply| reply.is_hard()).count(), 11);
}

#[test]
fn all_of_it_may_be_sent_to_threads() {
    fn check<T: Send + Sync + 'static>() {}
    check::<Payload<'static>>();
    check::<Frame<'static>>();
    check::<OwnedFrame>();
    check::<TableBuf>();
    check::<Canonicalizer>();
    check::<Scratch>();
}
