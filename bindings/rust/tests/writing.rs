//! What is refused in writing, and what stays then.

mod common;

use feksroum::method::{BasicAck, BasicPublish, ConnectionClose};
use feksroum::{
    body_head, max_payload, Content, ContentHeader, Encode, EncodeError, Encoder, Frames, Message, Payload, Properties, ProtocolHeader,
    SENT_PAYLOAD,
};

#[test]
fn long_strings_are_refused_by_name() {
    let long = "é".repeat(128);
    let publish = BasicPublish { exchange: "amq.direct", routing_key: &long, ..BasicPublish::default() };
    let mut out = vec![1, 2, 3];
    let error = publish.encode(1, &mut out).unwrap_err();
    assert_eq!((error, &out[..]), (EncodeError::TooLong { field: "routing-key" }, &[1, 2, 3][..]));
    assert_eq!(error.to_string(), "routing-key has more than 255 bytes");
    let header = ContentHeader::new(0, Properties::default().with_priority(1).with_reply_to(&long));
    assert_eq!(header.encode(1, &mut out), Err(EncodeError::TooLong { field: "reply-to" }));
    let close = ConnectionClose { reply_code: 320, reply_text: &long, ..ConnectionClose::default() };
    assert_eq!(Payload::Method(close.into()).encode(0, &mut out), Err(EncodeError::TooLong { field: "reply-text" }));
    assert!(BasicPublish { routing_key: &long[2..], ..publish }.encode(1, &mut out).is_ok());
}

#[test]
fn limits_hold() {
    let body = [7; 100];
    let mut out = Vec::new();
    for (limit, wanted) in [(99, Err(EncodeError::TooLarge)), (100, Ok(108)), (u32::MAX, Ok(108))] {
        assert_eq!(Encoder::new(1).with_max_payload(limit).encode(&Payload::Body(&body), &mut out), wanted);
    }
    assert_eq!(out.len(), 216);
    let mut slice = [9; 20];
    assert_eq!(BasicAck::default().encode_to_slice(1, &mut slice), Err(EncodeError::BufferTooSmall { needed: 21 }));
    assert_eq!(slice, [9; 20]);
    assert_eq!(Payload::Body(&vec![0; 131_065]).encode(1, &mut out), Err(EncodeError::TooLarge));
}

#[test]
fn a_protocol_header_has_no_channel() {
    let mut out = Vec::new();
    assert_eq!(ProtocolHeader::default().encode(7, &mut out), Ok(8));
    assert_eq!(out, b"AMQP\0\0\x09\x01");
}

#[test]
fn large_bodies_are_written_from_where_they_lie() {
    let body: Vec<u8> = (0..131_064_u32).map(|k| k as u8).collect();
    let mut out = Vec::new();
    assert_eq!(Payload::Body(&body).encode(1, &mut out), Ok(131_072));
    assert_eq!((&out[..7], &out[7..131_071], out[131_071]), (&[3, 0, 1, 0, 1, 255, 248][..], &body[..], 206));
}

#[test]
fn contents_are_cut_to_the_limit() {
    let body: Vec<u8> = (0..=255).collect();
    for (limit, sizes) in [(255, vec![255, 1]), (256, vec![256]), (100, vec![100, 100, 56]), (14, vec![14; 18])] {
        let mut out = vec![9];
        let content = Content { body: &body[..sizes.iter().sum()], ..Content::default() };
        let encoder = Encoder::new(7).with_max_payload(limit);
        let length = encoder.encode(&content, &mut out).unwrap();
        let mut slice = vec![3; length];
        assert_eq!((encoder.encode_to_slice(&content, &mut slice), &slice[..]), (Ok(length), &out[1..]));
        let mut slice = vec![3; length - 1];
        assert_eq!(encoder.encode_to_slice(&content, &mut slice), Err(EncodeError::BufferTooSmall { needed: length }));
        assert!(slice.iter().all(|byte| *byte == 3));
        assert_eq!(out.len(), 1 + length);
        let frames: Vec<_> = Frames::new(&out[1..], limit).map(Result::unwrap).collect();
        assert!(frames.iter().all(|frame| frame.channel() == 7 && frame.summary().canonical));
        assert_eq!(frames[0].summary().body_size as usize, sizes.iter().sum::<usize>());
        assert_eq!(frames[1..].iter().map(|frame| frame.payload().len()).collect::<Vec<_>>(), sizes);
        assert!(body.starts_with(&frames[1..].iter().flat_map(|frame| frame.payload()).copied().collect::<Vec<_>>()));
    }
}

#[test]
fn contents_without_room_are_refused() {
    let mut out = vec![9];
    for content in [Content { body: b"x", ..Content::default() }, Content::default()] {
        for limit in [0, 1, 13] {
            assert_eq!(Encoder::new(1).with_max_payload(limit).encode(&content, &mut out), Err(EncodeError::TooLarge));
        }
    }
    assert_eq!(out, [9]);
    assert_eq!(Content::default().encode(1, &mut out), Ok(22));
}

#[test]
fn heads_of_bodies_are_those_of_their_frames() {
    for (channel, length) in [(0, 0), (1, 5), (u16::MAX, 70_000)] {
        let mut out = Vec::new();
        Encoder::new(channel).encode(&Payload::Body(&vec![7; length as usize]), &mut out).unwrap();
        assert_eq!(out[..7], body_head(channel, length));
    }
    assert_eq!(body_head(2, u32::MAX), [3, 0, 2, 255, 255, 255, 255]);
}

#[test]
fn a_frame_max_leaves_a_payload() {
    for (frame_max, wanted) in [(0, u32::MAX), (1, 0), (8, 0), (9, 1), (4096, 4088), (u32::MAX, u32::MAX - 8)] {
        assert_eq!(max_payload(frame_max), wanted);
    }
}

#[test]
fn bodies_are_cut_to_what_brokers_take() {
    let mut wire = Vec::new();
    Content { body: &[7; 300_000], ..Content::default() }.encode(1, &mut wire).unwrap();
    let lengths: Vec<_> = Frames::new(&wire, SENT_PAYLOAD).skip(1).map(|frame| frame.unwrap().bytes().len()).collect();
    assert_eq!(lengths, [131_072, 131_072, 37_880]);
}

#[test]
fn messages_are_changed_and_written_whole_or_not_at_all() {
    let long = "k".repeat(256);
    let publish = BasicPublish { routing_key: "k", ..BasicPublish::default() };
    assert_eq!(
        Message::new(1, BasicPublish { routing_key: &long, ..publish }, Properties::default(), Vec::new()).unwrap_err(),
        EncodeError::TooLong { field: "routing-key" }
    );
    let mut message = Message::new(1, publish, Properties::default().with_priority(3), b"hello".to_vec()).unwrap();
    assert!(message.set_properties(Properties::default().with_reply_to(&long)).is_err());
    assert!(message.set_opening(BasicPublish { exchange: &long, ..publish }).is_err());
    assert_eq!((message.opening(), message.properties().priority), (publish.into(), Some(3)));
    message.set_channel(2);
    message.set_properties(Properties::default().with_app_id("a")).unwrap();
    message.body_mut().truncate(4);
    let (encoder, mut wire, mut wanted) = (Encoder::new(message.channel()).with_max_payload(19), Vec::new(), Vec::new());
    encoder.encode(&publish, &mut wanted).unwrap();
    encoder.encode(&Content { properties: Properties::default().with_app_id("a"), body: b"hell" }, &mut wanted).unwrap();
    assert_eq!((encoder.encode(&message, &mut wire), &wire), (Ok(wanted.len()), &wanted));
    for room in 0..wanted.len() {
        let mut slice = vec![9; room];
        assert_eq!(encoder.encode_to_slice(&message, &mut slice), Err(EncodeError::BufferTooSmall { needed: wanted.len() }));
        assert_eq!(slice, vec![9; room]);
    }
    assert_eq!(encoder.with_max_payload(15).encode(&message, &mut wire), Err(EncodeError::TooLarge));
    assert_eq!(wire, wanted);
    let (opening, header, body) = message.into_parts();
    assert_eq!((opening.decode(), &body[..]), (Ok(Payload::Method(publish.into())), &b"hell"[..]));
    assert!(matches!(header.decode(), Ok(Payload::Header(header)) if header.properties.app_id == Some("a")));
}
