//! The frames of a connection, out of pieces and out of a reader; methods that are waited for.

mod common;

use common::example;
use feksroum::method::{BasicAck, ChannelClose, ChannelOpenOk, ConnectionClose, Method, MethodInfo, OtherMethod, QueueDeclareOk};
use feksroum::{needed, Closed, Error, Frame, FrameReader, Frames, OwnedFrame, OwnedMethod, ReplyCode, StreamError, MAX_PAYLOAD};
use std::io::{self, Read};

/// Gives so many bytes at once.
struct Pieces<'a>(&'a [u8], usize);

impl Read for Pieces<'_> {
    fn read(&mut self, buf: &mut [u8]) -> io::Result<usize> {
        let length = self.1.min(buf.len());
        self.0.read(&mut buf[..length])
    }
}

fn owned(frame: Frame<'_>) -> OwnedFrame {
    frame.into_owned()
}

#[test]
fn pieces_of_any_size_give_the_same_frames() {
    let bytes = example("raw/server_stream.raw");
    let wanted: Vec<OwnedFrame> = Frames::new(&bytes, MAX_PAYLOAD).map(|frame| owned(frame.unwrap())).collect();
    assert!(wanted.len() > 3);
    for size in [1, 3, 8, 100, 5000, bytes.len()] {
        let (mut reader, mut found) = (FrameReader::new(MAX_PAYLOAD), Vec::new());
        for piece in bytes.chunks(size) {
            reader.feed(piece).unwrap();
            while let Some(frame) = reader.next_frame().unwrap() {
                found.push(owned(frame));
            }
            assert!(reader.held().is_empty() || reader.needed() > reader.held().len());
        }
        assert_eq!((reader.position(), reader.finish(), &found), (bytes.len() as u64, Ok(()), &wanted));
        let (mut reader, mut found, mut source) = (FrameReader::new(MAX_PAYLOAD), Vec::new(), Pieces(&bytes, size));
        while let Some(frame) = reader.read_frame(&mut source).unwrap() {
            found.push(owned(frame));
        }
        assert_eq!(found, wanted);
    }
}

#[test]
fn a_fault_stays_and_has_its_place() {
    let beat = [8, 0, 0, 0, 0, 0, 0, 206];
    let mut reader = FrameReader::new(MAX_PAYLOAD);
    reader.feed(&[&beat[..], &beat[..7], &[205]].concat()).unwrap();
    assert!(reader.next_frame().unwrap().is_some());
    for _ in 0..2 {
        assert_eq!(reader.next_frame(), Err(Error::BadFrameEnd));
        assert_eq!(reader.position(), 8);
    }
    reader.feed(&beat).unwrap();
    assert_eq!(reader.finish(), Err(Error::BadFrameEnd));
    let (mut reader, mut cut) = (FrameReader::new(MAX_PAYLOAD), &[beat, beat].concat()[..15]);
    assert!(reader.read_frame(&mut cut).unwrap().is_some());
    assert!(matches!(reader.read_frame(&mut cut), Err(StreamError::Frame { error: Error::CutShort, offset: 8 })));
    for (mut bytes, error) in [(&[4][..], Error::UnknownFrameType), (b"AMQX", Error::BadProtocolHeader), (b"AMQ", Error::CutShort)] {
        let mut reader = FrameReader::new(MAX_PAYLOAD);
        bytes.iter().for_each(|byte| reader.feed(&[*byte]).unwrap());
        assert_eq!(reader.finish(), Err(error));
        let mut reader = FrameReader::new(MAX_PAYLOAD);
        assert!(matches!(reader.read_frame(&mut bytes), Err(StreamError::Frame { error: found, offset: 0 }) if found == error));
    }
    let mut reader = FrameReader::new(MAX_PAYLOAD);
    reader.set_max_payload(1);
    reader.feed(&[3, 0, 1, 0, 0, 0, 2]).unwrap();
    assert_eq!(reader.next_frame(), Err(Error::TooLarge));
}

#[test]
fn what_is_needed_is_no_more_than_a_frame_has() {
    let bytes = example("raw/server_stream.raw");
    for frame in Frames::new(&bytes, MAX_PAYLOAD).map(Result::unwrap) {
        for length in 0..frame.bytes().len() {
            let needed = needed(&frame.bytes()[..length], MAX_PAYLOAD);
            assert!(length < needed && needed <= frame.bytes().len());
        }
        assert_eq!(needed(frame.bytes(), MAX_PAYLOAD), frame.bytes().len());
    }
}

#[test]
fn an_unknown_method_has_its_ids() {
    let frame = |class: u8, method: u8| [1, 0, 1, 0, 0, 0, 4, 0, class, 0, method, 206];
    let (class, method) = (frame(61, 7), frame(60, 7));
    let error = Frame::first(&class, MAX_PAYLOAD).unwrap_err();
    assert_eq!(error, Error::UnknownClass { class_id: 61, method_id: 7 });
    let error = Frame::first(&method, MAX_PAYLOAD).unwrap_err();
    assert_eq!((error, error.status(), error.name()), (Error::UnknownMethod { class_id: 60, method_id: 7 }, 15, "UnknownMethod"));
    assert_eq!(error.to_string(), "a method that its class does not have, 60.7");
    let mut out = [0; 12];
    let progress = feksroum::canonicalize_slice(&method, &mut out, &mut feksroum::Scratch::new(), MAX_PAYLOAD, feksroum::Level::Plain);
    assert_eq!((progress.end, feksroum::dump(&method, MAX_PAYLOAD).end), (Err(error), Err(error)));
    assert_eq!(
        feksroum::canonicalize_slice(&method, &mut out[1..], &mut feksroum::Scratch::new(), MAX_PAYLOAD, feksroum::Level::Plain).end,
        Err(Error::BufferTooSmall)
    );
}

#[test]
fn one_method_is_waited_for_and_kept() {
    let name = String::from("amq.gen-1");
    let method = Method::from(QueueDeclareOk { queue: &name, message_count: 3, consumer_count: 1 });
    let other = ChannelOpenOk::try_from(method).unwrap_err();
    assert_eq!((other.wanted(), other.found()), ("channel.open-ok", "queue.declare-ok"));
    let _: OtherMethod = BasicAck::try_from(Method::from(ChannelOpenOk)).unwrap_err();
    let declared: OwnedMethod<QueueDeclareOk<'static>> = QueueDeclareOk::try_from(method).unwrap().keep().unwrap();
    drop(name);
    assert_eq!((declared.get().queue, declared.get().message_count, declared.get().consumer_count), ("amq.gen-1", 3, 1));
    let long = "k".repeat(256);
    assert!(QueueDeclareOk { queue: &long, ..QueueDeclareOk::default() }.keep().is_err());
}

#[test]
fn a_close_is_an_error() {
    let closed = Closed::from(ConnectionClose { reply_code: 501, reply_text: "too long", class_id: 60, method_id: 40 });
    assert_eq!((closed.reply(), closed.is_connection, closed.class_id, closed.method_id), (Some(ReplyCode::FrameError), true, 60, 40));
    assert_eq!(closed.to_string(), "the connection was closed: 501 too long");
    let closed = Closed::from(ChannelClose { reply_code: 299, ..ChannelClose::default() });
    assert_eq!((closed.reply(), closed.is_connection), (None, false));
    assert_eq!(ReplyCode::PreconditionFailed.to_string(), "406 precondition-failed");
}

#[test]
fn frames_are_shown_in_few_words() {
    let bytes = [1, 0, 1, 0, 0, 0, 13, 0, 60, 0, 80, 0, 0, 0, 0, 0, 0, 0, 7, 0, 206];
    assert_eq!(format!("{:?}", Frame::first(&bytes, MAX_PAYLOAD).unwrap()), "Method on 1, 60.80, payload 13");
}
