//! Whole messages out of frames: their order, their faults, their bounds.

mod common;

use common::random::Random;
use feksroum::method::{BasicAck, BasicDeliver, BasicGetOk, BasicPublish, BasicReturn};
use feksroum::{
    messages, Assembler, Content, ContentFault, ContentHeader, Encode, Encoder, Error, Frame, Frames, Message, MessageReader, Method,
};
use feksroum::{Opening, OwnedFrame, Payload, Properties, ProtocolHeader, Pushed, Received, StreamError, MAX_PAYLOAD};
use std::collections::{BTreeMap, VecDeque};

fn opening(channel: u16) -> OwnedFrame {
    OwnedFrame::new(channel, &BasicPublish { routing_key: "k", ..BasicPublish::default() }).unwrap()
}

fn header(channel: u16, body_size: u64) -> OwnedFrame {
    OwnedFrame::new(channel, &ContentHeader::new(body_size, Properties::default())).unwrap()
}

fn body(channel: u16, payload: &[u8]) -> OwnedFrame {
    OwnedFrame::new(channel, &Payload::Body(payload)).unwrap()
}

fn any() -> Assembler {
    Assembler::new(u64::MAX, u64::MAX)
}

/// Pushes frames, and returns what became of the last one.
fn push(assembler: &mut Assembler, frames: &[OwnedFrame]) -> Result<&'static str, Error> {
    let mut last = Ok("");
    for frame in frames {
        last = assembler.push(frame.as_frame()).map(|pushed| match pushed {
            Pushed::Passed(passed) => {
                assert_eq!(passed, frame.as_frame());
                "passed"
            }
            Pushed::Taken => "taken",
            Pushed::Complete(_) => "complete",
        });
    }
    last
}

#[test]
fn each_opening_is_read() {
    let openings = [
        Method::BasicPublish(BasicPublish { routing_key: "k", mandatory: true, ..BasicPublish::default() }),
        Method::BasicReturn(BasicReturn { reply_text: "NO_ROUTE", ..BasicReturn::default() }),
        Method::BasicDeliver(BasicDeliver { delivery_tag: 7, ..BasicDeliver::default() }),
        Method::BasicGetOk(BasicGetOk { delivery_tag: 7, ..BasicGetOk::default() }),
    ];
    for method in openings {
        let (mut wire, mut again) = (Vec::new(), Vec::new());
        method.encode(3, &mut wire).unwrap();
        let content = Content { properties: Properties::default().with_priority(1), body: b"hello" };
        let encoder = Encoder::new(3).with_max_payload(20);
        encoder.encode(&content, &mut wire).unwrap();
        let found: Vec<Message> = any().messages(Frames::new(&wire, MAX_PAYLOAD)).filter_map(|found| found.unwrap().message()).collect();
        assert_eq!((found.len(), found[0].channel(), found[0].body()), (1, 3, &b"hello"[..]));
        assert_eq!(Some(found[0].opening()), Opening::from_method(method));
        assert_eq!(found[0].properties().priority, Some(1));
        assert_eq!(encoder.encode(&found[0], &mut again), Ok(wire.len()));
        assert_eq!((again, found[0].clone().into_body()), (wire, b"hello".to_vec()));
    }
    assert_eq!(Opening::from_method(Method::BasicAck(BasicAck::default())), None);
}

/// The frames of a message, whose body is cut at random.
fn frames(random: &mut Random, channel: u16, body: &[u8]) -> VecDeque<Vec<u8>> {
    let mut frames = VecDeque::from([opening(channel), header(channel, body.len() as u64)]);
    let mut rest = body;
    while !rest.is_empty() {
        let (piece, after) = rest.split_at(random.below(rest.len()) + usize::from(random.is_true()));
        frames.push_back(self::body(channel, piece));
        rest = after;
    }
    frames.iter().map(|frame| frame.as_frame().bytes().to_vec()).collect()
}

#[test]
fn many_channels_come_back_whole_and_in_order() {
    let mut random = Random::new(5);
    let mut sent: BTreeMap<u16, Vec<Vec<u8>>> = BTreeMap::new();
    let mut queues = Vec::new();
    for channel in 1..=1000 {
        let bodies: Vec<_> = (0..3).map(|_| random.bytes(300)).collect();
        queues.push(bodies.iter().flat_map(|body| frames(&mut random, channel, body)).collect::<VecDeque<_>>());
        sent.insert(channel, bodies);
    }
    let mut wire = Vec::new();
    while !queues.is_empty() {
        let place = random.below(queues.len());
        match queues[place].pop_front() {
            Some(frame) => wire.extend(frame),
            None => drop(queues.swap_remove(place)),
        }
    }
    let (mut reader, mut fed, mut rest) = (MessageReader::new(MAX_PAYLOAD, any()), Vec::new(), &wire[..]);
    while !rest.is_empty() {
        let (piece, after) = rest.split_at(random.below(2000).min(rest.len()));
        reader.feed(piece, &mut fed).unwrap();
        rest = after;
    }
    assert_eq!((reader.assembler().open_messages(), reader.assembler().held(), reader.finish()), (0, 0, Ok(())));
    let read: Vec<_> = messages(&wire[..], MAX_PAYLOAD, any()).collect::<Result<_, _>>().unwrap();
    assert_eq!(fed, read);
    let mut found: BTreeMap<u16, Vec<Vec<u8>>> = BTreeMap::new();
    fed.into_iter().filter_map(Received::message).for_each(|message| found.entry(message.channel()).or_default().push(message.into_body()));
    assert_eq!(found, sent);
}

#[test]
fn frames_of_no_message_come_in_their_order() {
    let beat = OwnedFrame::new(0, &Payload::Heartbeat).unwrap();
    let ack = OwnedFrame::new(2, &BasicAck::default()).unwrap();
    let header_of_connection = OwnedFrame::new(0, &ProtocolHeader::default()).unwrap();
    let sent = [&header_of_connection, &beat, &opening(1), &beat, &header(1, 2), &ack, &body(1, b"hi"), &ack];
    let wire = sent.map(|frame| frame.as_frame().bytes().to_vec()).concat();
    let read: Vec<_> = messages(&wire[..], MAX_PAYLOAD, any()).collect::<Result<_, _>>().unwrap();
    let (mut reader, mut fed) = (MessageReader::new(MAX_PAYLOAD, any()), Vec::new());
    wire.chunks(3).for_each(|piece| reader.feed(piece, &mut fed).unwrap());
    assert_eq!((reader.position(), reader.finish(), &fed), (wire.len() as u64, Ok(()), &read));
    let message = Message::new(1, BasicPublish { routing_key: "k", ..BasicPublish::default() }, Properties::default(), b"hi".to_vec());
    let frame = |frame: &OwnedFrame| Received::Frame(frame.clone());
    let wanted = [&header_of_connection, &beat, &beat, &ack].map(frame);
    assert_eq!((&read[..4], &read[4..]), (&wanted[..], &[Received::Message(message.unwrap()), frame(&ack)][..]));
}

/// The last of some frames is refused so; its channel stays at fault until it is forgotten, and another goes on.
fn refused(fault: ContentFault, frames: &[OwnedFrame]) {
    let mut assembler = Assembler::new(100, u64::MAX);
    let last = frames.last().unwrap();
    assert!(push(&mut assembler, &frames[..frames.len() - 1]).is_ok());
    for fault in [fault, ContentFault::Faulted] {
        assert_eq!(push(&mut assembler, std::slice::from_ref(last)), Err(Error::BadContent { channel: 1, fault }));
    }
    assert_eq!((assembler.open_messages(), assembler.held()), (0, 0));
    assert_eq!(push(&mut assembler, &[opening(9), header(9, 0)]), Ok("complete"));
    assembler.forget(1);
    assert_eq!(push(&mut assembler, &[opening(1), header(1, 2), body(1, b"hi")]), Ok("complete"));
    assert_eq!(assembler.finish(), Ok(()));
}

#[test]
fn each_fault_is_named_and_stays() {
    let other_class = OwnedFrame::new(1, &ContentHeader { class_id: 50, ..ContentHeader::default() }).unwrap();
    refused(ContentFault::UnexpectedMethod, &[opening(1), opening(1)]);
    refused(ContentFault::UnexpectedHeader, &[header(1, 0)]);
    refused(ContentFault::UnexpectedHeader, &[opening(1), header(1, 2), header(1, 2)]);
    refused(ContentFault::UnexpectedBody, &[body(1, b"x")]);
    refused(ContentFault::UnexpectedBody, &[opening(1), body(1, b"x")]);
    refused(ContentFault::WrongClass, &[opening(1), other_class]);
    refused(ContentFault::BodyTooLarge, &[opening(1), header(1, 101)]);
    refused(ContentFault::BodyOverrun, &[opening(1), header(1, 2), body(1, b"abc")]);
}

#[test]
fn a_frame_that_passes_the_bound_changes_nothing() {
    let length = opening(1).as_frame().payload().len() as u64;
    let mut assembler = Assembler::new(u64::MAX, length + 20);
    assert_eq!(push(&mut assembler, &[opening(1), header(1, 6)]), Ok("taken"));
    let held = assembler.held();
    for _ in 0..2 {
        assert_eq!(push(&mut assembler, &[opening(2)]), Err(Error::AssemblerFull));
        assert_eq!((assembler.open_messages(), assembler.held()), (1, held));
    }
    assert_eq!(push(&mut assembler, &[OwnedFrame::new(2, &BasicAck::default()).unwrap()]), Ok("passed"));
    assert_eq!(push(&mut assembler, &[body(1, b"123456")]), Ok("complete"));
    assert_eq!((assembler.open_messages(), assembler.held()), (0, 0));
    assert_eq!(push(&mut assembler, &[opening(2)]), Ok("taken"));
    assembler.forget(2);
    assert_eq!(assembler.held(), 0);
}

#[test]
fn the_end_is_tested() {
    let wire = [opening(1).as_frame().bytes(), header(1, 2).as_frame().bytes()].concat();
    let frames = || Frames::new(&wire, MAX_PAYLOAD);
    let open = Error::OpenContent { messages: 1 };
    let mut found = any().messages(frames());
    assert_eq!((found.next(), found.next()), (Some(Err(open)), None));
    let mut found = messages(&wire[..], MAX_PAYLOAD, any());
    assert!(matches!(found.next(), Some(Err(StreamError::Frame { error, offset })) if error == open && offset == wire.len() as u64));
    assert!(found.next().is_none());
    let cut = [&wire[..], &[3]].concat();
    assert!(matches!(messages(&cut[..], MAX_PAYLOAD, any()).next(), Some(Err(StreamError::Frame { error: Error::CutShort, .. }))));
    let full = Assembler::new(u64::MAX, 3).messages(frames()).next();
    assert_eq!(full, Some(Err(Error::AssemblerFull)));
    assert_eq!(Error::AssemblerFull.status(), 255);
    let first: Frame<'_> = frames().next().unwrap().unwrap();
    assert!(matches!(any().push(first), Ok(Pushed::Taken)));
}
