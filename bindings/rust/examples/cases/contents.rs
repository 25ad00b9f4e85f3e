//! What comes of a stream of messages: `bindings/contents.py` has the form.

use crate::case::{bytes, Case, Pieces};
use feksroum::{filter, messages, recut, Assembler, ContentFault, Error, Filter, Frames, Message, MessageReader, Opening, Received};
use feksroum::{Recutter, Rules, StreamError, MAX_PAYLOAD};
use std::num::NonZeroU32;

/// What is done with a case: the rules, the size of pieces, the bounds of a body and of what is open.
type Choice = (&'static [&'static str], u32, u64, u64);

const CHOICES: [Choice; 6] = [
    (&["keep"], 1, u64::MAX, u64::MAX),
    (&["drop,class=60,method=40", "keep"], 2, u64::MAX, u64::MAX),
    (&["keep,kind=method"], 7, 64, u64::MAX),
    (&["keep,channel=1-5"], 100, u64::MAX, 300),
    (&["drop,kind=beat", "drop,channel=2-700,class=60,method=60", "keep"], 4096, 1000, 5000),
    (&["drop,class=60,method=50", "keep,channel=0-400"], 131_072, u64::MAX, u64::MAX),
];

/// The status and the bytes of filtering and of recutting, and the messages.
pub fn contents(case: &Case<'_>, results: &mut Vec<u8>) {
    let (words, size, max_body, max_open) = CHOICES[usize::from(case.choice)];
    filtered(case, Rules::new(words.iter().copied()).expect("they are rules"), results);
    recut_by(case, NonZeroU32::new(size).expect("it is not 0"), results);
    assembled(case, max_body, max_open, results);
}

fn filtered(case: &Case<'_>, rules: Rules, results: &mut Vec<u8>) {
    let (mut out, mut fed) = (Vec::new(), Vec::new());
    let read = filter(Pieces(case.pieces().into_iter()), &mut out, MAX_PAYLOAD, rules.clone());
    let mut stream = Filter::new(MAX_PAYLOAD, rules);
    let end = stream.feed(case.bytes, &mut fed).and_then(|()| stream.finish());
    put(read, end, &out, &fed, results);
}

fn recut_by(case: &Case<'_>, size: NonZeroU32, results: &mut Vec<u8>) {
    let (mut out, mut fed) = (Vec::new(), Vec::new());
    let read = recut(Pieces(case.pieces().into_iter()), &mut out, MAX_PAYLOAD, size);
    let mut stream = Recutter::new(MAX_PAYLOAD, size);
    let end = stream.feed(case.bytes, &mut fed).and_then(|()| stream.finish());
    put(read, end, &out, &fed, results);
}

/// The status and what was written, which is the same in pieces and at once.
fn put(read: Result<(), StreamError>, end: Result<(), Error>, out: &[u8], fed: &[u8], results: &mut Vec<u8>) {
    let status = read.as_ref().map_or_else(StreamError::status, |()| 0);
    assert_eq!((status, out), (end.map_or_else(Error::status, |()| 0), fed), "in pieces as at once");
    results.push(status);
    bytes(out, results);
}

fn assembled(case: &Case<'_>, max_body: u64, max_open: u64, results: &mut Vec<u8>) {
    let assembler = || Assembler::new(max_body, max_open);
    let (found, end) = split(assembler().messages(Frames::new(case.bytes, MAX_PAYLOAD)));
    let pieces = messages(Pieces(case.pieces().into_iter()), MAX_PAYLOAD, assembler());
    let read = split(pieces.map(|received| match received {
        Err(StreamError::Frame { error, .. }) => Err(error),
        Err(error) => panic!("{error}"),
        Ok(received) => Ok(received),
    }));
    assert_eq!((&found, end), (&read.0, read.1), "read in pieces as at once");
    let (mut reader, mut fed) = (MessageReader::new(MAX_PAYLOAD, assembler()), Vec::new());
    let fed_end = case.pieces().into_iter().try_for_each(|piece| reader.feed(piece, &mut fed)).and_then(|()| reader.finish());
    assert_eq!((&found, end), (&fed, fed_end), "fed in pieces as at once");
    found.into_iter().filter_map(Received::message).for_each(|message| put_message(&message, results));
    results.extend([255, 255, 0, 0]);
    put_end(end, results);
}

/// All messages and other frames, and why they end.
fn split(received: impl Iterator<Item = Result<Received, Error>>) -> (Vec<Received>, Result<(), Error>) {
    let (mut found, mut end) = (Vec::new(), Ok(()));
    for received in received {
        match received {
            Ok(received) => found.push(received),
            Err(error) => end = Err(error),
        }
    }
    (found, end)
}

fn put_message(message: &Message, results: &mut Vec<u8>) {
    let (id, key) = match message.opening() {
        Opening::Publish(publish) => (40_u16, publish.routing_key),
        Opening::Return(returned) => (50, returned.routing_key),
        Opening::Deliver(deliver) => (60, deliver.routing_key),
        Opening::GetOk(get_ok) => (71, get_ok.routing_key),
    };
    results.extend(message.channel().to_le_bytes());
    results.extend(id.to_le_bytes());
    bytes(key.as_bytes(), results);
    results.push(message.properties().priority.unwrap_or(255));
    bytes(message.body(), results);
}

/// The status; the fault, its channel, and how many messages are open.
fn put_end(end: Result<(), Error>, results: &mut Vec<u8>) {
    let (fault, channel, open) = match end {
        Err(Error::BadContent { channel, fault }) => (ContentFault::number(fault), channel, 0),
        Err(Error::OpenContent { messages }) => (0, 0, messages),
        _ => (0, 0, 0),
    };
    results.extend([end.map_or_else(Error::status, |()| 0), fault]);
    results.extend(channel.to_le_bytes());
    results.extend((open as u32).to_le_bytes());
}
