//! Bytes that were changed at random: nothing panics, and what is read at once, in pieces and out of a reader is the same.

mod common;

use common::{examples, random::Random, OF_BYTES};
use feksroum::{
    canonicalize, dump, messages, undump, Array, Assembler, Canonicalizer, Error, Filter, FrameReader, Frames, Level, MessageReader,
    OwnedFrame, Payload, Received, Recutter, Rules, StreamError, Table, MAX_PAYLOAD,
};
use std::num::NonZeroU32;

/// The examples' bytes with some of them changed, cut off or doubled.
fn damaged(random: &mut Random, bytes: &[u8]) -> Vec<u8> {
    let mut bytes = bytes.to_vec();
    for _ in 0..=random.below(3) {
        let place = random.below(bytes.len());
        match random.below(4) {
            0 => bytes.truncate(place + 1),
            1 => bytes.extend_from_within(place..),
            2 => bytes[place] ^= 1 << random.below(8),
            _ => bytes[place] = random.number() as u8,
        }
    }
    bytes
}

/// The frames in front and why they end, read at once; each of them is looked at in whole.
fn at_once(bytes: &[u8]) -> (Vec<OwnedFrame>, Result<(), Error>) {
    let (mut found, mut end) = (Vec::new(), Ok(()));
    for frame in Frames::new(bytes, MAX_PAYLOAD) {
        match frame {
            Ok(frame) => {
                assert_eq!(Payload::read(frame.frame_type(), frame.payload()), frame.decode());
                assert!(format!("{frame:?} {:?}", frame.decode()).len() > 10);
                found.push(frame.into_owned());
            }
            Err(error) => end = Err(error),
        }
    }
    (found, end)
}

fn in_pieces(bytes: &[u8], size: usize) -> (Vec<OwnedFrame>, Result<(), Error>) {
    let (mut reader, mut found) = (FrameReader::new(MAX_PAYLOAD), Vec::new());
    for piece in bytes.chunks(size) {
        reader.feed(piece).unwrap();
        loop {
            match reader.next_frame() {
                Ok(Some(frame)) => found.push(frame.into_owned()),
                Ok(None) => break,
                Err(error) => return (found, Err(error)),
            }
        }
    }
    (found, reader.finish())
}

fn of_a_reader(mut bytes: &[u8]) -> (Vec<OwnedFrame>, Result<(), Error>) {
    let (mut reader, mut found) = (FrameReader::new(MAX_PAYLOAD), Vec::new());
    loop {
        match reader.read_frame(&mut bytes) {
            Ok(Some(frame)) => found.push(frame.into_owned()),
            Ok(None) => return (found, Ok(())),
            Err(StreamError::Frame { error, .. }) => return (found, Err(error)),
            Err(error) => panic!("{error}"),
        }
    }
}

/// What messages are made of it, at once and in pieces.
fn assembled(bytes: &[u8], size: usize) {
    let any = || Assembler::new(u64::MAX, u64::MAX);
    let (mut reader, mut fed) = (MessageReader::new(MAX_PAYLOAD, any()), Vec::new());
    let end = bytes.chunks(size).try_for_each(|piece| reader.feed(piece, &mut fed)).and_then(|()| reader.finish());
    let (mut read, mut read_end) = (Vec::new(), Ok(()));
    for received in messages(bytes, MAX_PAYLOAD, any()) {
        match received {
            Ok(received) => read.push(received),
            Err(StreamError::Frame { error, .. }) => read_end = Err(error),
            Err(error) => panic!("{error}"),
        }
    }
    for message in fed.iter().cloned().filter_map(Received::message) {
        assert!(format!("{:?} {:?}", message.opening(), message.properties()).len() > 10);
    }
    assert_eq!((fed, end), (read, read_end));
}

/// What is written of it, in pieces.
fn rewritten(bytes: &[u8], size: usize) {
    let mut out = Vec::new();
    let _ = canonicalize(bytes, &mut out, MAX_PAYLOAD, Level::Tidy);
    let (mut canonicalizer, mut filter) =
        (Canonicalizer::new(MAX_PAYLOAD, Level::Plain), Filter::of_openings(MAX_PAYLOAD, |channel, _| channel == 1));
    let mut ruled = Filter::new(MAX_PAYLOAD, Rules::new(["drop,kind=beat", "keep"]).unwrap());
    let mut recutter = Recutter::new(MAX_PAYLOAD, NonZeroU32::new(3).unwrap());
    for piece in bytes.chunks(size) {
        let _ = canonicalizer.feed(piece, &mut out);
        let _ = filter.feed(piece, &mut out);
        let _ = ruled.feed(piece, &mut out);
        let _ = recutter.feed(piece, &mut out);
    }
    let _ = (canonicalizer.finish(), filter.finish(), ruled.finish(), recutter.finish());
    let lines = dump(bytes, MAX_PAYLOAD);
    let _ = undump(lines.written.as_bytes(), MAX_PAYLOAD);
    let _ = undump(bytes, MAX_PAYLOAD);
}

/// As tables and arrays.
fn contents(bytes: &[u8]) {
    if let Ok(table) = Table::from_content(bytes) {
        assert_eq!(format!("{table:?}"), format!("{:?}", table.into_owned()));
    }
    if let Ok(array) = Array::from_content(bytes) {
        assert_eq!(format!("{array:?}"), format!("{:?}", array.into_owned()));
    }
}

#[test]
fn nothing_panics_and_readers_agree() {
    let mut random = Random::new(3);
    let (mut done, mut faults) = (0, 0);
    for example in examples(OF_BYTES) {
        let bytes = example.bytes();
        if bytes.is_empty() || bytes.len() > 5000 {
            continue;
        }
        for _ in 0..20 {
            let (bytes, size) = (damaged(&mut random, &bytes), 1 + random.below(40));
            let (found, end) = at_once(&bytes);
            assert_eq!(in_pieces(&bytes, size), (found.clone(), end), "{}", example.name);
            assert_eq!(of_a_reader(&bytes), (found, end), "{}", example.name);
            assembled(&bytes, size);
            rewritten(&bytes, size);
            contents(&bytes[random.below(bytes.len())..]);
            done += 1;
            faults += usize::from(end.is_err());
        }
    }
    assert!(done > 500 && faults > 100, "{done} {faults}");
}
