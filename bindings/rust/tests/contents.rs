//! Filtering and recutting: the repository's examples, rules, failures.

mod common;

use common::examples;
use feksroum::method::BasicPublish;
use feksroum::{filter, recut, Content, ContentFault, Encode, Error, Filter, Frames, Recutter, Rules, RulesError};
use feksroum::{StreamError, MAX_PAYLOAD};
use std::error::Error as _;
use std::io::{self, Read, Write};
use std::num::NonZeroU32;

const BEAT: [u8; 8] = [8, 0, 0, 0, 0, 0, 0, 206];

fn keep() -> Rules {
    Rules::new(["keep"]).unwrap()
}

fn size(size: u32) -> NonZeroU32 {
    NonZeroU32::new(size).unwrap()
}

/// A message on channel 1.
fn message(body: &[u8]) -> Vec<u8> {
    let mut wire = Vec::new();
    BasicPublish::default().encode(1, &mut wire).unwrap();
    Content { body, ..Content::default() }.encode(1, &mut wire).unwrap();
    wire
}

#[test]
fn examples_are_as_wanted() {
    let mut done = 0;
    for example in examples(&["filter", "recut"]) {
        let (words, name) = (&example.words, &example.name);
        let mut out = Vec::new();
        let end = match example.command.as_str() {
            "filter" => Rules::new(words.clone()).map(|rules| filter(&example.input[..], &mut out, MAX_PAYLOAD, rules)).ok(),
            _ => words[0].parse().map(|size| recut(&example.input[..], &mut out, MAX_PAYLOAD, size)).ok(),
        };
        let status = end.map_or(2, |end| end.as_ref().map_or_else(StreamError::status, |()| 0));
        assert_eq!((status, out), (example.status, example.wanted), "{name}");
        done += 1;
    }
    assert_eq!(done, 10);
}

#[test]
fn rules_decide_and_name_what_is_none() {
    let (wire, rules) = (message(b"hello"), Rules::new(["drop,class=60,method=40", "keep,channel=1"]).unwrap());
    let decided: Vec<_> = Frames::new(&[&wire[..], &BEAT].concat(), MAX_PAYLOAD).map(|frame| rules.decide(&frame.unwrap())).collect();
    assert_eq!(decided, [Ok(false), Ok(true), Ok(true), Ok(false)]);
    assert_eq!(rules.to_string(), "drop,class=60,method=40 keep,channel=1");
    assert_eq!(format!("{rules:?}"), r#"Rules(["drop,class=60,method=40", "keep,channel=1"])"#);
    for word in ["", "keep ", "keep,channel=5-1", "kéep", "Keep"] {
        let error = Rules::new(["keep", word]).unwrap_err();
        assert_eq!(error, RulesError::NoRule(word.into()));
        assert_eq!(error.to_string(), format!("{word:?} is no rule"));
    }
    assert!(Rules::new(vec!["keep"; 64]).is_ok());
    for count in [0, 65] {
        let error = Rules::new(vec!["keep"; count]).unwrap_err();
        assert_eq!(error.to_string(), format!("1 to 64 rules are wanted, and {count} were given"));
    }
}

#[test]
fn a_closure_decides_once_a_message() {
    let mut wire = Vec::new();
    for (channel, routing_key) in [(1, "a.1"), (2, "b.1"), (1, "b.2"), (1, "a.2")] {
        BasicPublish { routing_key, ..BasicPublish::default() }.encode(channel, &mut wire).unwrap();
        Content { body: b"hello", ..Content::default() }.encode(channel, &mut wire).unwrap();
        wire.extend(BEAT);
    }
    let (mut seen, mut out) = (Vec::new(), Vec::new());
    let mut filter = Filter::of_openings(MAX_PAYLOAD, |channel, opening| {
        seen.push((channel, opening.routing_key().to_owned()));
        opening.routing_key().starts_with("a.")
    });
    wire.chunks(9).for_each(|piece| filter.feed(piece, &mut out).unwrap());
    assert_eq!((filter.position(), filter.finish()), (wire.len() as u64, Ok(())));
    assert_eq!(seen, [(1, "a.1"), (2, "b.1"), (1, "b.2"), (1, "a.2")].map(|(channel, key)| (channel, key.to_owned())));
    let kept: Vec<_> = Frames::new(&out, MAX_PAYLOAD).map(|frame| frame.unwrap().bytes().to_vec()).collect();
    let all: Vec<_> = Frames::new(&wire, MAX_PAYLOAD).map(|frame| frame.unwrap().bytes().to_vec()).collect();
    let wanted: Vec<_> = [0, 1, 2, 3, 7, 11, 12, 13, 14, 15].iter().map(|place| all[*place].clone()).collect();
    assert_eq!(kept, wanted);
}

#[test]
fn a_fault_stays() {
    let wire = message(b"hello");
    let body = &wire[wire.len() - 13..];
    let fault = Error::BadContent { channel: 1, fault: ContentFault::UnexpectedBody };
    let (mut filter, mut recutter) = (Filter::new(MAX_PAYLOAD, keep()), Recutter::new(MAX_PAYLOAD, size(2)));
    let mut out = Vec::new();
    assert_eq!((filter.feed(&wire, &mut out), filter.open_messages()), (Ok(()), 0));
    assert_eq!((filter.feed(body, &mut out), filter.feed(&BEAT, &mut out)), (Err(fault), Err(fault)));
    assert_eq!(filter.position(), wire.len() as u64);
    assert_eq!((out, filter.finish()), (wire.clone(), Err(fault)));
    let mut out = Vec::new();
    assert_eq!(recutter.feed(&[&BEAT, body, &BEAT].concat(), &mut out), Err(fault));
    assert_eq!((recutter.position(), out, recutter.finish()), (8, BEAT.to_vec(), Err(fault)));
    let text = "a body outside of a message, or before the content header (UnexpectedBody), on channel 1";
    assert_eq!((fault.to_string(), fault.status(), fault.name()), (text.into(), 24, "BadContent"));
}

#[test]
fn an_open_message_is_a_fault_of_the_end() {
    let wire = message(b"hello");
    let (mut out, open) = (Vec::new(), wire.len() - 13);
    let error = filter(&wire[..open], &mut out, MAX_PAYLOAD, keep()).unwrap_err();
    assert!(matches!(error, StreamError::Frame { error: Error::OpenContent { messages: 1 }, offset } if offset == open as u64));
    assert_eq!((error.status(), error.to_string()), (25, format!("the input ends inside a message, at byte {open}")));
    assert_eq!(Error::OpenContent { messages: 3 }.to_string(), "the input ends inside a message: 3 are open");
    assert_eq!(out, wire[..open]);
    let error = recut(&wire[..open + 3], &mut out, MAX_PAYLOAD, size(2)).unwrap_err();
    assert!(matches!(error, StreamError::Frame { error: Error::CutShort, offset } if offset == open as u64));
}

/// Fails.
struct Broken;

impl Read for Broken {
    fn read(&mut self, _: &mut [u8]) -> io::Result<usize> {
        Err(io::Error::other("broken"))
    }
}

impl Write for Broken {
    fn write(&mut self, _: &[u8]) -> io::Result<usize> {
        Err(io::Error::other("broken"))
    }

    fn flush(&mut self) -> io::Result<()> {
        Ok(())
    }
}

#[test]
fn failed_reads_and_writes_are_reported() {
    let error = filter(Broken, io::sink(), MAX_PAYLOAD, keep()).unwrap_err();
    assert_eq!((error.status(), error.to_string()), (4, "a read failed".into()));
    assert_eq!(error.source().map(ToString::to_string), Some("broken".into()));
    assert_eq!(recut(&BEAT[..], Broken, MAX_PAYLOAD, size(2)).unwrap_err().status(), 5);
}

#[test]
fn bodies_are_cut_and_joined_again() {
    let body: Vec<u8> = (0..100_000_u32).map(|k| (k % 251) as u8).collect();
    let wire = message(&body);
    for pieces in [1, 7, 1000, 99_999, 100_000, 131_072] {
        let (mut out, mut joined) = (Vec::new(), Vec::new());
        recut(&wire[..], &mut out, MAX_PAYLOAD, size(pieces)).unwrap();
        let lengths: Vec<_> = Frames::new(&out, MAX_PAYLOAD).skip(2).map(|frame| frame.unwrap().payload().len()).collect();
        assert_eq!(lengths.len(), 100_000_usize.div_ceil(pieces as usize));
        assert!(lengths[..lengths.len() - 1].iter().all(|length| *length == pieces as usize));
        recut(&out[..], &mut joined, MAX_PAYLOAD, size(MAX_PAYLOAD)).unwrap();
        assert_eq!(joined, wire);
    }
}
