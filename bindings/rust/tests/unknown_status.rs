//! A library whose calls all answer status 99, which none of them has: each call of this crate ends, with an error that says so. `.ci/rust`
//! links answers_99.c for that; over another library there is nothing to be tested, and this says so.

use feksroum::method::BasicAck;
use feksroum::{canonicalize, canonicalize_slice, check, dump, library_version, messages, undump, Assembler, Canonicalizer, Encode};
use feksroum::{EncodeError, Error, Filter, FrameType, Frames, Level, Payload, Recutter, Rules, RulesError, Scratch, StreamError};
use feksroum::{Table, TableBuf, MAX_PAYLOAD};
use std::num::NonZeroU32;

const BEAT: [u8; 8] = [8, 0, 0, 0, 0, 0, 0, 206];
const UNKNOWN: Error = Error::Incompatible(99);

#[test]
fn each_call_ends_with_an_error() {
    if library_version() != (0, 0, 99) {
        println!("skipped: the library is a real one");
        return;
    }
    assert_eq!((dump(&BEAT, MAX_PAYLOAD).end, undump(b"beat\n", MAX_PAYLOAD).end), (Err(UNKNOWN), Err(UNKNOWN)));
    let mut out = Vec::new();
    let read = canonicalize(&BEAT[..], &mut out, MAX_PAYLOAD, Level::Plain);
    assert!(matches!(read, Err(StreamError::Frame { error: UNKNOWN, .. })), "{read:?}");
    let mut stream = Canonicalizer::new(MAX_PAYLOAD, Level::Plain);
    assert_eq!((stream.feed(&BEAT, &mut out), stream.finish()), (Err(UNKNOWN), Err(UNKNOWN)));
    assert_eq!(canonicalize_slice(&BEAT, &mut [0; 8], &mut Scratch::new(), MAX_PAYLOAD, Level::Plain).end, Err(UNKNOWN));
    assert_eq!(Frames::new(&BEAT, MAX_PAYLOAD).collect::<Vec<_>>(), [Err(UNKNOWN)]);
    assert_eq!(check(FrameType::Heartbeat, b""), Err(UNKNOWN));
    assert_eq!(Payload::read(FrameType::Heartbeat, b""), Err(UNKNOWN));
    assert_eq!(Table::from_content(b""), Err(UNKNOWN));
    assert_eq!(TableBuf::from_entries([("key", 1)]), Err(EncodeError::Incompatible(99)));
    assert_eq!(BasicAck::default().encode(1, &mut out), Err(EncodeError::Incompatible(99)));
    assert_eq!(BasicAck::default().encode_to_slice(1, &mut [0; 30]), Err(EncodeError::Incompatible(99)));
    assert_eq!(Rules::new(["drop"]), Err(RulesError::Incompatible(99)));
    let mut stream = Filter::new(MAX_PAYLOAD, Rules::new(["keep"]).unwrap());
    assert_eq!((stream.feed(&BEAT, &mut out), stream.finish()), (Err(UNKNOWN), Err(UNKNOWN)));
    let mut stream = Recutter::new(MAX_PAYLOAD, NonZeroU32::MIN);
    assert_eq!((stream.feed(&BEAT, &mut out), stream.finish()), (Err(UNKNOWN), Err(UNKNOWN)));
    let found: Vec<_> = messages(&BEAT[..], MAX_PAYLOAD, Assembler::new(9, 9)).collect();
    assert!(matches!(found[..], [Err(StreamError::Frame { error: UNKNOWN, .. })]), "{found:?}");
    assert!(out.is_empty());
}

#[test]
fn the_library_is_of_the_version_of_the_crate() {
    let (major, minor, patch) = library_version();
    let is_stand_in = (major, minor, patch) == (0, 0, 99);
    assert!(is_stand_in || format!("{major}.{minor}.{patch}") == env!("CARGO_PKG_VERSION"));
}
