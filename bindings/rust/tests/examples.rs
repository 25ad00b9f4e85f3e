//! The repository's examples, each as the program does it, and each frame of them typed.

mod common;

use common::{examples, lines::line, Example, OF_BYTES};
use feksroum::{canonicalize, dump, undump, Encoder, Error, Frames, Level, StreamError, MAX_PAYLOAD};

/// What `hex` and `tidy` print.
fn report(out: &[u8], end: &Result<(), StreamError>) -> Vec<u8> {
    let fault = match end {
        Err(StreamError::Frame { error, .. }) => format!("{}\n", error.name()),
        Err(error) => panic!("{error}"),
        Ok(()) => String::new(),
    };
    format!("{}\n{fault}", common::to_hex(out)).into_bytes()
}

/// The canonical bytes of the frames in front.
fn canonical(bytes: &[u8]) -> Vec<u8> {
    let mut out = Vec::new();
    let _ = canonicalize(bytes, &mut out, MAX_PAYLOAD, Level::Plain);
    out
}

#[test]
fn lines_are_as_wanted() {
    let mut done = 0;
    for Example { name, command, status, input, wanted, .. } in examples(&["dump", "undump"]) {
        let (written, end) = if command == "dump" {
            let dumped = dump(&input, MAX_PAYLOAD);
            assert_eq!(undump(dumped.written.as_bytes(), MAX_PAYLOAD).written, canonical(&input), "{name}");
            (dumped.written.into_bytes(), dumped.end)
        } else {
            let undumped = undump(&input, MAX_PAYLOAD);
            (undumped.written, undumped.end)
        };
        assert_eq!(end.map_or_else(Error::status, |()| 0), status, "{name}");
        assert_eq!(written, wanted, "{name}");
        done += 1;
    }
    assert!(done > 3);
}

#[test]
fn examples_are_as_wanted() {
    let mut done = 0;
    for example in examples(&["hex", "tidy", "raw", "lent"]) {
        let (name, bytes) = (&example.name, example.bytes());
        let level = if example.command == "tidy" { Level::Tidy } else { Level::Plain };
        let mut out = Vec::new();
        let end = canonicalize(&bytes[..], &mut out, MAX_PAYLOAD, level);
        assert_eq!(end.as_ref().map_or_else(StreamError::status, |()| 0), example.status, "{name}");
        if level == Level::Plain {
            let frames = Frames::new(&bytes, MAX_PAYLOAD).try_for_each(|frame| frame.map(|_| ()));
            assert_eq!(frames.map_or_else(Error::status, |()| 0), example.status, "{name}");
        }
        assert_eq!(if example.is_hex() { report(&out, &end) } else { out }, example.wanted, "{name}");
        done += 1;
    }
    assert!(done > 20);
}

#[test]
fn typed_frames_have_the_lines_of_their_bytes() {
    let mut done = 0;
    for example in examples(OF_BYTES) {
        for frame in Frames::new(&example.bytes(), MAX_PAYLOAD).map_while(Result::ok) {
            assert_eq!(line(&frame), dump(frame.bytes(), MAX_PAYLOAD).written, "{}", example.name);
            done += 1;
        }
    }
    assert!(done > 100);
}

#[test]
fn typed_frames_are_written_canonically() {
    for example in examples(OF_BYTES) {
        for frame in Frames::new(&example.bytes(), MAX_PAYLOAD).map_while(Result::ok) {
            let mut written = Vec::new();
            let encoder = Encoder::new(frame.channel()).with_max_payload(MAX_PAYLOAD);
            encoder.encode(&frame.decode().unwrap(), &mut written).unwrap();
            assert_eq!(written, canonical(frame.bytes()), "{}", example.name);
            assert_eq!(frame.summary().canonical, written == frame.bytes(), "{}", example.name);
        }
    }
}
