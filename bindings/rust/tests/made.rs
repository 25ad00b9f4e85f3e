//! Made streams, those of `bindings/cases.py` in the file that FEKSROUM_CASES names: each frame has the line of its bytes, and
//! is written as it was. Without such a file there is nothing to be tested, and this says so.

mod common;

use common::lines::line;
use feksroum::{canonicalize, dump, Encoder, Frame, Frames, Level, MAX_PAYLOAD};

/// The bytes of each case: a level, a length in four bytes with the lowest first, as many bytes, a count in two, and as many
/// sizes of two.
fn streams(mut file: &[u8]) -> Vec<&[u8]> {
    let mut streams = Vec::new();
    while let [_, a, b, c, d, rest @ ..] = file {
        let (stream, rest) = rest.split_at(u32::from_le_bytes([*a, *b, *c, *d]) as usize);
        let sizes = usize::from(u16::from_le_bytes([rest[0], rest[1]]));
        streams.push(stream);
        file = &rest[2 + 2 * sizes..];
    }
    assert!(file.is_empty());
    streams
}

fn canonical(bytes: &[u8]) -> Vec<u8> {
    let mut out = Vec::new();
    canonicalize(bytes, &mut out, MAX_PAYLOAD, Level::Plain).unwrap();
    out
}

fn is_written_back(frame: &Frame<'_>) {
    assert_eq!(line(frame), dump(frame.bytes(), MAX_PAYLOAD).written);
    let mut written = Vec::new();
    let encoder = Encoder::new(frame.channel()).with_max_payload(MAX_PAYLOAD);
    encoder.encode(&frame.decode().unwrap(), &mut written).unwrap();
    assert_eq!(written, canonical(frame.bytes()));
    assert_eq!(frame.summary().canonical, written == frame.bytes());
    assert_eq!(frame.into_owned().as_frame(), *frame);
}

#[test]
fn each_frame_has_its_line_and_is_written_back() {
    let Some(path) = std::env::var_os("FEKSROUM_CASES") else {
        println!("skipped: FEKSROUM_CASES names no file of made streams");
        return;
    };
    let file = std::fs::read(path).unwrap();
    let mut done = 0;
    for stream in streams(&file) {
        for frame in Frames::new(stream, MAX_PAYLOAD).map_while(Result::ok) {
            is_written_back(&frame);
            done += 1;
        }
    }
    println!("{done} frames");
    assert!(done > 0);
}
