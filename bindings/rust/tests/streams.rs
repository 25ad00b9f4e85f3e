//! Readers and writers that fail, pieces, and threads.

mod common;

use common::{example, examples, random::Random};
use feksroum::MAX_PAYLOAD;
use feksroum::{canonicalize, canonicalize_slice, dump, undump, Canonicalizer, Error, FrameType, Frames, Level, Scratch, StreamError};
use std::io::{self, Read, Write};
use std::thread;

/// Gives pieces of the same size, each after an interrupted read.
struct Pieces<'a> {
    bytes: &'a [u8],
    size: usize,
    interrupts: bool,
}

impl Read for Pieces<'_> {
    fn read(&mut self, buf: &mut [u8]) -> io::Result<usize> {
        self.interrupts = !self.interrupts;
        if self.interrupts {
            return Err(io::ErrorKind::Interrupted.into());
        }
        let size = self.size;
        Read::take(&mut self.bytes, size as u64).read(buf)
    }
}

/// Fails.
struct Broken;

impl Read for Broken {
    fn read(&mut self, _: &mut [u8]) -> io::Result<usize> {
        Err(io::Error::other("broken"))
    }
}

impl Write for Broken {
    fn write(&mut self, _: &[u8]) -> io::Result<usize> {
        Err(io::Error::other("broken"))
    }

    fn flush(&mut self) -> io::Result<()> {
        Ok(())
    }
}

#[test]
fn pieces_of_any_size_give_the_same_bytes() {
    let (bytes, wanted) = (example("raw/server_stream.raw"), example("raw/server_stream.out"));
    for size in [1, 2, 7, 8, 9, 100, 4096] {
        let mut out = Vec::new();
        canonicalize(Pieces { bytes: &bytes, size, interrupts: false }, &mut out, MAX_PAYLOAD, Level::Plain).unwrap();
        assert_eq!(out, wanted);
    }
}

#[test]
fn failed_reads_and_writes_are_reported() {
    let bytes = example("raw/body.raw");
    let read = canonicalize(bytes.chain(Broken), Vec::new(), MAX_PAYLOAD, Level::Plain).unwrap_err();
    assert!(matches!(read, StreamError::Read(_)) && read.status() == 4);
    let write = canonicalize(&bytes[..], Broken, MAX_PAYLOAD, Level::Plain).unwrap_err();
    assert!(matches!(write, StreamError::Write(_)) && write.status() == 5);
    assert_eq!(write.to_string(), "a write failed");
}

#[test]
fn frames_are_borrowed_and_end_with_the_error() {
    let bytes = [3, 0, 1, 0, 0, 0, 2, 104, 105, 206, 1, 0, 1, 0, 0, 0, 1, 0, 206];
    let mut frames = Frames::new(&bytes, MAX_PAYLOAD);
    let body = frames.next().unwrap().unwrap();
    assert_eq!((body.frame_type(), body.channel(), body.payload()), (FrameType::Body, 1, &b"hi"[..]));
    assert_eq!(frames.next(), Some(Err(Error::ShortPayload)));
    assert_eq!(frames.next(), None);
    assert_eq!(frames.rest(), &bytes[10..]);
}

#[test]
fn limits_hold() {
    let bytes = [3, 0, 1, 0, 0, 0, 2, 104, 105, 206];
    let mut scratch = Scratch::new();
    assert_eq!(canonicalize_slice(&bytes, &mut [0; 10], &mut scratch, 2, Level::Plain).end, Ok(()));
    assert_eq!(canonicalize_slice(&bytes, &mut [0; 10], &mut scratch, 1, Level::Plain).end, Err(Error::TooLarge));
}

/// A method with one table, whose keys come in this order.
fn table_of(keys: impl Iterator<Item = u16>) -> Vec<u8> {
    let entries: Vec<u8> = keys.flat_map(|key| [2, (key >> 6) as u8, (key & 63) as u8, b'V']).collect();
    let mut payload = vec![0, 50, 0, 10, 0, 0, 0, 0];
    payload.extend((entries.len() as u32).to_be_bytes());
    payload.extend(entries);
    let mut frame = vec![1, 0, 1];
    frame.extend((payload.len() as u32).to_be_bytes());
    frame.extend(payload);
    frame.push(206);
    frame
}

#[test]
fn a_scratch_changes_nothing_that_is_written() {
    let (falling, wanted) = (table_of((0..3000).rev()), table_of(0..3000));
    for mut scratch in [Scratch::new(), Scratch::for_payloads(falling.len() as u32).unwrap()] {
        let mut out = vec![0; falling.len()];
        let progress = canonicalize_slice(&falling, &mut out, &mut scratch, MAX_PAYLOAD, Level::Plain);
        assert_eq!((progress.written, progress.end), (wanted.len(), Ok(())));
        assert_eq!(out, wanted);
    }
}

#[test]
fn lines_end_at_the_first_fault() {
    let beat = [8, 0, 0, 0, 0, 0, 0, 206];
    let dumped = dump(&[&beat[..], &[9]].concat(), MAX_PAYLOAD);
    assert_eq!((dumped.written.as_str(), dumped.used, dumped.end), ("beat\n", 8, Err(Error::UnknownFrameType)));
    for (text, end) in [("beat\nbeat 0\n", Error::BadText), ("beat\nbeat", Error::CutShort)] {
        let undumped = undump(text.as_bytes(), MAX_PAYLOAD);
        assert_eq!((&undumped.written[..], undumped.used, undumped.end), (&beat[..], 5, Err(end)));
    }
    assert_eq!(undump(b"body 1 x6869\n", 1).end, Err(Error::BadText));
    assert_eq!((dump(&[], 0).end, undump(&[], 0).end), (Ok(()), Ok(())));
}

#[test]
fn four_threads_at_once() {
    let (bytes, wanted) = (example("raw/server_stream.raw"), example("raw/server_stream.out"));
    thread::scope(|scope| {
        for size in 1..=4 {
            let (bytes, wanted) = (&bytes, &wanted);
            scope.spawn(move || {
                for _ in 0..50 {
                    let mut out = Vec::new();
                    canonicalize(Pieces { bytes, size: size * 500, interrupts: false }, &mut out, MAX_PAYLOAD, Level::Plain).unwrap();
                    assert_eq!(&out, wanted);
                }
            });
        }
    });
}

/// All that a canonicalizer makes of a stream in pieces.
fn fed<'a>(pieces: impl IntoIterator<Item = &'a [u8]>, max_payload: u32, level: Level) -> (Vec<u8>, Result<(), Error>) {
    let mut stream = Canonicalizer::new(max_payload, level);
    let mut out = Vec::new();
    let mut end = Ok(());
    for piece in pieces {
        end = end.and(stream.feed(piece, &mut out));
        assert!(stream.held().len() < 8 + max_payload as usize);
    }
    assert_eq!(end.and_then(|()| stream.feed(&[], &mut out)), end);
    (out, end.and(stream.finish()))
}

#[test]
fn a_canonicalizer_is_fed_in_any_pieces() {
    let mut random = Random::new(4);
    let mut done = 0;
    for example in examples(common::OF_BYTES) {
        let bytes = example.bytes();
        for (level, max_payload) in [(Level::Plain, MAX_PAYLOAD), (Level::Tidy, MAX_PAYLOAD), (Level::Plain, 60)] {
            let mut out = vec![0; bytes.len()];
            let whole = canonicalize_slice(&bytes, &mut out, &mut Scratch::new(), max_payload, level);
            out.truncate(whole.written);
            for size in [1, 2, 3, 7, 8, 9, 50, bytes.len().max(1)] {
                assert_eq!(fed(bytes.chunks(size), max_payload, level), (out.clone(), whole.end), "{} by {size}", example.name);
                done += 1;
            }
            for _ in 0..20 {
                let (mut pieces, mut rest) = (Vec::new(), &bytes[..]);
                while !rest.is_empty() {
                    let (piece, after) = rest.split_at(random.below(40).min(rest.len()));
                    pieces.push(piece);
                    rest = after;
                }
                assert_eq!(fed(pieces, max_payload, level), (out.clone(), whole.end), "{}", example.name);
            }
        }
    }
    assert!(done > 500);
}

#[test]
fn a_fault_in_what_is_held_is_told_at_the_end() {
    for (bytes, error) in [
        (&b"AMX"[..], Error::BadProtocolHeader),
        (b"AMQ", Error::CutShort),
        (b"\x03\0\x01\xff\xff\xff\xff", Error::TooLarge),
        (b"\x03\0\x01\0\0\0", Error::CutShort),
        (b"\x03\0\x01\0\0\0\x01\xce", Error::CutShort),
        (b"\x09", Error::UnknownFrameType),
    ] {
        assert_eq!(fed(bytes.chunks(1), MAX_PAYLOAD, Level::Plain), (Vec::new(), Err(error)), "{bytes:?}");
    }
}

#[test]
fn a_fault_stays() {
    let mut stream = Canonicalizer::new(MAX_PAYLOAD, Level::Plain);
    let mut out = Vec::new();
    let beat = [8, 0, 0, 0, 0, 0, 0, 206];
    assert_eq!(stream.feed(&[&beat[..], &[9]].concat(), &mut out), Err(Error::UnknownFrameType));
    assert_eq!(stream.feed(&beat, &mut out), Err(Error::UnknownFrameType));
    assert_eq!((&out[..], stream.finish()), (&beat[..], Err(Error::UnknownFrameType)));
}

#[test]
fn small_pieces_of_a_large_frame_take_linear_time() {
    let length = 16_000_000_u32;
    let mut bytes = vec![3, 0, 1];
    bytes.extend(length.to_be_bytes());
    bytes.resize(7 + length as usize, 5);
    bytes.push(206);
    assert!(fed(bytes.chunks(16), length, Level::Plain) == (bytes.clone(), Ok(())));
}

#[test]
fn tables_in_no_order_are_sorted_in_pieces_too() {
    let (falling, wanted) = (table_of((0..8000).rev()), table_of(0..8000));
    assert!(fed(falling.chunks(1000), MAX_PAYLOAD, Level::Plain) == (wanted, Ok(())));
}

/// How many bytes of memory the process has.
#[cfg(target_os = "linux")]
fn resident() -> usize {
    let pages = std::fs::read_to_string("/proc/self/statm").unwrap();
    pages.split(' ').nth(1).unwrap().parse::<usize>().unwrap() * 4096
}

#[test]
#[cfg(target_os = "linux")]
fn a_scratch_touches_no_memory_before_it_is_used() {
    let before = resident();
    let scratch = Scratch::for_payloads(1 << 28).unwrap();
    assert!(resident() < before + (1 << 26), "2 GiB of scratch are not there before they are used");
    drop(scratch);
}

#[test]
fn the_largest_limit_takes_no_memory_by_itself() {
    match Scratch::for_payloads(u32::MAX) {
        Ok(_) | Err(Error::NoMemory) => {}
        Err(error) => panic!("{error}"),
    }
    let (bytes, wanted) = (example("raw/server_stream.raw"), example("raw/server_stream.out"));
    let mut out = Vec::new();
    canonicalize(&bytes[..], &mut out, u32::MAX, Level::Plain).unwrap();
    assert_eq!(out, wanted);
}
