//! Runs made streams, and writes what came out, for comparing with the other languages:
//!
//!     cases CASES RESULTS             the canonical bytes; the forms of both files stand in `bindings/c/cases.c`
//!     cases typed CASES RESULTS       all frames with their fields
//!     cases contents CASES RESULTS    what filtering, recutting and assembling make of streams of messages
//!
//! Each prints how many bytes the results have, and their CRC-32.

mod case;
mod contents;
mod typed;

use case::{bytes, Case, Pieces};
use feksroum::{canonicalize, Canonicalizer, Error, Level, StreamError, MAX_PAYLOAD};
use std::error::Error as AnyError;
use std::{env, fs};

/// The canonical bytes of a case after its status, by a reader and by a canonicalizer.
fn canonical(case: &Case<'_>, results: &mut Vec<u8>) {
    let level = if case.choice == 1 { Level::Tidy } else { Level::Plain };
    let mut out = Vec::new();
    let read = canonicalize(Pieces(case.pieces().into_iter()), &mut out, MAX_PAYLOAD, level);
    let status = read.as_ref().map_or_else(StreamError::status, |()| 0);
    let mut stream = Canonicalizer::new(MAX_PAYLOAD, level);
    let mut fed = Vec::new();
    let end = case.pieces().into_iter().try_for_each(|piece| stream.feed(piece, &mut fed));
    let fed_status = end.and(stream.finish()).map_or_else(Error::status, |()| 0);
    assert_eq!((status, &out), (fed_status, &fed), "fed in pieces as read");
    results.push(status);
    bytes(&out, results);
}

/// The CRC-32 that zip files have.
fn crc32(bytes: &[u8]) -> u32 {
    let shift = |crc: u32| (crc >> 1) ^ (0xedb8_8320 * (crc & 1));
    !bytes.iter().fold(!0, |crc, byte| (0..8).fold(crc ^ u32::from(*byte), |crc, _| shift(crc)))
}

/// What is written for a case.
type Run = fn(&Case<'_>, &mut Vec<u8>);

fn main() -> Result<(), Box<dyn AnyError>> {
    let words: Vec<String> = env::args().skip(1).collect();
    let words: Vec<&str> = words.iter().map(String::as_str).collect();
    let (name, run, from, to) = match words[..] {
        ["typed", from, to] => ("typed", typed::typed as Run, from, to),
        ["contents", from, to] => ("contents", contents::contents as Run, from, to),
        [from, to] => ("canonical", canonical as Run, from, to),
        _ => return Err("cases [typed | contents] CASES RESULTS".into()),
    };
    let cases = fs::read(from)?;
    let mut file = &cases[..];
    let mut results = Vec::new();
    while !file.is_empty() {
        run(&Case::first(&mut file).ok_or("the file of cases is cut short")?, &mut results);
    }
    println!("{name}: {} bytes, crc32 {:08x}", results.len(), crc32(&results));
    fs::write(to, results)?;
    Ok(())
}
