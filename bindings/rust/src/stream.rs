//! Streams that come in pieces and are written in pieces, from a reader to a writer.

use crate::error::{Error, StreamError};
use std::io::{self, ErrorKind, Read, Write};

/// How many bytes are read at once.
pub const PIECE: usize = 65_536;

/// What is fed with pieces.
pub trait Stream {
    /// Appends what is written for one more piece.
    fn feed(&mut self, piece: &[u8], out: &mut Vec<u8>) -> Result<(), Error>;

    /// Where in the stream what follows the frames begins that were taken.
    fn position(&self) -> u64;

    /// Ends the stream.
    fn finish(&self) -> Result<(), Error>;
}

/// Feeds a stream with all that a reader gives, and writes before each further read what it gives for that.
pub fn run<R: Read, W: Write>(mut stream: impl Stream, mut reader: R, mut writer: W) -> Result<(), StreamError> {
    let mut piece = vec![0; PIECE];
    let mut out = Vec::new();
    loop {
        let read = read(&mut reader, &mut piece).map_err(StreamError::Read)?;
        if read.is_empty() {
            return stream.finish().map_err(|error| StreamError::Frame { error, offset: stream.position() });
        }
        let fed = stream.feed(read, &mut out);
        writer.write_all(&out).map_err(StreamError::Write)?;
        out.clear();
        fed.map_err(|error| StreamError::Frame { error, offset: stream.position() })?;
    }
}

/// What a reader gives next, none at its end.
pub fn read<'a, R: Read>(reader: &mut R, piece: &'a mut [u8]) -> io::Result<&'a [u8]> {
    loop {
        match reader.read(piece) {
            Ok(count) => return Ok(piece.get(..count).unwrap_or_default()),
            Err(error) if error.kind() == ErrorKind::Interrupted => {}
            Err(error) => return Err(error),
        }
    }
}
