//! Made streams, as they stand in a file.

use std::io::{self, Read};

/// A made stream: what is done with it, by a number, its bytes, and the sizes of the pieces that it comes in.
pub struct Case<'a> {
    pub choice: u8,
    pub bytes: &'a [u8],
    sizes: Vec<usize>,
}

impl<'a> Case<'a> {
    /// The case in front of a file.
    pub fn first(file: &mut &'a [u8]) -> Option<Case<'a>> {
        let choice = *take(file, 1)?.first()?;
        let length = u32::from_le_bytes(take(file, 4)?.try_into().ok()?);
        let bytes = take(file, usize::try_from(length).ok()?)?;
        let count = u16::from_le_bytes(take(file, 2)?.try_into().ok()?);
        let sizes = take(file, 2 * usize::from(count))?.chunks(2).map(|size| usize::from(u16::from_le_bytes([size[0], size[1]])));
        Some(Case { choice, bytes, sizes: sizes.collect() })
    }

    /// Its bytes in pieces, and what is left after these.
    pub fn pieces(&self) -> Vec<&'a [u8]> {
        let mut rest = self.bytes;
        let mut pieces = Vec::new();
        for size in &self.sizes {
            let (piece, after) = rest.split_at((*size).min(rest.len()));
            pieces.push(piece);
            rest = after;
        }
        pieces.push(rest);
        pieces
    }
}

/// So many bytes from the front.
fn take<'a>(bytes: &mut &'a [u8], length: usize) -> Option<&'a [u8]> {
    let front = bytes.get(..length)?;
    *bytes = &bytes[length..];
    Some(front)
}

/// Gives the pieces, each to a read of its own.
pub struct Pieces<'a>(pub std::vec::IntoIter<&'a [u8]>);

impl Read for Pieces<'_> {
    fn read(&mut self, buf: &mut [u8]) -> io::Result<usize> {
        match self.0.find(|piece| !piece.is_empty()) {
            Some(mut piece) => piece.read(buf),
            None => Ok(0),
        }
    }
}

/// Writes bytes after their number.
pub fn bytes(bytes: &[u8], results: &mut Vec<u8>) {
    results.extend((bytes.len() as u32).to_le_bytes());
    results.extend(bytes);
}
