//! Tables that are sorted before they are written.
//!
//! The calls that put frames sort the entries of a table in little memory, so that more than 256 in no order take quadratic time. A
//! table that was read may have so many, from whoever sent it; here these are sorted in a scratch.

use crate::canonicalize::{canonicalize_slice, Level};
use crate::error::Error;
use crate::scratch::Scratch;
use crate::table::Table;
use crate::value::Value;
use std::borrow::Cow;

/// 256 entries have at least so many bytes: a length and a tag, and all keys but one a letter.
const MANY: usize = 3 * 255;

/// What fills a table; the canonical content where sorting that would take long.
#[inline]
pub fn settled(table: Table<'_>) -> Result<Cow<'_, [u8]>, Error> {
    if table.content().len() < MANY || ascends(table) {
        Ok(Cow::Borrowed(table.content()))
    } else {
        canonical(table.content()).map(Cow::Owned)
    }
}

/// Whether the keys of a table and of all tables inside ascend.
fn ascends(table: Table<'_>) -> bool {
    let mut last = None;
    table.iter().all(|(key, value)| {
        let is_next = last.map_or(true, |last: &str| last < key);
        last = Some(key);
        is_next && value_ascends(value)
    })
}

fn value_ascends(value: Value<'_>) -> bool {
    match value {
        Value::Table(table) => ascends(table),
        Value::Array(array) => array.iter().all(value_ascends),
        _ => true,
    }
}

/// The canonical content of a table, by way of a content header that has it as its headers.
#[cold]
fn canonical(content: &[u8]) -> Result<Vec<u8>, Error> {
    const BEFORE: [u8; 14] = [0, 60, 0, 0, 0, 0, 0, 0, 0, 0, 0, 0, 0x20, 0];
    const START: usize = 7 + BEFORE.len() + 4;
    let length = u32::try_from(content.len()).map_err(|_| Error::TooLarge)?;
    let payload_length = length.checked_add(18).ok_or(Error::TooLarge)?;
    let mut frame = Vec::new();
    let mut out = Vec::new();
    let room = content.len() + START + 1;
    frame.try_reserve_exact(room).and_then(|()| out.try_reserve_exact(room)).map_err(|_| Error::NoMemory)?;
    frame.extend([2, 0, 0]);
    frame.extend(payload_length.to_be_bytes());
    frame.extend(BEFORE);
    frame.extend(length.to_be_bytes());
    frame.extend_from_slice(content);
    frame.push(crate::FRAME_END);
    out.resize(room, 0);
    let mut scratch = Scratch::for_payloads(payload_length)?;
    let progress = canonicalize_slice(&frame, &mut out, &mut scratch, payload_length, Level::Plain);
    progress.end?;
    out.truncate(progress.written.saturating_sub(1));
    out.drain(..START.min(out.len()));
    Ok(out)
}

#[cfg(test)]
mod tests {
    use super::*;

    /// What fills a table with one boolean for each key.
    fn content(keys: impl Iterator<Item = u32>) -> Vec<u8> {
        keys.flat_map(|key| [&[4][..], format!("{key:04}").as_bytes(), b"t\x01"].concat()).collect()
    }

    #[test]
    fn large_tables_in_no_order_are_sorted() {
        let ascending = content(0..5000);
        assert!(matches!(settled(Table::from_content(&ascending).unwrap()), Ok(Cow::Borrowed(found)) if found == ascending));
        let twice = content((0..5000).rev().chain(0..5000));
        assert_eq!(settled(Table::from_content(&twice).unwrap()).unwrap(), ascending);
        let length = u32::try_from(twice.len()).unwrap().to_be_bytes();
        let inside = [&b"\x01aF"[..], &length, &twice].concat();
        let wanted = [&b"\x01aF"[..], &u32::try_from(ascending.len()).unwrap().to_be_bytes(), &ascending].concat();
        assert_eq!(settled(Table::from_content(&inside).unwrap()).unwrap(), wanted);
        let few = content([2, 1].into_iter());
        assert_eq!(settled(Table::from_content(&few).unwrap()).unwrap(), few);
    }
}
