//! The call that puts content headers, out of properties.

use super::{overwrite, refused};
use crate::payload::ContentHeader;
use crate::properties::Properties;
use crate::put::{Put, To};
use crate::sys::{self, BasicProperties, Bytes, Made};
use crate::table::Table;
use std::mem::MaybeUninit;
use std::ops::Range;

/// The class of the content header that is put.
const BASIC: u16 = 60;

/// Where the class stands in its frame.
const CLASS: Range<usize> = 7..9;

impl Put for ContentHeader<'_> {
    #[inline]
    fn put(&self, to: To, out: &mut [MaybeUninit<u8>]) -> Made {
        let headers = match self.properties.headers.map(Table::settled).transpose() {
            Ok(headers) => headers,
            Err(error) => return refused(error),
        };
        let properties = properties(&self.properties, headers.as_deref());
        // SAFETY: pointers and lengths are those of slices that live for the call, none of which overlaps `out`. Those of the properties
        // that `set` does not name are not looked at.
        let made = unsafe {
            sys::feksroum_put_content_header(to.channel, self.body_size, &properties, to.max_payload, out.as_mut_ptr().cast(), out.len())
        };
        if made.status == 0 && self.class_id != BASIC {
            overwrite(out, CLASS, self.class_id);
        }
        made
    }

    fn too_long(&self) -> Option<&'static str> {
        self.properties.list().too_long(Properties::NAMES)
    }
}

/// The properties that are set, as the library takes them. What is not set is left as memory has it.
#[inline]
fn properties(of: &Properties<'_>, headers: Option<&[u8]>) -> BasicProperties {
    const UNSET: MaybeUninit<Bytes> = MaybeUninit::uninit();
    let mut made = BasicProperties {
        set: u16::from(of.delivery_mode.is_some()) << 12 | u16::from(of.priority.is_some()) << 11 | u16::from(of.timestamp.is_some()) << 6,
        delivery_mode: of.delivery_mode.unwrap_or_default(),
        priority: of.priority.unwrap_or_default(),
        unused: 0,
        timestamp: of.timestamp.unwrap_or_default(),
        content_type: UNSET,
        content_encoding: UNSET,
        headers: UNSET,
        correlation_id: UNSET,
        reply_to: UNSET,
        expiration: UNSET,
        message_id: UNSET,
        kind: UNSET,
        user_id: UNSET,
        app_id: UNSET,
        cluster_id: UNSET,
    };
    let set = &mut made.set;
    put(set, 0x8000, &mut made.content_type, of.content_type.map(str::as_bytes));
    put(set, 0x4000, &mut made.content_encoding, of.content_encoding.map(str::as_bytes));
    put(set, 0x2000, &mut made.headers, headers);
    put(set, 0x0400, &mut made.correlation_id, of.correlation_id.map(str::as_bytes));
    put(set, 0x0200, &mut made.reply_to, of.reply_to.map(str::as_bytes));
    put(set, 0x0100, &mut made.expiration, of.expiration.map(str::as_bytes));
    put(set, 0x0080, &mut made.message_id, of.message_id.map(str::as_bytes));
    put(set, 0x0020, &mut made.kind, of.kind.map(str::as_bytes));
    put(set, 0x0010, &mut made.user_id, of.user_id.map(str::as_bytes));
    put(set, 0x0008, &mut made.app_id, of.app_id.map(str::as_bytes));
    put(set, 0x0004, &mut made.cluster_id, of.cluster_id.map(str::as_bytes));
    made
}

/// Puts some bytes in their place, and sets their bit, where they are there.
#[inline]
fn put(set: &mut u16, bit: u16, to: &mut MaybeUninit<Bytes>, bytes: Option<&[u8]>) {
    if let Some(bytes) = bytes {
        *set |= bit;
        to.write(Bytes { bytes: bytes.as_ptr(), length: bytes.len() });
    }
}
