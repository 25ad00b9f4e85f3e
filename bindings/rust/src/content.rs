//! Contents of messages: a content header and bodies.

use crate::encode::Encode;
use crate::library;
use crate::payload::ContentHeader;
use crate::properties::Properties;
use crate::put::{Put, To};
use crate::sys::Made;
use std::mem::MaybeUninit;

/// The byte after the payload of each frame but a protocol header.
pub const FRAME_END: u8 = 206;

/// What a message says: its properties and its body. On the wire that is a content header, and the body in as many frames as it
/// takes.
///
/// ```
/// use feksroum::method::BasicPublish;
/// use feksroum::{Content, Encoder, Frames, FrameType, Properties};
///
/// let encoder = Encoder::new(1).with_frame_max(4096);
/// let content = Content { properties: Properties::default().with_content_type("text/plain"), body: &[b'-'; 5000] };
/// let mut wire = Vec::new();
/// encoder.encode(&BasicPublish { routing_key: "orders", ..BasicPublish::default() }, &mut wire)?;
/// encoder.encode(&content, &mut wire)?;
///
/// let frames: Vec<_> = Frames::new(&wire, encoder.max_payload()).collect::<Result<_, _>>()?;
/// let types: Vec<_> = frames.iter().map(|frame| frame.frame_type()).collect();
/// assert_eq!(types, [FrameType::Method, FrameType::Header, FrameType::Body, FrameType::Body]);
/// assert_eq!((frames[1].summary().body_size, frames[2].payload().len()), (5000, 4088));
/// # Ok::<(), Box<dyn std::error::Error>>(())
/// ```
#[derive(Clone, Copy, Debug, Default, PartialEq, Eq)]
pub struct Content<'a> {
    /// What is said of the body.
    pub properties: Properties<'a>,
    /// The body; none is sent where it is empty.
    pub body: &'a [u8],
}

/// The status of a call whose buffer was too short.
pub const BUFFER_TOO_SMALL: u32 = 40;

/// How many bytes the frames have of a body of so many bytes, each with at most so many of them.
fn bodies_length(length: usize, most: usize) -> usize {
    const AROUND: usize = 8;
    length.saturating_add(length.div_ceil(most).saturating_mul(AROUND))
}

/// Each body but the last has just as many bytes as the limit allows. It is refused as too large where that leaves no room for the
/// content header.
impl Encode for Content<'_> {}

impl Put for Content<'_> {
    fn put(&self, to: To, out: &mut [MaybeUninit<u8>]) -> Made {
        let most = usize::try_from(to.max_payload).unwrap_or(usize::MAX).max(1);
        let (header, bodies) = (ContentHeader::new(self.body.len() as u64, self.properties), bodies_length(self.body.len(), most));
        let room = out.len().saturating_sub(bodies);
        let mut made = header.put(to, out.get_mut(..room).unwrap_or_default());
        if made.status == BUFFER_TOO_SMALL {
            made.length = made.length.saturating_add(bodies as u64);
        }
        for part in self.body.chunks(most) {
            if made.status != 0 {
                break;
            }
            let rest = usize::try_from(made.length).ok().and_then(|start| out.get_mut(start..));
            let body = library::put_body(part, to, rest.unwrap_or_default());
            made = Made { length: made.length.saturating_add(body.length), ..body };
        }
        made
    }

    fn too_long(&self) -> Option<&'static str> {
        ContentHeader::new(0, self.properties).too_long()
    }
}

/// What comes before a body of so many bytes in its frame. The body follows, and then [`FRAME_END`]: so a vectored write sends
/// bodies from where they lie.
///
/// ```
/// use feksroum::{body_head, Encode, Payload, FRAME_END};
///
/// let body = b"hello";
/// let mut frame = Vec::new();
/// Payload::Body(body).encode(1, &mut frame)?;
/// assert_eq!(frame, [&body_head(1, 5)[..], body, &[FRAME_END]].concat());
/// # Ok::<(), feksroum::EncodeError>(())
/// ```
#[must_use]
pub fn body_head(channel: u16, length: u32) -> [u8; 7] {
    let mut head = [0; 7];
    library::body_head(channel, length, &mut head);
    head
}
