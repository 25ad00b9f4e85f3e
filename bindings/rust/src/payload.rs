//! What stands in a frame.

use crate::encode::Encode;
use crate::error::Error;
use crate::frame::FrameType;
use crate::library;
use crate::library::fields::Fields;
use crate::method::Method;
use crate::properties::Properties;
use crate::put::{Put, To};
use crate::sys::Made;
use std::mem::MaybeUninit;

/// What stands in a frame, borrowed from its bytes.
#[derive(Clone, Copy, Debug, PartialEq, Eq)]
pub enum Payload<'a> {
    /// A method with its fields.
    Method(Method<'a>),
    /// A content header.
    Header(ContentHeader<'a>),
    /// A part of a message's body, or all of it.
    Body(&'a [u8]),
    /// Nothing: what a heartbeat carries means nothing, and none is written with a payload.
    Heartbeat,
    /// The version that a connection begins with.
    ProtocolHeader(ProtocolHeader),
}

impl<'a> Payload<'a> {
    /// What stands in a whole payload of this type. That of a protocol header is its three version bytes.
    ///
    /// # Errors
    ///
    /// The payload's fault, where it is no frame.
    pub fn read(frame_type: FrameType, payload: &'a [u8]) -> Result<Payload<'a>, Error> {
        let length = u32::try_from(payload.len()).map_err(|_| Error::TooLarge)?;
        let mut fields = Fields::unread(frame_type, 0, payload, 0, length);
        fields.read()?;
        Payload::of(&fields)
    }

    /// What stands in a payload that was read. Methods and content headers, of which there are the most, are asked for first.
    #[inline]
    pub(crate) fn of(fields: &Fields<'a>) -> Result<Payload<'a>, Error> {
        match fields.frame_type() {
            FrameType::Method => Method::read(fields),
            FrameType::Header => Properties::header(fields),
            _ => Payload::other(fields),
        }
    }

    /// What stands in a payload of another type.
    fn other(fields: &Fields<'a>) -> Result<Payload<'a>, Error> {
        match fields.frame_type() {
            FrameType::Body => Ok(Payload::Body(fields.payload())),
            FrameType::ProtocolHeader => ProtocolHeader::read(fields).map(Payload::ProtocolHeader),
            _ => Ok(Payload::Heartbeat),
        }
    }
}

impl Put for Payload<'_> {
    fn put(&self, to: To, out: &mut [MaybeUninit<u8>]) -> Made {
        match self {
            Payload::Method(method) => method.put(to, out),
            Payload::Header(header) => header.put(to, out),
            Payload::Body(body) => library::put_body(body, to, out),
            Payload::Heartbeat => library::put_heartbeat(to.channel, out),
            Payload::ProtocolHeader(header) => header.put(to, out),
        }
    }

    fn too_long(&self) -> Option<&'static str> {
        match self {
            Payload::Method(method) => method.too_long(),
            Payload::Header(header) => header.too_long(),
            _ => None,
        }
    }
}

impl Encode for Payload<'_> {}

impl<'a> From<Method<'a>> for Payload<'a> {
    fn from(method: Method<'a>) -> Payload<'a> {
        Payload::Method(method)
    }
}

impl<'a> From<ContentHeader<'a>> for Payload<'a> {
    fn from(header: ContentHeader<'a>) -> Payload<'a> {
        Payload::Header(header)
    }
}

impl From<ProtocolHeader> for Payload<'_> {
    fn from(header: ProtocolHeader) -> Self {
        Payload::ProtocolHeader(header)
    }
}

/// What comes after a method that carries content: how long the body is, and the message's properties. Its weight means
/// nothing, and is written as 0. [`Content`](crate::Content) writes it together with the body.
#[derive(Clone, Copy, Debug, Default, PartialEq, Eq)]
pub struct ContentHeader<'a> {
    /// The class of the method that the content belongs to: 60, basic.
    pub class_id: u16,
    /// How many bytes the bodies after it have together.
    pub body_size: u64,
    /// The properties that are set.
    pub properties: Properties<'a>,
}

impl<'a> ContentHeader<'a> {
    /// The header of a message of class basic, which is the only one whose methods carry content.
    #[must_use]
    pub fn new(body_size: u64, properties: Properties<'a>) -> ContentHeader<'a> {
        const BASIC: u16 = 60;
        ContentHeader { class_id: BASIC, body_size, properties }
    }
}

impl Encode for ContentHeader<'_> {}

/// The version of the protocol that a connection begins with.
///
/// ```
/// use feksroum::{Encode, ProtocolHeader};
///
/// let mut out = Vec::new();
/// ProtocolHeader::default().encode(0, &mut out)?;
/// assert_eq!(out, b"AMQP\x00\x00\x09\x01");
/// # Ok::<(), feksroum::EncodeError>(())
/// ```
#[derive(Clone, Copy, Debug, PartialEq, Eq, Hash)]
pub struct ProtocolHeader {
    /// 0 in AMQP 0-9-1.
    pub major: u8,
    /// 9.
    pub minor: u8,
    /// 1.
    pub revision: u8,
}

impl Default for ProtocolHeader {
    /// AMQP 0-9-1.
    fn default() -> ProtocolHeader {
        ProtocolHeader { major: 0, minor: 9, revision: 1 }
    }
}

impl ProtocolHeader {
    fn read(fields: &Fields<'_>) -> Result<ProtocolHeader, Error> {
        const THREE_OCTETS: u32 = 0x111;
        if fields.kinds() != THREE_OCTETS {
            return Err(Error::Incompatible(0));
        }
        let fields = fields.places();
        Ok(ProtocolHeader { major: fields.octet(0), minor: fields.octet(1), revision: fields.octet(2) })
    }
}

impl Put for ProtocolHeader {
    fn put(&self, _: To, out: &mut [MaybeUninit<u8>]) -> Made {
        library::put_protocol_header([self.major, self.minor, self.revision], out)
    }

    fn too_long(&self) -> Option<&'static str> {
        None
    }
}

impl Encode for ProtocolHeader {}
