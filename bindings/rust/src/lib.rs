//! The wire layer of AMQP 0-9-1: frames out of bytes, typed and borrowed, and bytes out of them; their canonical bytes, and
//! their lines of text.
//!
//! ```
//! use feksroum::method::BasicPublish;
//! use feksroum::{Content, Encode, Frames, Method, Payload, Properties, MAX_PAYLOAD};
//!
//! let mut wire = Vec::new();
//! BasicPublish { routing_key: "orders", ..BasicPublish::default() }.encode(1, &mut wire)?;
//! Content { properties: Properties::default().with_delivery_mode(2), body: b"one espresso" }.encode(1, &mut wire)?;
//!
//! for frame in Frames::new(&wire, MAX_PAYLOAD) {
//!     let frame = frame?;
//!     match frame.decode()? {
//!         Payload::Method(Method::BasicPublish(publish)) => assert_eq!(publish.routing_key, "orders"),
//!         Payload::Header(header) => assert_eq!(header.properties.delivery_mode, Some(2)),
//!         Payload::Body(body) => assert_eq!(body, b"one espresso"),
//!         other => println!("{other:?} on {}", frame.channel()),
//!     }
//! }
//! # Ok::<(), Box<dyn std::error::Error>>(())
//! ```
//!
//! | For | Take |
//! |---|---|
//! | frames in a slice | [`Frames`], and [`Frame::decode`] for their fields |
//! | frames of a connection, read or pushed | [`FrameReader`] |
//! | keeping a frame, or a method | [`OwnedFrame`], [`OwnedMethod`] |
//! | code for any method, waiting for one | [`method::MethodInfo`], [`TryFrom`] |
//! | a close as an error | [`Closed`] |
//! | whole messages | [`Assembler`] for frames, [`messages`] from a reader, [`MessageReader`] for pieces |
//! | keeping or dropping messages by rules | [`Rules`]; [`filter`] from a reader to a writer, [`Filter`] for pieces |
//! | bodies cut anew | [`recut`] from a reader to a writer, [`Recutter`] for pieces |
//! | frames to be sent | [`Encode`]; [`Content`] for what follows a method that carries content; [`Encoder`] for a connection's limit |
//! | tables | [`Table`], [`TableBuf`], [`Value`] |
//! | canonical bytes | [`canonicalize`] from a reader to a writer, [`Canonicalizer`] for pieces, [`canonicalize_slice`] |
//! | lines of text | [`dump`] and [`undump`] |
//!
//! What is called is the C library of Feksroum, and that is proved: `feksroum.h` says what each function promises. This crate
//! is tested: it copies spans into strings, tables and structs, and passes slices on. Nothing is kept between two calls, so all
//! of it may be used by any number of threads. Connections, channels and logins are the caller's.

#![deny(unsafe_code)]
#![warn(clippy::pedantic)]
// The flags of methods are those of the standard; kinds stand in a number by four bits each; structs of C have its names.
#![allow(clippy::struct_excessive_bools, clippy::unreadable_literal, clippy::struct_field_names)]
#![forbid(unsafe_op_in_unsafe_fn)]

mod array;
mod assembler;
mod canonicalize;
mod canonicalizer;
mod closed;
mod content;
mod encode;
mod error;
mod field;
mod filter;
mod frame;
mod frame_reader;
mod held;
mod items;
#[allow(unsafe_code)]
mod library;
mod message;
mod message_stream;
mod messages;
pub mod method;
mod method_info;
mod owned;
mod payload;
mod properties;
mod put;
mod recut;
mod reply_code;
mod rules;
mod scratch;
mod settle;
mod stream;
#[allow(unsafe_code)]
mod sys;
mod table;
mod text;
mod turns;
mod value;
mod walk;
mod writer;

pub use array::{Array, ArrayBuf, Values};
pub use assembler::{Assembler, Messages, Pushed, Received};
pub use canonicalize::{canonicalize, canonicalize_slice, Level, Progress};
pub use canonicalizer::Canonicalizer;
pub use closed::Closed;
pub use content::{body_head, Content, FRAME_END};
pub use encode::{Encode, EncodeError, Encoder};
pub use error::{Error, StreamError};
pub use field::Field;
pub use filter::{filter, Filter};
pub use frame::{check, needed, Frame, FrameType, Frames, Summary};
pub use frame_reader::FrameReader;
pub use message::{Message, Opening};
pub use messages::{messages, MessageReader, ReadMessages};
pub use method::Method;
pub use owned::{OwnedFrame, OwnedMethod};
pub use payload::{ContentHeader, Payload, ProtocolHeader};
pub use properties::Properties;
pub use recut::{recut, Recutter};
pub use reply_code::ReplyCode;
pub use rules::{Rules, RulesError};
pub use scratch::Scratch;
pub use table::{Entries, Table, TableBuf};
pub use text::{dump, undump, Converted};
pub use turns::ContentFault;
pub use value::{Decimal, Value};

/// The longest payload that is read where no other limit is agreed on, in bytes, as the program has it: some more than
/// [`SENT_PAYLOAD`], since some peers count without the 8 bytes around a payload.
pub const MAX_PAYLOAD: u32 = 131_072;

/// The longest payload that is written where no other limit is given, in bytes: that of frames of at most 131,072 bytes, which
/// brokers mostly agree on.
pub const SENT_PAYLOAD: u32 = 131_064;

/// How many bytes the body of a message may have, where nothing else is agreed on: `RabbitMQ`'s own bound.
pub const MAX_BODY: u64 = 134_217_728;

/// The longest payload, in bytes, of frames of at most so many: those of a connection on which this `frame_max` was agreed. 0
/// is no limit.
///
/// ```
/// assert_eq!(feksroum::max_payload(131_072), 131_064);
/// assert_eq!(feksroum::max_payload(0), u32::MAX);
/// ```
#[must_use]
pub fn max_payload(frame_max: u32) -> u32 {
    library::max_payload(frame_max)
}

/// The version of the library that is linked: major, minor, patch.
///
/// ```
/// assert_eq!(feksroum::library_version().0, 0);
/// ```
#[must_use]
pub fn library_version() -> (u32, u32, u32) {
    let version = library::version();
    (version >> 16, version >> 8 & 0xff, version & 0xff)
}

/// The example of README.md is run as those of this documentation.
#[cfg(doctest)]
#[doc = include_str!("../README.md")]
mod readme {}
