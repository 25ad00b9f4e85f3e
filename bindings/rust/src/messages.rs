//! Whole messages out of bytes that come in pieces.

use crate::assembler::{Assembler, Received};
use crate::error::{Error, StreamError};
use crate::held::Held;
use crate::message_stream::pass_frames;
use crate::stream::{self, PIECE};
use std::collections::VecDeque;
use std::io::Read;
use std::iter::FusedIterator;

/// Reads the messages of a stream that is pushed to it in pieces of any size, and the frames that are part of none.
///
/// ```
/// use feksroum::method::BasicPublish;
/// use feksroum::{Assembler, Content, Encode, MessageReader, Payload, Received, MAX_BODY, MAX_PAYLOAD};
///
/// let mut wire = Vec::new();
/// BasicPublish::default().encode(1, &mut wire)?;
/// Content { body: b"hello", ..Content::default() }.encode(1, &mut wire)?;
/// Payload::Heartbeat.encode(0, &mut wire)?;
///
/// let mut reader = MessageReader::new(MAX_PAYLOAD, Assembler::new(MAX_BODY, u64::MAX));
/// let mut received = Vec::new();
/// for piece in wire.chunks(7) {
///     reader.feed(piece, &mut received)?;
/// }
/// reader.finish()?;
/// assert!(matches!(&received[..], [Received::Message(message), Received::Frame(_)] if message.body() == b"hello"));
/// # Ok::<(), Box<dyn std::error::Error>>(())
/// ```
#[derive(Debug)]
pub struct MessageReader {
    held: Held,
    assembler: Assembler,
    max_payload: u32,
    end: Result<(), Error>,
}

impl MessageReader {
    /// A stream at its beginning, with payloads of at most so many bytes, whose messages this assembler puts together.
    #[must_use]
    pub fn new(max_payload: u32, assembler: Assembler) -> MessageReader {
        MessageReader { held: Held::new(max_payload), assembler, max_payload, end: Ok(()) }
    }

    /// Appends to `received` the messages and the other frames that this piece completes.
    ///
    /// # Errors
    ///
    /// The fault of what follows the frames that were taken, as [`Frames`](crate::Frames) or [`Assembler::push`] has it. Nothing is read after it, and
    /// each further call returns it again.
    pub fn feed(&mut self, piece: &[u8], received: &mut Vec<Received>) -> Result<(), Error> {
        self.end?;
        let MessageReader { held, assembler, max_payload, .. } = self;
        self.end = held.feed(piece, |bytes| {
            pass_frames(bytes, *max_payload, |frame| {
                received.extend(assembler.push(frame)?.received());
                Ok(())
            })
        });
        self.end
    }

    /// How many messages are open, and how many bytes are held of them.
    #[must_use]
    pub fn assembler(&self) -> &Assembler {
        &self.assembler
    }

    /// Where in the stream what follows the frames begins that were taken: after an error, the offset of what it is about.
    #[must_use]
    pub fn position(&self) -> u64 {
        self.held.taken()
    }

    /// Ends the stream.
    ///
    /// # Errors
    ///
    /// The fault that was met; [`Error::CutShort`] where the stream ends inside a frame, and [`Error::OpenContent`] where it ends
    /// between two frames, inside a message.
    pub fn finish(self) -> Result<(), Error> {
        self.end?;
        self.held.finish()?;
        self.assembler.finish()
    }
}

/// The messages of all frames that a reader gives, with payloads of at most so many bytes, as they are complete, and the other frames as
/// they come. The last item is the error, where there is one.
///
/// ```
/// use feksroum::method::BasicPublish;
/// use feksroum::{messages, Assembler, Content, Encode, Received, MAX_BODY, MAX_PAYLOAD};
///
/// let mut wire = Vec::new();
/// BasicPublish::default().encode(1, &mut wire)?;
/// Content { body: b"hello", ..Content::default() }.encode(1, &mut wire)?;
/// for received in messages(&wire[..], MAX_PAYLOAD, Assembler::new(MAX_BODY, u64::MAX)) {
///     match received? {
///         Received::Message(message) => assert_eq!(message.body(), b"hello"),
///         Received::Frame(frame) => println!("{frame:?}"),
///     }
/// }
/// # Ok::<(), Box<dyn std::error::Error>>(())
/// ```
pub fn messages<R: Read>(reader: R, max_payload: u32, assembler: Assembler) -> ReadMessages<R> {
    let stream = Some(MessageReader::new(max_payload, assembler));
    ReadMessages { reader, stream, ready: VecDeque::new(), end: None, piece: vec![0; PIECE] }
}

/// The messages of what is read: [`messages`] gives them.
#[derive(Debug)]
pub struct ReadMessages<R> {
    reader: R,
    /// None at the end of the input, or after a fault.
    stream: Option<MessageReader>,
    ready: VecDeque<Received>,
    /// What comes after those that are ready.
    end: Option<StreamError>,
    piece: Vec<u8>,
}

impl<R: Read> ReadMessages<R> {
    /// Reads one more piece.
    fn advance(&mut self, mut stream: MessageReader) -> Result<(), StreamError> {
        let piece = stream::read(&mut self.reader, &mut self.piece).map_err(StreamError::Read)?;
        if piece.is_empty() {
            let offset = stream.position();
            return stream.finish().map_err(|error| StreamError::Frame { error, offset });
        }
        let mut found = Vec::new();
        let fed = stream.feed(piece, &mut found);
        self.ready.extend(found);
        fed.map_err(|error| StreamError::Frame { error, offset: stream.position() })?;
        self.stream = Some(stream);
        Ok(())
    }
}

impl<R: Read> Iterator for ReadMessages<R> {
    type Item = Result<Received, StreamError>;

    fn next(&mut self) -> Option<Self::Item> {
        while self.ready.is_empty() {
            let Some(stream) = self.stream.take() else {
                return self.end.take().map(Err);
            };
            self.end = self.advance(stream).err();
        }
        self.ready.pop_front().map(Ok)
    }
}

impl<R: Read> FusedIterator for ReadMessages<R> {}
