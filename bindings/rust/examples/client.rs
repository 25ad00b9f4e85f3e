//! A client: it declares a queue, publishes COUNT persistent messages with nested headers (1,000), each of them confirmed, consumes and
//! acknowledges them, deletes the queue, and closes. It logs in as guest, and waits for each answer.
//!
//!     client HOST:PORT [COUNT]

use feksroum::method::{
    BasicAck, BasicConsume, BasicConsumeOk, BasicPublish, BasicQos, BasicQosOk, ChannelOpen, ChannelOpenOk, ConfirmSelect, ConfirmSelectOk,
    ConnectionClose, ConnectionCloseOk, ConnectionOpen, ConnectionOpenOk, ConnectionStart, ConnectionStartOk, ConnectionTune,
    ConnectionTuneOk, Method, OtherMethod, QueueDeclare, QueueDeclareOk, QueueDelete, QueueDeleteOk,
};
use feksroum::{max_payload, Assembler, Closed, Content, Encode, Encoder, FrameReader, Message, OwnedFrame, Payload, Properties};
use feksroum::{Opening, ProtocolHeader, Pushed, Received, TableBuf, Value, MAX_BODY, MAX_PAYLOAD};
use std::error::Error;
use std::io::Write;
use std::net::TcpStream;

type Result<T> = std::result::Result<T, Box<dyn Error>>;

/// A connection with one channel.
struct Client {
    socket: TcpStream,
    reader: FrameReader,
    assembler: Assembler,
    encoder: Encoder,
    out: Vec<u8>,
}

impl Client {
    fn connect(address: &str) -> Result<Client> {
        let socket = TcpStream::connect(address)?;
        socket.set_nodelay(true)?;
        let (reader, assembler) = (FrameReader::new(MAX_PAYLOAD), Assembler::new(MAX_BODY, 1 << 30));
        let mut client = Client { socket, reader, assembler, encoder: Encoder::new(0), out: Vec::new() };
        let start = client.call(&ProtocolHeader::default())?;
        let start: ConnectionStart<'_> = expect(&start)?;
        println!("the broker speaks {}.{}", start.version_major, start.version_minor);
        let login = ConnectionStartOk { mechanism: "PLAIN", response: b"\0guest\0guest", locale: "en_US", ..ConnectionStartOk::default() };
        let tune = client.call(&login)?;
        let ConnectionTune { channel_max, frame_max, .. } = expect(&tune)?;
        client.send(&ConnectionTuneOk { channel_max, frame_max, heartbeat: 0 })?;
        client.encoder = client.encoder.with_frame_max(frame_max);
        client.reader.set_max_payload(max_payload(frame_max));
        expect::<ConnectionOpenOk>(&client.call(&ConnectionOpen { virtual_host: "/" })?)?;
        client.encoder = client.encoder.on_channel(1);
        expect::<ChannelOpenOk>(&client.call(&ChannelOpen)?)?;
        Ok(client)
    }

    fn close(mut self) -> Result<()> {
        self.encoder = self.encoder.on_channel(0);
        expect::<ConnectionCloseOk>(&self.call(&ConnectionClose { reply_code: 200, ..ConnectionClose::default() })?)?;
        Ok(())
    }

    fn send(&mut self, what: &impl Encode) -> Result<()> {
        self.out.clear();
        self.encoder.encode(what, &mut self.out)?;
        Ok(self.socket.write_all(&self.out)?)
    }

    /// Sends a method, and gives the frame that comes after it.
    fn call(&mut self, what: &impl Encode) -> Result<OwnedFrame> {
        self.send(what)?;
        match self.receive()? {
            Received::Frame(frame) => Ok(frame),
            Received::Message(_) => Err("a message came in place of an answer".into()),
        }
    }

    fn message(&mut self) -> Result<Message> {
        self.receive()?.message().ok_or_else(|| "another frame came in place of a message".into())
    }

    /// The next message, or the next frame that is no heartbeat. A close is an error.
    fn receive(&mut self) -> Result<Received> {
        loop {
            let frame = self.reader.read_frame(&mut self.socket)?.ok_or("the broker has gone")?;
            match frame.decode()? {
                Payload::Method(Method::ConnectionClose(close)) => return Err(Closed::from(close).into()),
                Payload::Method(Method::ChannelClose(close)) => return Err(Closed::from(close).into()),
                Payload::Heartbeat => continue,
                _ => {}
            }
            match self.assembler.push(frame)? {
                Pushed::Passed(frame) => return Ok(Received::Frame(frame.into_owned())),
                Pushed::Complete(message) => return Ok(Received::Message(message)),
                Pushed::Taken => {}
            }
        }
    }
}

/// The method that a frame has to be.
fn expect<'f, M>(frame: &'f OwnedFrame) -> Result<M>
where
    M: TryFrom<Method<'f>, Error = OtherMethod>,
{
    match frame.decode()? {
        Payload::Method(method) => Ok(M::try_from(method)?),
        other => Err(format!("no method came, but {other:?}").into()),
    }
}

/// Publishes one message, and waits until the broker has it.
fn publish(client: &mut Client, queue: &str, number: u64) -> Result<()> {
    let trace = TableBuf::from_entries([("attempt", Value::from(1)), ("span", "4bf92f35".into())])?;
    let mut headers = TableBuf::from_entries([("trace", &trace)])?;
    headers.insert("number", i64::try_from(number)?)?;
    let body = format!("message {number}");
    let properties = Properties::default().with_content_type("text/plain").with_delivery_mode(2).with_headers(headers.as_table());
    client.send(&BasicPublish { routing_key: queue, mandatory: true, ..BasicPublish::default() })?;
    let confirm = client.call(&Content { properties, body: body.as_bytes() })?;
    let ack: BasicAck = expect(&confirm)?;
    if ack.delivery_tag == number {
        Ok(())
    } else {
        Err(format!("{} was confirmed, not {number}", ack.delivery_tag).into())
    }
}

/// Takes one message, sees that it is the one that was published, and acknowledges it.
fn consume(client: &mut Client, number: u64) -> Result<()> {
    let message = client.message()?;
    let Opening::Deliver(deliver) = message.opening() else { return Err("no deliver came".into()) };
    let headers = message.properties().headers.ok_or("it has no headers")?;
    let found = headers.get("number").and_then(Value::as_i64);
    let attempt = headers.get("trace").and_then(Value::as_table).and_then(|trace| trace.get("attempt")).and_then(Value::as_i64);
    if found != i64::try_from(number).ok() || attempt != Some(1) || message.body() != format!("message {number}").as_bytes() {
        return Err(format!("another message came than {number}: {headers:?}").into());
    }
    client.send(&BasicAck { delivery_tag: deliver.delivery_tag, multiple: false })
}

fn main() -> Result<()> {
    let words: Vec<String> = std::env::args().skip(1).collect();
    let (address, count) = match &words[..] {
        [address] => (address, 1000),
        [address, count] => (address, count.parse()?),
        _ => return Err("client HOST:PORT [COUNT]".into()),
    };
    let mut client = Client::connect(address)?;
    expect::<ConfirmSelectOk>(&client.call(&ConfirmSelect::default())?)?;
    let declared = client.call(&QueueDeclare { exclusive: true, ..QueueDeclare::default() })?;
    let queue = expect::<QueueDeclareOk<'_>>(&declared)?.queue;
    for number in 1..=count {
        publish(&mut client, queue, number)?;
    }
    expect::<BasicQosOk>(&client.call(&BasicQos { prefetch_count: 100, ..BasicQos::default() })?)?;
    expect::<BasicConsumeOk<'_>>(&client.call(&BasicConsume { queue, consumer_tag: "reader", ..BasicConsume::default() })?)?;
    for number in 1..=count {
        consume(&mut client, number)?;
    }
    expect::<QueueDeleteOk>(&client.call(&QueueDelete { queue, ..QueueDelete::default() })?)?;
    client.close()?;
    println!("{count} messages were published, confirmed, consumed and acknowledged");
    Ok(())
}
