//! A proxy: it passes one client after another on to a broker, frame by frame, and keeps the messages back that are published with a
//! routing key that begins with PREFIX. It prints what was opened and closed. The broker never sees what is kept back, so a publisher
//! that waits for its confirm waits on.
//!
//!     proxy LISTEN BROKER [PREFIX]

use feksroum::{Filter, FrameReader, Method, Payload, MAX_PAYLOAD};
use std::error::Error;
use std::io::{Read, Write};
use std::net::{Shutdown, TcpListener, TcpStream};
use std::thread;

type Result<T> = std::result::Result<T, Box<dyn Error + Send + Sync>>;

/// Passes on what a client sends, but for the messages that are kept back.
fn from_client(mut client: TcpStream, mut broker: TcpStream, prefix: Option<String>) -> Result<()> {
    let mut stream = Filter::of_openings(MAX_PAYLOAD, |channel, opening| {
        let is_kept = prefix.as_deref().map_or(true, |prefix| !opening.routing_key().starts_with(prefix));
        if !is_kept {
            println!("kept back on channel {channel}: {}", opening.routing_key());
        }
        is_kept
    });
    let (mut piece, mut out) = (vec![0; 65_536], Vec::new());
    loop {
        let length = client.read(&mut piece)?;
        if length == 0 {
            broker.shutdown(Shutdown::Write)?;
            return Ok(stream.finish()?);
        }
        let fed = stream.feed(&piece[..length], &mut out);
        broker.write_all(&out)?;
        out.clear();
        fed.map_err(|error| format!("{error}, at byte {}", stream.position()))?;
    }
}

/// Passes on what a broker sends, and prints what is opened and closed.
fn from_broker(mut broker: TcpStream, mut client: TcpStream) -> Result<()> {
    let mut reader = FrameReader::new(MAX_PAYLOAD);
    while let Some(frame) = reader.read_frame(&mut broker)? {
        client.write_all(frame.bytes())?;
        match frame.decode()? {
            Payload::Method(Method::ChannelOpenOk(_)) => println!("channel {} is open", frame.channel()),
            Payload::Method(Method::ChannelClose(close)) => println!("channel {}: {close:?}", frame.channel()),
            Payload::Method(Method::ConnectionClose(close)) => println!("{close:?}"),
            Payload::Method(Method::ConnectionCloseOk(_)) => {
                println!("closed");
                break;
            }
            _ => {}
        }
    }
    client.shutdown(Shutdown::Write)?;
    Ok(())
}

fn main() -> Result<()> {
    let words: Vec<String> = std::env::args().skip(1).collect();
    let [listen, address, rest @ ..] = &words[..] else { return Err("proxy LISTEN BROKER [PREFIX]".into()) };
    let listener = TcpListener::bind(listen)?;
    println!("listening on {}", listener.local_addr()?);
    for client in listener.incoming() {
        let client = client?;
        let broker = match TcpStream::connect(address) {
            Ok(broker) => broker,
            Err(error) => {
                eprintln!("the broker: {error}");
                continue;
            }
        };
        client.set_nodelay(true)?;
        broker.set_nodelay(true)?;
        let (to_client, to_broker, prefix) = (client.try_clone()?, broker.try_clone()?, rest.first().cloned());
        let back = thread::spawn(move || from_broker(broker, to_client));
        if let Err(error) = from_client(client, to_broker, prefix) {
            eprintln!("from the client: {error}");
        }
        if let Err(error) = back.join().unwrap_or(Ok(())) {
            eprintln!("from the broker: {error}");
        }
    }
    Ok(())
}
