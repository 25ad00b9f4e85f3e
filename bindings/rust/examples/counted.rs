//! Encodes or decodes one frame, or a method with its content header, COUNT times, for bench/rust, which counts instructions:
//!
//!     counted encode|decode ack|deliver COUNT

use feksroum::method::{BasicAck, BasicDeliver, Method};
use feksroum::{ContentHeader, Encode, Frames, Payload, Properties, TableBuf, SENT_PAYLOAD};
use std::error::Error;
use std::hint::black_box;

fn encode(ack: bool, headers: &TableBuf, out: &mut Vec<u8>) -> Result<usize, Box<dyn Error>> {
    out.clear();
    if ack {
        BasicAck { delivery_tag: black_box(7), multiple: false }.encode(black_box(1), out)?;
        return Ok(out.len());
    }
    let deliver = BasicDeliver {
        consumer_tag: black_box("amq.ctag-1"),
        delivery_tag: 7,
        redelivered: false,
        exchange: "events",
        routing_key: "order.created",
    };
    let properties = Properties::default().with_content_type("application/json").with_headers(headers.as_table()).with_delivery_mode(2);
    deliver.encode(black_box(1), out)?;
    ContentHeader::new(100, properties).encode(black_box(1), out)?;
    Ok(out.len())
}

fn decode(wire: &[u8]) -> Result<u64, Box<dyn Error>> {
    let mut sum = 0;
    for frame in Frames::new(black_box(wire), SENT_PAYLOAD) {
        match frame?.decode()? {
            Payload::Method(Method::BasicAck(ack)) => sum += ack.delivery_tag,
            Payload::Method(Method::BasicDeliver(deliver)) => sum += deliver.routing_key.len() as u64 + deliver.delivery_tag,
            Payload::Header(header) => sum += header.body_size + header.properties.content_type.map_or(0, str::len) as u64,
            _ => {}
        }
    }
    Ok(sum)
}

fn main() -> Result<(), Box<dyn Error>> {
    let words: Vec<String> = std::env::args().skip(1).collect();
    let [what, frame, count] = &words[..] else { return Err("counted encode|decode ack|deliver COUNT".into()) };
    let (ack, count) = (frame == "ack", count.parse::<u32>()?);
    let headers = TableBuf::from_entries([("attempt", 2.into()), ("trace", feksroum::Value::from("4bf92f35"))])?;
    let mut wire = Vec::with_capacity(1000);
    let length = encode(ack, &headers, &mut wire)?;
    let mut sum = 0;
    if what == "encode" {
        for _ in 0..count {
            sum += encode(ack, &headers, &mut wire)? as u64;
        }
    } else {
        for _ in 0..count {
            sum += decode(&wire)?;
        }
    }
    println!("{length} bytes, {sum}");
    Ok(())
}
