//! What takes memory, and how often: reading takes none, keeping a frame takes it once.

mod common;

use common::examples;
use feksroum::method::BasicAck;
use feksroum::{Encode, Frames, Payload, Table, Value, MAX_PAYLOAD};
use std::alloc::{GlobalAlloc, Layout, System};
use std::cell::Cell;

/// The system's allocator, and how often a thread has asked it.
struct Counting;

thread_local! {
    static ASKED: Cell<usize> = const { Cell::new(0) };
}

fn count() {
    // A thread that ends asks once more than it counts.
    let _ = ASKED.try_with(|asked| asked.set(asked.get() + 1));
}

// SAFETY: each call is passed on as it is.
unsafe impl GlobalAlloc for Counting {
    unsafe fn alloc(&self, layout: Layout) -> *mut u8 {
        count();
        // SAFETY: the caller keeps what it owes to the system's allocator.
        unsafe { System.alloc(layout) }
    }

    unsafe fn dealloc(&self, pointer: *mut u8, layout: Layout) {
        // SAFETY: as above.
        unsafe { System.dealloc(pointer, layout) }
    }

    unsafe fn realloc(&self, pointer: *mut u8, layout: Layout, size: usize) -> *mut u8 {
        count();
        // SAFETY: as above.
        unsafe { System.realloc(pointer, layout, size) }
    }
}

#[global_allocator]
static ALLOCATOR: Counting = Counting;

/// How often something takes memory.
fn asked(run: impl FnOnce()) -> usize {
    let before = ASKED.get();
    run();
    ASKED.get() - before
}

/// Goes over all that a table holds.
fn go_over(table: Table<'_>) -> usize {
    let inside = |value| match value {
        Value::Table(table) => go_over(table),
        Value::Array(array) => array.iter().count(),
        _ => 1,
    };
    table.iter().map(|(key, value)| inside(value) + usize::from(table.get(key).is_some())).sum()
}

#[test]
fn reading_takes_no_memory() {
    let streams: Vec<Vec<u8>> = examples(common::OF_BYTES).iter().map(common::Example::bytes).collect();
    let mut seen = 0;
    let times = asked(|| {
        for frame in streams.iter().flat_map(|bytes| Frames::new(bytes, MAX_PAYLOAD).map_while(Result::ok)) {
            seen += match frame.decode() {
                Ok(Payload::Method(method)) => method.fields().map(|(_, field)| usize::from(field.kind())).sum(),
                Ok(Payload::Header(header)) => header.properties.headers.map_or(0, go_over),
                other => usize::from(other.is_ok()),
            };
        }
    });
    assert!(seen > 100);
    assert_eq!(times, 0);
}

#[test]
fn keeping_a_frame_takes_memory_once() {
    let bytes = common::example("raw/client_stream.raw");
    for frame in Frames::new(&bytes, MAX_PAYLOAD).map(Result::unwrap) {
        assert_eq!(asked(|| drop(frame.into_owned())), 1);
    }
}

#[test]
fn numbers_are_written_without_memory_of_their_own() {
    let mut out = Vec::with_capacity(1000);
    let mut written = Ok(0);
    assert_eq!(asked(|| written = BasicAck { delivery_tag: 7, multiple: true }.encode(1, &mut out)), 0);
    assert_eq!((written, out.len()), (Ok(21), 21));
}
