//! Tests of memory: decoders, encoders and sets free theirs when they are dropped, and a decoder allocates its room once.
use std::alloc::{GlobalAlloc, Layout, System};
use std::cell::Cell;
use talvrugon::{Decoder, Encoder, Event, Limits, Records, Room, Set, Start, Value};

thread_local! {
    /// The bytes that this thread has allocated, less those that it has freed.
    static LIVE: Cell<isize> = const { Cell::new(0) };
    /// The number of its allocations.
    static BLOCKS: Cell<usize> = const { Cell::new(0) };
}

struct Counting;

// SAFETY: the blocks are those of the system's allocator.
unsafe impl GlobalAlloc for Counting {
    unsafe fn alloc(&self, layout: Layout) -> *mut u8 {
        LIVE.set(LIVE.get() + layout.size() as isize);
        BLOCKS.set(BLOCKS.get() + 1);
        System.alloc(layout)
    }

    unsafe fn dealloc(&self, block: *mut u8, layout: Layout) {
        LIVE.set(LIVE.get() - layout.size() as isize);
        System.dealloc(block, layout);
    }
}

#[global_allocator]
static HEAP: Counting = Counting;

const SET: &str = r#"
[[template]]
name = "T"
id = 1
fields = [{ kind = "bytes", name = "b" }]
"#;
const MESSAGE: &[u8] = b"\xc0\x81\x83abc";

#[test]
fn all_is_freed() {
    let before = LIVE.get();
    let set = Set::read(SET).unwrap();
    let with_set = LIVE.get();
    assert!(with_set > before);
    drop(set.clone());
    let mut decoder = Decoder::new(&set, Limits::default()).unwrap();
    let with_decoder = LIVE.get();
    decoder.feed_in(&mut Room::default(), &MESSAGE[..4], |_| {}).unwrap();
    drop(decoder);
    assert!(with_decoder > with_set && LIVE.get() == with_set);
    let encoder = Encoder::new(&set, Limits::default()).unwrap();
    assert!(LIVE.get() > with_set);
    drop(set);
    assert!(LIVE.get() > with_set);
    drop(encoder);
    assert_eq!(LIVE.get(), before);
    // a string of the greatest length, for which the blocks of the library grow
    let long = vec![b'x'; 1 << 20];
    let with_long = LIVE.get();
    let mut encoder = Encoder::new(&Set::read(SET).unwrap(), Limits { max_text: 1 << 20, ..Limits::default() }).unwrap();
    let (mut message, mut out) = (Records::default(), Vec::new());
    for event in [Event::MessageStart { template: 0 }, Event::Field { node: 0, value: Value::Bytes(&long) }, Event::MessageEnd { consumed: 0 }] {
        message.push(event);
    }
    encoder.encode(&message, &mut out).unwrap();
    drop((encoder, message, out));
    assert_eq!(LIVE.get(), with_long);
}

#[test]
fn a_room_is_allocated_once() {
    let mut decoder = Decoder::new(&Set::read(SET).unwrap(), Limits::default()).unwrap();
    decoder.feed(MESSAGE, |_| {}).unwrap();
    let blocks = BLOCKS.get();
    decoder.packet(MESSAGE, Start::Continue, |_| {}).unwrap();
    decoder.feed(MESSAGE, |_| {}).unwrap();
    decoder.packet(MESSAGE, Start::Reset, |_| {}).unwrap();
    decoder.feed(MESSAGE, |_| {}).unwrap();
    assert_eq!(BLOCKS.get(), blocks);
}
