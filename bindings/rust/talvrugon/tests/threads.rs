//! Decoders and encoders that move between threads, over one set that the threads share.
use std::sync::mpsc;
use std::thread;
use talvrugon::{Decoder, Encoder, Event, Limits, Records, Set, Value};

const SET: &str = r#"
[[template]]
name = "T"
id = 1
fields = [{ kind = "uInt32", name = "n", op = "increment" }]
"#;
/// T with 5; then, by increment, with one more each time.
const FIRST: &[u8] = b"\xe0\x81\x85";
const NEXT: &[u8] = b"\x80";
const THREADS: usize = 8;

fn is_send<T: Send>() {}
fn is_sync<T: Sync>() {}

#[test]
fn marks() {
    is_send::<Decoder>();
    is_send::<Encoder>();
    is_send::<Set>();
    is_sync::<Set>();
}

#[test]
fn a_decoder_goes_round() {
    let mut decoder = Decoder::new(&Set::read(SET).unwrap(), Limits::default()).unwrap();
    decoder.feed(FIRST, |_| {}).unwrap();
    for number in 6..6 + THREADS as u64 {
        let moved = thread::spawn(move || {
            let mut last = 0;
            decoder.feed(NEXT, |event| if let Event::Field { value: Value::Unsigned(it), .. } = event { last = it }).unwrap();
            (decoder, last)
        });
        let (back, last) = moved.join().unwrap();
        decoder = back;
        assert_eq!(last, number);
    }
}

#[test]
fn threads_share_a_set() {
    let set = Set::read(SET).unwrap();
    let (to, from) = mpsc::channel();
    for number in 0..THREADS {
        let (set, to) = (set.clone(), to.clone());
        thread::spawn(move || {
            let mut message = Records::default();
            message.push(Event::MessageStart { template: 0 });
            message.push(Event::Field { node: 0, value: Value::Unsigned(number as u64) });
            message.push(Event::MessageEnd { consumed: 0 });
            to.send((Encoder::new(&set, Limits::default()).unwrap(), message, set.node_name(0))).unwrap();
        });
    }
    drop((set, to));
    // each was made by another thread, which has ended
    let mut bytes = Vec::new();
    for (mut encoder, message, name) in from {
        encoder.encode(&message, &mut bytes).unwrap();
        assert_eq!(name.as_deref(), Some("n"));
    }
    assert_eq!(bytes.len(), THREADS * FIRST.len());
}
