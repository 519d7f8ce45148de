//! Tests of `talvrugon` with packets, faults, limits and messages that are refused.
use talvrugon::{Decoder, Encoder, Error, Event, Limits, Records, Room, Set, Start, Value};

const SET: &str = r#"
[[template]]
name = "T"
id = 1
fields = [
  { kind = "uInt32", name = "n", op = "increment" },
  { kind = "bytes", name = "b" },
]
[[template]]
name = "S"
id = 2
fields = [{ kind = "sequence", name = "s", fields = [{ kind = "uInt32", name = "e" }] }]
"#;
/// A message of T with 5 and the bytes "abc"; then one with 6, by increment, and no bytes.
const FIRST: &[u8] = b"\xe0\x81\x85\x83abc";
const SECOND: &[u8] = b"\x80\x80";

fn decoder(limits: Limits) -> Decoder {
    Decoder::new(&Set::read(SET).unwrap(), limits).unwrap()
}

/// Returns the unsigned integers and the bytes that a call emits.
fn values(call: impl FnOnce(&mut dyn FnMut(Event<'_>)) -> Result<(), Error>) -> (Result<(), Error>, Vec<u64>, usize) {
    let (mut numbers, mut bytes) = (Vec::new(), 0);
    let end = call(&mut |event| match event {
        Event::Field { value: Value::Unsigned(number), .. } => numbers.push(number),
        Event::Field { value: Value::Bytes(text), .. } => bytes += text.len(),
        _ => {}
    });
    (end, numbers, bytes)
}

#[test]
fn packets() {
    let mut decoder = decoder(Limits::default());
    assert_eq!(values(|take| decoder.packet(FIRST, Start::Reset, take)), (Ok(()), vec![5], 3));
    assert_eq!(values(|take| decoder.packet(SECOND, Start::Continue, take)), (Ok(()), vec![6], 0));
    assert_eq!((decoder.consumed(), decoder.between()), (9, true));
    // More records than a room has.
    let (end, numbers, _) = values(|take| decoder.packet(&[FIRST, &SECOND.repeat(1100)].concat(), Start::Reset, take));
    assert_eq!((end, numbers.len(), numbers.last()), (Ok(()), 1101, Some(&1105)));
    // More of them, and the packet ends inside a message.
    let long = [FIRST, &SECOND.repeat(1100), &FIRST[..3]].concat();
    let truncated = Error { status: 6, place: long.len() as u64 };
    assert_eq!(values(|take| decoder.packet(&long, Start::Reset, take)).0, Err(truncated));
    let undefined = Error { status: 103, place: 1 };
    assert_eq!(values(|take| decoder.packet(SECOND, Start::Reset, take)), (Err(undefined), vec![], 0));
    assert_eq!(undefined.code().as_deref(), Some("D5"));
    let cut = Error { status: 6, place: 5 };
    assert_eq!(values(|take| decoder.packet(&FIRST[..5], Start::Reset, take)), (Err(cut), vec![5], 0));
    assert_eq!((cut.code(), decoder.between()), (None, false));
    assert_eq!(cut.to_string(), "the packet ends inside a message (at 5)");
    assert_eq!(values(|take| decoder.packet(SECOND, Start::Continue, take)), (Err(cut), vec![], 0));
    assert_eq!(values(|take| decoder.feed(SECOND, take)), (Err(cut), vec![], 0));
    decoder.reset();
    assert_eq!((decoder.consumed(), decoder.between()), (0, true));
    assert_eq!(values(|take| decoder.feed(&FIRST[..3], take)), (Ok(()), vec![5], 0));
    assert_eq!((decoder.consumed(), decoder.between()), (3, false));
    assert_eq!(values(|take| decoder.feed(&FIRST[3..], take)), (Ok(()), vec![], 3));
}

#[test]
fn limits() {
    assert_eq!(Limits::default(), Limits { strict: false, max_text: 1024, max_elements: 1000, max_total: 1000 });
    let elements = b"\xc0\x82\x82\x81\x81";
    for (max_elements, max_total, status) in [(1, 9, 114), (9, 1, 119)] {
        let mut decoder = decoder(Limits { max_elements, max_total, ..Limits::default() });
        assert_eq!(decoder.feed(elements, |_| {}).unwrap_err().status, status);
    }
    let set = Set::read(SET).unwrap();
    let elements = [&b"\xc0\x82\x02\xac"[..], &[0x81; 300]].concat();
    let mut message = Records::default();
    message.push(Event::MessageStart { template: 1 });
    message.push(Event::SequenceStart { node: 2, count: 300 });
    for _ in 0..300 {
        message.push(Event::ElementStart);
        message.push(Event::Field { node: 3, value: Value::Unsigned(1) });
        message.push(Event::ElementEnd);
    }
    message.push(Event::SequenceEnd);
    message.push(Event::MessageEnd { consumed: 0 });
    for (max_elements, end) in [(299, Err(404)), (300, Ok(&elements))] {
        let mut encoder = Encoder::new(&set, Limits { max_elements, max_total: 301, ..Limits::default() }).unwrap();
        let mut out = Vec::new();
        assert_eq!(encoder.encode(&message, &mut out).map(|()| &out).map_err(|error| error.status), end);
    }
    // Two sequences of one element each.
    let pair = Set::read(&SET.replacen("fields = [{", "fields = [{ kind = \"sequence\", name = \"r\", fields = [{ kind = \"int32\", name = \"e\" }] }, {", 1));
    let mut message = Records::default();
    message.push(Event::MessageStart { template: 1 });
    for (node, value) in [(2, Value::Signed(1)), (4, Value::Unsigned(1))] {
        message.push(Event::SequenceStart { node, count: 1 });
        message.push(Event::ElementStart);
        message.push(Event::Field { node: node + 1, value });
        message.push(Event::ElementEnd);
        message.push(Event::SequenceEnd);
    }
    message.push(Event::MessageEnd { consumed: 0 });
    let one_each = Limits { max_elements: 1, max_total: 2, ..Limits::default() };
    Encoder::new(&pair.unwrap(), one_each).unwrap().encode(&message, &mut Vec::new()).unwrap();
    let most = 1 << 20;
    let text = vec![b'x'; most];
    let limits = |max_text| Limits { max_text, ..Limits::default() };
    let mut message = Records::default();
    for event in [
        Event::MessageStart { template: 0 },
        Event::Field { node: 0, value: Value::Unsigned(5) },
        Event::Field { node: 1, value: Value::Bytes(&text) },
        Event::MessageEnd { consumed: 0 },
    ] {
        message.push(event);
    }
    let mut out = Vec::new();
    Encoder::new(&Set::read(SET).unwrap(), limits(most as u32)).unwrap().encode(&message, &mut out).unwrap();
    let mut room = Room::default();
    decoder(Limits::default()).feed_in(&mut room, FIRST, |_| {}).unwrap();
    assert_eq!(values(|take| decoder(limits(most as u32)).feed_in(&mut room, &out, take)), (Ok(()), vec![5], most));
    let longer = decoder(limits(most as u32 - 1)).feed_in(&mut room, &out, |_| {}).unwrap_err();
    assert_eq!(longer.code().as_deref(), Some("L1"));
    assert_eq!(Decoder::new(&Set::read(SET).unwrap(), limits(15)).unwrap_err().status, 201);
    assert_eq!(Encoder::new(&Set::read(SET).unwrap(), limits(15)).unwrap_err().status, 201);
}

#[test]
fn names() {
    // The longest.
    let name = "n".repeat(64);
    let set = Set::read(&SET.replace("\"S\"", &format!("{name:?}"))).unwrap();
    assert_eq!((set.find_template(&name), set.template_name(1)), (Some(1), Some(name)));
}

#[test]
fn messages() {
    let set = Set::read(SET).unwrap();
    assert_eq!((set.templates(), set.nodes(), set.template_name(1), set.node_name(9)), (2, 4, Some("S".to_owned()), None));
    let mut encoder = Encoder::new(&set, Limits::default()).unwrap();
    drop(set);
    let (mut out, mut open) = (b"kept".to_vec(), Records::default());
    assert_eq!(encoder.encode(&open, &mut out), Err(Error { status: 5, place: 0 }));
    open.push(Event::MessageStart { template: 0 });
    open.push(Event::Field { node: 0, value: Value::Unsigned(5) });
    assert_eq!(encoder.encode(&open, &mut out), Err(Error { status: 5, place: 2 }));
    open.push(Event::Field { node: 1, value: Value::Bytes(b"abc") });
    open.push(Event::MessageEnd { consumed: 0 });
    assert_eq!(out, b"kept");
    encoder.encode(&open, &mut out).unwrap();
    encoder.reset();
    encoder.encode(&open, &mut out).unwrap();
    assert_eq!(out, [b"kept", FIRST, FIRST].concat());
    let refused = Set::read("x").unwrap_err();
    assert_eq!((refused.status, refused.code().as_deref()), (301, Some("S1")));
}
