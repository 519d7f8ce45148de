//! Tests of messages by name: names twice in a segment, all types, pieces, faults, and what an encoder refuses.
use std::panic::{catch_unwind, AssertUnwindSafe};
use talvrugon::message::{Decimal, Fields, Value};
use talvrugon::{EncodeError, Encoder, Error, Limits, Message, MessageDecoder, Set, Start};

const SET: &str = r#"
[[template]]
name = "Part"
fields = [{ kind = "uInt32", name = "n", optional = true }, { kind = "ascii", name = "F", optional = true }]

[[template]]
name = "Same"
id = 4294967295
fields = [
  { kind = "uInt32", name = "F" },
  { kind = "int64", name = "F", optional = true },
  { kind = "ref", name = "Part" },
  { kind = "group", name = "F", optional = true, fields = [
    { kind = "decimal", name = "F" },
    { kind = "bytes", name = "F" },
    { kind = "unicode", name = "n", optional = true },
  ] },
  { kind = "sequence", name = "F", optional = true, length = { name = "n" }, fields = [
    { kind = "int32", name = "F" },
    { kind = "sequence", name = "F", fields = [{ kind = "uInt64", name = "F" }, { kind = "ref", name = "Part" }] },
  ] },
  { kind = "uInt32", name = "n", optional = true },
]

[[template]]
name = "Values"
id = 0
fields = [
  { kind = "uInt32", name = "u.32" },
  { kind = "int32", name = "i-32" },
  { kind = "uInt64", name = "u_64" },
  { kind = "int64", name = "i64" },
  { kind = "decimal", name = "d" },
  { kind = "decimal", name = "e", exponent = { op = "copy" }, mantissa = { op = "delta" } },
  { kind = "ascii", name = "a" },
  { kind = "unicode", name = "s" },
  { kind = "bytes", name = "b" },
  { kind = "group", name = "g", fields = [{ kind = "uInt32", name = "x", optional = true }] },
  { kind = "sequence", name = "q", fields = [{ kind = "uInt32", name = "c", optional = true, op = "copy" }] },
  { kind = "ascii", name = "k", op = "constant", value = "kept" },
]
"#;

fn set() -> Set {
    Set::read(SET).unwrap()
}

fn decoder() -> MessageDecoder {
    MessageDecoder::new(&set(), Limits::default()).unwrap()
}

fn decimal(mantissa: i64, exponent: i32) -> Decimal {
    Decimal { mantissa, exponent }
}

/// Fields of the template Same, with names twice.
fn same() -> Fields {
    let level = Fields::default().with("F", u64::MAX).with("F#2", "x").with("n", 7);
    let first = Fields::default().with("F", -1).with("F#2", Vec::<Fields>::new());
    let second = Fields::default().with("F", i32::MAX).with("F#2", vec![level, Fields::default().with("F", 0u32)]);
    let group = Fields::default().with("F", decimal(i64::MIN, -63)).with("F#2", vec![0, 255u8]).with("n", "é\0");
    Fields::default()
        .with("n#2", 9u32)
        .with("F", u32::MAX)
        .with("F#2", i64::MIN)
        .with("F#4", group)
        .with("F#5", vec![first, second])
}

fn values() -> Fields {
    let numbers = Fields::default().with("u.32", 0u32).with("i-32", i32::MIN).with("u_64", u64::MAX).with("i64", i64::MIN);
    let texts = numbers.with("d", decimal(0, -2)).with("e", decimal(-5, 0)).with("a", "a").with("s", "ü").with("b", &b"\0"[..]);
    let elements = vec![Fields::default(), Fields::default().with("c", 3u32)];
    texts.with("g", Fields::default()).with("q", elements).with("k", "kept")
}

fn encoded(messages: &[Message]) -> Vec<u8> {
    let (mut encoder, mut out) = (Encoder::new(&set(), Limits::default()).unwrap(), Vec::new());
    messages.iter().for_each(|it| encoder.encode_message(it, &mut out).unwrap());
    out
}

fn decoded(decoder: &mut MessageDecoder, piece: &[u8]) -> (Result<(), Error>, Vec<Message>) {
    let mut all = Vec::new();
    let end = decoder.feed(piece, |it| all.push(it));
    (end, all)
}

fn both() -> Vec<Message> {
    vec![Message::new("Same", same()), Message::new("Values", values())]
}

#[test]
fn access() {
    let (end, all) = decoded(&mut decoder(), &encoded(&both()));
    assert_eq!((end, all.len()), (Ok(()), 2));
    let [same, values] = &all[..] else { unreachable!() };
    assert_eq!((same.template(), same.id(), values.template(), values.id()), ("Same", Some(u32::MAX), "Values", Some(0)));
    let keys: Vec<&str> = same.fields.iter().map(|(key, _)| key).collect();
    assert_eq!((keys, same.fields.len()), (vec!["F", "F#2", "F#4", "F#5", "n#2"], 5));
    assert_eq!(
        (same["F"].as_u64(), same["F#2"].as_i64(), same["n#2"].as_u64()),
        (Some(u32::MAX.into()), Some(i64::MIN), Some(9))
    );
    assert_eq!((same["F"].as_i64(), same["F#2"].as_u64(), same["F#4"].as_str(), same.get("n")), (None, None, None, None));
    assert_eq!(same["F#4"]["F"].as_decimal(), Some(decimal(i64::MIN, -63)));
    assert_eq!((same["F#4"]["F#2"].as_bytes(), same["F#4"]["n"].as_str()), (Some(&[0, 255][..]), Some("é\0")));
    assert_eq!(same["F#4"].as_group().map(Fields::len), Some(3));
    let elements = same["F#5"].as_sequence().unwrap();
    assert_eq!((elements.len(), elements[0]["F"].as_i64(), elements[0]["F#2"].as_sequence()), (2, Some(-1), Some(&[][..])));
    assert_eq!(same["F#5"][1]["F#2"][0]["F"], Value::Unsigned(u64::MAX));
    assert_eq!(same["F#5"][1]["F#2"][0]["F#2"], Value::Text("x".into()));
    assert_eq!((&values["g"], values["d"].as_decimal().unwrap().to_string()), (&Value::Group(Fields::default()), "0e-2".into()));
    let panics = |call: fn(&Message)| catch_unwind(AssertUnwindSafe(|| call(same))).is_err();
    assert!(panics(|it| drop(it["x"].clone())) && panics(|it| drop(it["F"]["x"].clone())));
    assert!(
        panics(|it| drop(it["F#5"][2].clone())) && panics(|it| drop(it["F"][0].clone())) && !panics(|it| drop(it["F"].clone()))
    );
}

/// Decoded messages are encoded as the same bytes, in whatever order the fields were set.
#[test]
fn again() {
    let bytes = encoded(&both());
    let (_, all) = decoded(&mut decoder(), &bytes);
    assert_eq!(encoded(&all), bytes);
    assert_eq!(decoded(&mut decoder(), &encoded(&all)).1, all);
}

#[test]
fn pieces() {
    let bytes = encoded(&both());
    let (_, due) = decoded(&mut decoder(), &bytes);
    let (mut decoder, mut is_seen) = (decoder(), false);
    for at in 0..=bytes.len() {
        let (_, mut all) = decoded(&mut decoder, &bytes[..at]);
        let open = decoder.partial();
        if let Some(open) = open {
            let whole = &due[all.len()];
            assert_eq!((open.template(), open.id()), (whole.template(), whole.id()));
            let wanted: Vec<&str> = whole.fields.iter().map(|(key, _)| key).take(open.fields.len()).collect();
            assert_eq!(open.fields.iter().map(|(key, _)| key).collect::<Vec<_>>(), wanted);
            is_seen |= open.get("F#5").and_then(Value::as_sequence).is_some_and(|it| it.len() == 1);
        }
        all.extend(decoded(&mut decoder, &bytes[at..]).1);
        assert_eq!((&all, decoder.between(), decoder.partial()), (&due, true, None));
        decoder.reset();
    }
    // A sequence that is open is in the partial message, with the elements so far.
    assert!(is_seen);
}

#[test]
fn faults() {
    let limits = Limits { max_elements: 1, ..Limits::default() };
    let mut decoder = MessageDecoder::new(&set(), limits).unwrap();
    let one = Message::new("Same", Fields::default().with("F", 1u32));
    let bytes = encoded(&[one.clone(), both()[0].clone()]);
    for _ in 0..2 {
        let (end, all) = decoded(&mut decoder, &bytes);
        assert_eq!((end.unwrap_err().code().as_deref(), all.len(), &all[0].fields), (Some("L2"), 1, &one.fields));
        let open = decoder.partial().unwrap();
        assert_eq!(open.fields.iter().map(|(key, _)| key).collect::<Vec<_>>(), ["F", "F#2", "F#4"]);
        assert_eq!(decoded(&mut decoder, &bytes), (end, vec![]));
        decoder.reset();
        assert_eq!(decoder.partial(), None);
    }
    let (packet, mut count) = (encoded(&[one]), 0);
    assert_eq!(decoder.packet(&packet, Start::Reset, |_| count += 1), Ok(()));
    let cut = decoder.packet(&packet[..packet.len() - 1], Start::Reset, |_| count += 1).unwrap_err();
    assert_eq!((cut.status, count), (6, 1));
    assert_eq!(decoder.packet(&packet, Start::Continue, |_| count += 1), Err(cut));
    assert!(decoder.partial().is_some() && decoder.packet(&packet[..1], Start::Reset, |_| count += 1).is_err());
    assert_eq!((count, decoder.partial()), (1, None));
    assert_eq!((decoder.packet(&packet, Start::Reset, |_| count += 1), count, decoder.partial()), (Ok(()), 2, None));
}

/// Returns the fields of Same with another value in the first element, the group, or the message.
fn with(at: &str, key: &str, value: impl Into<Value>) -> Fields {
    let mut fields = same();
    match at {
        "F#4" => {
            let group = fields["F#4"].as_group().unwrap().clone();
            fields.set("F#4", group.with(key, value))
        }
        "F#5" => {
            let mut elements = fields["F#5"].as_sequence().unwrap().to_vec();
            elements[1].set(key, value);
            fields.set("F#5", elements)
        }
        _ => fields.set(key, value),
    };
    fields
}

#[test]
fn refusals() {
    let rows = [
        (with("", "F", 1u64 << 32), "F", "is Unsigned(4294967296), and has to be an integer from 0 to 4294967295"),
        (with("", "F", -1), "F", "is Signed(-1), and has to be an integer from 0 to 4294967295"),
        (with("", "F#2", 1u64 << 63), "F#2", "and has to be an integer from -9223372036854775808 to 9223372036854775807"),
        (with("", "F#2", "1"), "F#2", "is Text(\"1\"), and has to be an integer from"),
        (with("F#5", "F", 1u32 << 31), "F#5[1].F", "and has to be an integer from -2147483648 to 2147483647"),
        (with("F#5", "F#2", vec![Fields::default().with("F", -1)]), "F#5[1].F#2[0].F", "from 0 to 18446744073709551615"),
        (with("F#5", "F#2", Fields::default()), "F#5[1].F#2", "and has to be a sequence"),
        (with("F#5", "F#2", vec![Fields::default()]), "F#5[1].F#2[0].F", "is missing: it is mandatory, and has to be an integer"),
        (with("F#4", "F", decimal(1, 64)), "F#4.F", "and has to be a decimal with an exponent from -63 to 63"),
        (with("F#4", "F", decimal(1, -64)), "F#4.F", "and has to be a decimal with an exponent from -63 to 63"),
        (with("F#4", "F", 1), "F#4.F", "is Signed(1), and has to be a decimal"),
        (with("F#4", "F#2", "00"), "F#4.F#2", "and has to be a byte vector"),
        (with("F#4", "n", vec![0u8]), "F#4.n", "and has to be a string"),
        (with("F#4", "x", 1), "F#4.x", "is not in the template, which has there F, F#2, n"),
        (with("", "F#3", "é"), "F#3", "and has to be a string of characters below U+0080"),
        (with("", "F#4", vec![0u8]), "F#4", "and has to be a group"),
        (with("", "F#6", 1), "F#6", "is not in the template, which has there F, F#2, n, F#3, F#4, F#5, n#2"),
        (Fields::default(), "F", "is missing: it is mandatory, and has to be an integer from 0 to 4294967295"),
    ];
    let (mut encoder, mut out) = (Encoder::new(&set(), Limits::default()).unwrap(), Vec::new());
    for (fields, due, end) in rows {
        let error = encoder.encode_message(&Message::new("Same", fields), &mut out).unwrap_err();
        let EncodeError::Invalid { path, words } = &error else { panic!("{error}") };
        assert_eq!(path, due);
        assert!(words.starts_with(&format!("{due} of Same is ")) && words.contains(end), "{words}");
        assert_eq!((error.to_string(), out.len()), (words.clone(), 0));
    }
    let other = encoder.encode_message(&Message::new("X", Fields::default()), &mut out).unwrap_err();
    assert_eq!(other, EncodeError::Invalid { path: String::new(), words: "the set has no template X".into() });
    let part = encoder.encode_message(&Message::new("Part", Fields::default()), &mut out).unwrap_err();
    assert_eq!(part, EncodeError::Refused(Error { status: 401, place: 0 }));
    encoder.encode_message(&both()[0], &mut out).unwrap();
    assert_eq!(out, encoded(&both()[..1]));
}

/// A set of which messages were made is still shared by threads.
#[test]
fn threads() {
    let (set, bytes) = (set(), encoded(&both()));
    std::thread::scope(|scope| {
        let run = || decoded(&mut MessageDecoder::new(&set, Limits::default()).unwrap(), &bytes).1;
        let other = scope.spawn(run);
        assert_eq!(run(), other.join().unwrap());
    });
}
