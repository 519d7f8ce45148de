use talvrugon_sys::Record;

/// A value of a field. Strings are borrowed for the call only.
#[derive(Clone, Copy, Debug, PartialEq, Eq)]
pub enum Value<'a> {
    Unsigned(u64),
    Signed(i64),
    /// The mantissa times ten to the exponent.
    Decimal { mantissa: i64, exponent: i32 },
    /// An ASCII string: characters below U+0080.
    Ascii(&'a [u8]),
    /// A Unicode string, in UTF-8.
    Unicode(&'a [u8]),
    Bytes(&'a [u8]),
}

/// An event of a stream. Templates and nodes are numbers of their [`Set`](crate::Set).
#[derive(Clone, Copy, Debug, PartialEq, Eq)]
pub enum Event<'a> {
    MessageStart { template: u32 },
    Field { node: u32, value: Value<'a> },
    GroupStart { node: u32 },
    GroupEnd,
    SequenceStart { node: u32, count: u32 },
    ElementStart,
    ElementEnd,
    SequenceEnd,
    /// The message ends after this number of bytes of the stream, counted since the decoder was made or reset. An encoder takes any.
    MessageEnd { consumed: u64 },
}

/// Returns the event of a record.
#[inline]
pub(crate) fn event_of<'a>(record: &Record, texts: &'a [u8]) -> Event<'a> {
    let node = record.node;
    let text = || &texts[record.value as usize..][..record.length as usize];
    let field = |value| Event::Field { node, value };
    match record.kind {
        1 => Event::MessageStart { template: node },
        2 => field(Value::Unsigned(record.value)),
        3 => field(Value::Signed(record.value as i64)),
        4 => field(Value::Decimal { mantissa: record.value as i64, exponent: record.exponent }),
        5 => field(Value::Ascii(text())),
        6 => field(Value::Unicode(text())),
        7 => field(Value::Bytes(text())),
        8 => Event::GroupStart { node },
        9 => Event::GroupEnd,
        10 => Event::SequenceStart { node, count: record.value as u32 },
        11 => Event::ElementStart,
        12 => Event::ElementEnd,
        13 => Event::SequenceEnd,
        _ => Event::MessageEnd { consumed: record.value },
    }
}

/// Returns the record of an event, and its string.
pub(crate) fn record_of<'a>(event: Event<'a>, place: u64) -> (Record, &'a [u8]) {
    let mark = |kind, node, value| Record { kind, node, value, ..Record::default() };
    // A string that is too long for its record is longer than any limit.
    let length = |text: &[u8]| u32::try_from(text.len()).unwrap_or(u32::MAX);
    let text = |kind, node, text: &'a [u8]| (Record { length: length(text), ..mark(kind, node, place) }, text);
    match event {
        Event::MessageStart { template } => (mark(1, template, 0), &[]),
        Event::Field { node, value: Value::Unsigned(number) } => (mark(2, node, number), &[]),
        Event::Field { node, value: Value::Signed(number) } => (mark(3, node, number as u64), &[]),
        Event::Field { node, value: Value::Decimal { mantissa, exponent } } => {
            (Record { exponent, ..mark(4, node, mantissa as u64) }, &[])
        }
        Event::Field { node, value: Value::Ascii(it) } => text(5, node, it),
        Event::Field { node, value: Value::Unicode(it) } => text(6, node, it),
        Event::Field { node, value: Value::Bytes(it) } => text(7, node, it),
        Event::GroupStart { node } => (mark(8, node, 0), &[]),
        Event::GroupEnd => (mark(9, 0, 0), &[]),
        Event::SequenceStart { node, count } => (mark(10, node, u64::from(count)), &[]),
        Event::ElementStart => (mark(11, 0, 0), &[]),
        Event::ElementEnd => (mark(12, 0, 0), &[]),
        Event::SequenceEnd => (mark(13, 0, 0), &[]),
        Event::MessageEnd { consumed } => (mark(14, 0, consumed), &[]),
    }
}

#[cfg(test)]
mod tests {
    use super::*;

    /// The length of a text of 4 GiB and more is not that of its low bits. Nothing reads the text, so it has no memory.
    #[test]
    fn a_long_text() {
        let text = vec![0; (1 << 32) + 3];
        let (record, _) = record_of(Event::Field { node: 0, value: Value::Bytes(&text) }, 0);
        assert_eq!(record.length, u32::MAX);
    }
}
