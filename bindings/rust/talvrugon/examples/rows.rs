//! rows: prints the results of each stream of the rows on standard input, as `tools/calls/faces/rows.cpp` does.
use std::error::Error;
use std::io::{self, BufRead};
use talvrugon::{Decoder, Event, Limits, Room, Set, Value};

/// The checksum that docs/PERFORMANCE.md defines, and the offset of the last end of a message.
struct Sums {
    events: u64,
    sum: u64,
    end: Option<u64>,
}

impl Sums {
    fn add(&mut self, word: u64) {
        self.sum = (self.sum ^ word).wrapping_mul(0x100000001b3);
    }

    fn mark(&mut self, kind: u64, node: u32, value: u64) {
        self.events += 1;
        let key = (u64::from(node) * 16 + kind).wrapping_mul(0x9e3779b97f4a7c15);
        self.add(key.wrapping_add(value));
    }

    fn text(&mut self, kind: u64, node: u32, text: &[u8]) {
        self.mark(kind, node, text.len() as u64);
        for bytes in text.chunks(8) {
            let mut word = [0; 8];
            word[..bytes.len()].copy_from_slice(bytes);
            self.add(u64::from_le_bytes(word));
        }
    }

    fn take(&mut self, event: Event<'_>) {
        match event {
            Event::MessageStart { template } => self.mark(1, template, 0),
            Event::Field { node, value: Value::Unsigned(value) } => self.mark(2, node, value),
            Event::Field { node, value: Value::Signed(value) } => self.mark(3, node, value as u64),
            Event::Field { node, value: Value::Decimal { mantissa, exponent } } => {
                self.mark(4, node, mantissa as u64);
                self.add(i64::from(exponent) as u64);
            }
            Event::Field { node, value: Value::Ascii(text) } => self.text(5, node, text),
            Event::Field { node, value: Value::Unicode(text) } => self.text(6, node, text),
            Event::Field { node, value: Value::Bytes(text) } => self.text(7, node, text),
            Event::GroupStart { node } => self.mark(8, node, 0),
            Event::GroupEnd => self.mark(9, 0, 0),
            Event::SequenceStart { node, count } => self.mark(10, node, u64::from(count)),
            Event::ElementStart => self.mark(11, 0, 0),
            Event::ElementEnd => self.mark(12, 0, 0),
            Event::SequenceEnd => self.mark(13, 0, 0),
            Event::MessageEnd { consumed } => {
                self.mark(14, 0, 0);
                self.end = Some(consumed);
            }
        }
    }
}

/// Feeds a stream, with a borrowed room, and once more after a fault, which must return the same error.
fn run(decoder: &mut Decoder, room: &mut Room, stream: &[u8], piece: usize) {
    let mut to = Sums { events: 0, sum: 0xcbf29ce484222325, end: None };
    let (mut end, mut is_placed) = (Ok(()), true);
    for bytes in stream.chunks(piece) {
        end = decoder.feed_in(room, bytes, |event| to.take(event));
        // A message ends at its last byte.
        let last = to.end.take();
        is_placed &= piece != 1 || last.is_none() || last == Some(decoder.consumed());
        if end.is_err() {
            break;
        }
    }
    let (mut status, mut words) = (u32::from(!is_placed), "-".to_owned());
    if let Err(fault) = end {
        let is_same = decoder.feed(b"", |event| to.take(event)) == Err(fault) && fault.place == decoder.consumed();
        status = if is_same && fault.code().is_some() { fault.status } else { 1 };
        words = fault.words();
    }
    println!("{status} {} {} {} {:016x} {words}", u8::from(decoder.between()), decoder.consumed(), to.events, to.sum);
}

fn main() -> Result<(), Box<dyn Error>> {
    let mut room = Room::default();
    for row in io::stdin().lock().lines() {
        let row = row?;
        let [path, strict, max_text, max_elements, max_total, piece, hex] = row.split(' ').collect::<Vec<_>>()[..] else {
            return Err("no row".into());
        };
        let limits = Limits {
            strict: strict == "1",
            max_text: max_text.parse()?,
            max_elements: max_elements.parse()?,
            max_total: max_total.parse()?,
        };
        let digits = hex.trim_matches('-').as_bytes();
        let stream = digits
            .chunks(2)
            .map(|pair| Ok(u8::from_str_radix(std::str::from_utf8(pair)?, 16)?))
            .collect::<Result<Vec<u8>, Box<dyn Error>>>()?;
        let mut decoder = Decoder::new(&Set::read(&std::fs::read_to_string(path)?)?, limits)?;
        let piece: usize = piece.parse()?;
        run(&mut decoder, &mut room, &stream, if piece == 0 { stream.len() + 1 } else { piece });
        decoder.reset();
        run(&mut decoder, &mut room, &stream, 3);
    }
    Ok(())
}
