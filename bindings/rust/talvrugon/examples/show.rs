//! show TEMPLATES STREAM [PIECE]: prints the lines of a stream, as `fastcat show` does. With `--again` as the first argument, it prints the
//! bytes of its messages, encoded again.
use std::error::Error;
use std::fmt::Write as _;
use std::io::{self, Write};
use std::process::ExitCode;
use talvrugon::{Decoder, Encoder, Event, Limits, Records, Set, Value};

fn quoted(text: &[u8], out: &mut Vec<u8>) {
    out.push(b'"');
    for &byte in text {
        match byte {
            b'"' | b'\\' => out.extend([b'\\', byte]),
            0..=0x1f | 0x7f => out.extend(format!("\\x{byte:02x}").bytes()),
            _ => out.push(byte),
        }
    }
    out.push(b'"');
}

fn hex(bytes: &[u8]) -> String {
    bytes.iter().fold(String::new(), |mut digits, byte| {
        let _ = write!(digits, "{byte:02x}");
        digits
    })
}

/// Appends the line of an event.
fn line(set: &Set, event: Event<'_>, out: &mut Vec<u8>) -> io::Result<()> {
    let name = |node| set.node_name(node).unwrap_or_default();
    match event {
        Event::MessageStart { template } => write!(out, "message {}", set.template_name(template).unwrap_or_default())?,
        Event::Field { node, value } => {
            write!(out, "field {node} {} ", name(node))?;
            match value {
                Value::Unsigned(number) => write!(out, "u {number}")?,
                Value::Signed(number) => write!(out, "i {number}")?,
                Value::Decimal { mantissa, exponent } => write!(out, "d {mantissa}e{exponent}")?,
                Value::Ascii(text) => {
                    out.extend(b"a ");
                    quoted(text, out);
                }
                Value::Unicode(text) => {
                    out.extend(b"s ");
                    quoted(text, out);
                }
                Value::Bytes(bytes) => write!(out, "b {}", hex(bytes))?,
            }
        }
        Event::GroupStart { node } => write!(out, "group {node} {}", name(node))?,
        Event::GroupEnd => out.extend(b"end group"),
        Event::SequenceStart { node, count } => write!(out, "sequence {node} {} {count}", name(node))?,
        Event::ElementStart => out.extend(b"element"),
        Event::ElementEnd => out.extend(b"end element"),
        Event::SequenceEnd => out.extend(b"end sequence"),
        Event::MessageEnd { .. } => out.extend(b"end message"),
    }
    out.push(b'\n');
    Ok(())
}

fn show(set: &Set, stream: &[u8], piece: usize) -> Result<ExitCode, Box<dyn Error>> {
    let mut decoder = Decoder::new(set, Limits::default())?;
    let mut out = Vec::new();
    for bytes in stream.chunks(piece) {
        let end = decoder.feed(bytes, |event| line(set, event, &mut out).expect("a Vec takes all"));
        io::stdout().write_all(&out)?;
        out.clear();
        if let Err(fault) = end {
            println!("fault {} at {}", fault.code().unwrap_or_default(), fault.place);
            return Ok(ExitCode::from(1));
        }
    }
    if decoder.between() {
        return Ok(ExitCode::SUCCESS);
    }
    println!("truncated at {}", decoder.consumed());
    Ok(ExitCode::from(1))
}

fn again(set: &Set, stream: &[u8]) -> Result<ExitCode, Box<dyn Error>> {
    let mut decoder = Decoder::new(set, Limits::default())?;
    let mut encoder = Encoder::new(set, Limits::default())?;
    let (mut messages, mut open) = (Vec::new(), Records::default());
    decoder.feed(stream, |event| {
        open.push(event);
        if matches!(event, Event::MessageEnd { .. }) {
            messages.push(std::mem::take(&mut open));
        }
    })?;
    let mut out = Vec::new();
    for message in &messages {
        encoder.encode(message, &mut out)?;
    }
    io::stdout().write_all(&out)?;
    Ok(ExitCode::SUCCESS)
}

fn main() -> Result<ExitCode, Box<dyn Error>> {
    let mut words: Vec<String> = std::env::args().skip(1).collect();
    let is_again = words.first().is_some_and(|word| word == "--again");
    if is_again {
        words.remove(0);
    }
    let [templates, stream, piece @ ..] = words.as_slice() else {
        return Err("show [--again] TEMPLATES STREAM [PIECE]".into());
    };
    let set = Set::read(&std::fs::read_to_string(templates)?)?;
    let stream = std::fs::read(stream)?;
    if is_again {
        return again(&set, &stream);
    }
    let piece = piece.first().map_or(Ok(0), |word| word.parse())?;
    show(&set, &stream, if piece == 0 { stream.len().max(1) } else { piece })
}
