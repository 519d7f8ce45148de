//! messages TEMPLATES STREAM [PIECE]: writes the messages of a stream as `fastcat show --json` does. With `--again` as the first argument, it
//! writes the bytes of its messages, encoded again.
use std::error::Error;
use std::fmt::Write as _;
use std::io::{self, Write};
use talvrugon::message::{Fields, Value};
use talvrugon::{Encoder, Limits, Message, MessageDecoder, Set};

fn string(text: &str, out: &mut String) {
    out.push('"');
    for c in text.chars() {
        match c {
            '"' | '\\' => out.extend(['\\', c]),
            '\0'..='\x1f' | '\x7f' => {
                let _ = write!(out, "\\u{:04x}", u32::from(c));
            }
            _ => out.push(c),
        }
    }
    out.push('"');
}

/// Writes parts with commas between them.
fn list<T>(parts: impl Iterator<Item = T>, out: &mut String, mut part: impl FnMut(T, &mut String)) {
    for (number, it) in parts.enumerate() {
        if number > 0 {
            out.push(',');
        }
        part(it, out);
    }
}

fn object(fields: &Fields, out: &mut String) {
    out.push('{');
    list(fields.iter(), out, |(key, it), out| {
        string(key, out);
        out.push(':');
        value(it, out);
    });
    out.push('}');
}

fn value(it: &Value, out: &mut String) {
    match it {
        Value::Unsigned(number) => out.push_str(&number.to_string()),
        Value::Signed(number) => out.push_str(&number.to_string()),
        Value::Decimal(number) => out.push_str(&format!("\"{number}\"")),
        Value::Text(text) => string(text, out),
        Value::Bytes(bytes) => {
            out.push('"');
            bytes.iter().for_each(|byte| out.push_str(&format!("{byte:02x}")));
            out.push('"');
        }
        Value::Group(fields) => object(fields, out),
        Value::Sequence(elements) => {
            out.push('[');
            list(elements.iter(), out, object);
            out.push(']');
        }
    }
}

fn line(message: &Message, out: &mut String) {
    out.push_str("{\"template\":");
    string(message.template(), out);
    let _ = write!(out, ",\"id\":{},\"message\":", message.id().unwrap_or_default());
    object(&message.fields, out);
    out.push_str("}\n");
}

fn main() -> Result<(), Box<dyn Error>> {
    let mut words: Vec<String> = std::env::args().skip(1).collect();
    let is_again = words.first().is_some_and(|word| word == "--again");
    if is_again {
        words.remove(0);
    }
    let [templates, stream, piece @ ..] = words.as_slice() else {
        return Err("messages [--again] TEMPLATES STREAM [PIECE]".into());
    };
    let set = Set::read(&std::fs::read_to_string(templates)?)?;
    let stream = std::fs::read(stream)?;
    let piece = piece.first().map_or(Ok(0), |word| word.parse())?;
    let (mut decoder, mut encoder) = (MessageDecoder::new(&set, Limits::default())?, Encoder::new(&set, Limits::default())?);
    for bytes in stream.chunks(if piece == 0 { stream.len().max(1) } else { piece }) {
        let (mut text, mut again, mut refused) = (String::new(), Vec::new(), Ok(()));
        decoder.feed(bytes, |message| {
            if !is_again {
                line(&message, &mut text);
            } else if let Err(error) = encoder.encode_message(&message, &mut again) {
                refused = Err(error);
            }
        })?;
        refused?;
        io::stdout().write_all(text.as_bytes())?;
        io::stdout().write_all(&again)?;
    }
    if !decoder.between() {
        return Err("the stream is truncated".into());
    }
    Ok(())
}
