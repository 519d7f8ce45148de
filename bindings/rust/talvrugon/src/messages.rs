use crate::decoder::{Decoder, InHand, Start};
use crate::error::Error;
use crate::event::{self, Event};
use crate::forms::Forms;
use crate::message::{Decimal, Fields, Message, Value};
use crate::set::{Limits, Set};
use std::sync::Arc;

/// A decoder that makes a [`Message`] of each message. A message that does not end in a piece comes with the piece in which it ends.
#[derive(Debug)]
pub struct MessageDecoder {
    decoder: Decoder,
    builder: Builder,
}

impl MessageDecoder {
    /// Makes a decoder of streams under a set, before the first byte.
    ///
    /// # Errors
    ///
    /// Those of [`Decoder::new`].
    pub fn new(set: &Set, limits: Limits) -> Result<MessageDecoder, Error> {
        Ok(MessageDecoder { decoder: Decoder::new(set, limits)?, builder: Builder::new(set.forms()) })
    }

    /// Feeds a piece, which is read only during the call, and passes the messages that end in it to `take`.
    ///
    /// # Errors
    ///
    /// Those of [`Decoder::feed`], after the messages before the fault.
    pub fn feed(&mut self, piece: &[u8], mut take: impl FnMut(Message)) -> Result<(), Error> {
        let MessageDecoder { decoder, builder } = self;
        decoder.feed(piece, |event| builder.take(event, &mut take))
    }

    /// Decodes one packet, which must end between two messages, and passes its messages to `take`.
    ///
    /// # Errors
    ///
    /// Those of [`Decoder::packet`], after the messages before the fault.
    pub fn packet(&mut self, packet: &[u8], start: Start, mut take: impl FnMut(Message)) -> Result<(), Error> {
        if start == Start::Reset {
            self.builder.clear();
        }
        let MessageDecoder { decoder, builder } = self;
        decoder.packet(packet, start, |event| builder.take(event, &mut take))
    }

    /// Returns a copy of the message that has begun and not ended, or in which the fault is, as far as it has come.
    pub fn partial(&self) -> Option<Message> {
        self.builder.partial()
    }

    /// Returns whether the stream is between two messages and has no fault.
    pub fn between(&self) -> bool {
        self.decoder.between()
    }

    /// Returns what the decoder waits for; at a fault, the instruction at which it has stopped.
    pub fn in_hand(&self) -> InHand {
        self.decoder.in_hand()
    }

    /// Returns the number of bytes consumed since the decoder was made or reset.
    pub fn consumed(&self) -> u64 {
        self.decoder.consumed()
    }

    /// Resets the decoder to the state in which it was made.
    pub fn reset(&mut self) {
        self.decoder.reset();
        self.builder.clear();
    }
}

/// An open part of a message: the message by the number of its template, a group or a sequence by that of its node.
#[derive(Clone, Debug)]
enum Open {
    Message(u32, Fields),
    Group(u32, Fields),
    Sequence(u32, Vec<Fields>),
    Element(Fields),
}

/// The message that is open, from the outside to the inside.
#[derive(Debug)]
struct Builder {
    forms: Arc<Forms>,
    open: Vec<Open>,
}

impl Builder {
    fn new(forms: Arc<Forms>) -> Builder {
        Builder { forms, open: Vec::new() }
    }

    fn clear(&mut self) {
        self.open.clear();
    }

    /// Takes an event, and passes the message that it completes on.
    fn take(&mut self, event: Event<'_>, give: &mut impl FnMut(Message)) {
        match event {
            Event::MessageStart { template } => self.open = vec![Open::Message(template, Fields::default())],
            Event::Field { node, value } => add(&self.forms, &mut self.open, node, owned(value)),
            Event::GroupStart { node } => self.open.push(Open::Group(node, Fields::default())),
            Event::SequenceStart { node, .. } => self.open.push(Open::Sequence(node, Vec::new())),
            Event::ElementStart => self.open.push(Open::Element(Fields::default())),
            Event::GroupEnd | Event::ElementEnd | Event::SequenceEnd => {
                close(&self.forms, &mut self.open);
            }
            Event::MessageEnd { .. } => {
                if let Some(whole) = close(&self.forms, &mut self.open) {
                    give(whole);
                }
            }
        }
    }

    fn partial(&self) -> Option<Message> {
        let mut open = self.open.clone();
        while open.len() > 1 {
            close(&self.forms, &mut open);
        }
        close(&self.forms, &mut open)
    }
}

/// Adds a value to the innermost fields.
fn add(forms: &Forms, open: &mut [Open], node: u32, value: Value) {
    if let Some(Open::Message(_, fields) | Open::Group(_, fields) | Open::Element(fields)) = open.last_mut() {
        fields.add(forms.key(node), value);
    }
}

/// Closes what is innermost, and returns it if it is the message.
fn close(forms: &Forms, open: &mut Vec<Open>) -> Option<Message> {
    match open.pop()? {
        Open::Message(template, fields) => return Some(forms.message(template, fields)),
        Open::Group(node, fields) => add(forms, open, node, fields.into()),
        Open::Sequence(node, elements) => add(forms, open, node, elements.into()),
        Open::Element(fields) => {
            if let Some(Open::Sequence(_, elements)) = open.last_mut() {
                elements.push(fields);
            }
        }
    }
    None
}

/// Returns a value that owns its string.
fn owned(value: event::Value<'_>) -> Value {
    // The library checks strings: those of ASCII and Unicode are UTF-8.
    let text = |it: &[u8]| Value::Text(String::from_utf8_lossy(it).into_owned());
    match value {
        event::Value::Unsigned(it) => Value::Unsigned(it),
        event::Value::Signed(it) => Value::Signed(it),
        event::Value::Decimal { mantissa, exponent } => Value::Decimal(Decimal { mantissa, exponent }),
        event::Value::Ascii(it) | event::Value::Unicode(it) => text(it),
        event::Value::Bytes(it) => Value::Bytes(it.to_owned()),
    }
}
