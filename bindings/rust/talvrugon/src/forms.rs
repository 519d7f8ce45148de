//! The form of a set's messages, and how messages become events.
use crate::encoder::Records;
use crate::event::{self, Event};
use crate::message::{Decimal, EncodeError, Fields, Message, Value};
use crate::query::Type;
use crate::set::Set;
use std::collections::HashMap;
use std::sync::Arc;

/// A node in the fields of its segment.
#[derive(Debug)]
struct Slot {
    key: Arc<str>,
    kind: Type,
    optional: bool,
    body: Vec<u32>,
}

#[derive(Debug)]
struct Form {
    name: Arc<str>,
    id: Option<u32>,
    body: Vec<u32>,
}

/// The form of a set's messages: its templates, and for each node a key, a type and the nodes in it.
#[derive(Debug)]
pub(crate) struct Forms {
    slots: Vec<Slot>,
    templates: Vec<Form>,
}

impl Forms {
    pub(crate) fn new(set: &Set) -> Forms {
        let slot = |node| {
            let it = set.node(node).expect("a node of the set");
            Slot { key: "".into(), kind: it.kind, optional: it.optional, body: it.body }
        };
        let form = |number| {
            let it = set.template(number).expect("a template of the set");
            Form { name: set.template_name(number).expect("its name").into(), id: it.id, body: it.body }
        };
        let mut forms =
            Forms { slots: (0..set.nodes()).map(slot).collect(), templates: (0..set.templates()).map(form).collect() };
        let bodies = forms.templates.iter().map(|it| &it.body).chain(forms.slots.iter().map(|it| &it.body));
        let bodies: Vec<Vec<u32>> = bodies.cloned().collect();
        for body in bodies {
            forms.name_all(set, &body);
        }
        forms
    }

    /// Sets the keys of the nodes of a segment.
    fn name_all(&mut self, set: &Set, body: &[u32]) {
        let mut seen = HashMap::new();
        for &node in body {
            let name = set.node_name(node).expect("the name of a node");
            let count = seen.entry(name.clone()).or_insert(0);
            *count += 1;
            self.slots[node as usize].key = if *count == 1 { name.into() } else { format!("{name}#{count}").into() };
        }
    }

    pub(crate) fn key(&self, node: u32) -> Arc<str> {
        self.slots[node as usize].key.clone()
    }

    /// Returns a message of a template.
    pub(crate) fn message(&self, template: u32, fields: Fields) -> Message {
        let Form { name, id, .. } = &self.templates[template as usize];
        Message { template: name.clone(), id: *id, fields }
    }

    /// Returns the events of a message.
    pub(crate) fn records(&self, message: &Message) -> Result<Records, EncodeError> {
        let number = self.templates.iter().position(|it| it.name == message.template).ok_or_else(|| {
            let words = format!("the set has no template {}", message.template);
            EncodeError::Invalid { path: String::new(), words }
        })?;
        let mut packer = Packer { forms: self, template: &message.template, above: Vec::new(), records: Records::default() };
        packer.records.push(Event::MessageStart { template: number as u32 });
        packer.fields(&self.templates[number].body, &message.fields)?;
        packer.records.push(Event::MessageEnd { consumed: 0 });
        Ok(packer.records)
    }
}

/// The events of one message, as far as they are made.
struct Packer<'a> {
    forms: &'a Forms,
    template: &'a str,
    /// The groups and elements that are open, as parts of a path.
    above: Vec<String>,
    records: Records,
}

impl<'a> Packer<'a> {
    fn invalid(&self, key: &str, words: &str) -> EncodeError {
        let path = self.above.concat() + key;
        let words = format!("{path} of {} {words}", self.template);
        EncodeError::Invalid { path, words }
    }

    fn unsuited(&self, slot: &Slot, value: &Value) -> EncodeError {
        self.invalid(&slot.key, &format!("is {value:?}, and has to be {}", expected(slot.kind)))
    }

    /// Adds the fields of a segment, in the order of its template.
    fn fields(&mut self, body: &[u32], fields: &Fields) -> Result<(), EncodeError> {
        let mut count = 0;
        for &node in body {
            let slot = &self.forms.slots[node as usize];
            match fields.get(&slot.key) {
                Some(value) => {
                    count += 1;
                    self.field(node, slot, value)?;
                }
                None if slot.optional => {}
                None => {
                    let words = format!("is missing: it is mandatory, and has to be {}", expected(slot.kind));
                    return Err(self.invalid(&slot.key, &words));
                }
            }
        }
        if count == fields.len() {
            return Ok(());
        }
        let keys: Vec<&str> = body.iter().map(|&node| &*self.forms.slots[node as usize].key).collect();
        let (other, _) = fields.iter().find(|(key, _)| !keys.contains(key)).expect("a key that is not in the template");
        Err(self.invalid(other, &format!("is not in the template, which has there {}", keys.join(", "))))
    }

    fn field(&mut self, node: u32, slot: &'a Slot, value: &Value) -> Result<(), EncodeError> {
        let due = match (slot.kind, value) {
            (Type::UInt32 | Type::UInt64 | Type::Int32 | Type::Int64, value) => integer(slot.kind, value),
            (Type::Decimal | Type::DecimalParts, &Value::Decimal(Decimal { mantissa, exponent }))
                if (-63..=63).contains(&exponent) =>
            {
                Some(event::Value::Decimal { mantissa, exponent })
            }
            (Type::Ascii, Value::Text(it)) if it.is_ascii() => Some(event::Value::Ascii(it.as_bytes())),
            (Type::Unicode, Value::Text(it)) => Some(event::Value::Unicode(it.as_bytes())),
            (Type::Bytes, Value::Bytes(it)) => Some(event::Value::Bytes(it)),
            (Type::Group, Value::Group(it)) => return self.group(node, slot, it),
            (Type::Sequence, Value::Sequence(it)) => return self.sequence(node, slot, it),
            _ => None,
        };
        let value = due.ok_or_else(|| self.unsuited(slot, value))?;
        self.records.push(Event::Field { node, value });
        Ok(())
    }

    fn group(&mut self, node: u32, slot: &'a Slot, fields: &Fields) -> Result<(), EncodeError> {
        self.records.push(Event::GroupStart { node });
        self.above.push(format!("{}.", slot.key));
        self.fields(&slot.body, fields)?;
        self.above.pop();
        self.records.push(Event::GroupEnd);
        Ok(())
    }

    fn sequence(&mut self, node: u32, slot: &'a Slot, elements: &[Fields]) -> Result<(), EncodeError> {
        // A count that is too large for its record is above any limit.
        let count = u32::try_from(elements.len()).unwrap_or(u32::MAX);
        self.records.push(Event::SequenceStart { node, count });
        for (index, fields) in elements.iter().enumerate() {
            self.records.push(Event::ElementStart);
            self.above.push(format!("{}[{index}].", slot.key));
            self.fields(&slot.body, fields)?;
            self.above.pop();
            self.records.push(Event::ElementEnd);
        }
        self.records.push(Event::SequenceEnd);
        Ok(())
    }
}

/// Returns an integer as a type has it, if it is in range.
fn integer(kind: Type, value: &Value) -> Option<event::Value<'static>> {
    let number = match *value {
        Value::Unsigned(it) => i128::from(it),
        Value::Signed(it) => i128::from(it),
        _ => return None,
    };
    match kind {
        Type::UInt32 => u32::try_from(number).ok().map(|it| event::Value::Unsigned(it.into())),
        Type::UInt64 => u64::try_from(number).ok().map(event::Value::Unsigned),
        Type::Int32 => i32::try_from(number).ok().map(|it| event::Value::Signed(it.into())),
        _ => i64::try_from(number).ok().map(event::Value::Signed),
    }
}

/// Returns what a value of a type has to be.
fn expected(kind: Type) -> &'static str {
    match kind {
        Type::UInt32 => "an integer from 0 to 4294967295",
        Type::Int32 => "an integer from -2147483648 to 2147483647",
        Type::UInt64 => "an integer from 0 to 18446744073709551615",
        Type::Int64 => "an integer from -9223372036854775808 to 9223372036854775807",
        Type::Decimal | Type::DecimalParts => "a decimal with an exponent from -63 to 63",
        Type::Ascii => "a string of characters below U+0080",
        Type::Unicode => "a string",
        Type::Bytes => "a byte vector",
        Type::Group => "a group",
        Type::Sequence => "a sequence",
    }
}
