//! Messages by name, which [`MessageDecoder`](crate::MessageDecoder) makes of a stream, and
//! [`Encoder::encode_message`](crate::Encoder::encode_message) encodes.
//!
//! The keys are the names of fields, groups and sequences. Of nodes with one name in a segment (a template, a group or the elements of a
//! sequence), the second has the key `NAME#2`, the third `NAME#3` and so on, by their places in the template. An absent field has no key.
use std::fmt;
use std::ops::Index;
use std::sync::Arc;

/// A decimal: the mantissa times ten to the exponent. It is not normalised, so 10e-1 and 1e0 are two.
#[derive(Clone, Copy, Debug, PartialEq, Eq, Hash)]
pub struct Decimal {
    pub mantissa: i64,
    pub exponent: i32,
}

/// Writes `MANTISSAeEXPONENT`, such as `26506e-2`.
impl fmt::Display for Decimal {
    fn fmt(&self, f: &mut fmt::Formatter<'_>) -> fmt::Result {
        write!(f, "{}e{}", self.mantissa, self.exponent)
    }
}

/// A field, group or sequence of a message.
#[derive(Clone, Debug, PartialEq, Eq)]
pub enum Value {
    /// A uInt32 or uInt64.
    Unsigned(u64),
    /// An int32 or int64.
    Signed(i64),
    Decimal(Decimal),
    /// An ASCII or Unicode string.
    Text(String),
    /// A byte vector.
    Bytes(Vec<u8>),
    Group(Fields),
    Sequence(Vec<Fields>),
}

impl Value {
    /// Returns an unsigned integer, and `None` for any other value.
    pub fn as_u64(&self) -> Option<u64> {
        match self {
            Value::Unsigned(it) => Some(*it),
            _ => None,
        }
    }

    /// Returns a signed integer, and `None` for any other value.
    pub fn as_i64(&self) -> Option<i64> {
        match self {
            Value::Signed(it) => Some(*it),
            _ => None,
        }
    }

    /// Returns a decimal, and `None` for any other value.
    pub fn as_decimal(&self) -> Option<Decimal> {
        match self {
            Value::Decimal(it) => Some(*it),
            _ => None,
        }
    }

    /// Returns a string, and `None` for any other value.
    pub fn as_str(&self) -> Option<&str> {
        match self {
            Value::Text(it) => Some(it),
            _ => None,
        }
    }

    /// Returns a byte vector, and `None` for any other value.
    pub fn as_bytes(&self) -> Option<&[u8]> {
        match self {
            Value::Bytes(it) => Some(it),
            _ => None,
        }
    }

    /// Returns the fields of a group, and `None` for any other value.
    pub fn as_group(&self) -> Option<&Fields> {
        match self {
            Value::Group(it) => Some(it),
            _ => None,
        }
    }

    /// Returns the elements of a sequence, and `None` for any other value.
    pub fn as_sequence(&self) -> Option<&[Fields]> {
        match self {
            Value::Sequence(it) => Some(it),
            _ => None,
        }
    }
}

/// The value with a key in a group. Panics if this is no group, or has no such key.
impl Index<&str> for Value {
    type Output = Value;
    fn index(&self, key: &str) -> &Value {
        match self {
            Value::Group(it) => &it[key],
            other => panic!("{key} is asked of {other:?}, which is no group"),
        }
    }
}

/// An element of a sequence. Panics if this is no sequence, or has no such element.
impl Index<usize> for Value {
    type Output = Fields;
    fn index(&self, index: usize) -> &Fields {
        match self {
            Value::Sequence(it) => &it[index],
            other => panic!("[{index}] is asked of {other:?}, which is no sequence"),
        }
    }
}

macro_rules! values {
    ($($of:ty => $it:ident $value:expr,)*) => {$(
        impl From<$of> for Value {
            fn from($it: $of) -> Value {
                $value
            }
        }
    )*};
}
values! {
    u32 => it Value::Unsigned(it.into()),
    u64 => it Value::Unsigned(it),
    i32 => it Value::Signed(it.into()),
    i64 => it Value::Signed(it),
    Decimal => it Value::Decimal(it),
    &str => it Value::Text(it.to_owned()),
    String => it Value::Text(it),
    &[u8] => it Value::Bytes(it.to_owned()),
    Vec<u8> => it Value::Bytes(it),
    Fields => it Value::Group(it),
    Vec<Fields> => it Value::Sequence(it),
}

/// The fields of a message, a group or an element, with their keys: in the order of the template if they are decoded, else in that in which they
/// were set.
#[derive(Clone, Debug, Default, PartialEq, Eq)]
pub struct Fields(Vec<(Arc<str>, Value)>);

impl Fields {
    /// Returns the value with a key, and `None` if it is absent.
    pub fn get(&self, key: &str) -> Option<&Value> {
        self.0.iter().find(|(its, _)| &**its == key).map(|(_, value)| value)
    }

    /// Sets the value with a key, in place of the one that it had.
    pub fn set(&mut self, key: &str, value: impl Into<Value>) -> &mut Fields {
        let value = value.into();
        match self.0.iter_mut().find(|(its, _)| &**its == key) {
            Some((_, its)) => *its = value,
            None => self.0.push((key.into(), value)),
        }
        self
    }

    /// Returns these fields with the value of a key set.
    pub fn with(mut self, key: &str, value: impl Into<Value>) -> Fields {
        self.set(key, value);
        self
    }

    /// Returns the keys and values in order.
    pub fn iter(&self) -> Iter<'_> {
        Iter(self.0.iter())
    }

    /// Returns the number of keys.
    pub fn len(&self) -> usize {
        self.0.len()
    }

    /// Returns whether there is no key.
    pub fn is_empty(&self) -> bool {
        self.0.is_empty()
    }

    /// Adds a value whose key is not there yet.
    pub(crate) fn add(&mut self, key: Arc<str>, value: Value) {
        self.0.push((key, value));
    }
}

/// The value with a key. Panics if it is absent: [`Fields::get`] does not.
impl Index<&str> for Fields {
    type Output = Value;
    fn index(&self, key: &str) -> &Value {
        self.get(key).unwrap_or_else(|| panic!("{key} is absent"))
    }
}

/// An iterator over the keys and values of [`Fields`].
#[derive(Clone, Debug)]
pub struct Iter<'a>(std::slice::Iter<'a, (Arc<str>, Value)>);

impl<'a> Iterator for Iter<'a> {
    type Item = (&'a str, &'a Value);
    fn next(&mut self) -> Option<Self::Item> {
        self.0.next().map(|(key, value)| (&**key, value))
    }
    fn size_hint(&self) -> (usize, Option<usize>) {
        self.0.size_hint()
    }
}

impl ExactSizeIterator for Iter<'_> {}

impl<'a> IntoIterator for &'a Fields {
    type Item = (&'a str, &'a Value);
    type IntoIter = Iter<'a>;
    fn into_iter(self) -> Iter<'a> {
        self.iter()
    }
}

/// One message.
#[derive(Clone, Debug, PartialEq, Eq)]
pub struct Message {
    pub(crate) template: Arc<str>,
    pub(crate) id: Option<u32>,
    /// Its fields.
    pub fields: Fields,
}

impl Message {
    /// Makes a message of a template, for an encoder.
    pub fn new(template: &str, fields: Fields) -> Message {
        Message { template: template.into(), id: None, fields }
    }

    /// Returns the name of its template.
    pub fn template(&self) -> &str {
        &self.template
    }

    /// Returns the identifier of its template if it was decoded; `None` if it was made.
    pub fn id(&self) -> Option<u32> {
        self.id
    }

    /// Returns the value with a key, and `None` if it is absent.
    pub fn get(&self, key: &str) -> Option<&Value> {
        self.fields.get(key)
    }
}

/// The value with a key. Panics if it is absent: [`Message::get`] does not.
impl Index<&str> for Message {
    type Output = Value;
    fn index(&self, key: &str) -> &Value {
        &self.fields[key]
    }
}

/// Why a message was not encoded. Nothing has changed.
#[derive(Clone, Debug, PartialEq, Eq)]
pub enum EncodeError {
    /// It does not suit the templates: a key that the template does not have, a mandatory field without a value, a value of another type or out
    /// of range. `path` is that of the field, as in `MDEntries[0].MDEntryPx`; empty for a template that the set does not have.
    Invalid { path: String, words: String },
    /// The library refuses it: statuses 401 to 406, which are the codes E1 to E4 and R9, and a failed allocation.
    Refused(crate::Error),
}

impl fmt::Display for EncodeError {
    fn fmt(&self, f: &mut fmt::Formatter<'_>) -> fmt::Result {
        match self {
            EncodeError::Invalid { words, .. } => f.write_str(words),
            EncodeError::Refused(error) => error.fmt(f),
        }
    }
}

impl std::error::Error for EncodeError {}

impl From<crate::Error> for EncodeError {
    fn from(error: crate::Error) -> EncodeError {
        EncodeError::Refused(error)
    }
}
