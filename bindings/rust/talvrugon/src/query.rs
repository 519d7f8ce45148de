//! Queries of a template set.
use crate::set::{Limits, Set};
use talvrugon_sys::{Handle, NodeInfo, TemplateInfo, NONE};

/// The type of a node (`fast_type`).
#[derive(Clone, Copy, Debug, PartialEq, Eq)]
pub enum Type {
    UInt32 = 1,
    Int32,
    UInt64,
    Int64,
    Decimal,
    Ascii,
    Unicode,
    Bytes,
    /// A decimal whose exponent and mantissa have an operator each.
    DecimalParts,
    Group,
    Sequence,
}

/// A field operator (`fast_operator`).
#[derive(Clone, Copy, Debug, PartialEq, Eq)]
pub enum Operator {
    None = 0,
    Constant,
    Default,
    Copy,
    Increment,
    Delta,
    Tail,
}

/// An operator with the dictionary entry that it reads and writes, if it has one.
#[derive(Clone, Copy, Debug, PartialEq, Eq)]
pub struct Use {
    pub operator: Operator,
    pub entry: Option<u32>,
}

/// A template of a set.
#[derive(Clone, Debug, PartialEq, Eq)]
pub struct Template {
    /// The template identifier, where messages of the template can be sent.
    pub id: Option<u32>,
    /// Whether a message of the template resets the dictionary.
    pub reset: bool,
    /// The nodes directly in the template, in order.
    pub body: Vec<u32>,
}

/// A field, group or sequence of a set.
#[derive(Clone, Debug, PartialEq, Eq)]
pub struct Node {
    /// The type.
    pub kind: Type,
    /// Whether it may be absent.
    pub optional: bool,
    /// The operator: of a sequence that of its length, of a decimal in parts that of its exponent.
    pub uses: Use,
    /// The operator of the mantissa, of a decimal in parts.
    pub mantissa: Use,
    /// The nodes directly in a group or in each element of a sequence, in order.
    pub body: Vec<u32>,
}

const TYPES: [Type; 11] = [
    Type::UInt32,
    Type::Int32,
    Type::UInt64,
    Type::Int64,
    Type::Decimal,
    Type::Ascii,
    Type::Unicode,
    Type::Bytes,
    Type::DecimalParts,
    Type::Group,
    Type::Sequence,
];
const OPERATORS: [Operator; 7] = [
    Operator::None,
    Operator::Constant,
    Operator::Default,
    Operator::Copy,
    Operator::Increment,
    Operator::Delta,
    Operator::Tail,
];

fn some(number: u32) -> Option<u32> {
    (number != NONE).then_some(number)
}

fn use_of(operator: u32, entry: u32) -> Use {
    Use { operator: OPERATORS[operator as usize], entry: some(entry) }
}

/// Returns nodes, by a call that writes as many as there is room for and returns how many there are.
fn body(write: impl Fn(*mut u32, usize) -> usize) -> Vec<u32> {
    let mut nodes = vec![0; write([0].as_mut_ptr(), 0)];
    let (to, len) = (nodes.as_mut_ptr(), nodes.len());
    if len > 0 {
        write(to, len);
    }
    nodes
}

type Child = unsafe extern "C" fn(Handle<talvrugon_sys::Set>, u32, *const u8, usize) -> u32;

// In each of these calls the set is open, and buffers have the length that is passed with them.
impl Set {
    /// Returns the number of dictionary entries. Entry 0 is the template identifier's.
    pub fn entries(&self) -> u32 {
        unsafe { talvrugon_sys::fast_set_entries(self.handle()) }
    }

    /// Returns how deep groups and sequences nest: 0 for a set without any.
    pub fn depth(&self) -> u32 {
        unsafe { talvrugon_sys::fast_set_depth(self.handle()) }
    }

    /// Returns the greatest number of events that a message can have under limits.
    pub fn message_cap(&self, limits: Limits) -> u64 {
        unsafe { talvrugon_sys::fast_set_cap(self.handle(), limits.max_elements, limits.max_total) }
    }

    /// Returns the number of the template with a name.
    pub fn find_template(&self, name: &str) -> Option<u32> {
        some(unsafe { talvrugon_sys::fast_template_by_name(self.handle(), name.as_ptr(), name.len()) })
    }

    /// Returns the number of the template with an identifier.
    pub fn find_template_id(&self, id: u32) -> Option<u32> {
        some(unsafe { talvrugon_sys::fast_template_by_id(self.handle(), id) })
    }

    /// Returns a template by its number.
    pub fn template(&self, number: u32) -> Option<Template> {
        let mut it = TemplateInfo::default();
        let found = unsafe { talvrugon_sys::fast_template_describe(self.handle(), number, &mut it) };
        (found == 1).then(|| Template {
            id: (it.has_id == 1).then_some(it.id),
            reset: it.reset == 1,
            body: body(|to, len| unsafe { talvrugon_sys::fast_template_body(self.handle(), number, to, len) }),
        })
    }

    /// Returns a node by its number.
    pub fn node(&self, number: u32) -> Option<Node> {
        let mut it = NodeInfo::default();
        let found = unsafe { talvrugon_sys::fast_node_describe(self.handle(), number, &mut it) };
        (found == 1).then(|| Node {
            kind: TYPES[it.kind as usize - 1],
            optional: it.optional == 1,
            uses: use_of(it.op, it.entry),
            mantissa: use_of(it.mantissa_op, it.mantissa_entry),
            body: body(|to, len| unsafe { talvrugon_sys::fast_node_body(self.handle(), number, to, len) }),
        })
    }

    /// Returns the group or sequence that a node is directly in. Looks through the set: not for each event.
    pub fn node_parent(&self, number: u32) -> Option<u32> {
        some(unsafe { talvrugon_sys::fast_node_parent(self.handle(), number) })
    }

    /// Returns the template that a node belongs to, at whatever depth. Looks through the set: not for each event.
    pub fn node_template(&self, mut number: u32) -> Option<u32> {
        while let Some(parent) = self.node_parent(number) {
            number = parent;
        }
        some(unsafe { talvrugon_sys::fast_node_template(self.handle(), number) })
    }

    /// Returns the node at a path in a template: names with points between them, such as `MDEntries.MDEntryPx`.
    ///
    /// Of nodes with one name it is the first. Where a name has points itself, the longest name comes first.
    pub fn find_node(&self, template: u32, path: &str) -> Option<u32> {
        self.find_below(talvrugon_sys::fast_template_child, template, path)
    }

    fn find_below(&self, child: Child, number: u32, path: &str) -> Option<u32> {
        let cuts = (1..=path.len()).rev().filter(|&cut| cut == path.len() || path.as_bytes()[cut] == b'.');
        for cut in cuts {
            let Some(found) = some(unsafe { child(self.handle(), number, path.as_ptr(), cut) }) else {
                continue;
            };
            if cut == path.len() {
                return Some(found);
            }
            if let Some(node) = self.find_below(talvrugon_sys::fast_node_child, found, &path[cut + 1..]) {
                return Some(node);
            }
        }
        None
    }
}
