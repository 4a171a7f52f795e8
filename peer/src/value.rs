//! Values as trees, and the value list of a value (document 01, "The value list").

use crate::table::{Mark, Table, Type};

/// The octets of a string, and where in the message they begin (0 if they come from a value list).
#[derive(Clone, Debug, Default, PartialEq, Eq)]
pub struct Text {
    pub octets: Vec<u8>,
    pub at: usize,
}

impl Text {
    pub fn new(octets: &[u8]) -> Text {
        Text { octets: octets.to_vec(), at: 0 }
    }
}

#[derive(Clone, Debug, PartialEq, Eq)]
pub enum Value {
    Absent,
    Boolean(bool),
    Integer(i128),
    Enumerated(i64),
    Single(u32),
    Double(u64),
    Null,
    Octets(Text),
    /// With how many bits.
    Bits(u64, Text),
    Visible(Text),
    Sequence(Vec<Value>),
    SequenceOf(Vec<Value>),
    /// With the alternative's place among the items.
    Choice(usize, Box<Value>),
}

impl Value {
    pub fn kind(&self) -> u64 {
        match self {
            Value::Absent => 0,
            Value::Boolean(_) => 1,
            Value::Integer(_) => 2,
            Value::Enumerated(_) => 3,
            Value::Single(_) => 4,
            Value::Double(_) => 5,
            Value::Null => 6,
            Value::Octets(_) => 7,
            Value::Bits(..) => 8,
            Value::Visible(_) => 9,
            Value::Sequence(_) => 10,
            Value::SequenceOf(_) => 11,
            Value::Choice(..) => 12,
        }
    }

    /// The number of its node. An INTEGER's is its low 64 bits: unsigned, or two's complement.
    pub fn number(&self) -> u64 {
        match self {
            Value::Absent | Value::Null => 0,
            Value::Boolean(truth) => *truth as u64,
            Value::Integer(number) => *number as u64,
            Value::Enumerated(number) => *number as u64,
            Value::Single(bits) => *bits as u64,
            Value::Double(bits) => *bits,
            Value::Octets(text) | Value::Visible(text) => text.octets.len() as u64,
            Value::Bits(bits, _) => *bits,
            Value::Sequence(children) | Value::SequenceOf(children) => children.len() as u64,
            Value::Choice(place, _) => *place as u64,
        }
    }

    pub fn children(&self) -> &[Value] {
        match self {
            Value::Sequence(children) | Value::SequenceOf(children) => children,
            Value::Choice(_, child) => std::slice::from_ref(child),
            _ => &[],
        }
    }

    pub fn children_mut(&mut self) -> &mut [Value] {
        match self {
            Value::Sequence(children) | Value::SequenceOf(children) => children,
            Value::Choice(_, child) => std::slice::from_mut(child),
            _ => &mut [],
        }
    }

    /// A string's octets; none if it is no string.
    pub fn text(&self) -> Option<&Text> {
        match self {
            Value::Octets(text) | Value::Bits(_, text) | Value::Visible(text) => Some(text),
            _ => None,
        }
    }

    pub fn node_count(&self) -> usize {
        1 + self.children().iter().map(Value::node_count).sum::<usize>()
    }

    /// Adds its value list: nodes in order of the walk, and the contents of its strings.
    pub fn list(&self, nodes: &mut Vec<u64>, contents: &mut Vec<u8>) {
        nodes.extend([self.kind(), self.number()]);
        if let Some(text) = self.text() {
            contents.extend(&text.octets);
        }
        for child in self.children() {
            child.list(nodes, contents);
        }
    }

    /// Its value list.
    pub fn to_list(&self) -> (Vec<u64>, Vec<u8>) {
        let (mut nodes, mut contents) = (Vec::new(), Vec::new());
        self.list(&mut nodes, &mut contents);
        (nodes, contents)
    }
}

/// What a component that is not carried stands for; none if it has to be carried.
pub fn missing_value(table: &Table, row: usize, mark: Mark) -> Option<Value> {
    let word = match mark {
        Mark::Plain => return None,
        Mark::Optional => return Some(Value::Absent),
        Mark::Default(word) => word,
    };
    Some(match table.get(row) {
        Type::Boolean => Value::Boolean(word == 1),
        Type::Integer(bounds) => Value::Integer(bounds.number(word)),
        Type::Enumerated(_) => Value::Enumerated(word as i64),
        Type::SequenceOf(_) => Value::SequenceOf(Vec::new()),
        _ => unreachable!("a sound table has no DEFAULT of this kind"),
    })
}
