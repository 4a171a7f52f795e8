//! Why an operation was refused, and where.

use std::fmt;

/// What a refusal's place is in.
#[derive(Clone, Copy, Debug, PartialEq, Eq)]
pub enum Part {
    Table,
    Message,
    List,
    Path,
    Result,
}

/// A refusal: its number (1 to 13), the part that is at fault, and the place there.
#[derive(Clone, Copy, Debug, PartialEq, Eq)]
pub struct Refusal {
    pub number: u64,
    pub part: Part,
    pub place: u64,
}

impl Refusal {
    /// The name of its number.
    pub fn name(&self) -> &'static str {
        match self.number {
            1 => "TABLE SIZE",
            2 => "TABLE ROW",
            3 => "TYPE",
            4 => "LONG",
            5 => "SHORT",
            6 => "NOT CANONICAL",
            7 => "NOT ALLOWED",
            8 => "WIDE",
            9 => "LEFT OVER",
            10 => "NODES",
            11 => "LIST",
            12 => "ROOM",
            _ => "PATH",
        }
    }

    /// What it means, in a few words.
    pub fn meaning(&self) -> &'static str {
        match self.number {
            1 => "the table's lists are not whole, or too small or large",
            2 => "a row of the table breaks a rule",
            3 => "the table has no such row",
            4 => "more than 65,535 octets",
            5 => "octets are missing",
            6 => "the octets are not in the canonical form",
            7 => "a value is outside its bounds, size, list, tags or characters",
            8 => "a number has more than 8 octets",
            9 => "there are octets after the value",
            10 => "more than 4,096 nodes",
            11 => "a node or contents missing, left over, or of the wrong kind or form",
            12 => "the buffer is smaller than the result",
            _ => "there is no such component",
        }
    }
}

impl fmt::Display for Refusal {
    fn fmt(&self, f: &mut fmt::Formatter) -> fmt::Result {
        write!(f, "{} ({}): {}", self.number, self.name(), self.meaning())?;
        match (self.part, self.number) {
            (Part::Table, 2) => write!(f, ", at row {} of the table", self.place),
            (Part::Table, _) => Ok(()),
            (Part::Message, 4) => write!(f, ", in the message"),
            (Part::Message, _) => write!(f, ", in the message at octet {}", self.place),
            (Part::List, 4 | 10) => write!(f, ", in the new value"),
            (Part::List, _) => write!(f, ", in the new value at node {}", self.place),
            (Part::Path, _) => write!(f, ", at step {} of the path", self.place),
            (Part::Result, _) => write!(f, ", in the result"),
        }
    }
}

impl std::error::Error for Refusal {}
