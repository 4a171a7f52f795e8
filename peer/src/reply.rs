//! Replies (document 01, "Replies").

pub const DONE: u64 = 0;
pub const TABLE_SIZE: u64 = 1;
pub const TABLE_ROW: u64 = 2;
pub const TYPE: u64 = 3;
pub const LONG: u64 = 4;
pub const SHORT: u64 = 5;
pub const NOT_CANONICAL: u64 = 6;
pub const NOT_ALLOWED: u64 = 7;
pub const WIDE: u64 = 8;
pub const LEFT_OVER: u64 = 9;
pub const NODES: u64 = 10;
pub const LIST: u64 = 11;
pub const ROOM: u64 = 12;
pub const PATH: u64 = 13;

/// The limits of document 01, all inclusive.
pub const MOST_NODES: usize = 4096;
pub const MOST_OCTETS: usize = 65_535;

/// Number, part, place and counts. A refusal has zero counts.
#[repr(C)]
#[derive(Clone, Copy, Debug, Default, PartialEq, Eq)]
pub struct Reply {
    pub number: u64,
    pub part: u64,
    pub place: u64,
    pub nodes: u64,
    pub octets: u64,
}

impl Reply {
    pub fn done(nodes: usize, octets: usize) -> Reply {
        Reply { nodes: nodes as u64, octets: octets as u64, ..Reply::default() }
    }
}

/// What a reply's place is in.
#[derive(Clone, Copy, Debug, PartialEq, Eq)]
pub enum Part {
    Table = 0,
    Message = 1,
    List = 2,
    Path = 3,
    Result = 4,
}

/// A refusal before its part is known.
#[derive(Clone, Copy, Debug, PartialEq, Eq)]
pub struct Fault {
    pub number: u64,
    pub place: usize,
}

impl Fault {
    pub fn at(number: u64, place: usize) -> Fault {
        Fault { number, place }
    }

    pub fn of(self, part: Part) -> Reply {
        Reply { number: self.number, part: part as u64, place: self.place as u64, ..Reply::default() }
    }
}

/// `Err` with this refusal unless the condition holds.
pub fn must(holds: bool, number: u64, place: usize) -> Result<(), Fault> {
    if holds { Ok(()) } else { Err(Fault::at(number, place)) }
}
