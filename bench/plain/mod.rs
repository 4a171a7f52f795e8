// Careful plain Rust with the codec's promises, against which the proved code is measured: the table checked at each
// call, the first fault first, two passes, nothing written on a refusal, no heap. Each program of bench/ includes it
// by its path and uses its part of it.
#![allow(dead_code)]

pub mod editor;
pub mod reader;
pub mod table;
pub mod workloads;
pub mod writer;

pub const MAX_NODES: usize = 4096;
pub const MAX_OCTETS: usize = 65535;

// Why an operation refuses; the number of its reply.
#[derive(Clone, Copy, Debug, PartialEq)]
pub enum Cause {
    TableSize = 1,
    TableRow = 2,
    Type = 3,
    Long = 4,
    Short = 5,
    NotCanonical = 6,
    NotAllowed = 7,
    Wide = 8,
    LeftOver = 9,
    Nodes = 10,
    List = 11,
    Room = 12,
    Path = 13,
}

// A cause, and the first octet of the innermost value being read or the node: small, so that an answer goes in
// registers.
#[derive(Clone, Copy)]
pub struct Fault {
    pub cause: Cause,
    pub place: u32,
}

impl Fault {
    pub fn in_part(self, part: u64) -> Reply {
        Reply::refusal(self.cause, part, self.place.into())
    }
}

#[derive(Clone, Copy, Debug, Default, PartialEq)]
pub struct Reply {
    pub number: u64,
    pub part: u64,
    pub place: u64,
    pub nodes: u64,
    pub octets: u64,
}

impl Reply {
    pub fn refusal(cause: Cause, part: u64, place: u64) -> Reply {
        Reply { number: cause as u64, part, place, nodes: 0, octets: 0 }
    }

    pub fn done(counts: Counts) -> Reply {
        Reply { number: 0, part: 0, place: 0, nodes: counts.nodes as u64, octets: counts.octets as u64 }
    }

    // Number, nodes and octets in one word; part and place are dropped.
    pub fn word(self) -> u64 {
        (self.number << 48) + (self.nodes << 24) + self.octets
    }
}

// What a value takes in a value list; or, with no nodes, in a message.
#[derive(Clone, Copy, Default)]
pub struct Counts {
    pub nodes: usize,
    pub octets: usize,
}

// A result whole, refused or not.
pub fn reply(result: Result<Counts, Reply>) -> Reply {
    result.map_or_else(|refusal| refusal, Reply::done)
}
