//! Safe Rust over liboer_c.a: settings messages in Canonical OER (Rec. ITU-T X.696).
//!
//! A [`Table`] says what a message holds; `include/oer.h` describes tables, value lists, paths and replies. Each
//! function of the C face is one method here. Methods that end in `_to_vec` or `_to_list` make their own room; the
//! others use memory that the caller lends, and leave it as it was if they refuse.
//!
//! ```
//! // SEQUENCE {a BOOLEAN OPTIONAL, b INTEGER (0..255) DEFAULT 5}
//! let rows = [1, 0, 0, 0, 0, 0, 2, 3, 0, 255, 0, 0, 10, 0, 0, 0, 0, 2];
//! let table = oer::Table::new(&rows, &[0, 1, 0, 1, 2, 5])?;
//! let edited = table.edit_to_vec(2, &[0x80, 0xFF], &[1], &oer::List::leaf(2, 6))?;
//! assert_eq!(edited, [0xC0, 0xFF, 0x06]);
//! # Ok::<(), oer::Refusal>(())
//! ```

mod face;
mod refusal;

use face::{Reply, call};
pub use refusal::{Part, Refusal};

/// The most octets a message has.
pub const MOST_OCTETS: usize = 65_535;

/// A type table that was found sound.
#[derive(Clone, Copy, Debug)]
pub struct Table<'a> {
    rows: &'a [u64],
    items: &'a [u64],
}

/// How large a value list is.
#[derive(Clone, Copy, Debug, PartialEq, Eq)]
pub struct Counts {
    pub nodes: usize,
    pub contents: usize,
}

/// A value list: two words a node, and the octets of the strings.
#[derive(Clone, Debug, Default, PartialEq, Eq)]
pub struct List {
    pub nodes: Vec<u64>,
    pub contents: Vec<u8>,
}

impl List {
    /// The list of one node with no contents.
    pub fn leaf(kind: u64, number: u64) -> List {
        List { nodes: vec![kind, number], contents: Vec::new() }
    }

    /// An OPTIONAL component that is not there.
    pub fn absent() -> List {
        List::leaf(0, 0)
    }

    /// A string of kind 7 or 9.
    pub fn text(kind: u64, contents: &[u8]) -> List {
        List { nodes: vec![kind, contents.len() as u64], contents: contents.to_vec() }
    }
}

/// A single setting.
#[derive(Clone, Copy, Debug, PartialEq)]
pub enum Setting {
    Absent,
    Truth(bool),
    Unsigned(u64),
    Signed(i64),
    Single(f32),
    Double(f64),
    /// Of a string: octets, bits or characters.
    Size(u64),
    /// How many children a group has.
    Group(u64),
}

impl<'a> Table<'a> {
    /// The table of these words, if it is sound.
    pub fn new(rows: &'a [u64], items: &'a [u64]) -> Result<Table<'a>, Refusal> {
        face::check(rows, items).done()?;
        Ok(Table { rows, items })
    }

    /// Judges a message, and says how large its value list is.
    pub fn validate(&self, row: u64, message: &[u8]) -> Result<Counts, Refusal> {
        call!(oer_validate, self, row, [message], []).done().map(Reply::counts)
    }

    /// Reads a message to its value list, in memory that is lent.
    pub fn decode(&self, row: u64, message: &[u8], nodes: &mut [u64], contents: &mut [u8]) -> Result<Counts, Refusal> {
        call!(oer_decode, self, row, [message], [nodes, contents]).done().map(Reply::counts)
    }

    pub fn decode_to_list(&self, row: u64, message: &[u8]) -> Result<List, Refusal> {
        let counts = self.validate(row, message)?;
        let mut list = List { nodes: vec![0; 2 * counts.nodes], contents: vec![0; counts.contents] };
        self.decode(row, message, &mut list.nodes, &mut list.contents)?;
        Ok(list)
    }

    /// Judges a value list, and says how many octets its message has.
    pub fn measure(&self, row: u64, nodes: &[u64], contents: &[u8]) -> Result<usize, Refusal> {
        call!(oer_measure, self, row, [nodes, contents], []).done().map(Reply::octets)
    }

    /// Writes a value list as a message; says how many octets it has.
    pub fn encode(&self, row: u64, nodes: &[u64], contents: &[u8], out: &mut [u8]) -> Result<usize, Refusal> {
        call!(oer_encode, self, row, [nodes, contents], [out]).done().map(Reply::octets)
    }

    pub fn encode_to_vec(&self, row: u64, list: &List) -> Result<Vec<u8>, Refusal> {
        let mut out = vec![0; self.measure(row, &list.nodes, &list.contents)?];
        self.encode(row, &list.nodes, &list.contents, &mut out)?;
        Ok(out)
    }

    /// Writes the message with the component at the path replaced; says how many octets it has. Nothing else changes
    /// but at most one presence bit.
    pub fn edit(
        &self,
        row: u64,
        message: &[u8],
        path: &[u64],
        nodes: &[u64],
        contents: &[u8],
        out: &mut [u8],
    ) -> Result<usize, Refusal> {
        call!(oer_edit, self, row, [message, path, nodes, contents], [out]).done().map(Reply::octets)
    }

    pub fn edit_to_vec(&self, row: u64, message: &[u8], path: &[u64], new: &List) -> Result<Vec<u8>, Refusal> {
        let mut out = vec![0; MOST_OCTETS];
        let octets = self.edit(row, message, path, &new.nodes, &new.contents, &mut out)?;
        out.truncate(octets);
        Ok(out)
    }

    /// Reads the component at the path.
    pub fn setting(&self, row: u64, message: &[u8], path: &[u64]) -> Result<Setting, Refusal> {
        call!(oer_read_setting, self, row, [message, path], []).setting()
    }

    /// The octets of the string at the path, as a part of the message; or the fallback if the reading is refused,
    /// absent or no string.
    pub fn text<'m>(&self, row: u64, message: &'m [u8], path: &[u64], fallback: &'m [u8]) -> &'m [u8] {
        let text = call!(oer_read_text, self, row, [message, path], []);
        match text.found {
            0 => fallback,
            _ => &message[text.start as usize..(text.start + text.length) as usize],
        }
    }
}
