//! The stored cases, by name. What is written here is input only; the peer answers it, and the codec has to answer the
//! same.

mod edits;
mod generated;
mod leaves;
mod lists;
mod settings;
mod tables;

use std::fmt::{Display, Write};

use crate::builder::Builder;
use crate::generate::List;
use crate::value::Value;

pub use generated::{case_lines, generated};

/// The seed of the generated cases at the end of the stored files.
pub const STORED_SEED: u64 = 1;

/// The stored cases for value lists.
pub fn lists() -> String {
    let mut file = File::default();
    lists::examples(&mut file);
    leaves::leaves(&mut file);
    leaves::strings(&mut file);
    lists::groups(&mut file);
    lists::whole_lists(&mut file);
    generated::lists(&mut file, STORED_SEED, 300);
    file.text
}

/// The stored cases for edits and settings.
pub fn edits() -> String {
    let mut file = File::default();
    edits::examples(&mut file);
    edits::accident(&mut file);
    edits::refusals(&mut file);
    edits::paths(&mut file);
    edits::presence(&mut file);
    edits::growth(&mut file);
    edits::annex_a(&mut file);
    edits::limits(&mut file);
    settings::kinds(&mut file);
    settings::refusals(&mut file);
    generated::edits(&mut file, STORED_SEED, 300);
    file.text
}

/// A case file being written.
#[derive(Default)]
pub struct File {
    text: String,
}

impl File {
    fn table(&mut self, table: &Builder) {
        self.line('t', &[], |line| {
            line.list(&table.rows);
            line.list(&table.items);
        });
    }

    fn name(&mut self, name: &str) {
        writeln!(self.text, "# {name}").unwrap();
    }

    /// A value list by its words, with a result buffer of `room` octets.
    fn list(&mut self, name: &str, row: u64, room: usize, nodes: &[u64], contents: &[u8]) {
        self.name(name);
        self.line('l', &[row, room as u64], |line| {
            line.list(nodes);
            line.list(contents);
        });
    }

    /// The value list of a value.
    fn value(&mut self, name: &str, row: u64, room: usize, value: &Value) {
        let List { nodes, contents } = List::of(value);
        self.list(name, row, room, &nodes, &contents);
    }

    fn edit(&mut self, name: &str, row: u64, room: usize, message: &[u8], path: &[u64], nodes: &[u64]) {
        self.edit_with(name, row, room, message, path, nodes, &[]);
    }

    #[allow(clippy::too_many_arguments)]
    fn edit_with(
        &mut self,
        name: &str,
        row: u64,
        room: usize,
        message: &[u8],
        path: &[u64],
        nodes: &[u64],
        contents: &[u8],
    ) {
        self.name(name);
        self.line('e', &[row, room as u64], |line| {
            line.list(message);
            line.list(path);
            line.list(nodes);
            line.list(contents);
        });
    }

    fn setting(&mut self, name: &str, row: u64, message: &[u8], path: &[u64]) {
        self.name(name);
        self.line('s', &[row], |line| {
            line.list(message);
            line.list(path);
            line.list(b"none");
        });
    }

    fn line(&mut self, letter: char, numbers: &[u64], rest: impl Fn(&mut Line)) {
        let mut line = Line { text: String::from(letter) };
        numbers.iter().for_each(|number| line.number(number));
        rest(&mut line);
        writeln!(self.text, "{}", line.text).unwrap();
    }
}

struct Line {
    text: String,
}

impl Line {
    fn number(&mut self, number: impl Display) {
        write!(self.text, " {number}").unwrap();
    }

    fn list(&mut self, numbers: &[impl Display]) {
        self.number(numbers.len());
        numbers.iter().for_each(|number| self.number(number));
    }
}
