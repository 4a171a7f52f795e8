//! Case files: named cases in, replies and lent buffers out. docs/FORMATS.md describes the lines.

use std::fmt::{Display, Write};

use crate::operations::{check, decode, edit, encode, measure, read_setting, read_text, validate};
use crate::reply::Reply;

/// What lent buffers are filled with.
const FILL: u8 = 7;

/// The numbers of a line, from left to right. A number that is not there is 0.
struct Numbers<'a> {
    words: std::str::SplitAsciiWhitespace<'a>,
}

impl Numbers<'_> {
    fn next(&mut self) -> u64 {
        self.words.next().map_or(0, |word| word.parse().expect("a case file holds decimal numbers of 64 bits"))
    }

    /// A list: how many numbers, and the numbers.
    fn list(&mut self) -> Vec<u64> {
        let count = self.next();
        (0..count).map(|_| self.next()).collect()
    }

    fn octets(&mut self) -> Vec<u8> {
        self.list().into_iter().map(|n| u8::try_from(n).expect("an octet is at most 255")).collect()
    }
}

/// Runs a case file and gives what is printed.
pub fn replay(file: &str) -> String {
    let (mut rows, mut items) = (Vec::new(), Vec::new());
    let mut out = String::new();
    for line in file.lines() {
        let mut numbers = Numbers { words: line.get(1..).unwrap_or("").split_ascii_whitespace() };
        match line.bytes().next() {
            Some(b'#') => out += line,
            _ if line.len() < 2 => {}
            Some(b't') => {
                rows = numbers.list();
                items = numbers.list();
                continue;
            }
            Some(b'c') => show(&mut out, check(&rows, &items)),
            Some(b'm') => message_case(&rows, &items, numbers, &mut out),
            Some(b'l') => list_case(&rows, &items, numbers, &mut out),
            Some(b'e') => edit_case(&rows, &items, numbers, &mut out),
            Some(b's') => setting_case(&rows, &items, numbers, &mut out),
            _ => {}
        }
        out.push('\n');
    }
    out
}

/// Runs a file of tables alone: named lines, and lines with the two lists of a table.
pub fn replay_checks(file: &str) -> String {
    let mut out = String::new();
    for line in file.lines() {
        if line.starts_with('#') {
            out += line;
        } else {
            let mut numbers = Numbers { words: line.split_ascii_whitespace() };
            let rows = numbers.list();
            let items = numbers.list();
            show(&mut out, check(&rows, &items));
        }
        out.push('\n');
    }
    out
}

fn message_case(rows: &[u64], items: &[u64], mut numbers: Numbers, out: &mut String) {
    let row = numbers.next();
    let mut nodes = vec![FILL as u64; numbers.next() as usize];
    let mut contents = vec![FILL; numbers.next() as usize];
    let message = numbers.octets();
    show(out, validate(rows, items, row, &message));
    out.push('\n');
    show(out, decode(rows, items, row, &message, &mut nodes, &mut contents));
    show_all(out, &nodes);
    show_all(out, &contents);
}

fn list_case(rows: &[u64], items: &[u64], mut numbers: Numbers, out: &mut String) {
    let row = numbers.next();
    let mut lent = vec![FILL; numbers.next() as usize];
    let nodes = numbers.list();
    let contents = numbers.octets();
    show(out, measure(rows, items, row, &nodes, &contents));
    out.push('\n');
    show(out, encode(rows, items, row, &nodes, &contents, &mut lent));
    show_all(out, &lent);
}

fn edit_case(rows: &[u64], items: &[u64], mut numbers: Numbers, out: &mut String) {
    let row = numbers.next();
    let mut lent = vec![FILL; numbers.next() as usize];
    let message = numbers.octets();
    let path = numbers.list();
    let nodes = numbers.list();
    let contents = numbers.octets();
    show(out, edit(rows, items, row, &message, &path, &nodes, &contents, &mut lent));
    show_all(out, &lent);
}

fn setting_case(rows: &[u64], items: &[u64], mut numbers: Numbers, out: &mut String) {
    let row = numbers.next();
    let message = numbers.octets();
    let path = numbers.list();
    let fallback = numbers.octets();
    let (reply, (what, word)) = match read_setting(rows, items, row, &message, &path) {
        Ok(setting) => (Reply::default(), setting.words()),
        Err(reply) => (reply, (0, 0)),
    };
    let text = match read_text(rows, items, row, &message, &path) {
        Some((start, length)) => &message[start..start + length],
        None => &fallback,
    };
    write!(out, "{} {} {} {what} {word}", reply.number, reply.part, reply.place).unwrap();
    show_all(out, text);
}

fn show(out: &mut String, reply: Reply) {
    write!(out, "{} {} {} {} {}", reply.number, reply.part, reply.place, reply.nodes, reply.octets).unwrap();
}

fn show_all(out: &mut String, numbers: &[impl Display]) {
    *out += " |";
    for number in numbers {
        write!(out, " {number}").unwrap();
    }
}
