//! The C face as `include/oer.h` has it. Nothing outside this file is unsafe but the one call in `call!`.

use crate::{Counts, Part, Refusal, Setting};

#[repr(C)]
#[derive(Clone, Copy)]
pub struct Reply {
    number: u64,
    part: u64,
    place: u64,
    nodes: u64,
    octets: u64,
}

#[repr(C)]
#[derive(Clone, Copy)]
pub struct RawSetting {
    number: u64,
    part: u64,
    place: u64,
    what: u64,
    word: u64,
}

#[repr(C)]
#[derive(Clone, Copy)]
pub struct RawText {
    pub found: u64,
    pub start: u64,
    pub length: u64,
}

type Words = *const u64;
type Octets = *const u8;

#[rustfmt::skip]
unsafe extern "C" {
    fn oer_check(rows: Words, r: usize, items: Words, i: usize) -> Reply;
    pub fn oer_validate(rows: Words, r: usize, items: Words, i: usize, row: u64, message: Octets, m: usize) -> Reply;
    pub fn oer_decode(rows: Words, r: usize, items: Words, i: usize, row: u64, message: Octets, m: usize,
        nodes: *mut u64, n: usize, contents: *mut u8, c: usize) -> Reply;
    pub fn oer_measure(rows: Words, r: usize, items: Words, i: usize, row: u64, nodes: Words, n: usize,
        contents: Octets, c: usize) -> Reply;
    pub fn oer_encode(rows: Words, r: usize, items: Words, i: usize, row: u64, nodes: Words, n: usize,
        contents: Octets, c: usize, out: *mut u8, o: usize) -> Reply;
    pub fn oer_edit(rows: Words, r: usize, items: Words, i: usize, row: u64, message: Octets, m: usize,
        path: Words, p: usize, nodes: Words, n: usize, contents: Octets, c: usize, out: *mut u8, o: usize) -> Reply;
    pub fn oer_read_setting(rows: Words, r: usize, items: Words, i: usize, row: u64, message: Octets, m: usize,
        path: Words, p: usize) -> RawSetting;
    pub fn oer_read_text(rows: Words, r: usize, items: Words, i: usize, row: u64, message: Octets, m: usize,
        path: Words, p: usize) -> RawText;
}

/// A function of the C face with a table and a row, lists to read, and lists to write: each a pointer and a length.
macro_rules! call {
    ($name:ident, $table:ident, $row:ident, [$($list:expr),*], [$($lent:expr),*]) => {
        call!(@ $name, ($table.rows.as_ptr(), $table.rows.len(), $table.items.as_ptr(), $table.items.len(), $row),
            [$($list),*], [$($lent),*])
    };
    (@ $name:ident, ($($word:expr),*), [$first:expr $(, $list:expr)*], [$($lent:expr),*]) => {
        call!(@ $name, ($($word,)* $first.as_ptr(), $first.len()), [$($list),*], [$($lent),*])
    };
    (@ $name:ident, ($($word:expr),*), [], [$first:expr $(, $lent:expr)*]) => {
        call!(@ $name, ($($word,)* $first.as_mut_ptr(), $first.len()), [], [$($lent),*])
    };
    // Every pointer comes from a slice with its own length, and what is written is borrowed mutably.
    (@ $name:ident, ($($word:expr),*), [], []) => { unsafe { $crate::face::$name($($word),*) } };
}
pub(crate) use call;

pub fn check(rows: &[u64], items: &[u64]) -> Reply {
    unsafe { oer_check(rows.as_ptr(), rows.len(), items.as_ptr(), items.len()) }
}

fn refusal(number: u64, part: u64, place: u64) -> Refusal {
    let part = match part {
        0 => Part::Table,
        1 => Part::Message,
        2 => Part::List,
        3 => Part::Path,
        _ => Part::Result,
    };
    Refusal { number, part, place }
}

impl Reply {
    pub fn done(self) -> Result<Reply, Refusal> {
        if self.number == 0 { Ok(self) } else { Err(refusal(self.number, self.part, self.place)) }
    }

    pub fn counts(self) -> Counts {
        Counts { nodes: self.nodes as usize, contents: self.octets as usize }
    }

    pub fn octets(self) -> usize {
        self.octets as usize
    }
}

impl RawSetting {
    pub fn setting(self) -> Result<Setting, Refusal> {
        Ok(match self.what {
            0 => return Err(refusal(self.number, self.part, self.place)),
            1 => Setting::Absent,
            2 => Setting::Truth(self.word == 1),
            3 => Setting::Unsigned(self.word),
            4 => Setting::Signed(self.word as i64),
            5 => Setting::Single(f32::from_bits(self.word as u32)),
            6 => Setting::Double(f64::from_bits(self.word)),
            7 => Setting::Size(self.word),
            _ => Setting::Group(self.word),
        })
    }
}
