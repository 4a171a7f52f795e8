// The operations, and who answers them: the archive over its C face, or the peer as a library.
use peer::generate::Case;
use peer::operations;
use peer::reply::Reply;

// A reply's or a setting's five words, as include/oer.h has them.
#[repr(C)]
#[derive(Clone, Copy, Debug, Default, PartialEq, Eq)]
pub struct Answer(pub [u64; 5]);

impl Answer {
    pub fn done(&self) -> bool {
        self.0[0] == 0
    }
}

// Lent buffers, filled, so that what stays as lent is compared too.
#[derive(Clone, PartialEq, Eq)]
pub struct Lent {
    pub nodes: Vec<u64>,
    pub contents: Vec<u8>,
    pub out: Vec<u8>,
}

impl Lent {
    // Room for so many nodes, contents octets and result octets.
    pub fn new(nodes: usize, octets: usize) -> Lent {
        Lent { nodes: vec![0x5555_5555_5555_5555; 2 * nodes], contents: vec![0x55; octets], out: vec![0x55; octets] }
    }

    // Room for everything.
    pub fn largest() -> Lent {
        Lent::new(4096, 65_535)
    }
}

pub trait Side {
    fn name(&self) -> &'static str;
    fn check(&self, c: &Case) -> Answer;
    fn validate(&self, c: &Case) -> Answer;
    fn decode(&self, c: &Case, nodes: &mut [u64], contents: &mut [u8]) -> Answer;
    fn measure(&self, c: &Case) -> Answer;
    fn encode(&self, c: &Case, nodes: &[u64], contents: &[u8], out: &mut [u8]) -> Answer;
    fn edit(&self, c: &Case, out: &mut [u8]) -> Answer;
    fn setting(&self, c: &Case) -> Answer;
}

#[derive(Clone, Copy, Debug, PartialEq, Eq)]
pub enum Operation {
    Check,
    Validate,
    Decode,
    Measure,
    Encode,
    Edit,
    Setting,
}
use Operation::*;

pub const OPERATIONS: [Operation; 7] = [Check, Validate, Decode, Measure, Encode, Edit, Setting];

impl Operation {
    pub fn name(self) -> &'static str {
        match self {
            Check => "check",
            Validate => "validate",
            Decode => "decode",
            Measure => "measure",
            Encode => "encode",
            Edit => "edit",
            Setting => "setting",
        }
    }

    pub fn run(self, side: &dyn Side, case: &Case, lent: &mut Lent) -> Answer {
        match self {
            Check => side.check(case),
            Validate => side.validate(case),
            Decode => side.decode(case, &mut lent.nodes, &mut lent.contents),
            Measure => side.measure(case),
            Encode => side.encode(case, &case.list.nodes, &case.list.contents, &mut lent.out),
            Edit => side.edit(case, &mut lent.out),
            Setting => side.setting(case),
        }
    }
}

type Words = *const u64;
type Octets = *const u8;

#[rustfmt::skip]
unsafe extern "C" {
    fn oer_check(rows: Words, r: usize, items: Words, i: usize) -> Answer;
    fn oer_validate(rows: Words, r: usize, items: Words, i: usize, row: u64, message: Octets, m: usize) -> Answer;
    fn oer_decode(rows: Words, r: usize, items: Words, i: usize, row: u64, message: Octets, m: usize,
        nodes: *mut u64, n: usize, contents: *mut u8, c: usize) -> Answer;
    fn oer_measure(rows: Words, r: usize, items: Words, i: usize, row: u64, nodes: Words, n: usize,
        contents: Octets, c: usize) -> Answer;
    fn oer_encode(rows: Words, r: usize, items: Words, i: usize, row: u64, nodes: Words, n: usize,
        contents: Octets, c: usize, out: *mut u8, o: usize) -> Answer;
    fn oer_edit(rows: Words, r: usize, items: Words, i: usize, row: u64, message: Octets, m: usize,
        path: Words, p: usize, nodes: Words, n: usize, contents: Octets, c: usize, out: *mut u8, o: usize) -> Answer;
    fn oer_read_setting(rows: Words, r: usize, items: Words, i: usize, row: u64, message: Octets, m: usize,
        path: Words, p: usize) -> Answer;
}

// A function of the C face with the case's table and row, lists to read, and lists to write: each a pointer and a
// length.
macro_rules! call {
    ($name:ident, $case:ident, [$($list:expr),*], [$($lent:expr),*]) => {
        call!(@ $name, ($case.rows.as_ptr(), $case.rows.len(), $case.items.as_ptr(), $case.items.len(), $case.row),
            [$($list),*], [$($lent),*])
    };
    (@ $name:ident, ($($word:expr),*), [$first:expr $(, $list:expr)*], [$($lent:expr),*]) => {
        call!(@ $name, ($($word,)* $first.as_ptr(), $first.len()), [$($list),*], [$($lent),*])
    };
    (@ $name:ident, ($($word:expr),*), [], [$first:expr $(, $lent:expr)*]) => {
        call!(@ $name, ($($word,)* $first.as_mut_ptr(), $first.len()), [], [$($lent),*])
    };
    // Every pointer comes from a slice with its own length, and what is written is borrowed mutably.
    (@ $name:ident, ($($word:expr),*), [], []) => { unsafe { $name($($word),*) } };
}

// The archive.
pub struct Ours;

impl Side for Ours {
    fn name(&self) -> &'static str {
        "ours"
    }
    fn check(&self, c: &Case) -> Answer {
        unsafe { oer_check(c.rows.as_ptr(), c.rows.len(), c.items.as_ptr(), c.items.len()) }
    }
    fn validate(&self, c: &Case) -> Answer {
        call!(oer_validate, c, [c.message], [])
    }
    fn decode(&self, c: &Case, nodes: &mut [u64], contents: &mut [u8]) -> Answer {
        call!(oer_decode, c, [c.message], [nodes, contents])
    }
    fn measure(&self, c: &Case) -> Answer {
        call!(oer_measure, c, [c.list.nodes, c.list.contents], [])
    }
    fn encode(&self, c: &Case, nodes: &[u64], contents: &[u8], out: &mut [u8]) -> Answer {
        call!(oer_encode, c, [nodes, contents], [out])
    }
    fn edit(&self, c: &Case, out: &mut [u8]) -> Answer {
        call!(oer_edit, c, [c.message, c.path, c.new.nodes, c.new.contents], [out])
    }
    fn setting(&self, c: &Case) -> Answer {
        call!(oer_read_setting, c, [c.message, c.path], [])
    }
}

// The independent codec of peer/.
pub struct Peer;

fn answer(reply: Reply) -> Answer {
    Answer([reply.number, reply.part, reply.place, reply.nodes, reply.octets])
}

impl Side for Peer {
    fn name(&self) -> &'static str {
        "peer"
    }
    fn check(&self, c: &Case) -> Answer {
        answer(operations::check(&c.rows, &c.items))
    }
    fn validate(&self, c: &Case) -> Answer {
        answer(operations::validate(&c.rows, &c.items, c.row, &c.message))
    }
    fn decode(&self, c: &Case, nodes: &mut [u64], contents: &mut [u8]) -> Answer {
        answer(operations::decode(&c.rows, &c.items, c.row, &c.message, nodes, contents))
    }
    fn measure(&self, c: &Case) -> Answer {
        answer(operations::measure(&c.rows, &c.items, c.row, &c.list.nodes, &c.list.contents))
    }
    fn encode(&self, c: &Case, nodes: &[u64], contents: &[u8], out: &mut [u8]) -> Answer {
        answer(operations::encode(&c.rows, &c.items, c.row, nodes, contents, out))
    }
    fn edit(&self, c: &Case, out: &mut [u8]) -> Answer {
        let new = &c.new;
        answer(operations::edit(&c.rows, &c.items, c.row, &c.message, &c.path, &new.nodes, &new.contents, out))
    }
    fn setting(&self, c: &Case) -> Answer {
        match operations::read_setting(&c.rows, &c.items, c.row, &c.message, &c.path) {
            Ok(setting) => {
                let (what, word) = setting.words();
                Answer([0, 0, 0, what, word])
            }
            Err(reply) => answer(reply),
        }
    }
}
