//! Compares liboer_c.a, over its C face, with the peer on generated cases: reply, counts, and every word and octet of
//! lent memory with what stands before and behind it. Lent room is exact, and by turns one too small, none, or too
//! large.

use std::collections::BTreeMap;
use std::process::ExitCode;

use peer::generate::Case;
use peer::named::case_lines;
use peer::operations;
use peer::reply::Reply;

#[repr(C)]
#[derive(Clone, Copy, Debug, Default, PartialEq, Eq)]
struct Setting {
    number: u64,
    part: u64,
    place: u64,
    what: u64,
    word: u64,
}

#[repr(C)]
#[derive(Clone, Copy, Debug, Default, PartialEq, Eq)]
struct Text {
    found: u64,
    start: u64,
    length: u64,
}

type Words = *const u64;
type Octets = *const u8;

#[rustfmt::skip]
unsafe extern "C" {
    fn oer_check(rows: Words, r: usize, items: Words, i: usize) -> Reply;
    fn oer_validate(rows: Words, r: usize, items: Words, i: usize, row: u64, message: Octets, m: usize) -> Reply;
    fn oer_decode(rows: Words, r: usize, items: Words, i: usize, row: u64, message: Octets, m: usize,
        nodes: *mut u64, n: usize, contents: *mut u8, c: usize) -> Reply;
    fn oer_measure(rows: Words, r: usize, items: Words, i: usize, row: u64, nodes: Words, n: usize,
        contents: Octets, c: usize) -> Reply;
    fn oer_encode(rows: Words, r: usize, items: Words, i: usize, row: u64, nodes: Words, n: usize,
        contents: Octets, c: usize, out: *mut u8, o: usize) -> Reply;
    fn oer_edit(rows: Words, r: usize, items: Words, i: usize, row: u64, message: Octets, m: usize,
        path: Words, p: usize, nodes: Words, n: usize, contents: Octets, c: usize, out: *mut u8, o: usize) -> Reply;
    fn oer_read_setting(rows: Words, r: usize, items: Words, i: usize, row: u64, message: Octets, m: usize,
        path: Words, p: usize) -> Setting;
    fn oer_read_text(rows: Words, r: usize, items: Words, i: usize, row: u64, message: Octets, m: usize,
        path: Words, p: usize) -> Text;
}

/// What an operation answered: its reply in words, and all of the memory around and in the lent buffers.
#[derive(Debug, Default, PartialEq, Eq)]
struct Answer {
    operation: &'static str,
    reply: Vec<u64>,
    words: Vec<u64>,
    octets: Vec<u8>,
}

const MARGIN: usize = 8;

/// A buffer with canaries on both sides; no two neighbours are the same.
fn words_around(room: usize) -> Vec<u64> {
    (0..room + 2 * MARGIN).map(|place| 0xA5A5_0000_0000_0000 + place as u64).collect()
}

fn octets_around(room: usize) -> Vec<u8> {
    (0..room + 2 * MARGIN).map(|place| 0xA5 ^ place as u8).collect()
}

fn of_reply(operation: &'static str, r: Reply) -> Answer {
    Answer { operation, reply: vec![r.number, r.part, r.place, r.nodes, r.octets], ..Answer::default() }
}

/// One side of the comparison.
trait Codec {
    fn check(&self, c: &Case) -> Reply;
    fn validate(&self, c: &Case) -> Reply;
    fn decode(&self, c: &Case, nodes: &mut [u64], contents: &mut [u8]) -> Reply;
    fn measure(&self, c: &Case) -> Reply;
    fn encode(&self, c: &Case, out: &mut [u8]) -> Reply;
    fn edit(&self, c: &Case, out: &mut [u8]) -> Reply;
    fn setting(&self, c: &Case) -> Setting;
    fn text(&self, c: &Case) -> Text;
}

struct Ours;

impl Codec for Ours {
    fn check(&self, c: &Case) -> Reply {
        operations::check(&c.rows, &c.items)
    }
    fn validate(&self, c: &Case) -> Reply {
        operations::validate(&c.rows, &c.items, c.row, &c.message)
    }
    fn decode(&self, c: &Case, nodes: &mut [u64], contents: &mut [u8]) -> Reply {
        operations::decode(&c.rows, &c.items, c.row, &c.message, nodes, contents)
    }
    fn measure(&self, c: &Case) -> Reply {
        operations::measure(&c.rows, &c.items, c.row, &c.list.nodes, &c.list.contents)
    }
    fn encode(&self, c: &Case, out: &mut [u8]) -> Reply {
        operations::encode(&c.rows, &c.items, c.row, &c.list.nodes, &c.list.contents, out)
    }
    fn edit(&self, c: &Case, out: &mut [u8]) -> Reply {
        operations::edit(&c.rows, &c.items, c.row, &c.message, &c.path, &c.new.nodes, &c.new.contents, out)
    }
    fn setting(&self, c: &Case) -> Setting {
        match operations::read_setting(&c.rows, &c.items, c.row, &c.message, &c.path) {
            Ok(setting) => {
                let (what, word) = setting.words();
                Setting { what, word, ..Setting::default() }
            }
            Err(Reply { number, part, place, .. }) => Setting { number, part, place, ..Setting::default() },
        }
    }
    fn text(&self, c: &Case) -> Text {
        match operations::read_text(&c.rows, &c.items, c.row, &c.message, &c.path) {
            Some((start, length)) => Text { found: 1, start: start as u64, length: length as u64 },
            None => Text::default(),
        }
    }
}

/// The codec in the archive.
struct Theirs;

/// A list as a pointer and a length, as the C face takes it.
macro_rules! call {
    ($name:ident, $case:ident, [$($list:expr),*], [$($lent:expr),*]) => {
        call!(@ $name, ($case.rows.as_ptr(), $case.rows.len(), $case.items.as_ptr(), $case.items.len(), $case.row),
            [$($list),*], [$($lent),*])
    };
    (@ $name:ident, ($($word:expr),*), [$first:expr $(, $list:expr)*], [$($lent:expr),*]) => {
        call!(@ $name, ($($word,)* $first.as_ptr(), $first.len()), [$($list),*], [$($lent),*])
    };
    (@ $name:ident, ($($word:expr),*), [], [$first:expr $(, $lent:expr)*]) => {
        call!(@ $name, ($($word,)* $first.as_mut_ptr(), $first.len()), [], [$($lent),*])
    };
    // Every pointer comes from a slice with its own length, and what is lent to be written is borrowed mutably.
    (@ $name:ident, ($($word:expr),*), [], []) => { unsafe { $name($($word),*) } };
}

impl Codec for Theirs {
    fn check(&self, c: &Case) -> Reply {
        unsafe { oer_check(c.rows.as_ptr(), c.rows.len(), c.items.as_ptr(), c.items.len()) }
    }
    fn validate(&self, c: &Case) -> Reply {
        call!(oer_validate, c, [c.message], [])
    }
    fn decode(&self, c: &Case, nodes: &mut [u64], contents: &mut [u8]) -> Reply {
        call!(oer_decode, c, [c.message], [nodes, contents])
    }
    fn measure(&self, c: &Case) -> Reply {
        call!(oer_measure, c, [c.list.nodes, c.list.contents], [])
    }
    fn encode(&self, c: &Case, out: &mut [u8]) -> Reply {
        call!(oer_encode, c, [c.list.nodes, c.list.contents], [out])
    }
    fn edit(&self, c: &Case, out: &mut [u8]) -> Reply {
        call!(oer_edit, c, [c.message, c.path, c.new.nodes, c.new.contents], [out])
    }
    fn setting(&self, c: &Case) -> Setting {
        call!(oer_read_setting, c, [c.message, c.path], [])
    }
    fn text(&self, c: &Case) -> Text {
        call!(oer_read_text, c, [c.message, c.path], [])
    }
}

/// Room for a result of this size: exact first, then by the turn one too small, none, or too large.
fn rooms(needed: usize, turn: u64) -> [usize; 2] {
    [needed, [needed.saturating_sub(1), 0, needed + 1, needed + 5][turn as usize % 4]]
}

fn with_result(operation: &'static str, room: usize, run: impl Fn(&mut [u8]) -> Reply) -> Answer {
    let mut octets = octets_around(room);
    let reply = run(&mut octets[MARGIN..MARGIN + room]);
    Answer { octets, ..of_reply(operation, reply) }
}

fn decode(codec: &dyn Codec, case: &Case, nodes_room: usize, contents_room: usize) -> Answer {
    let (mut words, mut octets) = (words_around(nodes_room), octets_around(contents_room));
    let nodes = &mut words[MARGIN..MARGIN + nodes_room];
    let reply = codec.decode(case, nodes, &mut octets[MARGIN..MARGIN + contents_room]);
    Answer { words, octets, ..of_reply("decode", reply) }
}

/// All eight operations on a case; `needed` has what the peer needs for decode, encode and edit.
fn answers(codec: &dyn Codec, case: &Case, turn: u64, needed: &Needed) -> Vec<Answer> {
    let mut all = vec![
        of_reply("check", codec.check(case)),
        of_reply("validate", codec.validate(case)),
        of_reply("measure", codec.measure(case)),
    ];
    for (nodes, contents) in
        rooms(needed.words, turn).into_iter().zip(rooms(needed.contents, turn / 4)).chain([(needed.words, 0)])
    {
        all.push(decode(codec, case, nodes, contents));
    }
    for room in rooms(needed.encoded, turn) {
        all.push(with_result("encode", room, |out| codec.encode(case, out)));
    }
    for room in rooms(needed.edited, turn) {
        all.push(with_result("edit", room, |out| codec.edit(case, out)));
    }
    let s = codec.setting(case);
    let t = codec.text(case);
    let setting = vec![s.number, s.part, s.place, s.what, s.word];
    all.push(Answer { operation: "read_setting", reply: setting, ..Answer::default() });
    all.push(Answer { operation: "read_text", reply: vec![t.found, t.start, t.length], ..Answer::default() });
    all
}

struct Needed {
    words: usize,
    contents: usize,
    encoded: usize,
    edited: usize,
}

impl Needed {
    fn by(case: &Case, large: &mut [u8]) -> Needed {
        let read = Ours.validate(case);
        Needed {
            words: 2 * read.nodes as usize,
            contents: read.octets as usize,
            encoded: Ours.measure(case).octets as usize,
            edited: Ours.edit(case, large).octets as usize,
        }
    }
}

/// How often each operation gave each reply number.
type Tally = BTreeMap<&'static str, [u64; 14]>;

/// The first answer in which the two sides differ: theirs and ours.
fn difference(case: &Case, turn: u64, large: &mut [u8], tally: &mut Tally) -> Option<(Answer, Answer)> {
    let needed = Needed::by(case, large);
    let lent = case.clone();
    let theirs = answers(&Theirs, &lent, turn, &needed);
    let ours = answers(&Ours, case, turn, &needed);
    assert_eq!(&lent, case, "what was lent for reading has changed");
    for answer in ours.iter().filter(|answer| answer.operation != "read_text") {
        tally.entry(answer.operation).or_default()[answer.reply[0] as usize] += 1;
    }
    theirs.into_iter().zip(ours).find(|(theirs, ours)| theirs != ours)
}

fn report(seed: u64, number: u64, theirs: &Answer, ours: &Answer, case: &Case) {
    println!("seed {seed}, case {number}: {} differs", theirs.operation);
    for (side, answer) in [("archive", theirs), ("peer", ours)] {
        println!("{side}: reply {:?}", answer.reply);
        println!("{side}: words, with {MARGIN} on each side: {:?}", answer.words);
        println!("{side}: octets, with {MARGIN} on each side: {:?}", answer.octets);
    }
    print!("The case, as a case file (docs/FORMATS.md):\n{}", case_lines(seed, number, case));
}

fn number_behind(words: &[String], name: &str, otherwise: u64) -> Option<u64> {
    match words.iter().position(|word| word == name) {
        Some(place) => words.get(place + 1)?.parse().ok(),
        None => Some(otherwise),
    }
}

fn main() -> ExitCode {
    let words: Vec<String> = std::env::args().skip(1).collect();
    let settings = ["--cases", "--seed", "--from"].map(|name| number_behind(&words, name, (name == "--cases") as u64));
    let [Some(cases), Some(seed), Some(from)] = settings else {
        eprintln!("compare [--cases N] [--seed S] [--from CASE]");
        return ExitCode::from(2);
    };
    let mut large = vec![0; 65_535];
    let mut tally = Tally::new();
    for number in from..from + cases {
        let case = Case::generate(seed, number);
        if let Some((theirs, ours)) = difference(&case, number, &mut large, &mut tally) {
            report(seed, number, &theirs, &ours, &case);
            return ExitCode::FAILURE;
        }
    }
    for (operation, numbers) in &tally {
        println!("{operation:13} replies 0 to 13: {numbers:?}");
    }
    println!("{cases} cases from seed {seed}: 0 differences");
    ExitCode::SUCCESS
}
