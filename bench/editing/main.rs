// Instruction counts of an edit and of reading a setting beside plain Rust with the same promises, and beside our own
// longer roads: decode and encode, and validate. Run by ../editing.sh: `agree` compares the answers of all sides,
// `count` does the work that callgrind counts, `print FILE` makes the table of the counts.
#[path = "../common/mod.rs"]
mod common;
#[path = "../plain/mod.rs"]
mod plain;

use common::sides::Operation::*;
use common::sides::{Answer, Lent, OPERATIONS, Ours, Peer, Side};
use common::{Counts, agreed, count_operation, markdown};
use peer::generate::{Case, List};
use plain::workloads::{Workload, small, strings};
use plain::{Reply, editor, reader, reply, table, writer};

struct Plain;

fn answer(reply: Reply) -> Answer {
    Answer([reply.number, reply.part, reply.place, reply.nodes, reply.octets])
}

impl Side for Plain {
    fn name(&self) -> &'static str {
        "plain"
    }
    fn check(&self, c: &Case) -> Answer {
        answer(reply(table::check(&c.rows, &c.items).map(|_| plain::Counts::default())))
    }
    fn validate(&self, c: &Case) -> Answer {
        answer(reply(reader::validate(&c.rows, &c.items, c.row, &c.message)))
    }
    fn decode(&self, c: &Case, nodes: &mut [u64], contents: &mut [u8]) -> Answer {
        answer(reply(reader::decode(&c.rows, &c.items, c.row, &c.message, nodes, contents)))
    }
    fn measure(&self, c: &Case) -> Answer {
        answer(reply(writer::measure(&c.rows, &c.items, c.row, &c.list.nodes, &c.list.contents)))
    }
    fn encode(&self, c: &Case, nodes: &[u64], contents: &[u8], out: &mut [u8]) -> Answer {
        answer(reply(writer::encode(&c.rows, &c.items, c.row, nodes, contents, out)))
    }
    fn edit(&self, c: &Case, out: &mut [u8]) -> Answer {
        let new = &c.new;
        answer(reply(editor::edit(&c.rows, &c.items, c.row, &c.message, &c.path, &new.nodes, &new.contents, out)))
    }
    fn setting(&self, c: &Case) -> Answer {
        match editor::read_setting(&c.rows, &c.items, c.row, &c.message, &c.path) {
            Ok((what, word)) => Answer([0, 0, 0, what, word]),
            Err(refusal) => answer(refusal),
        }
    }
}

// A component of a workload to be edited. The case's list is the value after the edit, which the longer road has to
// encode.
struct Edit {
    workload: &'static str,
    name: &'static str,
    case: Case,
}

fn edit(load: &Workload, name: &'static str, path: &[u64], nodes: &[[u64; 2]], contents: Vec<u8>) -> Edit {
    let mut case = Case {
        rows: load.rows.as_flattened().to_vec(),
        items: load.items.as_flattened().to_vec(),
        row: load.rows.len() as u64 - 1,
        message: load.msg.clone(),
        path: path.to_vec(),
        list: List::default(),
        new: List { nodes: nodes.as_flattened().to_vec(), contents },
    };
    let mut lent = Lent::largest();
    let edited = Peer.edit(&case, &mut lent.out);
    assert!(edited.done(), "{}, {name}: the peer refuses it", load.name);
    let after = Case { message: lent.out[..edited.0[4] as usize].to_vec(), ..case.clone() };
    let decoded = Peer.decode(&after, &mut lent.nodes, &mut lent.contents);
    case.list.nodes = lent.nodes[..2 * decoded.0[3] as usize].to_vec();
    case.list.contents = lent.contents[..decoded.0[4] as usize].to_vec();
    Edit { workload: load.name, name, case }
}

fn edits() -> Vec<Edit> {
    let (small, strings) = (small(), strings());
    let visible = |size: u64| (0..size).map(|i| 32 + (i * 7 % 95) as u8).collect();
    vec![
        edit(&small, "middle", &[200, 3], &[[2, 70_000]], vec![]),
        edit(&small, "middle, now ABSENT", &[200, 4], &[[0, 0]], vec![]),
        edit(&small, "end", &[399, 7], &[[12, 0], [1, 1]], vec![]),
        edit(&strings, "middle", &[5, 1], &[[9, 1000]], visible(1000)),
        edit(&strings, "end", &[10, 3], &[[7, 512]], visible(512)),
    ]
}

const GENERATED: u64 = 20_000;

fn agree() {
    // small enough for some to be refused for ROOM
    let lent = Lent::new(200, 300);
    for number in 0..GENERATED {
        let case = Case::generate(1, number);
        for operation in OPERATIONS {
            let name = format!("generated case {number}, {}", operation.name());
            agreed(&name, operation, &case, &lent, &Plain, &Peer);
            agreed(&name, operation, &case, &lent, &Ours, &Plain);
        }
    }
    println!("archive, plain Rust and peer agree on {GENERATED} generated cases");
    let lent = Lent::largest();
    for Edit { workload, name, case } in &edits() {
        for operation in OPERATIONS {
            let name = format!("{workload}, {name}, {}", operation.name());
            assert!(agreed(&name, operation, case, &lent, &Ours, &Plain).done(), "{name}: refused");
        }
        // The longer road ends where the edit does.
        let (mut edited, mut encoded) = (lent.clone(), lent.clone());
        Edit.run(&Ours, case, &mut edited);
        Encode.run(&Ours, case, &mut encoded);
        assert!(edited == encoded, "{workload}, {name}: the longer road ends elsewhere");
        println!("{workload}, {name}: {} octets: agree", case.message.len());
    }
}

fn count() {
    let mut lent = Lent::largest();
    for Edit { workload, name, case } in &edits() {
        for operation in OPERATIONS {
            for side in [&Ours as &dyn Side, &Plain] {
                let label = format!("{workload}, {name}: {} {}", side.name(), operation.name());
                count_operation(&label, side, operation, case, &mut lent);
            }
        }
    }
}

const BESIDE_PLAIN: f64 = 1.3;
const BESIDE_LONGER_ROAD: f64 = 0.5;
const BESIDE_VALIDATE: f64 = 1.2;

// A ratio, and whether it is above its bar.
fn judged(ours: u64, other: u64, bar: f64) -> String {
    let ratio = ours as f64 / other as f64;
    format!("{}{}", markdown::ratio(ratio), if ratio <= bar { "" } else { ", above" })
}

fn print(counts: &Counts) {
    let edits = edits();
    let of = |edit: &Edit, what: &str| counts.of(&format!("{}, {}: {what}", edit.workload, edit.name));
    let row = |edit: &Edit, numbers: [u64; 2], ratios: [String; 2]| {
        let [one, other] = numbers.map(markdown::number);
        let [beside_one, beside_other] = ratios;
        markdown::row(&[edit.workload, edit.name, &one, &other, &beside_one, &beside_other]);
    };
    markdown::head(&["Workload", "Component", "edit", "plain edit", "edit / plain", "edit / (decode + encode)"]);
    for edit in &edits {
        let (ours, plain) = (of(edit, "ours edit"), of(edit, "plain edit"));
        let longer = of(edit, "ours decode") + of(edit, "ours encode");
        let ratios = [judged(ours, plain, BESIDE_PLAIN), judged(ours, longer, BESIDE_LONGER_ROAD)];
        row(edit, [ours, plain], ratios);
    }
    println!();
    markdown::head(&["Workload", "Component", "setting", "plain setting", "setting / plain", "setting / validate"]);
    for edit in &edits {
        let (ours, plain) = (of(edit, "ours setting"), of(edit, "plain setting"));
        let ratios = [judged(ours, plain, BESIDE_PLAIN), judged(ours, of(edit, "ours validate"), BESIDE_VALIDATE)];
        row(edit, [ours, plain], ratios);
    }
    println!("\nThe other operations over the same face, beside the same plain Rust:\n");
    markdown::head(&["Workload", "Operation", "ours", "plain Rust", "ratio"]);
    for edit in edits.iter().filter(|edit| edit.name == "end") {
        for operation in [Check, Validate, Decode, Measure, Encode] {
            let [ours, plain] = ["ours", "plain"].map(|side| of(edit, &format!("{side} {}", operation.name())));
            let numbers = [ours, plain].map(markdown::number);
            let ratio = markdown::ratio(ours as f64 / plain as f64);
            markdown::row(&[edit.workload, operation.name(), &numbers[0], &numbers[1], &ratio]);
        }
    }
}

fn main() {
    let arguments: Vec<String> = std::env::args().collect();
    match arguments.iter().map(String::as_str).collect::<Vec<_>>()[1..] {
        ["agree"] => agree(),
        ["count"] => count(),
        ["print", file] => print(&Counts::read(file)),
        _ => panic!("agree, count, or print FILE"),
    }
}
