//! Named cases for value lists: measure and encode.

use super::{File, tables};
use crate::builder::Builder;
use crate::read::read_message;
use crate::table::Mark::{Default, Optional, Plain};
use crate::table::Table;
use crate::value::{Text, Value};

const MINUS_1: u64 = u64::MAX;

fn minus(n: u64) -> u64 {
    n.wrapping_neg()
}

/// Document 01's examples and the errors that look right; Annex A in full.
pub fn examples(file: &mut File) {
    file.table(&tables::examples());
    file.list("01 example 1: INTEGER 0..255, 255", 0, 2, &[2, 255], &[]);
    file.list("01 example 1: INTEGER 0..256, 255", 1, 3, &[2, 255], &[]);
    file.list("01 example 2: INTEGER -1..128, -1", 2, 3, &[2, MINUS_1], &[]);
    file.list("01 example 3: INTEGER 0..MAX, 0", 3, 3, &[2, 0], &[]);
    file.list("01 example 3: INTEGER 0..MAX, 256", 3, 4, &[2, 256], &[]);
    file.list("01 example 4: INTEGER, 128", 4, 4, &[2, 128], &[]);
    file.list("01 example 4: INTEGER, -128", 4, 3, &[2, minus(128)], &[]);
    file.list("01 example 4: INTEGER, -129", 4, 4, &[2, minus(129)], &[]);
    file.list("01 example 5: ENUMERATED 127", 5, 2, &[3, 127], &[]);
    file.list("01 example 5: ENUMERATED -1", 5, 3, &[3, MINUS_1], &[]);
    file.list("01: ENUMERATED 128 is 82 00 80", 5, 4, &[3, 128], &[]);
    for length in [127, 128, 256] {
        file.list(&format!("01 example 6: length {length}"), 6, length + 4, &[7, length as u64], &vec![1; length]);
    }
    file.list("01 example 7: BIT STRING 101", 7, 4, &[8, 3], &[0xA0]);
    file.list("01 example 7: BIT STRING empty", 7, 3, &[8, 0], &[]);
    file.list("01 example 7: BIT STRING of fixed size 3", 8, 2, &[8, 3], &[0xA0]);
    file.list("01 example 8: absent, 5", 10, 3, &[10, 2, 0, 0, 2, 5], &[]);
    file.list("01 example 8: TRUE, 6", 10, 4, &[10, 2, 1, 1, 2, 6], &[]);
    file.list("01 example 9: two TRUE", 11, 5, &[11, 2, 1, 1, 1, 1], &[]);
    file.list("01 example 9: empty", 11, 3, &[11, 0], &[]);
    file.list("01 example 10: CHOICE tag 63", 13, 4, &[12, 1, 1, 1], &[]);
    file.list("01 example 11: NULL has no octets", 12, 1, &[6, 0], &[]);
    file.list("01 example 12: TRUE, 5", 10, 3, &[10, 2, 1, 1, 2, 5], &[]);
    file.table(&tables::personnel());
    annex_a(file);
}

fn annex_a(file: &mut File) {
    let t = tables::personnel();
    let table = Table::check(&t.rows, &t.items).expect("the table is sound");
    let record = read_message(&table, 5, tables::PERSONNEL_OCTETS).expect("Annex A is sound");
    file.value("Annex A: the personnel record", 5, 97, &record);
    file.value("Annex A: the result buffer exact", 5, 95, &record);
    file.value("Annex A: ROOM, one octet too small", 5, 94, &record);
    file.value("Annex A: ROOM, nothing lent", 5, 0, &record);
    let names = ["name", "number", "title", "date of hire", "name of spouse", "children"];
    for ((component, name), row) in record.children().iter().zip(names).zip([1, 2, 0, 0, 1, 4]) {
        file.value(&format!("Annex A: {name} alone"), row, 60, component);
    }
    let mut childless = record.clone();
    childless.children_mut()[5] = Value::SequenceOf(Vec::new());
    file.value("Annex A: no children, the default left out", 5, 97, &childless);
    let (mut nodes, contents) = record.to_list();
    file.list("Annex A: contents one short, at the last string's node", 5, 97, &nodes, &contents[..contents.len() - 1]);
    nodes[1] = 5;
    file.list("Annex A: a component count the row has not", 5, 97, &nodes, &contents);
}

/// Kinds 10 to 12.
pub fn groups(file: &mut File) {
    file.table(&tables::examples());
    file.list("SEQUENCE: a component count the row has not", 10, 4, &[10, 1, 1, 1], &[]);
    file.list("SEQUENCE: count 2^32+2", 10, 4, &[10, (1 << 32) + 2, 0, 0, 2, 5], &[]);
    file.list("SEQUENCE: ABSENT with a number", 10, 4, &[10, 2, 0, 1, 2, 5], &[]);
    file.list("SEQUENCE: ABSENT for a DEFAULT component", 10, 4, &[10, 2, 0, 0, 0, 0], &[]);
    file.list("SEQUENCE: a node missing", 10, 4, &[10, 2, 1, 1], &[]);
    file.list("SEQUENCE: all components missing", 10, 4, &[10, 2], &[]);
    file.list("SEQUENCE: a wrong kind in the first comes before 7 in the second", 10, 4, &[10, 2, 2, 1, 2, 256], &[]);
    file.list("SEQUENCE: the second is not allowed", 10, 4, &[10, 2, 1, 1, 2, 256], &[]);
    file.list("SEQUENCE: FALSE, 5", 10, 4, &[10, 2, 1, 0, 2, 5], &[]);
    file.list("SEQUENCE OF: ABSENT element", 11, 4, &[11, 1, 0, 0], &[]);
    file.list("SEQUENCE OF: one element too few", 11, 9, &[11, 3, 1, 1, 1, 0], &[]);
    file.list("SEQUENCE OF: one element too many", 11, 9, &[11, 1, 1, 1, 1, 0], &[]);
    file.list("SEQUENCE OF: count 2^64-1 is not believed", 11, 9, &[11, u64::MAX, 1, 1], &[]);
    for count in [127, 128, 255, 256] {
        let nodes = [vec![11, count], [1, 1].repeat(count as usize)].concat();
        file.list(&format!("SEQUENCE OF {count}"), 11, count as usize + 3, &nodes, &[]);
    }
    file.list("CHOICE: the alternative missing", 13, 4, &[12, 0], &[]);
    file.list("CHOICE: place 2 of 2", 13, 4, &[12, 2, 1, 1], &[]);
    file.list("CHOICE: place 2^64-1", 13, 4, &[12, u64::MAX, 1, 1], &[]);
    file.list("CHOICE: ABSENT alternative", 13, 4, &[12, 0, 0, 0], &[]);
    file.list("CHOICE: place 0", 13, 4, &[12, 0, 1, 0], &[]);
    tags(file);
    for count in [7, 8, 9, 16, 17] {
        file.table(&tables::optionals(count));
        let sequence =
            |child: fn(usize, usize) -> Value| Value::Sequence((0..count).map(|place| child(place, count)).collect());
        let all = sequence(|_, _| Value::Boolean(true));
        let none = sequence(|_, _| Value::Absent);
        let last = sequence(|place, count| if place + 1 == count { Value::Boolean(false) } else { Value::Absent });
        for (what, value) in [("all", all), ("none", none), ("the last", last)] {
            file.value(&format!("SEQUENCE of {count} OPTIONAL, {what}"), 1, count + 3, &value);
        }
    }
    defaults(file);
    shared(file);
}

fn tags(file: &mut File) {
    let numbers = [0, 1, 62, 63, 64, 127, 128, 16_383, 16_384, 2_097_151];
    let mut t = Builder::new();
    let null = t.null();
    let alternatives: Vec<(u64, u64, u64)> =
        (0..4).flat_map(|class| numbers.map(|number| (class, number, null))).collect();
    t.choice(&alternatives);
    file.table(&t);
    for (place, (class, number, _)) in (0..).zip(&alternatives) {
        file.list(&format!("CHOICE class {class}, tag {number}"), 1, 5, &[12, place, 6, 0], &[]);
    }
}

fn defaults(file: &mut File) {
    let mut t = Builder::new();
    let boolean = t.boolean();
    let signed = t.integer(None, None);
    let unsigned = t.integer(Some(1), None);
    let enumerated = t.enumerated(&[-5, 1, 200]);
    let list = t.sequence_of(boolean);
    t.sequence(&[
        (boolean, Default(1)),
        (signed, Default(MINUS_1)),
        (unsigned, Default(u64::MAX)),
        (enumerated, Default(minus(5))),
        (list, Default(0)),
    ]);
    file.table(&t);
    let none = [10, 5, 1, 1, 2, MINUS_1, 2, u64::MAX, 3, minus(5), 11, 0];
    file.list("DEFAULT: all left out", 5, 20, &none, &[]);
    let names = ["FALSE", "255", "1", "200"];
    for ((place, number), name) in [(3, 0), (5, 255), (7, 1), (9, 200)].into_iter().zip(names) {
        let mut nodes = none;
        nodes[place] = number;
        file.list(&format!("DEFAULT: {name} carried"), 5, 20, &nodes, &[]);
    }
    let mut nodes = none.to_vec();
    nodes[11] = 1;
    nodes.extend([1, 0]);
    file.list("DEFAULT: a list of one carried", 5, 20, &nodes, &[]);
}

fn shared(file: &mut File) {
    file.table(&tables::shared());
    file.list("overlapping items: four components", 2, 9, &[10, 4, 1, 1, 0, 0, 2, 5, 1, 0], &[]);
    file.list("overlapping items: the last three of them", 3, 9, &[10, 3, 2, 5, 2, 6, 1, 0], &[]);
    file.list("overlapping items: none", 4, 9, &[10, 0], &[]);
    let twice = [10, 2, 10, 4, 1, 1, 2, 5, 2, 5, 1, 0, 10, 4, 1, 0, 0, 0, 2, 6, 1, 1];
    file.list("shared row: two different values", 5, 12, &twice, &[]);
    file.table(&tables::nested());
    let mut value = Value::Boolean(true);
    for level in 0..15 {
        value = match level % 3 {
            0 => Value::Sequence(vec![value]),
            1 => Value::SequenceOf(vec![value.clone(), value]),
            _ => Value::Choice(0, Box::new(value)),
        };
    }
    file.value("nesting 16: the three by turns", 15, 127, &value);
    let (nodes, _) = value.to_list();
    file.list("nesting 16: the last node missing", 15, 60, &nodes[..nodes.len() - 2], &[]);
}

/// The list as a whole: odd words, limits, what is left over, and the order of refusals.
pub fn whole_lists(file: &mut File) {
    file.table(&tables::limits());
    file.list("the empty list", 0, 2, &[], &[]);
    file.list("an odd word alone", 0, 2, &[6], &[]);
    file.list("an odd word behind a node", 0, 2, &[6, 0, 6], &[]);
    file.list("an odd word comes before the walk", 0, 2, &[1, 0, 6], &[]);
    file.list("a node left over", 0, 2, &[6, 0, 6, 0], &[]);
    file.list("contents left over", 0, 2, &[6, 0], &[1]);
    file.list("nodes left over before contents left over", 0, 2, &[6, 0, 6, 0, 6, 0], &[1]);
    file.list("the walk before what is left over", 0, 2, &[6, 1, 6, 0], &[1]);
    file.list("TYPE: row 6 of 6 rows", 6, 2, &[6, 0], &[]);
    file.list("TYPE: row 2^32", 1 << 32, 2, &[6, 0], &[]);
    file.list("TYPE before an odd word", 6, 2, &[6], &[]);
    for count in [4095u64, 4096, 4097] {
        let nodes = [vec![11, count], [6, 0].repeat(count as usize)].concat();
        file.list(&format!("nodes: {}, list of NULL", count + 1), 1, 4, &nodes, &[]);
    }
    let many = [6, 0].repeat(4097);
    file.list("nodes: an odd word comes before 4,097 nodes", 1, 4, &[many.clone(), vec![6]].concat(), &[]);
    file.list("nodes: 4,097 come before the walk", 1, 4, &many, &[1]);
    let octets = vec![0; 65_536];
    file.list("contents: 65,535, fixed, ROOM", 2, 65_534, &[7, 65_535], &octets[1..]);
    file.list("contents: 65,536 come before the walk", 0, 2, &[9, 9], &octets);
    file.list("result: 65,535", 3, 65_535, &[7, 65_532], &octets[4..]);
    file.list("result: 65,536, LONG before ROOM", 3, 0, &[7, 65_533], &octets[3..]);
    file.table(&Builder::new());
    file.list("TABLE SIZE: no rows", 0, 2, &[6, 0], &[]);
    let mut broken = tables::limits();
    broken.rows[6] = 13;
    file.table(&broken);
    file.list("TABLE ROW: row 1, before TYPE", 9, 2, &[6, 0], &[]);
    let mut t = Builder::new();
    let text = t.string(9, 0, None);
    let octets = t.string(7, 1, None);
    t.sequence(&[(text, Optional), (octets, Plain), (text, Plain)]);
    file.table(&t);
    let texts = |a: &[u8], b: &[u8], c: &[u8]| {
        let [a, b, c] = [a, b, c].map(Text::new);
        Value::Sequence(vec![Value::Visible(a), Value::Octets(b), Value::Visible(c)])
    };
    file.value("three strings share the contents", 2, 20, &texts(b"ab", b"\x00", b"yz"));
    file.value("three strings, the second too small", 2, 20, &texts(b"ab", b"", b"yz"));
    file.value("three strings, faults in the first and the third", 2, 20, &texts(b"\x1F", b"\x00", b"\x7F"));
}
