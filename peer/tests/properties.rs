//! Laws that hold of every generated case: canonical both ways, an edit can be taken back, and a reading agrees with
//! decoding.

mod common;

use common::{decode, edit, encode};
use peer::builder::Builder;
use peer::generate::{Case, List};
use peer::operations::{read_setting, read_text};
use peer::path::{Setting, find};
use peer::read::read_message;
use peer::table::Table;

const SEED: u64 = 7;
const CASES: u64 = 4000;

fn each(law: impl Fn(&Builder, &Case)) {
    for number in 0..CASES {
        let case = Case::generate(SEED, number);
        law(&Builder { rows: case.rows.clone(), items: case.items.clone() }, &case);
    }
}

#[test]
fn what_is_read_is_written_again() {
    each(|t, case| {
        if let Ok((nodes, contents)) = decode(t, case.row, &case.message) {
            assert_eq!(encode(t, case.row, &nodes, &contents).as_ref(), Ok(&case.message), "{case:?}");
        }
    });
}

#[test]
fn what_is_written_is_read_again() {
    each(|t, case| {
        let List { nodes, contents } = &case.list;
        if let Ok(message) = encode(t, case.row, nodes, contents) {
            assert_eq!(decode(t, case.row, &message), Ok((nodes.clone(), contents.clone())), "{case:?}");
        }
    });
}

#[test]
fn an_edit_can_be_taken_back() {
    each(|t, case| {
        let Ok(after) = edit(t, case.row, &case.message, &case.path, &case.new.nodes, &case.new.contents) else {
            return;
        };
        let table = Table::check(&t.rows, &t.items).unwrap();
        let value = read_message(&table, case.row as usize, &case.message).unwrap();
        let old = List::of(find(&table, case.row as usize, &value, &case.path).unwrap().value);
        let back = edit(t, case.row, &after, &case.path, &old.nodes, &old.contents);
        assert_eq!(back.as_ref(), Ok(&case.message), "{case:?}");
    });
}

#[test]
fn a_setting_is_what_decoding_gives() {
    each(|t, case| {
        let setting = read_setting(&t.rows, &t.items, case.row, &case.message, &case.path);
        let text = read_text(&t.rows, &t.items, case.row, &case.message, &case.path);
        match (decode(t, case.row, &case.message), setting) {
            (Err((number, part, place)), Err(reply)) => {
                assert_eq!((reply.number, reply.part, reply.place), (number, part, place));
            }
            (Ok((nodes, contents)), Ok(setting)) if case.path.is_empty() => {
                let (kind, number) = (nodes[0], nodes[1]);
                let is_string = matches!(setting, Setting::Size(size) if size == number);
                assert_eq!(is_string, (7..=9).contains(&kind), "{case:?}");
                assert_eq!(
                    text.map(|(start, length)| &case.message[start..start + length]),
                    is_string.then_some(&contents[..])
                );
            }
            (Ok(_), Ok(setting)) => assert_eq!(text.is_some(), matches!(setting, Setting::Size(_)), "{case:?}"),
            (Ok(_), Err(reply)) => assert_eq!((reply.number, reply.part, text), (13, 3, None)),
            (Err(_), Ok(_)) => panic!("a setting was read of a message that decode refuses: {case:?}"),
        }
    });
}
