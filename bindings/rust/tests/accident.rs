//! The accident: a renter's own limit takes one octet more, and her neighbour's entry has to stay as it was.

use oer::{List, Part, Refusal, Setting, Table};

/// SEQUENCE OF {name VisibleString (SIZE (1..12)), limit INTEGER (0..MAX), alarm BOOLEAN DEFAULT TRUE, band REAL
/// OPTIONAL}
const ROWS: [u64; 36] =
    [9, 2, 1, 12, 0, 0, 2, 1, 0, 0, 0, 0, 1, 0, 0, 0, 0, 0, 4, 0, 0, 0, 0, 0, 10, 0, 0, 0, 0, 4, 11, 0, 0, 0, 4, 1];
const ITEMS: [u64; 15] = [0, 0, 0, 1, 0, 0, 2, 2, 1, 3, 1, 0, 4, 0, 0];
const YARD: u64 = 5;
const MESSAGE: &[u8] = b"\x01\x02\x00\x04Anna\x01\xFF\x40\x04Bert\x03\x01\x11\x70\x3F\x00\x00\x00";
/// Where the neighbour's entry begins.
const NEIGHBOUR: usize = 10;

fn table() -> Table<'static> {
    Table::new(&ROWS, &ITEMS).expect("the table is sound")
}

#[test]
fn the_neighbour_keeps_every_octet() {
    let table = table();
    let after = table.edit_to_vec(YARD, MESSAGE, &[0, 1], &List::leaf(2, 256)).unwrap();
    assert_eq!(after.len(), MESSAGE.len() + 1);
    assert_eq!(after[..8], MESSAGE[..8]);
    assert_eq!(after[8..11], [0x02, 0x01, 0x00]);
    assert_eq!(after[11..], MESSAGE[NEIGHBOUR..]);
    assert_eq!(table.setting(YARD, &after, &[0, 1]), Ok(Setting::Unsigned(256)));
    assert_eq!(table.text(YARD, &after, &[1, 0], b"?"), b"Bert");
    assert_eq!(table.setting(YARD, &after, &[1, 1]), Ok(Setting::Unsigned(70_000)));
    assert_eq!(table.setting(YARD, &after, &[1, 2]), Ok(Setting::Truth(true)));
    assert_eq!(table.setting(YARD, &after, &[1, 3]), Ok(Setting::Single(0.5)));
}

#[test]
fn an_edit_is_decode_swap_encode() {
    let table = table();
    let mut list = table.decode_to_list(YARD, MESSAGE).unwrap();
    assert_eq!(table.encode_to_vec(YARD, &list).unwrap(), MESSAGE);
    list.nodes[7] = 256;
    let edited = table.edit_to_vec(YARD, MESSAGE, &[0, 1], &List::leaf(2, 256)).unwrap();
    assert_eq!(table.encode_to_vec(YARD, &list).unwrap(), edited);
    assert_eq!(table.measure(YARD, &list.nodes, &list.contents), Ok(edited.len()));
    assert_eq!(table.validate(YARD, &edited).unwrap().nodes, 11);
}

#[test]
fn the_presence_bit() {
    let table = table();
    let off = table.edit_to_vec(YARD, MESSAGE, &[0, 2], &List::leaf(1, 0)).unwrap();
    assert_eq!((off[2], off[10]), (0x80, 0x00));
    assert_eq!(table.edit_to_vec(YARD, &off, &[0, 2], &List::leaf(1, 1)).unwrap(), MESSAGE);
    let gone = table.edit_to_vec(YARD, MESSAGE, &[1, 3], &List::absent()).unwrap();
    assert_eq!(table.setting(YARD, &gone, &[1, 3]), Ok(Setting::Absent));
    assert_eq!(gone.len(), MESSAGE.len() - 4);
}

#[test]
fn refusals_leave_lent_memory() {
    let table = table();
    let mut out = [7; 26];
    let refused = table.edit(YARD, MESSAGE, &[0, 1], &[2, 256], &[], &mut out[..MESSAGE.len()]);
    assert_eq!(refused, Err(Refusal { number: 12, part: Part::Result, place: 0 }));
    assert_eq!(out, [7; 26]);
    let refused = table.setting(YARD, MESSAGE, &[2]);
    assert_eq!(refused, Err(Refusal { number: 13, part: Part::Path, place: 0 }));
    let refused = table.validate(YARD, &MESSAGE[..MESSAGE.len() - 1]);
    assert_eq!(refused, Err(Refusal { number: 5, part: Part::Message, place: 20 }));
    let refused = table.edit_to_vec(YARD, MESSAGE, &[0, 0], &List::text(9, b""));
    assert_eq!(refused, Err(Refusal { number: 7, part: Part::List, place: 0 }));
    assert_eq!(table.text(YARD, MESSAGE, &[0, 1], b"no text"), b"no text");
    assert!(matches!(Table::new(&ROWS[..35], &ITEMS), Err(Refusal { number: 1, part: Part::Table, place: 0 })));
}
