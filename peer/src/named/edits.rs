//! Named cases for edits.

use super::{File, tables};
use crate::builder::Builder;
use crate::operations::edit;
use crate::table::Mark::{Default, Optional, Plain};

const NO_PATH: [u64; 0] = [];
const ABSENT: [u64; 2] = [0, 0];
const TRUE: [u64; 2] = [1, 1];

/// Document 01's case 12, and its neighbours on the same type.
pub fn examples(file: &mut File) {
    file.table(&tables::examples());
    file.edit("01 example 12: 80 FF, path 1, new 6", 10, 5, &[0x80, 0xFF], &[1], &[2, 6]);
    file.edit("01 example 12: 80 FF, path 0, ABSENT", 10, 5, &[0x80, 0xFF], &[0], &ABSENT);
    file.edit("01 error: back to the DEFAULT clears the presence bit", 10, 5, &[0xC0, 0xFF, 6], &[1], &[2, 5]);
    file.edit("C0 FF 06, path 0, ABSENT", 10, 5, &[0xC0, 0xFF, 6], &[0], &ABSENT);
    file.edit("C0 FF 06, path 0, FALSE", 10, 5, &[0xC0, 0xFF, 6], &[0], &[1, 0]);
    file.edit("00, path 0, TRUE", 10, 5, &[0], &[0], &TRUE);
    file.edit("ABSENT on ABSENT leaves the message", 10, 5, &[0x40, 6], &[0], &ABSENT);
    file.edit("the default on a defaulted component leaves the message", 10, 5, &[0x80, 0xFF], &[1], &[2, 5]);
    file.edit("the same value again", 10, 5, &[0xC0, 0xFF, 6], &[1], &[2, 6]);
    file.edit("the whole value", 10, 5, &[0x80, 0xFF], &NO_PATH, &[10, 2, 0, 0, 2, 7]);
    file.edit("the whole value of a leaf", 3, 5, &[1, 0], &NO_PATH, &[2, 256]);
    file.edit("a fixed width stays a fixed width", 1, 5, &[0, 1], &NO_PATH, &[2, 256]);
    file.edit("128 is 02 00 80", 4, 5, &[1, 127], &NO_PATH, &[2, 128]);
}

/// Two renters, and where the second one's entry begins in the message.
const RENTERS: &[u8] = b"\x01\x02\x00\x04Anna\x01\xFF\x02\x05\xA0\x40\x04Bert\x03\x01\x11\x70\x3F\x00\x00\x00\x01\x00";
const YARD: u64 = 6;

/// A renter changed her own limit; it took one octet more, and her neighbour's entry has to be read as it was.
pub fn accident(file: &mut File) {
    let t = tables::yard();
    file.table(&t);
    let mut lent = [0; 64];
    let reply = edit(&t.rows, &t.items, YARD, RENTERS, &[0, 1], &[2, 256], &[], &mut lent);
    let after = &lent[..reply.octets as usize];
    neighbour(file, "before", RENTERS);
    file.edit("the accident: her limit 255 becomes 256, one octet more", YARD, 34, RENTERS, &[0, 1], &[2, 256]);
    neighbour(file, "after", after);
    file.edit("the accident: back to 255, the first message again", YARD, 34, after, &[0, 1], &[2, 255]);
    file.edit("the accident: her limit 2^64-1", YARD, 50, RENTERS, &[0, 1], &[2, u64::MAX]);
    file.edit("the accident: her alarm off", YARD, 40, RENTERS, &[0, 2], &[1, 0]);
    file.edit("the accident: her zero band set", YARD, 40, RENTERS, &[0, 3], &[4, 0x3F80_0000]);
    file.edit("the accident: his zero band gone", YARD, 40, RENTERS, &[1, 3], &ABSENT);
    file.edit_with("the accident: her name longer", YARD, 40, RENTERS, &[0, 0], &[9, 7], b"Annabel");
    file.edit_with("the accident: her marks gone", YARD, 40, RENTERS, &[0, 4], &[8, 0], b"");
    let third = [10, 5, 9, 1, 2, 0, 1, 0, 0, 0, 8, 0];
    let one = [vec![11, 1], third.to_vec()].concat();
    file.edit_with("the accident: one renter in the place of two", YARD, 40, RENTERS, &NO_PATH, &one, b"C");
    file.edit_with("the accident: another renter in her place", YARD, 40, RENTERS, &[0], &third, b"C");
    file.edit_with("the accident: another renter in his place", YARD, 40, RENTERS, &[1], &third, b"C");
    file.edit("the accident: her limit a signed number is refused", YARD, 40, RENTERS, &[0, 1], &[3, 255]);
    file.edit("the accident: a third renter is not there", YARD, 40, RENTERS, &[2, 1], &[2, 256]);
    file.edit("the accident: ROOM, the old length only", YARD, RENTERS.len(), RENTERS, &[0, 1], &[2, 256]);
    let mut broken = RENTERS.to_vec();
    broken[2] = 0x10;
    file.edit("the accident: her presence bits broken", YARD, 40, &broken, &[1, 1], &[2, 256]);
}

fn neighbour(file: &mut File, when: &str, message: &[u8]) {
    let parts = ["name", "limit", "overload alarm", "zero band", "marks"];
    file.setting(&format!("the accident, {when}: the neighbour's entry"), YARD, message, &[1]);
    for (place, part) in (0..).zip(parts) {
        file.setting(&format!("the accident, {when}: the neighbour's {part}"), YARD, message, &[1, place]);
    }
    file.setting(&format!("the accident, {when}: her limit"), YARD, message, &[0, 1]);
}

/// Each refusal, and the order in which they come.
pub fn refusals(file: &mut File) {
    file.table(&Builder::new());
    file.edit("1 TABLE SIZE: no rows", 0, 5, &[0], &[9], &[6]);
    let mut broken = tables::examples();
    broken.rows[6] = 13;
    file.table(&broken);
    file.edit("2 TABLE ROW: row 1, before TYPE", 99, 5, &[0], &[9], &[6]);
    file.table(&tables::examples());
    file.edit("3 TYPE: row 14 of 14, before a broken message", 14, 5, &[1], &[9], &[6]);
    file.edit("5 SHORT in the message, before PATH", 10, 5, &[0x80], &[9], &[6]);
    file.edit("6 NOT CANONICAL in the message: 40 05", 10, 5, &[0x40, 5], &[0], &ABSENT);
    file.edit("6 NOT CANONICAL in the message: padding bit", 10, 5, &[0x20], &[0], &ABSENT);
    file.edit("7 NOT ALLOWED in the message", 1, 5, &[1, 1], &NO_PATH, &[2, 1]);
    file.edit("8 WIDE in the message", 3, 5, &[9, 1, 0, 0, 0, 0, 0, 0, 0, 0], &NO_PATH, &[2, 1]);
    file.edit("9 LEFT OVER in the message, before PATH", 10, 5, &[0, 0], &[9], &[6]);
    file.edit("6 behind the component still refuses", 10, 9, &[0xC0, 0xFF, 5], &[0], &ABSENT);
    file.edit("13 PATH before an odd word", 10, 5, &[0], &[2], &[6]);
    file.edit("11 LIST: an odd word", 10, 5, &[0], &[0], &[1, 1, 0]);
    file.edit("11 LIST: the empty list", 10, 5, &[0], &[0], &[]);
    file.edit("11 LIST: a wrong kind", 10, 5, &[0], &[0], &[2, 1]);
    file.edit("11 LIST: BOOLEAN 2", 10, 5, &[0], &[0], &[1, 2]);
    file.edit("11 LIST: ABSENT with a number", 10, 5, &[0x80, 0xFF], &[0], &[0, 1]);
    file.edit("11 LIST: ABSENT with more behind it", 10, 5, &[0x80, 0xFF], &[0], &[0, 0, 1, 1]);
    file.edit_with("11 LIST: ABSENT with contents", 10, 5, &[0x80, 0xFF], &[0], &ABSENT, &[1]);
    file.edit("11 LIST: ABSENT for the whole value", 10, 5, &[0x80, 0xFF], &NO_PATH, &ABSENT);
    file.edit("11 LIST: ABSENT for a DEFAULT component", 10, 5, &[0x80, 0xFF], &[1], &ABSENT);
    file.edit("11 LIST: ABSENT for an element", 11, 5, &[1, 1, 0], &[0], &ABSENT);
    file.edit("11 LIST: ABSENT for an alternative", 13, 5, &[0x82, 0], &[0], &ABSENT);
    file.edit("11 LIST: a node left over, at 1", 10, 5, &[0], &[0], &[1, 1, 1, 1]);
    file.edit_with("11 LIST: contents left over, at 1", 10, 5, &[0], &[0], &TRUE, &[1]);
    file.edit_with("11 LIST: contents missing, at 0", 6, 9, &[0], &NO_PATH, &[7, 2], &[1]);
    file.edit("11 LIST: a node missing, at 2", 10, 9, &[0], &NO_PATH, &[10, 2, 0, 0]);
    file.edit("7 NOT ALLOWED in the list, at 0", 10, 5, &[0], &[1], &[2, 256]);
    file.edit("7 NOT ALLOWED in the list, at 2", 10, 5, &[0], &NO_PATH, &[10, 2, 0, 0, 2, 256]);
    file.edit("11 before 7: a node left over comes after 7", 10, 5, &[0], &[1], &[2, 256, 1, 1]);
    file.edit("12 ROOM: one octet too small", 10, 2, &[0x80, 0xFF], &[1], &[2, 6]);
    file.edit("12 ROOM: exact", 10, 3, &[0x80, 0xFF], &[1], &[2, 6]);
    file.edit("12 ROOM: nothing lent", 10, 0, &[0x80, 0xFF], &[1], &[2, 6]);
    file.edit("no octets need no room", 12, 0, &[], &NO_PATH, &[6, 0]);
}

/// Steps that lead somewhere, and steps that do not.
pub fn paths(file: &mut File) {
    let t = tables::kinds();
    file.table(&t);
    let message = kinds_message();
    let row = 14;
    file.edit("PATH: step 15 of 15 components", row, 90, &message, &[15], &TRUE);
    file.edit("PATH: step 2^64-1", row, 90, &message, &[u64::MAX], &TRUE);
    file.edit("PATH: step 2^32", row, 90, &message, &[1 << 32], &TRUE);
    for (place, kind) in (0..).zip([
        "a BOOLEAN",
        "an INTEGER",
        "a signed INTEGER",
        "an ENUMERATED",
        "a binary32",
        "a binary64",
        "a NULL",
    ]) {
        file.edit(&format!("PATH: into {kind}"), row, 90, &message, &[place, 0], &TRUE);
    }
    for (place, kind) in [(7, "an OCTET STRING"), (8, "a BIT STRING"), (10, "a fixed OCTET STRING")] {
        file.edit(&format!("PATH: into {kind}"), row, 90, &message, &[place, 0], &TRUE);
    }
    file.edit_with("an ABSENT component set", row, 90, &message, &[9], &[9, 3], b"new");
    file.edit("PATH: past an ABSENT component, at 1", row, 90, &message, &[9, 0], &TRUE);
    file.edit("PATH: past an ABSENT component of a component, at 2", row, 90, &message, &[11, 0, 0, 0], &TRUE);
    file.edit("an ABSENT component of a component set", row, 90, &message, &[11, 0], &TRUE);
    file.edit("a defaulted component of a component set", row, 90, &message, &[11, 1], &[2, 8]);
    file.edit("PATH: into a defaulted SEQUENCE OF", row, 90, &message, &[12, 0], &[2, 1]);
    file.edit("a defaulted SEQUENCE OF filled", row, 90, &message, &[12], &[11, 2, 2, 300, 2, (-5i64) as u64]);
    file.edit("a CHOICE takes step 0", row, 90, &message, &[13, 0, 1], &[2, 300]);
    file.edit("PATH: a CHOICE takes no step 1", row, 90, &message, &[13, 1], &TRUE);
    file.edit("PATH: an element that is not there", row, 90, &message, &[13, 0, 2], &[2, 1]);
    file.edit("an element not allowed", row, 90, &message, &[13, 0, 1], &[2, 301]);
    file.edit("another alternative: NULL", row, 90, &message, &[13], &[12, 0, 6, 0]);
    file.edit_with("another alternative: OCTET STRING", row, 90, &message, &[13], &[12, 1, 7, 1], &[255]);
    file.edit("another alternative: SEQUENCE", row, 90, &message, &[13], &[12, 2, 10, 2, 1, 0, 2, 7]);
    file.edit_with("another alternative: tag 2,097,151", row, 90, &message, &[13], &[12, 4, 9, 2], b"ab");
    file.edit_with("a fixed OCTET STRING of another size", row, 90, &message, &[10], &[7, 1], &[9]);
    file.edit_with("a fixed OCTET STRING", row, 90, &message, &[10], &[7, 2], &[9, 9]);
    file.edit_with("a BIT STRING, an unused bit set", row, 90, &message, &[8], &[8, 7], &[255]);
    file.edit("another NaN, binary64", row, 90, &message, &[5], &[5, u64::MAX]);
    file.edit("the NaN, binary64", row, 90, &message, &[5], &[5, 0x7FF8 << 48]);
    file.edit("another NaN, binary32", row, 90, &message, &[4], &[4, 0x7FC0_0001]);
    file.edit("an ENUMERATED grows by two octets", row, 90, &message, &[3], &[3, 200]);
    file.edit("NULL on NULL", row, 90, &message, &[6], &[6, 0]);
    file.table(&tables::shared());
    let twice = [0x80, 0xFF, 7, 0x00, 0x00, 0x00, 0xFF];
    file.edit("shared row: only the first one changes", 5, 9, &twice, &[0, 2], &[2, 9]);
    file.edit("shared row: only the second one changes", 5, 9, &twice, &[1, 2], &[2, 9]);
    file.edit("overlapping items: the second component", 3, 9, &[0x40, 6, 0], &[0], &[2, 5]);
    file.edit("PATH: into an empty SEQUENCE", 4, 9, &[], &[0], &TRUE);
    file.table(&tables::nested());
    // One level of nesting takes one step; the SEQUENCE OFs hold one element each.
    let deep = [0x85, 1, 1, 0x85, 1, 1, 0x85, 1, 1, 0x85, 1, 1, 0x85, 1, 1, 0];
    file.edit("nesting 16: fifteen steps", 15, 20, &deep, &[0; 15], &TRUE);
    file.edit("nesting 16: a sixteenth step", 15, 20, &deep, &[0; 16], &TRUE);
    file.edit("nesting 16: a list in the middle emptied", 15, 20, &deep, &[0; 4], &[11, 0]);
}

/// A message of `tables::kinds`, row 14: one OPTIONAL component ABSENT, defaults left out, the CHOICE a list of two.
pub fn kinds_message() -> Vec<u8> {
    let mut message = vec![0x00, 0xFF, 2, 1, 0, 0xFF, 0xFF, 0x81, 0xFF];
    message.extend(0x3F80_0000u32.to_be_bytes());
    message.extend((1u64 << 63).to_be_bytes());
    message.extend([3, 1, 2, 3, 3, 6, 0xA5, 0x40, 0x10, 0x11, 0x00, 0xBF, 0x3F, 1, 2, 0, 5, 0xFF, 0xFB]);
    message
}

/// Presence bits: eight, nine, sixteen and seventeen of them, each set and cleared.
pub fn presence(file: &mut File) {
    for count in [8usize, 9, 16, 17] {
        file.table(&tables::optionals(count));
        let none = vec![0; count.div_ceil(8)];
        let mut all: Vec<u8> = vec![0; count.div_ceil(8)];
        (0..count).for_each(|place| all[place / 8] |= 128 >> (place % 8));
        all.extend(vec![0xFF; count]);
        for place in [0, 6, 7, 8, 15, 16].into_iter().filter(|&place| place < count) {
            let path = [place as u64];
            file.edit(&format!("{count} OPTIONAL, none: {place} set"), 1, count + 4, &none, &path, &TRUE);
            file.edit(&format!("{count} OPTIONAL, all: {place} cleared"), 1, count + 4, &all, &path, &ABSENT);
            file.edit(&format!("{count} OPTIONAL, all: {place} changed"), 1, count + 4, &all, &path, &[1, 0]);
        }
    }
    let mut t = Builder::new();
    let byte = t.integer(Some(0), Some(255));
    let list = t.sequence_of(byte);
    t.sequence(&[(byte, Optional), (byte, Plain), (list, Default(0)), (byte, Default(5)), (byte, Optional)]);
    file.table(&t);
    let message = [0x60, 1, 1, 1, 2, 3];
    file.edit("mixed marks: the first set", 2, 12, &message, &[0], &[2, 0]);
    file.edit("mixed marks: the plain one changed", 2, 12, &message, &[1], &[2, 5]);
    file.edit("mixed marks: the list emptied is the default", 2, 12, &message, &[2], &[11, 0]);
    file.edit("mixed marks: the list longer", 2, 12, &message, &[2], &[11, 2, 2, 8, 2, 9]);
    file.edit("mixed marks: an element changed", 2, 12, &message, &[2, 0], &[2, 9]);
    file.edit("mixed marks: back to the DEFAULT 5", 2, 12, &message, &[3], &[2, 5]);
    file.edit("mixed marks: the last set", 2, 12, &message, &[4], &[2, 5]);
}

/// A component that grows over the edges of a determinant, a quantity or a tag.
pub fn growth(file: &mut File) {
    let mut t = Builder::new();
    let octets = t.string(7, 0, None);
    let boolean = t.boolean();
    let list = t.sequence_of(boolean);
    let null = t.null();
    let choice = t.choice(&[(2, 62, null), (2, 63, null), (2, 127, null), (2, 128, null), (3, 16_384, null)]);
    t.sequence(&[(boolean, Plain), (octets, Plain), (list, Plain), (choice, Plain), (boolean, Plain)]);
    file.table(&t);
    let message = [0xFF, 1, 65, 1, 1, 0, 0xBE, 0];
    for length in [0, 126, 127, 128, 255, 256] {
        let new = vec![66; length];
        let name = format!("an OCTET STRING becomes {length} octets");
        file.edit_with(&name, 5, length + 12, &message, &[1], &[7, length as u64], &new);
    }
    for count in [0, 127, 128, 255, 256] {
        let nodes = [vec![11, count], [1, 1].repeat(count as usize)].concat();
        file.edit(&format!("a SEQUENCE OF becomes {count} elements"), 5, count as usize + 12, &message, &[2], &nodes);
    }
    for (place, tag) in [(0, 62), (1, 63), (2, 127), (3, 128), (4, 16_384)] {
        file.edit(&format!("a CHOICE becomes tag {tag}"), 5, 15, &message, &[3], &[12, place, 6, 0]);
    }
    file.edit("a CHOICE: place 5 of 5", 5, 15, &message, &[3], &[12, 5, 6, 0]);
}

/// Annex A's record edited.
pub fn annex_a(file: &mut File) {
    file.table(&tables::personnel());
    let record = tables::PERSONNEL_OCTETS;
    file.edit_with("Annex A: Susan Jones becomes Susan Smithson", 5, 100, record, &[5, 1, 0, 2], &[9, 8], b"Smithson");
    file.edit("Annex A: number 51 becomes 128", 5, 98, record, &[1], &[2, 128]);
    file.edit("Annex A: number 51 becomes -1", 5, 98, record, &[1], &[2, u64::MAX]);
    file.edit("Annex A: no children, the default", 5, 98, record, &[5], &[11, 0]);
    let child = [10, 2, 10, 3, 9, 1, 9, 1, 9, 1, 9, 2];
    file.edit_with("Annex A: another first child", 5, 98, record, &[5, 0], &child, b"abcde");
    file.edit_with("Annex A: another spouse", 5, 98, record, &[4], &[10, 3, 9, 1, 9, 0, 9, 1], b"MT");
    file.edit_with("Annex A: a character 127", 5, 98, record, &[2], &[9, 1], b"\x7F");
    file.edit("Annex A: PATH, a third child", 5, 98, record, &[5, 2, 0], &[9, 0]);
    file.edit("Annex A: PATH, into a name's letters", 5, 98, record, &[0, 0, 0], &[9, 0]);
    file.edit("Annex A: cut by one octet", 5, 98, &record[..94], &[1], &[2, 1]);
}

/// 4,096 and 4,097 nodes; 65,535 and 65,536 octets.
pub fn limits(file: &mut File) {
    file.table(&tables::limits());
    let nulls = |count: u64| [vec![11, count], [6, 0].repeat(count as usize)].concat();
    // 3 nodes for the SEQUENCE and its two lists, 2,048 and so many elements.
    let message = [2, 8, 0, 1, 1];
    file.edit("nodes: the result has 4,096", 4, 8, &message, &[1], &nulls(2045));
    file.edit("nodes: the result has 4,097, before ROOM", 4, 0, &message, &[1], &nulls(2046));
    file.edit("nodes: the new list has 4,096", 1, 8, &[1, 0], &NO_PATH, &nulls(4095));
    file.edit("nodes: the new list has 4,097", 1, 8, &[1, 0], &NO_PATH, &nulls(4096));
    file.edit("nodes: the new list alone is in range, the result not", 4, 8, &message, &[1], &nulls(4095));
    file.edit("nodes: the message has 4,097", 1, 8, &[2, 0x10, 0], &NO_PATH, &[11, 0]);
    file.edit("nodes: the message has 4,096", 1, 8, &[2, 0x0F, 0xFF], &NO_PATH, &[11, 0]);
    let long = vec![0; 65_536];
    file.edit("4 LONG: a message of 65,536, before PATH", 3, 8, &long, &[1], &[6]);
    file.edit_with("4 LONG: new contents of 65,536, before the walk", 3, 8, &[0], &NO_PATH, &[6, 6], &long);
    let half = |count: usize| [vec![0x82, (count >> 8) as u8, count as u8], vec![0; count], vec![0]].concat();
    let name = "4 LONG: the result has 65,536, before ROOM";
    file.edit_with(name, 5, 0, &half(32_000), &[1], &[7, 33_530], &long[..33_530]);
    file.edit_with("the result has 65,535", 5, 65_536, &half(32_000), &[1], &[7, 33_529], &long[..33_529]);
}
