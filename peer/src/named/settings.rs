//! Named cases for reading a single setting and for showing a text.

use super::edits::kinds_message;
use super::{File, tables};
use crate::builder::Builder;

/// Each kind of setting, and what is shown of it.
pub fn kinds(file: &mut File) {
    file.table(&tables::kinds());
    let message = kinds_message();
    let names = [
        "a truth value",
        "an unsigned number",
        "a signed number",
        "ENUMERATED is signed",
        "a single real",
        "a double real, minus zero",
        "NULL is a group of none",
        "an OCTET STRING",
        "a BIT STRING, size in bits, shown without its unused-bits octet",
        "an ABSENT VisibleString: the fallback",
        "a fixed OCTET STRING",
        "a SEQUENCE, ABSENT ones counted",
        "a defaulted SEQUENCE OF is a group of none",
        "a CHOICE is a group of one",
        "a defaulted BOOLEAN is never absent",
    ];
    for (place, name) in (0..).zip(names) {
        file.setting(&format!("setting: {name}"), 14, &message, &[place]);
    }
    file.setting("setting: the whole value is a group of 15", 14, &message, &[]);
    file.setting("setting: a component of a component, ABSENT", 14, &message, &[11, 0]);
    file.setting("setting: a component of a component, defaulted", 14, &message, &[11, 1]);
    file.setting("setting: the alternative, a group of two", 14, &message, &[13, 0]);
    file.setting("setting: an element, -5", 14, &message, &[13, 0, 1]);
    strings(file);
    numbers(file);
}

/// An empty string is an empty part of the message, not the fallback.
fn strings(file: &mut File) {
    let mut t = Builder::new();
    for kind in [7, 8, 9] {
        t.string(kind, 0, None);
        t.string(kind, 0, Some(0));
    }
    file.table(&t);
    file.setting("text: an empty OCTET STRING", 0, &[0], &[]);
    file.setting("text: a fixed OCTET STRING of size 0", 1, &[], &[]);
    file.setting("text: an empty BIT STRING", 2, &[1, 0], &[]);
    file.setting("text: a BIT STRING of 3 bits", 2, &[2, 5, 0xA0], &[]);
    file.setting("text: an empty VisibleString", 4, &[0], &[]);
    file.setting("text: a VisibleString", 4, b"\x02hi", &[]);
    let long = [vec![0x81, 128], vec![65; 128]].concat();
    file.setting("text: a VisibleString of 128", 4, &long, &[]);
    file.setting("text: a bad character: the fallback", 4, b"\x02h\x7F", &[]);
    file.setting("text: left over: the fallback", 4, b"\x02hi!", &[]);
}

/// Unsigned or signed by the type, not by the value.
fn numbers(file: &mut File) {
    let mut t = Builder::new();
    t.integer(Some(0), Some(u64::MAX as i128));
    t.integer(None, None);
    t.integer(Some(-1), Some(5));
    t.enumerated(&[3]);
    t.plain(5);
    file.table(&t);
    file.setting("setting: unsigned 2^64-1", 0, &[255; 8], &[]);
    file.setting("setting: signed -1", 1, &[1, 255], &[]);
    file.setting("setting: signed 5", 2, &[5], &[]);
    file.setting("setting: signed -2^63", 1, &[8, 128, 0, 0, 0, 0, 0, 0, 0], &[]);
    file.setting("setting: ENUMERATED 3", 3, &[3], &[]);
    file.setting("setting: the NaN", 4, &[0x7F, 0xF8, 0, 0, 0, 0, 0, 0], &[]);
}

/// The refusals of an edit up to PATH.
pub fn refusals(file: &mut File) {
    file.table(&Builder::new());
    file.setting("setting: 1 TABLE SIZE", 0, &[0], &[9]);
    let mut broken = tables::examples();
    broken.rows[2 * 6 + 1] = 4;
    file.table(&broken);
    file.setting("setting: 2 TABLE ROW, row 2", 99, &[0], &[9]);
    file.table(&tables::examples());
    file.setting("setting: 3 TYPE", 14, &[0], &[9]);
    file.setting("setting: 5 SHORT at 2, behind the component that is asked for", 10, &[0xC0, 0xFF], &[0]);
    file.setting("setting: 6 NOT CANONICAL at 1", 10, &[0x40, 5], &[1]);
    file.setting("setting: 7 NOT ALLOWED at 0", 1, &[1, 1], &[]);
    file.setting("setting: 8 WIDE at 0", 3, &[9, 1, 0, 0, 0, 0, 0, 0, 0, 0], &[]);
    file.setting("setting: 9 LEFT OVER at 1, before PATH", 10, &[0, 0], &[9]);
    file.setting("setting: 13 PATH at 0", 10, &[0], &[2]);
    file.setting("setting: 13 PATH at 1, past an ABSENT component", 10, &[0], &[0, 0]);
    file.setting("setting: 13 PATH at 1, into a BOOLEAN", 10, &[0x80, 0xFF], &[0, 0]);
    file.setting("setting: 13 PATH at 0, step 2^64-1", 10, &[0], &[u64::MAX]);
    file.setting("setting: 13 PATH at 0, an element that is not there", 11, &[1, 2, 0, 0], &[2]);
    file.setting("setting: 13 PATH at 0, into a NULL", 12, &[], &[0]);
    file.setting("setting: 13 PATH at 0, a CHOICE takes no step 1", 13, &[0x82, 0], &[1]);
    file.setting("setting: the alternative of a CHOICE", 13, &[0x82, 0], &[0]);
    file.table(&tables::limits());
    file.setting("setting: 10 NODES at 3", 1, &[2, 0x10, 0], &[0]);
    file.setting("setting: the last of 4,095 elements", 1, &[2, 0x0F, 0xFF], &[4094]);
}
