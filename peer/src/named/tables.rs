//! The tables of the named cases.

use crate::builder::Builder;
use crate::table::Mark::{Default, Optional, Plain};

/// Document 01's examples. Rows: INTEGER 0..255, 0..256, -1..128, 0..MAX, unbounded, ENUMERATED, OCTET STRING, BIT
/// STRING, BIT STRING of fixed size 3, BOOLEAN, case 8's SEQUENCE, SEQUENCE OF BOOLEAN, NULL, CHOICE of [2] and [63].
pub fn examples() -> Builder {
    let mut t = Builder::new();
    let byte = t.integer(Some(0), Some(255));
    t.integer(Some(0), Some(256));
    t.integer(Some(-1), Some(128));
    t.integer(Some(0), None);
    t.integer(None, None);
    t.enumerated(&[-1, 127, 128]);
    t.string(7, 0, None);
    t.string(8, 0, None);
    t.string(8, 3, Some(3));
    let boolean = t.boolean();
    t.sequence(&[(boolean, Optional), (byte, Default(5))]);
    t.sequence_of(boolean);
    t.null();
    t.choice(&[(2, 2, boolean), (2, 63, boolean)]);
    t
}

/// Annex A of X.696. Row 5 is the PersonnelRecord; a SET's components stand in the order of clause 18.2.
pub fn personnel() -> Builder {
    let mut t = Builder::new();
    let text = t.string(9, 0, None);
    let name = t.sequence(&[(text, Plain), (text, Plain), (text, Plain)]);
    let number = t.integer(None, None);
    let child = t.sequence(&[(name, Plain), (text, Plain)]);
    let children = t.sequence_of(child);
    t.sequence(&[(name, Plain), (number, Plain), (text, Plain), (text, Plain), (name, Plain), (children, Default(0))]);
    t
}

/// The octets of Annex A.3.1.
pub const PERSONNEL_OCTETS: &[u8] = b"\x80\x04John\x01P\x05Smith\x01\x33\x08Director\x0819710917\x04Mary\x01T\x05Smith\
      \x01\x02\x05Ralph\x01T\x05Smith\x0819571111\x05Susan\x01B\x05Jones\x0819590717";

/// The yard of the accident: row 6 is a SEQUENCE OF renters. A renter has a name, a limit of variable size, an overload
/// alarm that is on unless it says otherwise, an OPTIONAL zero band and marks of the hopper as bits.
pub fn yard() -> Builder {
    let mut t = Builder::new();
    let name = t.string(9, 1, Some(12));
    let limit = t.integer(Some(0), None);
    let alarm = t.boolean();
    let band = t.plain(4);
    let marks = t.string(8, 0, None);
    let renter = t.sequence(&[(name, Plain), (limit, Plain), (alarm, Default(1)), (band, Optional), (marks, Plain)]);
    t.sequence_of(renter);
    t
}

/// One setting of each kind: row 14 is a SEQUENCE of them.
pub fn kinds() -> Builder {
    let mut t = Builder::new();
    let boolean = t.boolean();
    let unsigned = t.integer(Some(0), None);
    let signed = t.integer(Some(-5), Some(300));
    let enumerated = t.enumerated(&[-1, 0, 200]);
    let single = t.plain(4);
    let double = t.plain(5);
    let null = t.null();
    let octets = t.string(7, 0, None);
    let bits = t.string(8, 0, None);
    let visible = t.string(9, 0, Some(20));
    let fixed = t.string(7, 2, Some(2));
    let pair = t.sequence(&[(boolean, Optional), (unsigned, Default(7))]);
    let list = t.sequence_of(signed);
    let choice = t.choice(&[(0, 1, null), (2, 0, octets), (2, 62, pair), (2, 63, list), (3, 2_097_151, visible)]);
    t.sequence(&[
        (boolean, Plain),
        (unsigned, Plain),
        (signed, Plain),
        (enumerated, Plain),
        (single, Plain),
        (double, Plain),
        (null, Plain),
        (octets, Plain),
        (bits, Plain),
        (visible, Optional),
        (fixed, Plain),
        (pair, Plain),
        (list, Default(0)),
        (choice, Plain),
        (boolean, Default(0)),
    ]);
    t
}

/// A SEQUENCE of so many OPTIONAL BOOLEANs, row 1.
pub fn optionals(count: usize) -> Builder {
    let mut t = Builder::new();
    let boolean = t.boolean();
    t.sequence(&vec![(boolean, Optional); count]);
    t
}

/// Nesting 16: SEQUENCE, SEQUENCE OF and CHOICE by turns around a BOOLEAN; row 15 is the outermost.
pub fn nested() -> Builder {
    let mut t = Builder::new();
    let mut row = t.boolean();
    for level in 0..15 {
        row = match level % 3 {
            0 => t.sequence(&[(row, Plain)]),
            1 => t.sequence_of(row),
            _ => t.choice(&[(2, 5, row)]),
        };
    }
    t
}

/// Rows that share rows and items that overlap. Rows: BOOLEAN, INTEGER 0..255, then SEQUENCEs over items 0..3, 1..4 and
/// 2..2 of one list, and a SEQUENCE that holds the first of them twice.
pub fn shared() -> Builder {
    let mut t = Builder::new();
    let boolean = t.boolean();
    let byte = t.integer(Some(0), Some(255));
    let first = t.sequence(&[(boolean, Plain), (byte, Optional), (byte, Default(5)), (boolean, Plain)]);
    t.row([10, 0, 0, 0, 1, 3]);
    t.row([10, 0, 0, 0, 2, 0]);
    t.sequence(&[(first, Plain), (first, Plain)]);
    t
}

/// Lists and strings for the limits. Rows: NULL, SEQUENCE OF NULL, OCTET STRING of fixed size 65,535, OCTET STRING,
/// SEQUENCE of two lists of NULL, SEQUENCE of two OCTET STRINGs.
pub fn limits() -> Builder {
    let mut t = Builder::new();
    let null = t.null();
    let nulls = t.sequence_of(null);
    t.string(7, 65_535, Some(65_535));
    let octets = t.string(7, 0, None);
    t.sequence(&[(nulls, Plain), (nulls, Plain)]);
    t.sequence(&[(octets, Plain), (octets, Plain)]);
    t
}
