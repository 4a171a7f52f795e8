//! Named cases for value lists of kinds 1 to 9.

use super::File;
use crate::builder::Builder;

/// Kinds 1 to 6: forms, bounds, lists of numbers, NaNs.
pub fn leaves(file: &mut File) {
    integers(file);
    enumerations(file);
    let mut t = Builder::new();
    for kind in [1, 4, 5, 6] {
        t.plain(kind);
    }
    file.table(&t);
    file.list("BOOLEAN false", 0, 2, &[1, 0], &[]);
    file.list("BOOLEAN true", 0, 2, &[1, 1], &[]);
    file.list("BOOLEAN 2 is a wrong form", 0, 2, &[1, 2], &[]);
    file.list("BOOLEAN 2^63 is a wrong form", 0, 2, &[1, 1 << 63], &[]);
    file.list("BOOLEAN with kind 2", 0, 2, &[2, 1], &[]);
    file.list("BOOLEAN with kind 257", 0, 2, &[257, 1], &[]);
    file.list("BOOLEAN with kind 2^32+1", 0, 2, &[(1 << 32) + 1, 1], &[]);
    file.list("BOOLEAN: ABSENT is a wrong kind", 0, 2, &[0, 0], &[]);
    file.list("BOOLEAN: ROOM, nothing lent", 0, 0, &[1, 1], &[]);
    file.list("NULL", 3, 1, &[6, 0], &[]);
    file.list("NULL 1 is a wrong form", 3, 1, &[6, 1], &[]);
    for bits in [0, 1 << 31, 0x3F80_0000, 1, 0x7F7F_FFFF, 0x7F80_0000, 0xFF80_0000, 0x7FC0_0000] {
        file.list(&format!("REAL binary32 {bits:08X}"), 1, 5, &[4, bits], &[]);
    }
    for bits in [0xFFC0_0000, 0x7FC0_0001, 0x7F80_0001, 0x7FFF_FFFF, 0xFFFF_FFFF] {
        file.list(&format!("REAL binary32 {bits:08X} is another NaN"), 1, 5, &[4, bits], &[]);
    }
    file.list("REAL binary32 bits 2^32", 1, 5, &[4, 1 << 32], &[]);
    file.list("REAL binary32 bits above 2^32-1 come before another NaN", 1, 5, &[4, (1 << 32) + 0x7FC0_0001], &[]);
    let top = 48;
    for bits in [0, 1 << 63, 0x3FF0 << top, 1, 0x7FEF_FFFF_FFFF_FFFF, 0x7FF0 << top, 0xFFF0 << top, 0x7FF8 << top] {
        file.list(&format!("REAL binary64 {bits:016X}"), 2, 9, &[5, bits], &[]);
    }
    for bits in [0xFFF8 << top, (0x7FF8 << top) + 1, (0x7FF0 << top) + 1, u64::MAX] {
        file.list(&format!("REAL binary64 {bits:016X} is another NaN"), 2, 9, &[5, bits], &[]);
    }
    file.list("REAL binary64 with the kind of binary32", 2, 9, &[4, 0], &[]);
}

/// Each pair of bounds: least, greatest, one below, one above.
fn integers(file: &mut File) {
    let p63: i128 = 1 << 63;
    let pairs: [(Option<i128>, Option<i128>); 24] = [
        (Some(0), Some(255)),
        (Some(7), Some(7)),
        (Some(0), Some(256)),
        (Some(256), Some(65_535)),
        (Some(0), Some(65_536)),
        (Some(5), Some((1 << 32) - 1)),
        (Some(0), Some(1 << 32)),
        (Some(1), Some(2 * p63 - 1)),
        (Some(p63 - 1), Some(p63)),
        (Some(-128), Some(127)),
        (Some(-129), Some(0)),
        (Some(-1), Some(128)),
        (Some(-32_768), Some(32_767)),
        (Some(-32_769), Some(5)),
        (Some(-1), Some(32_768)),
        (Some(-(1 << 31)), Some((1 << 31) - 1)),
        (Some(-(1 << 31) - 1), Some(0)),
        (Some(-1), Some(1 << 31)),
        (Some(-p63), Some(p63 - 1)),
        (Some(10), None),
        (Some(p63 - 1), None),
        (None, Some(5)),
        (Some(-5), None),
        (None, None),
    ];
    let show = |bound: Option<i128>, none: &str| bound.map_or(none.to_string(), |bound| bound.to_string());
    let mut t = Builder::new();
    for (low, high) in pairs {
        t.integer(low.map(|low| low as i64), high);
    }
    file.table(&t);
    for (row, (low, high)) in (0..).zip(pairs) {
        let name = format!("INTEGER {}..{}", show(low, "MIN"), show(high, "MAX"));
        let unsigned = low.is_some_and(|low| low >= 0);
        let range = if unsigned { 0..=2 * p63 - 1 } else { -p63..=p63 - 1 };
        let (least, greatest) = (low.unwrap_or(-p63), high.unwrap_or(*range.end()));
        let cases = [("least", least), ("greatest", greatest), ("one below", least - 1), ("one above", greatest + 1)];
        for (what, number) in cases.into_iter().filter(|(_, number)| range.contains(number)) {
            file.list(&format!("{name}: {what}"), row, 10, &[2, number as u64], &[]);
        }
        let edges = [0, 127, 128, 255, 256, 32_767, 32_768, 8_388_607, 8_388_608, -1, -128, -129, -32_768, -32_769];
        if low.is_none() || high.is_none() {
            for number in edges.into_iter().filter(|number| range.contains(number)) {
                file.list(&format!("{name}: {number}"), row, 10, &[2, number as u64], &[]);
            }
        }
    }
}

fn enumerations(file: &mut File) {
    let numbers = [i64::MIN, -32_769, -32_768, -129, -128, -1, 0, 5, 127, 128, 255, 256, 32_767, 32_768, i64::MAX];
    let mut t = Builder::new();
    t.enumerated(&numbers);
    file.table(&t);
    for number in numbers {
        file.list(&format!("ENUMERATED {number}"), 0, 10, &[3, number as u64], &[]);
    }
    for number in [-2, 6, 129, i64::MAX - 1] {
        file.list(&format!("ENUMERATED {number} is not listed"), 0, 10, &[3, number as u64], &[]);
    }
    file.list("ENUMERATED with the kind of INTEGER", 0, 10, &[2, 5], &[]);
}

/// Kinds 7 to 9: contents, sizes, unused bits, characters, and their order.
pub fn strings(file: &mut File) {
    let mut t = Builder::new();
    for kind in [7, 8, 9] {
        t.string(kind, 0, None);
        t.string(kind, 3, Some(3));
        t.string(kind, 2, Some(4));
        t.string(kind, 0, Some(0));
        t.string(kind, 2, None);
    }
    file.table(&t);
    for length in [0, 1, 126, 127, 128, 255, 256, 16_383, 16_384] {
        file.list(&format!("OCTET STRING of {length}"), 0, length + 4, &[7, length as u64], &vec![255; length]);
    }
    for (kind, of) in [(7, "OCTET STRING"), (9, "VisibleString")] {
        let row = if kind == 7 { 0 } else { 10 };
        for size in [2, 3, 4] {
            file.list(&format!("{of} fixed 3: {size}"), row + 1, 5, &[kind, size], &vec![65; size as usize]);
        }
        for size in [1, 2, 4, 5] {
            file.list(&format!("{of} 2..4: {size}"), row + 2, 6, &[kind, size], &vec![65; size as usize]);
        }
        file.list(&format!("{of} fixed 0"), row + 3, 1, &[kind, 0], &[]);
        file.list(&format!("{of} fixed 0: 1"), row + 3, 1, &[kind, 1], &[65]);
        file.list(&format!("{of} 2..MAX: 1"), row + 4, 3, &[kind, 1], &[65]);
        file.list(&format!("{of}: an octet of contents missing"), row, 9, &[kind, 3], &[65, 66]);
        file.list(&format!("{of}: an octet of contents left over"), row, 9, &[kind, 3], &[65, 66, 67, 68]);
        file.list(&format!("{of} 2..4: five, missing contents first"), row + 2, 9, &[kind, 5], &[65; 4]);
        file.list(&format!("{of}: 2^64-1 octets"), row, 9, &[kind, u64::MAX], &[65]);
        file.list(&format!("{of}: 2^32+1 octets"), row, 9, &[kind, (1 << 32) + 1], &[65]);
    }
    for character in [31, 32, 126, 127, 128, 255] {
        file.list(&format!("VisibleString octet {character}"), 10, 5, &[9, 2], &[65, character]);
    }
    file.list("VisibleString: missing contents before a bad character", 10, 5, &[9, 2], &[0]);
    file.list("VisibleString: a bad character before contents left over", 10, 5, &[9, 1], &[0, 65]);
    for bits in [0u64, 1, 7, 8, 9, 1000, 1007, 1008, 1009, 1016, 1017] {
        let text = vec![128; bits.div_ceil(8) as usize];
        file.list(&format!("BIT STRING of {bits} bits"), 5, 135, &[8, bits], &text);
    }
    file.list("BIT STRING trailing zero bits count", 5, 5, &[8, 16], &[128, 0]);
    file.list("BIT STRING of 3, an unused bit set", 5, 5, &[8, 3], &[0xB0]);
    file.list("BIT STRING of 9, the lowest bit set", 5, 5, &[8, 9], &[255, 129]);
    file.list("BIT STRING fixed 3", 6, 2, &[8, 3], &[0xE0]);
    file.list("BIT STRING fixed 3: 4 bits", 6, 2, &[8, 4], &[0xF0]);
    file.list("BIT STRING fixed 3, an unused bit set", 6, 2, &[8, 3], &[0xF0]);
    file.list("BIT STRING 2..4: 5 bits", 7, 5, &[8, 5], &[0xF8]);
    file.list("BIT STRING 2..4: 5 bits, an unused bit set first", 7, 5, &[8, 5], &[0xFC]);
    file.list("BIT STRING 2..4: 9 bits, missing contents first", 7, 5, &[8, 9], &[255]);
    file.list("BIT STRING fixed 0", 8, 1, &[8, 0], &[]);
    file.list("BIT STRING: 2^64-1 bits must not wrap", 5, 5, &[8, u64::MAX], &[]);
    file.list("BIT STRING: 2^64-7 bits must not wrap", 5, 5, &[8, u64::MAX - 6], &[0]);
    file.list("BIT STRING: contents left over", 5, 5, &[8, 8], &[1, 2]);
}
