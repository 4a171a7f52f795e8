//! Document 01's twelve cases, and Annex A of X.696.

mod common;

use common::{decode, edit, encode};
use peer::builder::Builder;
use peer::table::Mark::{Default, Optional, Plain};

const MINUS_1: u64 = u64::MAX;

/// Both ways: the list gives the octets, and the octets give the list.
pub fn both_ways(t: &Builder, row: u64, nodes: &[u64], contents: &[u8], octets: &[u8]) {
    assert_eq!(encode(t, row, nodes, contents), Ok(octets.to_vec()));
    assert_eq!(decode(t, row, octets), Ok((nodes.to_vec(), contents.to_vec())));
}

#[test]
fn cases_1_to_4_integers() {
    let mut t = Builder::new();
    let byte = t.integer(Some(0), Some(255));
    let two = t.integer(Some(0), Some(256));
    let signed = t.integer(Some(-1), Some(128));
    let natural = t.integer(Some(0), None);
    let any = t.integer(None, None);
    both_ways(&t, byte, &[2, 255], &[], &[0xFF]);
    both_ways(&t, two, &[2, 255], &[], &[0x00, 0xFF]);
    both_ways(&t, signed, &[2, MINUS_1], &[], &[0xFF, 0xFF]);
    both_ways(&t, natural, &[2, 0], &[], &[0x01, 0x00]);
    both_ways(&t, natural, &[2, 256], &[], &[0x02, 0x01, 0x00]);
    both_ways(&t, any, &[2, 128], &[], &[0x02, 0x00, 0x80]);
    both_ways(&t, any, &[2, 128u64.wrapping_neg()], &[], &[0x01, 0x80]);
    both_ways(&t, any, &[2, 129u64.wrapping_neg()], &[], &[0x02, 0xFF, 0x7F]);
}

#[test]
fn case_5_enumerated() {
    let mut t = Builder::new();
    let row = t.enumerated(&[-1, 127, 128]);
    both_ways(&t, row, &[3, 127], &[], &[0x7F]);
    both_ways(&t, row, &[3, MINUS_1], &[], &[0x81, 0xFF]);
    both_ways(&t, row, &[3, 128], &[], &[0x82, 0x00, 0x80]);
}

#[test]
fn case_6_lengths() {
    let mut t = Builder::new();
    let row = t.string(7, 0, None);
    for (length, determinant) in [(127, vec![0x7F]), (128, vec![0x81, 0x80]), (256, vec![0x82, 0x01, 0x00])] {
        let contents = vec![9; length];
        both_ways(&t, row, &[7, length as u64], &contents, &[determinant, contents.clone()].concat());
    }
}

#[test]
fn case_7_bit_strings() {
    let mut t = Builder::new();
    let variable = t.string(8, 0, None);
    let fixed = t.string(8, 3, Some(3));
    both_ways(&t, variable, &[8, 3], &[0xA0], &[0x02, 0x05, 0xA0]);
    both_ways(&t, variable, &[8, 0], &[], &[0x01, 0x00]);
    both_ways(&t, fixed, &[8, 3], &[0xA0], &[0xA0]);
}

fn case_8_type() -> (Builder, u64) {
    let mut t = Builder::new();
    let boolean = t.boolean();
    let byte = t.integer(Some(0), Some(255));
    let row = t.sequence(&[(boolean, Optional), (byte, Default(5))]);
    (t, row)
}

#[test]
fn case_8_presence_and_default() {
    let (t, row) = case_8_type();
    both_ways(&t, row, &[10, 2, 0, 0, 2, 5], &[], &[0x00]);
    both_ways(&t, row, &[10, 2, 1, 1, 2, 6], &[], &[0xC0, 0xFF, 0x06]);
    assert_eq!(decode(&t, row, &[0x40, 0x05]), Err((6, 1, 1)));
}

#[test]
fn cases_9_to_11() {
    let mut t = Builder::new();
    let boolean = t.boolean();
    let list = t.sequence_of(boolean);
    let choice = t.choice(&[(2, 63, boolean)]);
    let null = t.null();
    both_ways(&t, list, &[11, 2, 1, 1, 1, 1], &[], &[0x01, 0x02, 0xFF, 0xFF]);
    both_ways(&t, list, &[11, 0], &[], &[0x01, 0x00]);
    both_ways(&t, choice, &[12, 0, 1, 0], &[], &[0xBF, 0x3F, 0x00]);
    assert_eq!(decode(&t, choice, &[0xBF, 0x05]), Err((6, 1, 0)));
    both_ways(&t, null, &[6, 0], &[], &[]);
    assert_eq!(decode(&t, boolean, &[]), Err((5, 1, 0)));
    assert_eq!(decode(&t, boolean, &[0x01]), Err((6, 1, 0)));
}

#[test]
fn case_12_edits() {
    let (t, row) = case_8_type();
    assert_eq!(edit(&t, row, &[0x80, 0xFF], &[1], &[2, 6], &[]), Ok(vec![0xC0, 0xFF, 0x06]));
    assert_eq!(edit(&t, row, &[0x80, 0xFF], &[0], &[0, 0], &[]), Ok(vec![0x00]));
}

#[test]
fn errors_that_look_right() {
    let mut t = Builder::new();
    let any = t.integer(None, None);
    let list = t.sequence_of(any);
    assert_ne!(encode(&t, any, &[2, 128], &[]), Ok(vec![0x01, 0x80]));
    assert_eq!(decode(&t, list, &[0x00]), Err((6, 1, 0)));
    assert_eq!(decode(&t, list, &[0x02, 0xFF, 0xFF]), Err((5, 1, 3)));
    let (t, row) = case_8_type();
    assert_eq!(edit(&t, row, &[0xC0, 0xFF, 0x06], &[1], &[2, 5], &[]), Ok(vec![0x80, 0xFF]));
}

/// A.3.1, with the components of a SET in the order of 18.2. The number is 51, whatever A.3.2 says.
#[test]
fn annex_a() {
    let mut t = Builder::new();
    let text = t.string(9, 0, None);
    let name = t.sequence(&[(text, Plain), (text, Plain), (text, Plain)]);
    let number = t.integer(None, None);
    let child = t.sequence(&[(name, Plain), (text, Plain)]);
    let children = t.sequence_of(child);
    let components = [(name, Plain), (number, Plain), (text, Plain), (text, Plain), (name, Plain)];
    let record = t.sequence(&[&components[..], &[(children, Default(0))]].concat());
    let octets = hex("80044A6F 686E0150 05536D69 74680133 08446972 6563746F 72083139 37313039
         3137044D 61727901 5405536D 69746801 02055261 6C706801 5405536D 69746808
         31393537 31313131 05537573 616E0142 054A6F6E 65730831 39353930 373137");
    assert_eq!(octets.len(), 95);
    let of_name = |a, b, c| [10, 3, 9, a, 9, b, 9, c];
    let of_child = |a, b, c| [vec![10, 2], of_name(a, b, c).to_vec(), vec![9, 8]].concat();
    let nodes = [
        vec![10, 6],
        of_name(4, 1, 5).to_vec(),
        vec![2, 51, 9, 8, 9, 8],
        of_name(4, 1, 5).to_vec(),
        vec![11, 2],
        of_child(5, 1, 5),
        of_child(5, 1, 5),
    ]
    .concat();
    let contents = b"JohnPSmithDirector19710917MaryTSmithRalphTSmith19571111SusanBJones19590717";
    both_ways(&t, record, &nodes, contents, &octets);
}

fn hex(text: &str) -> Vec<u8> {
    let digits: Vec<u32> = text.chars().filter_map(|c| c.to_digit(16)).collect();
    digits.chunks(2).map(|pair| (pair[0] * 16 + pair[1]) as u8).collect()
}
