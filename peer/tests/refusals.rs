//! Each refusal with its number, part and place, and the order in which refusals come.

mod common;

use common::{decode, edit, encode};
use peer::builder::Builder;
use peer::operations;
use peer::table::Mark::{Default, Optional, Plain};

fn check(t: &Builder) -> (u64, u64, u64) {
    let reply = operations::check(&t.rows, &t.items);
    (reply.number, reply.part, reply.place)
}

#[test]
fn table_size() {
    let mut t = Builder::new();
    assert_eq!(check(&t), (1, 0, 0));
    for _ in 0..256 {
        t.boolean();
    }
    assert_eq!(check(&t), (0, 0, 0));
    t.boolean();
    assert_eq!(check(&t), (1, 0, 0));
    t.rows.truncate(7);
    assert_eq!(check(&t), (1, 0, 0));
    t.rows.truncate(6);
    t.items = vec![9; 3 * 1024];
    assert_eq!(check(&t), (0, 0, 0));
    t.items.push(0);
    assert_eq!(check(&t), (1, 0, 0));
    t.items = vec![9; 3 * 1025];
    assert_eq!(check(&t), (1, 0, 0));
}

/// Rows that break a rule, each behind a sound BOOLEAN and a sound SEQUENCE OF.
#[test]
fn table_rows() {
    let p63 = 1u64 << 63;
    let broken: &[([u64; 6], &[[u64; 3]])] = &[
        ([0, 0, 0, 0, 0, 0], &[]),
        ([13, 0, 0, 0, 0, 0], &[]),
        ([257, 0, 0, 0, 0, 0], &[]),
        ([1, 1, 0, 0, 0, 0], &[]),
        ([6, 0, 0, 1, 0, 0], &[]),
        ([4, 0, 0, 0, 1, 0], &[]),
        ([2, 4, 0, 0, 0, 0], &[]),
        ([2, 2, 1, 5, 0, 0], &[]),
        ([2, 1, 1, 5, 0, 0], &[]),
        ([2, 3, 6, 5, 0, 0], &[]),
        ([2, 3, u64::MAX, p63, 0, 0], &[]),
        ([3, 0, 0, 0, 1, 0], &[]),
        ([3, 0, 0, 0, 1, 2], &[[5, 0, 0], [5, 0, 0]]),
        ([3, 0, 0, 0, 1, 2], &[[5, 0, 0], [u64::MAX, 0, 0]]),
        ([3, 0, 0, 0, 1, 1], &[[5, 1, 0]]),
        ([7, 1, 0, 0, 0, 0], &[]),
        ([7, 2, 4, 3, 0, 0], &[]),
        ([8, 2, 0, 65_536, 0, 0], &[]),
        ([9, 0, 65_536, 0, 0, 0], &[]),
        ([10, 0, 0, 0, 2, 0], &[]),
        ([10, 0, 0, 0, u64::MAX, 2], &[]),
        ([10, 0, 0, 0, 1, 1], &[[2, 0, 0]]),
        ([10, 0, 0, 0, 1, 1], &[[0, 3, 0]]),
        ([10, 0, 0, 0, 1, 1], &[[0, 1, 1]]),
        ([10, 0, 0, 0, 1, 1], &[[0, 2, 2]]),
        ([10, 0, 0, 0, 1, 1], &[[1, 2, 1]]),
        ([11, 0, 0, 0, 1, 2], &[[0, 0, 0], [0, 0, 0]]),
        ([11, 0, 0, 0, 1, 1], &[[0, 0, 1]]),
        ([12, 0, 0, 0, 1, 0], &[]),
        ([12, 0, 0, 0, 1, 1], &[[4, 0, 0]]),
        ([12, 0, 0, 0, 1, 1], &[[0, 2_097_152, 0]]),
        ([12, 0, 0, 0, 1, 2], &[[1, 5, 0], [1, 5, 0]]),
        ([12, 0, 0, 0, 1, 2], &[[1, 5, 0], [0, 6, 0]]),
    ];
    for (row, items) in broken {
        let mut t = Builder::new();
        let boolean = t.boolean();
        t.sequence_of(boolean);
        t.items.extend(items.iter().flatten());
        t.row(*row);
        assert_eq!(check(&t), (2, 0, 2), "{row:?} {items:?}");
    }
}

#[test]
fn nesting_is_worked_out_once() {
    let mut t = Builder::new();
    let mut row = t.boolean();
    for _ in 0..15 {
        row = t.sequence(&[(row, Plain); 60]);
    }
    assert_eq!(check(&t), (0, 0, 0));
    t.sequence_of(row);
    assert_eq!(check(&t), (2, 0, 16));
}

#[test]
fn messages() {
    let mut t = Builder::new();
    let any = t.integer(None, None);
    let natural = t.integer(Some(0), None);
    let text = t.string(9, 0, Some(3));
    let null = t.null();
    let nulls = t.sequence_of(null);
    let pair = t.sequence(&[(any, Plain), (text, Optional)]);
    let choice = t.choice(&[(2, 1, any)]);
    assert_eq!(decode(&t, 7, &[]), Err((3, 0, 0)));
    assert_eq!(decode(&t, null, &vec![0; 65_536]), Err((4, 1, 0)));
    assert_eq!(decode(&t, null, &vec![0; 65_535]), Err((9, 1, 0)));
    assert_eq!(decode(&t, any, &[0x82, 0x00]), Err((5, 1, 0)));
    assert_eq!(decode(&t, any, &[0x80]), Err((6, 1, 0)));
    assert_eq!(decode(&t, any, &[0x02, 0x00, 0x7F]), Err((6, 1, 0)));
    assert_eq!(decode(&t, any, &[9, 1, 0, 0, 0, 0, 0, 0, 0, 0]), Err((8, 1, 0)));
    assert_eq!(decode(&t, natural, &[9, 0, 255, 255, 255, 255, 255, 255, 255, 255]), Err((6, 1, 0)));
    assert_eq!(decode(&t, text, b"\x01\x7F"), Err((7, 1, 0)));
    assert_eq!(decode(&t, text, b"\x04abcd"), Err((7, 1, 0)));
    assert_eq!(decode(&t, pair, b"\x80\x01\x05\x04abcd"), Err((7, 1, 3)));
    assert_eq!(decode(&t, pair, b"\x00\x01\x05\x04"), Err((9, 1, 3)));
    assert_eq!(decode(&t, pair, b"\x40\x01\x05"), Err((6, 1, 0)));
    assert_eq!(decode(&t, nulls, &[2, 0x10, 0x00]), Err((10, 1, 3)));
    assert_eq!(decode(&t, choice, &[0xBF, 0x80, 0x80]), Err((5, 1, 0)));
    assert_eq!(decode(&t, choice, &[0xBF, 0x80, 0x7F]), Err((6, 1, 0)));
    assert_eq!(decode(&t, choice, &[0x82]), Err((7, 1, 0)));
    assert_eq!(decode(&t, choice, &[0x81]), Err((5, 1, 1)));
}

#[test]
fn lists() {
    let mut t = Builder::new();
    let boolean = t.boolean();
    let bits = t.string(8, 4, None);
    let single = t.plain(4);
    let octets = t.string(7, 0, None);
    let pair = t.sequence(&[(boolean, Optional), (bits, Plain)]);
    assert_eq!(encode(&t, 9, &[1], &[]), Err((3, 0, 0)));
    assert_eq!(encode(&t, boolean, &[1], &[]), Err((11, 2, 0)));
    assert_eq!(encode(&t, boolean, &[1, 0].repeat(4097), &[]), Err((10, 2, 0)));
    assert_eq!(encode(&t, boolean, &[1, 0], &vec![0; 65_536]), Err((4, 2, 0)));
    assert_eq!(encode(&t, boolean, &[1, 0], &vec![0; 65_535]), Err((11, 2, 1)));
    assert_eq!(encode(&t, boolean, &[1, 0, 1, 0], &[0]), Err((11, 2, 1)));
    assert_eq!(encode(&t, bits, &[8, 3], &[0xB0]), Err((11, 2, 0)));
    assert_eq!(encode(&t, bits, &[8, 3], &[0xA0]), Err((7, 2, 0)));
    assert_eq!(encode(&t, single, &[4, 1 << 32], &[]), Err((11, 2, 0)));
    assert_eq!(encode(&t, single, &[4, 0x7FC0_0001], &[]), Err((7, 2, 0)));
    assert_eq!(encode(&t, pair, &[10, 2, 0, 0], &[]), Err((11, 2, 2)));
    assert_eq!(encode(&t, pair, &[10, 2, 0, 0, 8, 9], &[255]), Err((11, 2, 2)));
    assert_eq!(encode(&t, octets, &[7, 65_533], &vec![0; 65_533]), Err((4, 4, 0)));
}

/// Every lent buffer stays as it was.
#[test]
fn room() {
    let mut t = Builder::new();
    let text = t.string(9, 0, None);
    let mut out = [7; 3];
    let reply = operations::encode(&t.rows, &t.items, text, &[9, 3], b"abc", &mut out);
    assert_eq!((reply.number, reply.part, reply.place, out), (12, 4, 0, [7; 3]));
    let (mut nodes, mut contents) = ([7; 2], [7; 2]);
    let reply = operations::decode(&t.rows, &t.items, text, b"\x03abc", &mut nodes, &mut contents);
    assert_eq!((reply.number, reply.part, nodes, contents), (12, 4, [7; 2], [7; 2]));
}

#[test]
fn edits() {
    let mut t = Builder::new();
    let boolean = t.boolean();
    let list = t.sequence_of(boolean);
    let row = t.sequence(&[(boolean, Optional), (boolean, Default(0)), (list, Plain)]);
    let message = [0x00, 0x01, 0x00];
    assert_eq!(edit(&t, row, &[0x20, 1, 0], &[9], &[1], &[]), Err((6, 1, 0)));
    assert_eq!(edit(&t, row, &message, &[3], &[1], &[]), Err((13, 3, 0)));
    assert_eq!(edit(&t, row, &message, &[0, 0], &[1], &[]), Err((13, 3, 1)));
    assert_eq!(edit(&t, row, &message, &[2, 0], &[1], &[]), Err((13, 3, 1)));
    assert_eq!(edit(&t, row, &message, &[0], &[1], &[]), Err((11, 2, 0)));
    assert_eq!(edit(&t, row, &message, &[1], &[0, 0], &[]), Err((11, 2, 0)));
    assert_eq!(edit(&t, row, &message, &[0], &[0, 0, 1, 1], &[]), Err((11, 2, 1)));
    assert_eq!(edit(&t, row, &message, &[], &[0, 0], &[]), Err((11, 2, 0)));
    assert_eq!(edit(&t, row, &message, &[0], &[0, 0], &[]), Ok(message.to_vec()));
    assert_eq!(edit(&t, row, &message, &[1], &[1, 0], &[]), Ok(message.to_vec()));
    let full = [vec![11, 4093], [1, 0].repeat(4093)].concat();
    assert_eq!(edit(&t, row, &message, &[2], &full, &[]), Err((10, 4, 0)));
}
