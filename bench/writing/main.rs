// Instruction counts of the writer (measure, encode) beside plain Rust that gives the same answers. Run by
// ../writing.sh under callgrind, which counts inside the functions named on its command line; run plainly it checks
// that both sides agree. An argument, `small` or `strings`, runs that workload alone.
#[path = "../plain/mod.rs"]
mod plain;

use plain::reader::decode;
use plain::workloads::{Workload, small, strings};
use plain::writer::{encode, measure};
use plain::{Counts, MAX_NODES, MAX_OCTETS, Reply, reply};
use std::hint::black_box;

// The proved side. Its words are those of `Reply::word`.
unsafe extern "C" {
    fn write_measure(
        rows: *const u64,
        rows_len: usize,
        items: *const u64,
        items_len: usize,
        row: u64,
        nodes: *const u64,
        nodes_len: usize,
        contents: *const u8,
        contents_len: usize,
    ) -> u64;
    fn write_encode(
        rows: *const u64,
        rows_len: usize,
        items: *const u64,
        items_len: usize,
        row: u64,
        nodes: *const u64,
        nodes_len: usize,
        contents: *const u8,
        contents_len: usize,
        out: *mut u8,
        out_len: usize,
    ) -> u64;
}

// The reply as a word. black_box keeps the part and place, which the word leaves out, from being optimized away.
fn word(result: Result<Counts, Reply>) -> u64 {
    black_box(reply(result)).word()
}

#[unsafe(no_mangle)]
#[inline(never)]
pub fn plain_measure(rows: &[u64], items: &[u64], row: u64, nodes: &[u64], contents: &[u8]) -> u64 {
    word(measure(rows, items, row, nodes, contents))
}

#[unsafe(no_mangle)]
#[inline(never)]
pub fn plain_encode(rows: &[u64], items: &[u64], row: u64, nodes: &[u64], contents: &[u8], out: &mut [u8]) -> u64 {
    word(encode(rows, items, row, nodes, contents, out))
}

// Each operation once on each side. The buffer is larger than the result and filled, so that what stays is compared
// too.
fn run(load: &Workload) {
    let (rows, items) = black_box((load.rows.as_flattened(), load.items.as_flattened()));
    let row = load.rows.len() as u64 - 1;
    let (mut nodes, mut contents) = (vec![0; 2 * MAX_NODES], vec![0; MAX_OCTETS]);
    let Ok(list) = decode(rows, items, row, &load.msg, &mut nodes, &mut contents) else {
        panic!("{}: refused", load.name)
    };
    let (nodes, contents) = black_box((&nodes[..2 * list.nodes], &contents[..list.octets]));
    let mut out = vec![0x55u8; MAX_OCTETS + 10];
    let mut our_out = out.clone();

    let measured = unsafe {
        write_measure(
            rows.as_ptr(),
            rows.len(),
            items.as_ptr(),
            items.len(),
            row,
            nodes.as_ptr(),
            nodes.len(),
            contents.as_ptr(),
            contents.len(),
        )
    };
    assert_eq!(measured, plain_measure(rows, items, row, nodes, contents), "{}: measure", load.name);

    let encoded = unsafe {
        write_encode(
            rows.as_ptr(),
            rows.len(),
            items.as_ptr(),
            items.len(),
            row,
            nodes.as_ptr(),
            nodes.len(),
            contents.as_ptr(),
            contents.len(),
            our_out.as_mut_ptr(),
            our_out.len(),
        )
    };
    assert_eq!(encoded, plain_encode(rows, items, row, nodes, contents, &mut out), "{}: encode", load.name);
    assert!(our_out == out && out.starts_with(&load.msg), "{}: the octets differ", load.name);

    assert_eq!((measured, encoded >> 48), (encoded, 0), "{}: refused", load.name);
    println!("{}: {} nodes, {} contents octets, {encoded} octets: agree", load.name, list.nodes, contents.len());
}

fn main() {
    let only = std::env::args().nth(1);
    for load in [small(), strings()] {
        if only.as_ref().is_none_or(|name| name == load.name) {
            run(&load);
        }
    }
}
