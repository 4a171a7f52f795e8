// Instruction counts of the reader (check, validate, decode) beside plain Rust that gives the same answers. Run by
// ../reading.sh under callgrind, which counts inside the functions named on its command line; run plainly it checks
// that both sides agree. An argument, `small` or `strings`, runs that workload alone.
#[path = "../plain/mod.rs"]
mod plain;

use plain::reader::{decode, validate};
use plain::table::check;
use plain::workloads::{Workload, small, strings};
use plain::{Counts, MAX_NODES, MAX_OCTETS, Reply, reply};
use std::hint::black_box;

// The proved side. Its words are those of `Reply::word`; that of read_check is the reply's number.
unsafe extern "C" {
    fn read_check(rows: *const u64, rows_len: usize, items: *const u64, items_len: usize) -> u64;
    fn read_validate(
        rows: *const u64,
        rows_len: usize,
        items: *const u64,
        items_len: usize,
        row: u64,
        msg: *const u8,
        msg_len: usize,
    ) -> u64;
    fn read_decode(
        rows: *const u64,
        rows_len: usize,
        items: *const u64,
        items_len: usize,
        row: u64,
        msg: *const u8,
        msg_len: usize,
        nodes: *mut u64,
        nodes_len: usize,
        contents: *mut u8,
        contents_len: usize,
    ) -> u64;
}

// The reply as a word. black_box keeps the part and place, which the word leaves out, from being optimized away.
fn word(result: Result<Counts, Reply>) -> u64 {
    black_box(reply(result)).word()
}

#[unsafe(no_mangle)]
#[inline(never)]
pub fn plain_check(rows: &[u64], items: &[u64]) -> u64 {
    black_box(reply(check(rows, items).map(|_| Counts::default()))).number
}

#[unsafe(no_mangle)]
#[inline(never)]
pub fn plain_validate(rows: &[u64], items: &[u64], row: u64, msg: &[u8]) -> u64 {
    word(validate(rows, items, row, msg))
}

#[unsafe(no_mangle)]
#[inline(never)]
pub fn plain_decode(rows: &[u64], items: &[u64], row: u64, msg: &[u8], nodes: &mut [u64], contents: &mut [u8]) -> u64 {
    word(decode(rows, items, row, msg, nodes, contents))
}

// Each operation once on each side. The buffers are larger than the value and filled, so that what stays is compared
// too.
fn run(load: &Workload) {
    let (rows, items, msg) = black_box((load.rows.as_flattened(), load.items.as_flattened(), &load.msg[..]));
    let row = load.rows.len() as u64 - 1;
    let (mut nodes, mut contents) = (vec![0x5555_5555_5555_5555u64; 2 * MAX_NODES + 10], vec![0x55u8; MAX_OCTETS + 10]);
    let (mut our_nodes, mut our_contents) = (nodes.clone(), contents.clone());

    let checked = unsafe { read_check(rows.as_ptr(), rows.len(), items.as_ptr(), items.len()) };
    assert_eq!(checked, plain_check(rows, items), "{}: check", load.name);

    let validated =
        unsafe { read_validate(rows.as_ptr(), rows.len(), items.as_ptr(), items.len(), row, msg.as_ptr(), msg.len()) };
    assert_eq!(validated, plain_validate(rows, items, row, msg), "{}: validate", load.name);

    let decoded = unsafe {
        read_decode(
            rows.as_ptr(),
            rows.len(),
            items.as_ptr(),
            items.len(),
            row,
            msg.as_ptr(),
            msg.len(),
            our_nodes.as_mut_ptr(),
            our_nodes.len(),
            our_contents.as_mut_ptr(),
            our_contents.len(),
        )
    };
    assert_eq!(decoded, plain_decode(rows, items, row, msg, &mut nodes, &mut contents), "{}: decode", load.name);
    assert!(our_nodes == nodes && our_contents == contents, "{}: the value lists differ", load.name);

    assert_eq!((checked, validated, decoded >> 48), (0, decoded, 0), "{}: refused", load.name);
    let (count, used) = (decoded >> 24 & 0xff_ffff, decoded & 0xff_ffff);
    println!("{}: {} octets, {count} nodes, {used} contents octets: agree", load.name, msg.len());
}

fn main() {
    let only = std::env::args().nth(1);
    for load in [small(), strings()] {
        if only.as_ref().is_none_or(|name| name == load.name) {
            run(&load);
        }
    }
}
