//! The stored case files are what the peer makes and answers, and its answers to the gate's own files are the gate's.

use std::path::Path;

use peer::cases::{replay, replay_checks};
use peer::named;

fn stored(file: &str) -> String {
    let path = Path::new(env!("CARGO_MANIFEST_DIR")).join(file);
    std::fs::read_to_string(&path).unwrap_or_else(|error| panic!("{}: {error}", path.display()))
}

/// The first line that differs, so that a failure can be read.
fn same(ours: &str, theirs: &str) {
    for (number, (a, b)) in ours.lines().zip(theirs.lines()).enumerate() {
        assert_eq!(a, b, "line {}", number + 1);
    }
    assert_eq!(ours.len(), theirs.len());
}

#[test]
fn lists() {
    same(&named::lists(), &stored("../crates/lists/stdin"));
    same(&replay(&stored("../crates/lists/stdin")), &stored("../crates/lists/stdout"));
}

#[test]
fn edits() {
    same(&named::edits(), &stored("../crates/edits/stdin"));
    same(&replay(&stored("../crates/edits/stdin")), &stored("../crates/edits/stdout"));
}

#[test]
fn generated() {
    same(&named::generated(2), &stored("../crates/replay/stdin"));
    same(&replay(&stored("../crates/replay/stdin")), &stored("../crates/replay/stdout"));
}

#[test]
fn messages_of_the_gate() {
    same(&replay(&stored("../crates/messages/stdin")), &stored("../crates/messages/stdout"));
}

#[test]
fn tables_of_the_gate() {
    same(&replay_checks(&stored("../crates/checks/stdin")), &stored("../crates/checks/stdout"));
}
