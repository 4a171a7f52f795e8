#!/usr/bin/env bash
# Counts the instructions of the leaves beside plain Rust, in one run of callgrind, and prints the Markdown table of
# docs/BENCHMARKS.md. Needs rt, rustc and valgrind.
set -eu
cd "$(dirname "$0")/.."
. bench/common/bench.sh
staticlib leaf_bench
program=target/bench/leaves
rustc -O -C target-cpu=x86-64 -o "$program" bench/leaves/main.rs -L target/staticlib -l static=leaf_bench
"$program" >&2
functions "$program" leaf read_lengths read_numbers read_tags put_lengths put_numbers put_tags
leaf() {
  row "$1" "$(counted "$program" "leaf_$2")" "$(counted "$program" "plain_$2")"
}
printf '| Leaf | ours | plain Rust | ratio |\n|---|---|---|---|\n'
leaf "read a length determinant and its run" read_lengths
leaf "read a variable-size number" read_numbers
leaf "read a tag" read_tags
leaf "write a length determinant" put_lengths
leaf "write a variable-size number" put_numbers
leaf "write a tag" put_tags
