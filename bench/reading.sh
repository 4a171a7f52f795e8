#!/usr/bin/env bash
# Counts the instructions of check, validate and decode beside plain Rust, in one run of callgrind for each workload,
# and prints the Markdown table of docs/BENCHMARKS.md. Needs rt, rustc and valgrind.
set -eu
cd "$(dirname "$0")/.."
. bench/common/bench.sh
beside_plain reading read check validate decode
