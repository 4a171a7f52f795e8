#!/usr/bin/env bash
# Counts the instructions of an edit and of reading a setting beside plain Rust and beside the longer roads, in one
# run of callgrind, and prints the Markdown table of docs/BENCHMARKS.md. Needs rustc and valgrind; and rt, unless
# OER_LIB_DIR names a directory that has liboer_c.a.
set -eu
if [ -n "${OER_LIB_DIR:-}" ]; then OER_LIB_DIR=$(cd "$OER_LIB_DIR" && pwd); fi
cd "$(dirname "$0")/.."
. bench/common/bench.sh
face_tables editing
