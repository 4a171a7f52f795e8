#!/usr/bin/env bash
# The whole C face beside the peer and beside its own longer roads: instructions, counted in one run of callgrind, and
# ratios of times. Prints the Markdown tables of docs/BENCHMARKS.md. Needs rustc and valgrind; and rt, unless
# OER_LIB_DIR names a directory that has liboer_c.a.
set -eu
if [ -n "${OER_LIB_DIR:-}" ]; then OER_LIB_DIR=$(cd "$OER_LIB_DIR" && pwd); fi
cd "$(dirname "$0")/.."
. bench/common/bench.sh
face_tables face
