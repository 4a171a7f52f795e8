# What the scripts of bench/ share: building, counting, and Markdown rows.

# staticlib NAME: proves and builds target/staticlib/libNAME.a.
staticlib() {
  local log=target/bench/$1.log
  mkdir -p target/bench
  bash tools/archive "$1" > "$log" 2>&1 || { tail -5 "$log" >&2; exit 1; }
}

# --- Programs that link a crate's own exports and have plain Rust twins of them ---

# functions PROGRAM PREFIX NAME.. [-- ARGUMENT]: one run of callgrind, which counts inside PREFIX_NAME and plain_NAME
# alone.
functions() {
  local program=$1 prefix=$2 toggles=()
  shift 2
  while [ $# -gt 0 ] && [ "$1" != -- ]; do
    toggles+=(--toggle-collect="${prefix}_$1" --toggle-collect="plain_$1")
    shift
  done
  [ $# -eq 0 ] || shift
  valgrind --tool=callgrind --callgrind-out-file="$program.callgrind" "${toggles[@]}" "$program" "$@" > /dev/null 2>&1
  callgrind_annotate --inclusive=yes --threshold=100 "$program.callgrind" > "$program.txt"
}

# counted PROGRAM FUNCTION: what the last run counted in it.
counted() {
  grep -m1 -E "[:/ ]$2( |\$)" "$1.txt" | awk '{ gsub(",", "", $1); print $1 }'
}

# row NAME OURS PLAIN: two counts and their ratio.
row() {
  awk -v name="$1" -v a="$2" -v b="$3" '
    function commas(n,  s) { while (n >= 1000) { s = sprintf(",%03d%s", n % 1000, s); n = int(n / 1000) } return n s }
    BEGIN { printf "| %s | %s | %s | %.2f |\n", name, commas(a), commas(b), a / b }'
}

# beside_plain NAME PREFIX OPERATION..: bench/NAME/main.rs with the crate PREFIX_bench, both sides compared, each operation counted on
# each workload, and the table printed.
beside_plain() {
  local name=$1 prefix=$2 program=target/bench/$1 w f
  shift 2
  staticlib "${prefix}_bench"
  rustc -O --edition 2024 -C target-cpu=x86-64 -o "$program" "bench/$name/main.rs" \
    -L target/staticlib -l "static=${prefix}_bench"
  "$program" >&2
  printf '| Workload | Operation | ours | plain Rust | ratio |\n|---|---|---|---|---|\n'
  for w in small strings; do
    functions "$program" "$prefix" "$@" -- "$w"
    for f; do
      row "$w | $f" "$(counted "$program" "${prefix}_$f")" "$(counted "$program" "plain_$f")"
    done
  done
}

# --- Programs over the C face ---

# face_tables NAME: bench/NAME/main.rs with the peer and the archive, both sides compared, counted, and the tables
# printed. The archive is liboer_c.a in OER_LIB_DIR, or the codec is proved and built here.
face_tables() {
  local at=target/bench/$1
  mkdir -p target/bench
  if [ -z "${OER_LIB_DIR:-}" ]; then
    staticlib oer_c
    OER_LIB_DIR=target/staticlib
  fi
  # All Rust is built the same way.
  local flags=(-O --edition 2024 -C target-cpu=x86-64 -C panic=abort)
  rustc "${flags[@]}" --crate-type rlib --crate-name peer -o target/bench/libpeer.rlib peer/src/lib.rs
  rustc "${flags[@]}" --extern peer=target/bench/libpeer.rlib -o "$at" "bench/$1/main.rs" \
    -L "$OER_LIB_DIR" -l static=oer_c
  # The peer has a heap: what it frees is kept for its next call, and not given back to the system.
  export MALLOC_TRIM_THRESHOLD_=268435456 MALLOC_MMAP_THRESHOLD_=268435456
  "$at" agree >&2
  count "$at"
  "$at" print "$at.counts"
}

# count PROGRAM: runs `PROGRAM count` under callgrind once. It prints a label before each call of `measured`, whose
# instructions are dumped at its end; PROGRAM.counts gets both side by side. Callgrind counts a string instruction once
# an octet; the C library's large copies are therefore made with vectors, on all sides.
count() {
  local large=10000000
  rm -f "$1.callgrind"
  GLIBC_TUNABLES=glibc.cpu.x86_rep_movsb_threshold=$large:glibc.cpu.x86_rep_stosb_threshold=$large \
    valgrind --tool=callgrind --combine-dumps=yes --callgrind-out-file="$1.callgrind" \
    --toggle-collect=measured --dump-after=measured "$1" count > "$1.labels" 2> "$1.valgrind"
  paste <(sed -n 's/^totals: //p' "$1.callgrind" | head -n "$(wc -l < "$1.labels")") "$1.labels" > "$1.counts"
}
