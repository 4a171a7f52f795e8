#!/usr/bin/env bash
# Prints every table of docs/BENCHMARKS.md, section by section, as Markdown. Needs rt, rustc and valgrind. OER_LIB_DIR
# may name a directory that has liboer_c.a; without it the codec is proved and built first.
set -eu
here=$(dirname "$0")
for section in Leaves Reading Writing Editing "The whole face"; do
  printf '## %s\n\n' "$section"
  case $section in
    Leaves) bash "$here/leaves.sh" ;;
    Reading) bash "$here/reading.sh" ;;
    Writing) bash "$here/writing.sh" ;;
    Editing) bash "$here/editing.sh" ;;
    *) bash "$here/face.sh" ;;
  esac
  printf '\n'
done
