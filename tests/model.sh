#!/usr/bin/env bash
# The independent model (tests/model): built, and held against the programs as they are built. From any directory.
# `tests/model.sh` is the run of the gate, `tests/model.sh long [N]` is N times as much, with other seeds.
set -euo pipefail
cd "$(dirname "${BASH_SOURCE[0]}")/.."

# programs and archive are for x86-64, and so is what links with the archive
if [ "$(uname -m)" != x86_64 ]; then
  printf 'the model is left out: the programs are for x86_64\n'
  exit 0
fi
for built in bin/play bin/report bin/accept staticlib/libchecker.a; do
  [ -e "target/$built" ] || { printf 'no target/%s: tools/build.sh play report accept checker\n' "$built" >&2; exit 1; }
done

mkdir -p target/tests
rustc --edition 2021 -O -D warnings -L target/staticlib -l static=checker -o target/tests/model tests/model/main.rs
target/tests/model "$@"
