#!/usr/bin/env bash
# Builds programs into target/bin and the checker's archive for C into target/staticlib; all that they are made of is proved first. What is newer
# than every source is left as it is. From any directory.
#
#   tools/build.sh NAME ..         play, report, accept, trials, measure: a program; checker: the archive libchecker.a
#   tools/build.sh --built         takes the programs that `rt ci` built, and proves nothing
set -euo pipefail
cd "$(dirname "${BASH_SOURCE[0]}")/.."
mkdir -p target/bin target/staticlib

# is_fresh FILE: newer than every source
is_fresh() {
  [ -e "$1" ] && [ -z "$(find crates crates.txt -path '*/out' -prune -o -type f -newer "$1" \( -name '*.rt' -o -name '*.antt' -o -name crates.txt \) -print -quit)" ]
}

# take NAME: what was built, from the crate's out/ to its place
take() {
  case $1 in
    checker) cp crates/checker_c/out/libchecker_c.a target/staticlib/libchecker.a ;;
    *) cp "crates/$1/out/$1" "target/bin/$1" ;;
  esac
}

# build NAME: proves and builds, unless it is built already. A program is built by a run of it, on no input
build() {
  case $1 in
    checker) is_fresh target/staticlib/libchecker.a && return 0; (cd crates/checker_c && rt lib < /dev/null) ;;
    *) is_fresh "target/bin/$1" && return 0; (cd "crates/$1" && rt run < /dev/null) ;;
  esac
  take "$1"
}

if [ "${1:-}" = --built ]; then
  for name in play report accept trials measure; do take "$name"; done
else
  for name in "$@"; do build "$name"; done
fi
