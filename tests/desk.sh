#!/usr/bin/env bash
# The duty desk's program, linked with the proved checker, on case A of document 01 and on damaged days. From any directory.
set -euo pipefail
cd "$(dirname "${BASH_SOURCE[0]}")/.."

# the archive is for x86-64: elsewhere a cross compiler and an emulator stand in
compile=cc
run=
if [ "$(uname -m)" != x86_64 ]; then
  compile=x86_64-linux-gnu-gcc
  run='qemu-x86_64 -L /usr/x86_64-linux-gnu'
  for tool in x86_64-linux-gnu-gcc qemu-x86_64; do
    command -v "$tool" > /dev/null || { printf 'no %s: install gcc-x86-64-linux-gnu and qemu-user\n' "$tool" >&2; exit 1; }
  done
fi

scratch=$(mktemp -d)
trap 'rm -rf "$scratch"' EXIT

tools/build.sh checker > "$scratch/log" 2>&1 || { cat "$scratch/log" >&2; exit 1; }
for source in examples/desk.c tests/desk_odd.c; do
  "$compile" -std=c11 -Wall -Wextra -Werror -O2 -Iinclude -o "$scratch/$(basename "$source" .c)" "$source" target/staticlib/libchecker.a
done

# case A, closed as it stands, and the same day damaged
day=$scratch/case-a.day
cp crates/report/stdin "$day"
head -c -1 "$day" > "$scratch/cut.day"
head -c 255 "$day" > "$scratch/short.day"
{ cat "$day"; printf '\0'; } > "$scratch/longer.day"
head -c 70000 /dev/zero > "$scratch/zeros.day"
: > "$scratch/empty.day"

# answers STATUS LINE DAY BEGIN [NUMBER ..]: the program prints the line and ends with the status
answers() {
  local status=$1 line=$2 got=0 said
  shift 2
  said=$($run "$scratch/desk" "$@" 2> "$scratch/stderr") || got=$?
  if [ "$got" != "$status" ] || [ "$said" != "$line" ]; then
    printf 'desk %s: prints "%s" and ends with %s, not "%s" with %s\n' "$(head -c 60 <<< "$*")" "$said" "$got" "$line" "$status" >&2
    exit 1
  fi
}

many=()
for ((i = 1; i <= 3000; i++)); do many+=("$i"); done

answers 0 accepted "$day" 1 1 4           # P, then R
answers 0 accepted "$day" 4 4             # R alone
answers 0 accepted "$day" 3 4 3           # Q, up to its last granted read
answers 1 'refused 12' "$day" 1 4 1       # the order of the commits
answers 1 'refused 12' "$day" 1 1 4 4     # a repeat
answers 1 'refused 12' "$day" 1 1         # R is left out
answers 1 'refused 12' "$day" 1           # so is everybody
answers 1 'refused 12' "$day" 1 1 4 3     # Q is not of the company
answers 1 'refused 12' "$day" 1 "${many[@]}"
answers 1 'refused 11' "$day" 2 1 4       # record 2 is a read
answers 1 'refused 11' "$day" 0 1 4
answers 1 'refused 11' "$day" 99 1 4
answers 1 'refused 11' "$day" 4294967295 1 4
answers 1 'refused 11' "$day" 65537 1 4   # not record 1 in 16 bits
answers 1 'refused 10' "$scratch/cut.day" 1 1 4
answers 1 'refused 10' "$scratch/longer.day" 1 1 4
answers 1 'refused 10' "$scratch/zeros.day" 1 1 4
answers 1 'refused 1' "$scratch/short.day" 1 1 4
answers 1 'refused 1' "$scratch/empty.day" 1 1 4
answers 2 '' "$day"                       # nothing to check
answers 2 '' "$day" x
answers 2 '' "$day" 4294967296 1
answers 2 '' "$day" 1 65536
answers 2 '' "$day" 1 1 ''
answers 2 '' "$day" 1 1 -4
answers 2 '' "$scratch/none.day" 1 1 4    # there is no such file

$run "$scratch/desk_odd"

printf "the desk's program answers as it should\n"
