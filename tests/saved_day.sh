#!/usr/bin/env bash
# Case A played, saved, reported and checked, by the programs as they are built. From any directory, after `tools/build.sh play report accept`.
set -euo pipefail
cd "$(dirname "${BASH_SOURCE[0]}")/.."
root=$PWD
scratch=$(mktemp -d)
trap 'rm -rf "$scratch"' EXIT
cd "$scratch"

# says LINES COMMAND ..: the command prints just these lines
says() {
  local wanted=$1 said
  shift
  said=$("$@")
  if [ "$said" != "$wanted" ]; then
    printf '%s: prints "%s", not "%s"\n' "${*##*/}" "$said" "$wanted" >&2
    exit 1
  fi
}
accept() { "$root/target/bin/accept" "$@"; }
report() { "$root/target/bin/report"; }

"$root/target/bin/play" < "$root/examples/case-a.txt" > played
says "$(cat "$root/crates/report/stdout")" report < case-a.day
says accepted accept 1 1 4 < case-a.day
says 'refused 12' accept 1 4 1 < case-a.day
says 'refused 12' accept 1 1 4 1 < case-a.day
says 'refused 12' accept 1 < case-a.day
says 'refused 11' accept 2 1 4 < case-a.day
says 'refused 1' accept < case-a.day
says 'refused 1' accept 1 one < case-a.day
says 'refused 1' accept 1 1 65536 < case-a.day
says 'refused 1' accept 4294967296 1 < case-a.day

# a day that is cut, lengthened, too short for an opening table, or longer than any log
head -c -1 case-a.day > cut
cat case-a.day - <<< 'more' > longer
head -c 255 case-a.day > short
head -c 300000 /dev/zero > zeros
for damaged in cut longer zeros; do
  says 'refused 10' report < "$damaged"
  says 'refused 10' accept 1 1 4 < "$damaged"
done
says 'refused 1' report < short
says 'refused 1' accept 1 1 4 < short

printf 'a day is saved, reported and checked as it should be\n'
