#!/usr/bin/env bash
# The winter story in one command: builds the programs, plays examples/winter.txt with each answer beside its call, shows the report of the
# day, and puts orders to the checker. From any directory; the first time it proves all that the programs are made of, some minutes.
set -euo pipefail
cd "$(dirname "${BASH_SOURCE[0]}")/.."
root=$PWD
scratch=$(mktemp -d)
trap 'rm -rf "$scratch"' EXIT

[ "$(uname -m)" = x86_64 ] || { printf 'the programs are for x86-64: elsewhere rt ci runs them under an emulator\n' >&2; exit 1; }
printf 'Building play, report and accept: all that they are made of is proved first.\n'
tools/build.sh play report accept > "$scratch/log" 2>&1 || { tail -n 20 "$scratch/log" >&2; exit 1; }

# calls SCRIPT: its lines that are calls, the looks at the table and the log left out
calls() { grep -E '^[a-z]' "$1" | grep -Ev '^(table|log)$'; }

# letters LINE: the line with each value of eight letters as these letters
letters() {
  local word line=
  for word in $1; do
    if [[ $word =~ ^([2-7][0-9a-f]){8}$ ]]; then word="'$(printf '%b' "$(sed 's/../\\x&/g' <<< "$word")")'"; fi
    line+="$word "
  done
  printf '%s' "${line% }"
}

cd "$scratch"
calls "$root/examples/winter.txt" > script
"$root/target/bin/play" < script > answers
printf '\nEach call and its answer: 0 granted, 3 Stale, 9 Conflict; behind it a handle, the value that is read, an order.\n'
paste -d '\t' script answers | while IFS=$'\t' read -r line answer; do
  words=
  case $line in *'#'*) words="# ${line#*# }" ;; esac
  printf '%-29s%-22s%s\n' "$(letters "${line%%#*}")" "$(letters "$answer")" "$words"
done

printf '\nThe report of the day (transactions by their begin records):\n'
"$root/target/bin/report" < winter.day

# tries BEGIN LIST ..: the checker's answer to a list
tries() { printf 'accept %-18s%s\n' "$*" "$("$root/target/bin/accept" "$@" < winter.day)"; }
printf '\nOrders put to the checker: the begin record of a transaction, then the order that is to explain what it read\n'
tries 12 1 2 3 6 12
tries 4 1 2 3 4
tries 4 1 2 3 6 4
tries 12 1 2 3 12 6
