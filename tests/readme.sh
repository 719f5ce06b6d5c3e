#!/usr/bin/env bash
# README.md as a new user follows it: its commands that build, play, report, check and link are run as they stand there, in their order, and
# print what it shows. A command's answer may stand behind it (`# accepted`); every other line of its blocks is a line that some command
# prints. From any directory. They run in a copy of the checkout, with what is built in it, and touch no file of the checkout itself.
set -euo pipefail
cd "$(dirname "${BASH_SOURCE[0]}")/.."
scratch=$(mktemp -d)
trap 'rm -rf "$scratch"' EXIT
mkdir -p "$scratch/copy/target"
cp -Rp README.md crates.txt examples include tools "$scratch/copy"
tar -cf - --exclude='crates/*/out' crates | tar -xpf - -C "$scratch/copy"
for built in bin staticlib; do
  [ ! -e "target/$built" ] || cp -Rp "target/$built" "$scratch/copy/target"
done
cd "$scratch/copy"

failed=0
while IFS= read -r line; do
  case $line in
    'rt '* | target/* | 'cc '* | examples/* | tools/*)
      status=0
      bash -euo pipefail -c "$line" < /dev/null > "$scratch/said" 2> "$scratch/stderr" || status=$?
      sed 's/ *$//' "$scratch/said" >> "$scratch/all"
      said=$(cat "$scratch/said")
      wanted=${line##*# }
      [ "$wanted" != "$line" ] || [ "$status" != 0 ] || wanted=$said
      if [ "$said" != "$wanted" ]; then
        printf '%s\nends with %s and prints %s\n' "$line" "$status" "$(cat "$scratch/said" "$scratch/stderr")" >&2
        failed=1
      fi
      ;;
  esac
done < <(sed -n 's/^    //p' README.md)

while IFS= read -r line; do
  case $line in
    'rt '* | target/* | 'cc '* | examples/* | tools/* | tests/* | bench/* | .ci/*) ;;
    *)
      grep -Fxq -- "$line" "$scratch/all" || { printf 'README.md shows a line that nothing prints: %s\n' "$line" >&2; failed=1; }
      ;;
  esac
done < <(sed -n 's/^    \(.\)/\1/p' README.md)

[ "$failed" = 0 ]
printf 'the commands of README.md print what it shows\n'
