#!/usr/bin/env bash
# Sends the lines marked "<" of answers.txt through the program and compares its replies with the lines marked ">", which were
# worked out by hand. The first block is the example that README.md shows.
set -euo pipefail
top=$(cd "$(dirname "$0")/.." && pwd)
program=$("$top/scripts/program")
work=$(mktemp -d)
trap 'rm -rf "$work"' EXIT

sed -n 's/^    \([<>] \)/\1/p' "$top/README.md" >"$work/shown"
sed '/^$/q' "$top/scripts/answers.txt" | grep '^[<>] ' >"$work/first"
if ! diff -u "$work/shown" "$work/first"; then
  echo "README.md shows another example than the first block of answers.txt" >&2
  exit 1
fi

sed -n 's/^< //p' "$top/scripts/answers.txt" >"$work/lines"
sed -n 's/^> //p' "$top/scripts/answers.txt" >"$work/want"
"$program" <"$work/lines" >"$work/got"
if ! diff -u "$work/want" "$work/got"; then
  echo "replies other than those worked out by hand" >&2
  exit 1
fi
echo "$(wc -l <"$work/want") lines answered as worked out by hand"
