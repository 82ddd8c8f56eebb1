#!/usr/bin/env bash
# Runs the worked uses of docs/USES.md as they stand there. A block of lines marked "<" and ">" is one run of the program: lines in, and
# their replies, which were worked out by hand. A block of shell commands is run in an empty folder where `strq` is the program, and has to
# write what the block of text behind it shows.
set -euo pipefail
top=$(cd "$(dirname "$0")/.." && pwd)
program=$(realpath "$("$top/scripts/program")")
work=$(mktemp -d)
trap 'rm -rf "$work"' EXIT
mkdir "$work/bin" "$work/blocks"
ln -s "$program" "$work/bin/strq"

# Each block in a file of its own: N.marked, N.sh, and N.text behind it.
awk -v folder="$work/blocks/" '
  /^```/ {
    kind = kind == "" ? substr($0, 4) : ""
    if (kind == "sh") number++
    if (kind != "") printf "" >(folder number "." kind)
    next
  }
  kind != "" { print >(folder number "." kind); next }
  /^    [<>] / { if (!marked) number++; marked = 1; print substr($0, 5) >(folder number ".marked"); next }
  { marked = 0 }
' "$top/docs/USES.md"

differs() {
  echo "docs/USES.md: $1 wrote something else than is shown" >&2
  exit 1
}

runs=0
for block in "$work"/blocks/*.marked; do
  sed -n 's/^> //p' "$block" >"$work/want"
  sed -n 's/^< //p' "$block" | "$program" >"$work/got"
  diff -u "$work/want" "$work/got" || differs "the block that begins with $(head -n 1 "$block")"
  runs=$((runs + 1))
done
scripts=0
for block in "$work"/blocks/*.sh; do
  mkdir "$work/folder"
  (cd "$work/folder" && PATH=$work/bin:$PATH bash -euo pipefail "$block") >"$work/got"
  diff -u "${block%.sh}.text" "$work/got" || differs "the script that begins with $(head -n 1 "$block")"
  rm -r "$work/folder"
  scripts=$((scripts + 1))
done
echo "$runs runs and $scripts scripts of docs/USES.md wrote what is shown"
