#!/usr/bin/env bash
# The limits of a line and of the input to the byte, through the program: one byte less, the limit itself, one byte more.
set -euo pipefail
top=$(cd "$(dirname "$0")/.." && pwd)
program=$("$top/scripts/program")
work=$(mktemp -d)
trap 'rm -rf "$work"' EXIT

# N spaces
spaces() { head -c "$1" /dev/zero | tr '\0' ' '; }

# N lines of 4,194,303 spaces and a newline, 4 MiB each
full_lines() {
  local k
  for ((k = 0; k < $1; k++)); do
    spaces 4194303
    printf '\n'
  done
}

# name, wanted status, wanted standard error, wanted number of replies, all of which are refusals of syntax
check() {
  local name=$1 status=$2 message=$3 replies=$4 got=0 lines others
  cat >"$work/input"
  "$program" <"$work/input" >"$work/out" 2>"$work/err" || got=$?
  lines=$(wc -l <"$work/out")
  others=$(grep -cvx '{"error":"syntax"}' "$work/out" || true)
  if [ "$got" != "$status" ] || [ "$(cat "$work/err")" != "$message" ] || [ "$lines" != "$replies" ] || [ "$others" != 0 ]; then
    echo "$name: wanted status $status, '$message' and $replies replies" >&2
    echo "$name: got status $got, '$(cat "$work/err")' and $lines replies, $others of them others than syntax" >&2
    exit 1
  fi
  echo "$name: status $got, $lines replies"
}

line="strq: line too long"
input="strq: input too long"
{ spaces 4194303; printf '\n'; } | check "a line of 4,194,303 bytes" 0 "" 1
{ spaces 4194304; printf '\n'; } | check "a line of 4,194,304 bytes" 0 "" 1
{ spaces 4194305; printf '\n'; } | check "a line of 4,194,305 bytes" 6 "$line" 0
spaces 4194304 | check "a last line of 4,194,304 bytes" 0 "" 1
spaces 4194305 | check "a last line of 4,194,305 bytes" 6 "$line" 0
{ printf '[]\n'; spaces 4194305; printf '\n[]\n'; } | check "a long line behind another" 6 "$line" 1

{ full_lines 15; spaces 4194303; } | check "an input of 67,108,863 bytes" 0 "" 16
full_lines 16 | check "an input of 67,108,864 bytes" 0 "" 16
{ full_lines 16; printf ' '; } | check "an input of 67,108,865 bytes" 7 "$input" 16
{ full_lines 16; printf '\n'; } | check "an input whose last newline is byte 67,108,865" 7 "$input" 16
{ full_lines 15; spaces 4194304; printf '\n'; } | check "a full line whose newline is byte 67,108,865" 7 "$input" 15
{ full_lines 15; spaces 4194305; } | check "a byte that passes both limits" 6 "$line" 15
