#!/usr/bin/env bash
# How the program ends: its status, its line on standard error, and what it wrote, for each status. No clause says what standard
# error gets. The two limits to the byte are in limits.sh.
set -euo pipefail
top=$(cd "$(dirname "$0")/.." && pwd)
program=$("$top/scripts/program")
work=$(mktemp -d)
trap 'rm -rf "$work"' EXIT

# name, wanted status, wanted standard error, wanted standard output, words..: over standard input
check() {
  local name=$1 status=$2 message=$3 replies=$4 got=0
  shift 4
  "$program" "$@" >"$work/out" 2>"$work/err" || got=$?
  compare "$name" "$status" "$got" "$message" "$replies"
}

compare() {
  local name=$1 status=$2 got=$3 message=$4 replies=$5
  printf '%s' "$message" >"$work/message"
  printf '%s' "$replies" >"$work/replies"
  if [ "$got" != "$status" ] || ! cmp -s "$work/err" "$work/message" || ! cmp -s "$work/out" "$work/replies"; then
    {
      echo "$name: wanted status $status, got $got"
      diff "$work/message" "$work/err" | head -n 5
      diff "$work/replies" "$work/out" | head -n 5
    } >&2
    exit 1
  fi
  echo "$name: status $status"
}

usage=$'strq: usage: strq [--workers N] [--make NUMBER --lines N]\n'
load='{"load":"a","text":"abc"}'
counts='{"scalars":3,"utf16":3,"utf8":3}'
syntax='{"error":"syntax"}'

check "no input" 0 "" "" </dev/null
printf '%s\n[]' "$load" | check "all answered" 0 "" "$counts"$'\n'"$syntax"$'\n'

# Words are refused before anything is read.
printf '%s\n' "$load" | check "a word" 2 "$usage" "" x
printf '%s\n' "$load" | check "an empty word" 2 "$usage" "" ""
printf '%s\n' "$load" | check "a number of workers" 0 "" "$counts"$'\n' --workers 1
printf '%s\n' "$load" | check "too many workers" 2 "$usage" "" --workers=9
printf '%s\n' "$load" | check "a made input without its lines" 2 "$usage" "" --make 1
check "a made input" 0 "" $'lines 2\ninput 57420\noutput 67540\nmark 3736293009\n' --make 1 --lines=2 --workers 4 </
printf '%s\n' "$load" | check "a word that is no text" 2 "$usage" "" $'\xff'

# A folder can be opened and not be read.
check "a read fault" 3 $'strq: read fault\n' "" </

# A device that is always full.
got=0
printf '%s\n' "$load" | "$program" >/dev/full 2>"$work/err" || got=$?
: >"$work/out"
compare "a write fault" 4 "$got" $'strq: write fault\n' ""

# Too little memory for the shared heap, which is opened before anything is read.
got=0
printf '%s\n' "$load" >"$work/short"
(ulimit -v 8000 && exec "$program") <"$work/short" >"$work/out" 2>"$work/err" || got=$?
compare "want of memory at the start" 5 "$got" $'strq: out of memory\n' ""

# The least memory, by steps of 2 MB, with which a short line is answered isn't enough for twelve texts of 4 MB besides. Which of them is
# the first that finds none depends on the machine.
memory=8000
until (ulimit -v "$memory" && exec "$program") <"$work/short" >"$work/out" 2>"$work/err"; do
  memory=$((memory + 2000))
  [ "$memory" -lt 100000 ] || { echo "a short line wants more than 100 MB" >&2; exit 1; }
done
{
  cat "$work/short"
  for name in {b..m}; do printf '{"load":"%s","text":"' "$name"; head -c 4000000 /dev/zero | tr '\0' b; printf '"}\n'; done
} >"$work/large"
"$program" <"$work/large" >"$work/all"
got=0
(ulimit -v "$memory" && exec "$program") <"$work/large" >"$work/out" 2>"$work/err" || got=$?
head -n "$(wc -l <"$work/out")" "$work/all" >"$work/first"
compare "want of memory" 5 "$got" $'strq: out of memory\n' "$(cat "$work/first")"$'\n'
[ "$(wc -l <"$work/out")" -lt "$(wc -l <"$work/all")" ] || { echo "want of memory: all was answered" >&2; exit 1; }

# The lines before the long one are answered, and no byte of it.
{ printf '%s\n' "$load"; head -c 5000000 /dev/zero | tr '\0' b; } >"$work/long_line"
check "a long line" 6 $'strq: line too long\n' "$counts"$'\n' <"$work/long_line"

# Seventeen lines of 4 MiB, of which the last passes 64 MiB.
{ printf '%s\n' "$load"; for _ in {1..17}; do head -c 4000000 /dev/zero | tr '\0' ' '; printf '\n'; done; } >"$work/long_input"
replies=$counts$'\n'$(for _ in {1..16}; do echo "$syntax"; done)$'\n'
check "a long input" 7 $'strq: input too long\n' "$replies" <"$work/long_input"
echo "each status came with its line"
