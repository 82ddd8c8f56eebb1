#!/usr/bin/env bash
# Times the built strq, or the program that STRQ names, on each input of make_inputs.py, and a peer beside it.
# usage: bench/run.sh [PEER COMMAND..]     a peer reads standard input and writes standard output, as strq does
# Prints for each input the median of five runs in seconds, MB/s of input, and whether the peer's replies are the same bytes.
set -eu
top=$(cd "$(dirname "$0")/.." && pwd)
strq=${STRQ:-$top/crates/strq/out/strq}
[ -x "$strq" ] || { echo "bench: build strq first: scripts/strq </dev/null" >&2; exit 1; }
work=$(mktemp -d)
trap 'rm -rf "$work"' EXIT
python3 "$top/bench/make_inputs.py" "$work"

# the median of five runs of a command on an input, in seconds
median() {
  local input=$1 output=$2
  shift 2
  for _ in 1 2 3 4 5; do
    local begun ended
    begun=$(date +%s%N)
    "$@" <"$input" >"$output"
    ended=$(date +%s%N)
    echo $((ended - begun))
  done | sort -n | sed -n 3p | awk '{ printf "%.3f", $1 / 1e9 }'
}

for input in "$work"/*.jsonl; do
  name=$(basename "$input" .jsonl)
  bytes=$(stat -c %s "$input")
  seconds=$(median "$input" "$work/own" "$strq")
  awk -v n="$name" -v b="$bytes" -v s="$seconds" 'BEGIN { printf "%-18s strq %8.3f s %8.1f MB/s", n, s, b / s / 1e6 }'
  if [ $# -gt 0 ]; then
    seconds=$(median "$input" "$work/peer" "$@")
    awk -v b="$bytes" -v s="$seconds" 'BEGIN { printf "   peer %8.3f s %8.1f MB/s", s, b / s / 1e6 }'
    if cmp -s "$work/own" "$work/peer"; then printf '   same replies'; else printf '   OTHER REPLIES'; fi
  fi
  echo
done
