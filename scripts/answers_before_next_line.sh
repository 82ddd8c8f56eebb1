#!/usr/bin/env bash
# Sends one line down a pipe, waits for its reply, and only then sends the next: no reply waits for more input.
set -euo pipefail
top=$(cd "$(dirname "$0")/.." && pwd)
built=$("$top/scripts/program")

exchange() {
  local line=$1 want=$2 got
  printf '%s\n' "$line" >&"${strq[1]}"
  if ! IFS= read -r -t 10 got <&"${strq[0]}"; then
    echo "no reply within 10 seconds to: $line" >&2
    exit 1
  fi
  if [ "$got" != "$want" ]; then
    echo "to $line: wanted $want, got $got" >&2
    exit 1
  fi
  echo "$line -> $got"
}

coproc strq { "$built"; }
program=$strq_PID
exchange '{"load":"a","text":"abc"}' '{"scalars":3,"utf16":3,"utf8":3}'
exchange '{"load":' '{"error":"syntax"}'
exchange '{"load":"b","text":"é😀"}' '{"scalars":2,"utf16":3,"utf8":6}'
input=${strq[1]}
exec {input}>&-
wait "$program"
echo "each reply came before the next line was sent"
