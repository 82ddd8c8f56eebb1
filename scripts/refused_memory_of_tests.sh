#!/usr/bin/env bash
# Refuses allocation N of each test of a crate, for N from FIRST (1) until no test meets it (or to LAST): each test then passes
# or ends with want of memory, and with nothing else. TEST takes the tests alone whose names contain it. The crate is built
# anew for each N, which takes most of a minute.
# usage: scripts/refused_memory_of_tests.sh CRATE [TEST [FIRST [LAST]]]     TEST '' takes every test
set -euo pipefail
top=$(cd "$(dirname "$0")/.." && pwd)
crate=$1 filter=${2:-} number=${3:-1} last=${4:-0}
tests=()
[ -z "$filter" ] || tests=(-- "$filter")
cd "$top/crates/$crate"
while true; do
  report=$(rt try --test --fail-alloc "$number" "${tests[@]}" 2>&1 || true)
  if ! grep -q '^test result: ' <<<"$report" || ! grep -q '^test ' <<<"$(grep -v '^test result: ' <<<"$report")"; then
    echo "$report" >&2
    echo "$crate: allocation $number: no test ran to its end" >&2
    exit 1
  fi
  refused=$(grep -c '^test .* FAILED$' <<<"$report" || true)
  wanting=$(grep -Eic '^ *error: .*(memory|alloc)' <<<"$report" || true)
  if [ "$refused" != "$wanting" ]; then
    echo "$report" >&2
    echo "$crate: allocation $number: a test ended otherwise than by want of memory" >&2
    exit 1
  fi
  [ "$refused" = 0 ] && { echo "$crate: no test takes $number allocations"; break; }
  echo "$crate: allocation $number refused: $refused tests ended with want of memory, the others passed"
  [ "$number" = "$last" ] && break
  number=$((number + 1))
done
