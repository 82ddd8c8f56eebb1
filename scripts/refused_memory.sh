#!/usr/bin/env bash
# Refuses each allocation of the built program in turn: a run ends with status 5 and a first part of the right replies, or
# with status 0 and all of them. Needs cc. The allocator is wrapped by a small library that is made on the way.
set -euo pipefail
top=$(cd "$(dirname "$0")/.." && pwd)
program=$("$top/scripts/program")
work=$(mktemp -d)
trap 'rm -rf "$work"' EXIT

cat >"$work/refuse.c" <<'C'
#define _GNU_SOURCE
#include <dlfcn.h>
#include <errno.h>
#include <fcntl.h>
#include <stdlib.h>
#include <unistd.h>
static long calls;
/* The call that is refused leaves a file, since the program may end without its libraries' last functions. */
static int refused(void) {
  const char *n = getenv("REFUSED_CALL");
  if (!n || __atomic_add_fetch(&calls, 1, __ATOMIC_SEQ_CST) != atol(n)) return 0;
  close(open(getenv("REFUSED_MARK"), O_CREAT | O_WRONLY, 0600));
  errno = ENOMEM;
  return 1;
}
static void *real(const char *name) { return dlsym(RTLD_NEXT, name); }
void *malloc(size_t size) { return refused() ? NULL : ((void *(*)(size_t))real("malloc"))(size); }
void *realloc(void *old, size_t size) { return refused() ? NULL : ((void *(*)(void *, size_t))real("realloc"))(old, size); }
C
cc -shared -fPIC -O1 -o "$work/refuse.so" "$work/refuse.c" -ldl

cat >"$work/input" <<'LINES'
{"load":"a","text":"abc"}
{"on":"a","do":[{"at":0},{"slice":[0,2]},{"text":true},{"at":9},{"place":{"utf8":1}},{"count":"characters"}]}
{"load":"g","text":"😀é"}
{"on":"g","do":[{"at":1},{"slice":[0,3]}]}
{"load":"u","units":[55357,56832,55296,101,102,103,104,105,106,107,108,109,110,111]}
{"load":"b","bytes":[97,98,99,100,101,102,103,104,105,106,107,108,109,110,111,112,113,195,169]}
{"load":"b","bytes":[195,40]}
{"on":"u","do":[{"edit":[0,0],"with":"x"},{"text":true},{"edit":[99,99],"with":"x"},{"edit":[0,1],"with":"a longer text than it was"},{"text":true}]}
{"copy":"c","from":"b"}
{"copy":"zz","from":"yy"}
{"on":"c","do":[{"edit":[0,18],"with":""},{"edit":[0,0],"with":"e\u0301"}]}
{"compare":["c","g"]}
{"compare":["u","b"]}
{"drop":"c"}
{"drop":"c"}
{"on":"zz","do":[]}
{"load":"a","text":"\u00e9"}
{"load":"l","literal":3}
{"batch":[{"on":"b","do":[{"at":3},{"edit":[0,1],"with":"the first of three jobs"}],"keep":"n"},{"on":"b","do":[{"text":true}]},{"on":"l","do":[{"edit":[1,1],"with":"x"},{"slice":[0,3]}],"keep":"l"}]}
{"on":"n","do":[{"text":true}]}
[
LINES
"$program" <"$work/input" >"$work/want"

call=0
while true; do
  call=$((call + 1))
  status=0
  rm -f "$work/mark"
  LD_PRELOAD="$work/refuse.so" REFUSED_CALL=$call REFUSED_MARK=$work/mark "$program" <"$work/input" >"$work/got" 2>"$work/err" || status=$?
  [ -e "$work/mark" ] || break
  if [ "$status" = 5 ]; then
    cmp -s -n "$(stat -c %s "$work/got")" "$work/got" "$work/want" && continue
  elif [ "$status" = 0 ]; then
    cmp -s "$work/got" "$work/want" && continue
  fi
  echo "allocation $call refused: status $status and other replies" >&2
  exit 1
done
echo "each of $((call - 1)) allocations was refused in turn: status 5 with a first part of the replies, or all of them"
