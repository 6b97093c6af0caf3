#!/usr/bin/env bash
# Each allocation of each command refused in turn, by a library in front of the C library's: the program says that memory was refused and
# has written nothing, or does what it does with ample memory.
set -euo pipefail
cd "$(dirname "$0")/.."
# `rt ci` leaves the program where it built it.
if [ ! -x crates/dst_cli/out/dst_cli ]; then
  (cd crates/dst_cli && rt run -- --version >/dev/null)
fi
program="$PWD/crates/dst_cli/out/dst_cli"
place=$(mktemp -d)
trap 'rm -rf "$place"' EXIT
cd "$place"

fail() {
  echo "$*"
  exit 1
}

# Refuses the allocation of the number that REFUSE names, and says so in the file `met`.
"${CC:-cc}" -O1 -shared -fPIC -x c -o refuse.so - <<'LINES'
#include <errno.h>
#include <fcntl.h>
#include <stddef.h>
#include <stdlib.h>
#include <unistd.h>

void *__libc_malloc(size_t);
void *__libc_calloc(size_t, size_t);
void *__libc_realloc(void *, size_t);
void *__libc_memalign(size_t, size_t);

static long asked;
static long refused = -1;

static int is_refused(void) {
  if (refused < 0) {
    char *text = getenv("REFUSE");
    refused = text ? atol(text) : 0;
  }
  if (__sync_add_and_fetch(&asked, 1) != refused) return 0;
  close(open("met", O_CREAT | O_WRONLY, 0600));
  errno = ENOMEM;
  return 1;
}

void *malloc(size_t n) { return is_refused() ? NULL : __libc_malloc(n); }
void *calloc(size_t n, size_t m) { return is_refused() ? NULL : __libc_calloc(n, m); }
void *realloc(void *p, size_t n) { return is_refused() ? NULL : __libc_realloc(p, n); }
void *memalign(size_t a, size_t n) { return is_refused() ? NULL : __libc_memalign(a, n); }
void *aligned_alloc(size_t a, size_t n) { return memalign(a, n); }
int posix_memalign(void **p, size_t a, size_t n) {
  *p = memalign(a, n);
  return *p ? 0 : 12;
}
LINES

# run WORDS ..: its status; what it prints, and the file `out`
run() {
  local status=0
  rm -f out
  REFUSE=$number LD_PRELOAD="$place/refuse.so" "$program" "$@" >printed 2>said || status=$?
  echo "$status" >status
}

# each WORDS ..: each allocation refused in turn, until a run meets none
each() {
  local number=0 seen=0
  run "$@"
  [ ! -e out ] || mv out whole
  mv printed printed-whole
  mv status status-whole
  while true; do
    number=$((number + 1))
    rm -f met
    run "$@"
    if [ "$(cat status)" = 4 ]; then
      seen=$((seen + 1))
      [ ! -s out ] || fail "$*: allocation $number refused, and something is written"
      # without memory for the words nothing is printed
      [ ! -s printed ] || [ "$(cat printed)" = memory ] || fail "$*: allocation $number refused: $(cat printed)"
    else
      cmp -s status status-whole || fail "$*: allocation $number refused: status $(cat status)"
      cmp -s printed printed-whole || fail "$*: allocation $number refused: $(cat printed)"
      [ ! -e whole ] || cmp -s out whole || fail "$*: allocation $number refused, and something else is written"
    fi
    [ -e met ] || break
  done
  rm -f whole
  [ "$seen" -gt 0 ] || fail "$*: no allocation was refused"
  echo "$1: $((number - 1)) allocations, $seen of them answered as memory"
}

"$program" make 7 plain.dff 2 1 >/dev/null
"$program" encode plain.dff coded.dff --level 1 >/dev/null
"$program" decode-dsf coded.dff sound.dsf >/dev/null

each encode plain.dff out --level 2
each encode plain.dff out --workers 2
each decode coded.dff out
each decode coded.dff out --workers 2
each cut coded.dff out 1 1
each frame coded.dff out 1
each frame coded.dff out 1 --by-index
each check coded.dff
each show coded.dff
each show coded.dff 1
each index coded.dff
each make 7 out 2 1
each make 7 --run 2 1
each encode-dsf sound.dsf out
each decode-dsf coded.dff out
each range coded.dff out 0 4 4700 10
