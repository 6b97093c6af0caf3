#!/usr/bin/env bash
# How many threads the program starts, by a library in front of the C library's that notes each: none for one worker or on one processor; else, for each
# batch, one less than workers, and one without work while the batch is filled. A batch has sixteen frames for each worker.
set -euo pipefail
cd "$(dirname "$0")/.."
# `rt ci` leaves the program where it built it.
if [ ! -x crates/dst_cli/out/dst_cli ]; then
  (cd crates/dst_cli && rt run -- --version >/dev/null)
fi
program="$PWD/crates/dst_cli/out/dst_cli"
place=$(mktemp -d)
trap 'rm -rf "$place"' EXIT
cd "$place"

"${CC:-cc}" -O1 -shared -fPIC -x c -o count.so - <<'LINES'
#define _GNU_SOURCE
#include <dlfcn.h>
#include <fcntl.h>
#include <pthread.h>
#include <unistd.h>

int pthread_create(pthread_t *t, const pthread_attr_t *a, void *(*f)(void *), void *x) {
  int (*next)(pthread_t *, const pthread_attr_t *, void *(*)(void *), void *) = dlsym(RTLD_NEXT, "pthread_create");
  int file = open("started", O_CREAT | O_APPEND | O_WRONLY, 0600);
  if (write(file, "x", 1) != 1) _exit(99);
  close(file);
  return next(t, a, f, x);
}
LINES

# starts COUNT WORDS ..: fails where the run of these words starts another number of threads
starts() {
  local count=$1
  shift
  rm -f out started
  LD_PRELOAD="$place/count.so" "${on[@]}" "$program" "$@" >/dev/null
  touch started
  if [ "$(stat -c %s started)" != "$count" ]; then
    echo "$*: $(stat -c %s started) threads, not $count"
    exit 1
  fi
}

"$program" make 7 plain.dff 100 1 >/dev/null
"$program" encode plain.dff coded.dff --level 0 >/dev/null
# the processors that a process here may have, as "0-3" or "0,2"
list=$(awk '/^Cpus_allowed_list:/ { print $2 }' /proc/self/status)
processors=$(awk -v list="$list" 'BEGIN { n = split(list, parts, ","); for (k = 1; k <= n; k++) count += split(parts[k], ends, "-") == 2 ? ends[2] - ends[1] + 1 : 1; print count }')
# hundred frames in batches of 32, 48 and 64, and as many workers as there are processors at most
expected=(0 0 8 9 8)
on=(env)
for workers in 1 2 3 4; do
  count=${expected[$((workers < processors ? workers : processors))]}
  starts "$count" decode coded.dff out --workers "$workers"
  starts "$count" check coded.dff --workers "$workers"
  starts "$count" encode plain.dff out --level 0 --workers "$workers"
  starts "$count" decode-dsf coded.dff out --workers "$workers"
done
starts 0 decode coded.dff out
on=(taskset -c "${list%%[,-]*}")
starts 0 decode coded.dff out --workers 4
echo "threads as many as workers ask for"
