#!/usr/bin/env bash
# A chunk can't be kept past the bytes that it is lent from: the compiler refuses a caller that keeps one.
set -euo pipefail
cd "$(dirname "$0")/.."
copy=$(mktemp -d)
trap 'rm -rf "$copy"' EXIT

# The crate and those below it, lowest first.
needed() {
  local name
  for name in $(sed -n "s/^$1://p" crates.txt); do
    if [ -d "crates/$name" ]; then needed "$name"; fi
  done
  echo "$1"
}

mkdir -p "$copy/crates/keeper/src"
cp HANDLES "$copy/"
for name in $(needed chunk_view | awk '!seen[$0]++'); do
  tar -C crates --exclude="$name/out" -cf - "$name" | tar -C "$copy/crates" -xf -
  grep "^$name:" crates.txt >>"$copy/crates.txt"
done
echo 'keeper: chunk_view' >>"$copy/crates.txt"

# A caller that looks at a chunk while its bytes are there, and one line for behind them.
caller() {
  cat >src/lib.rt <<LINES
//! A caller of chunk_view.
#![tactic(auto)]

use chunk_view::{ChunkView, split_chunks};

pub fn finds_a_chunk() -> bool {
    let mut found = false;
    let mut kept: Option<ChunkView> = None;
    {
        let buffer = [0u8; 12];
        if let Ok(mut chunks) = split_chunks(&buffer) {
            kept = chunks.next();
            found = kept.is_some();
        }
    }
    $1
    found
}
LINES
}

cd "$copy/crates/keeper"
caller ''
if ! rt check >lent.log 2>&1; then
  cat lent.log
  echo "a chunk that is used while its bytes are there is refused"
  exit 1
fi
caller 'found = kept.is_some();'
if rt check >kept.log 2>&1; then
  echo "a chunk that is kept past its bytes is not refused"
  exit 1
fi
if ! grep -q 'error\[borrow-e0597\]' kept.log; then
  cat kept.log
  echo "a chunk that is kept past its bytes is refused for another reason"
  exit 1
fi
echo "a chunk that is kept past its bytes is refused"
