#!/usr/bin/env bash
# A frame can't be kept past the next call of the decoder that lent it: the compiler refuses a player that keeps one.
set -euo pipefail
cd "$(dirname "$0")/.."
copy=$(mktemp -d)
trap 'rm -rf "$copy"' EXIT

# The crate and those below it, lowest first.
needed() {
  local name
  for name in $(sed -n "s/^$1://p" crates.txt); do
    if [ -d "crates/$name" ]; then needed "$name"; fi
  done
  echo "$1"
}

mkdir -p "$copy/crates/player/src"
cp HANDLES "$copy/"
for name in $(needed push_decoder | awk '!seen[$0]++'); do
  tar -C crates --exclude="$name/out" -cf - "$name" | tar -C "$copy/crates" -xf -
  grep "^$name:" crates.txt >>"$copy/crates.txt"
done
echo 'player: push_decoder' >>"$copy/crates.txt"

# A player that looks at a frame, with one line before it does.
player() {
  cat >src/lib.rt <<LINES
//! A caller of push_decoder.
#![tactic(auto)]

use push_decoder::{PushDecoder, Step};

pub fn hears(decoder: &mut PushDecoder, piece: &[u8]) -> usize {
    let mut heard = 0;
    if let Ok((_, Step::Frame { bytes, .. })) = decoder.take(piece) {
        $1
        heard = bytes.len();
    }
    heard
}
LINES
}

cd "$copy/crates/player"
player ''
if ! rt check >lent.log 2>&1; then
  cat lent.log
  echo "a frame that is used before the next call is refused"
  exit 1
fi
player 'let _next = decoder.take(piece);'
if rt check >kept.log 2>&1; then
  echo "a frame that is kept past the next call is not refused"
  exit 1
fi
if ! grep -q 'error\[borrow-e0499\]' kept.log; then
  cat kept.log
  echo "a frame that is kept past the next call is refused for another reason"
  exit 1
fi
echo "a frame that is kept past the next call is refused"
