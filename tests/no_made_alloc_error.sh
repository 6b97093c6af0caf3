#!/usr/bin/env bash
# Want of memory is answered by the allocator alone: no line of the crates, outside their tests, makes an AllocError. The word may stand in
# a type, in an import, in a clause and in the declaration of a variant, and nowhere else.
set -euo pipefail
cd "$(dirname "$0")/.."

# The lines of some files that make one, each with its file and number.
making() {
  awk '
    FNR == 1 { inside = 0 }
    { line = $0 }
    /^ *\/\// { next }
    /^ *(pub(\([a-z]+\))? )?enum [A-Za-z]+(<[^>]*>)? \{$/ { inside = 1 }
    /^ *\}$/ { inside = 0 }
    /^ *(ghost )?use / { if (line !~ / as /) next }
    /^ *(requires|ensures)\*? .*\}$/ { next }
    inside { sub(/^ +[A-Z][A-Za-z]*\(AllocError\),$/, "", line) }
    {
      gsub(/Result<[^;={}]*, AllocError>/, "", line)
      gsub(/From<AllocError>/, "", line)
      gsub(/[a-z_]+: AllocError[,)]/, "", line)
      gsub(/\([a-z]+ : AllocError\)/, "", line)
      gsub(/AllocError::from[^_(a-z]/, "", line)
    }
    line ~ /(^|[^A-Za-z_])Alloc(Error|Failed)([^A-Za-z_]|$)/ { print FILENAME ":" FNR ": " $0 }
  ' "$@"
}

# What it must refuse, and what it must pass.
place=$(mktemp -d)
trap 'rm -rf "$place"' EXIT
cat >"$place/made.rt" <<'LINES'
use std::alloc::AllocError as Refused;
    Err(AllocError)
        return Err(OpenFault::Memory(std::alloc::AllocError));
    Memory(AllocError),
    let refused = AllocError;
    AllocError {}
    AllocError::from(AllocFailed { value: 0 })
    let refused: AllocError = AllocError;
LINES
cat >"$place/answered.rt" <<'LINES'
ghost use Rattle.std.specs.declared.alloc.AllocError.{AllocError};
use std::alloc::{AllocError, Global};
pub enum OpenFault {
    Memory(AllocError),
}
impl From<AllocError> for RunFault {
    fn from(refused: AllocError) -> RunFault {
fn room(alloc: Global) -> Result<Vec<u8>, AllocError>
    ensures memory { (refused : AllocError) → result ≡ Err (OpenFault.Memory refused) → sink.new ≡ sink.old }
    heads.push(head).map_err(AllocError::from)?;
LINES
if [ "$(making "$place/made.rt" | wc -l)" != "$(wc -l <"$place/made.rt")" ]; then
  making "$place/made.rt"
  echo "not each line that makes an AllocError is found"
  exit 1
fi
if [ -n "$(making "$place/answered.rt")" ]; then
  making "$place/answered.rt"
  echo "a line that makes no AllocError is taken for one that does"
  exit 1
fi

found=$(find crates -path '*/src/*.rt' -not -path '*/out/*' -not -path '*/tests/*' -not -name tests.rt -print0 | sort -z | {
  while IFS= read -r -d '' file; do making "$file"; done
})
if [ -n "$found" ]; then
  echo "$found"
  echo "an AllocError is made, which only an allocator may tell"
  exit 1
fi
echo "no line makes an AllocError"
