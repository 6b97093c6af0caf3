#!/usr/bin/env bash
# The built program, from outside: its status, what it writes, what it doesn't write, and what it tells people on standard error.
set -euo pipefail
cd "$(dirname "$0")/.."
# `rt ci` leaves the program where it built it.
if [ ! -x crates/dst_cli/out/dst_cli ]; then
  (cd crates/dst_cli && rt run -- --version >/dev/null)
fi
program="$PWD/crates/dst_cli/out/dst_cli"
coded="$PWD/crates/dst_cli/data/p1.dff"
place=$(mktemp -d)
trap 'rm -rf "$place"' EXIT
cd "$place"

fail() {
  echo "$*"
  exit 1
}

# expect STATUS WORDS ..: runs the program, which must end so; what it prints is in printed and said
expect() {
  local want=$1 status=0
  shift
  "$program" "$@" >printed 2>said || status=$?
  [ "$status" = "$want" ] || fail "status $status, not $want, of: $*"
}

# The last run printed this line, and nothing else.
prints() {
  [ "$(cat printed)" = "$1" ] || fail "printed: $(cat printed)"
}

# The last run showed people this, in one line.
tells() {
  [ "$(wc -l <said)" = 1 ] || fail "said: $(cat said)"
  grep -qF -- "$1" said || fail "said: $(cat said)"
}

quiet() {
  [ ! -s said ] || fail "said: $(cat said)"
}

absent() {
  [ ! -e "$1" ] || fail "$1 is there"
}

# Done: all words of each command, and the way there and back.
expect 0 decode "$coded" plain.dff
prints 'decoded 1 frames into 4704 bytes'
quiet
expect 0 encode plain.dff level2.dff --level 2 --workers 3
quiet
expect 0 decode level2.dff again.dff --workers 16
cmp plain.dff again.dff
expect 0 check level2.dff
expect 0 frame level2.dff sound.raw 0 --by-index
[ "$(wc -c <sound.raw)" = 4704 ] || fail "the frame's sound has $(wc -c <sound.raw) bytes"
expect 0 range level2.dff parts.raw 4700 4 0 2
prints 'range 6 bytes'
cmp parts.raw <(tail -c 4 sound.raw; head -c 2 sound.raw)
expect 0 range level2.dff none.raw 4704 0
prints 'range 0 bytes'
absent none.raw
expect 5 range level2.dff none.raw 0 1 4700 5
prints 'file refused: 33 RangePast 4705 4704'
absent none.raw
expect 0 show level2.dff
expect 0 index level2.dff
expect 0 cut level2.dff cut.dff 0 0
prints 'cut 1 frames'
expect 0 decode-dsf "$coded" sound.dsf --workers 2
prints 'decoded 1 frames into 4704 bytes'
[ "$(wc -c <sound.dsf)" = 8284 ] || fail "the DSF file has $(wc -c <sound.dsf) bytes"
expect 0 encode-dsf sound.dsf of-dsf.dff --level 2 --workers 3
expect 0 decode-dsf of-dsf.dff again.dsf
cmp sound.dsf again.dsf
expect 5 encode-dsf plain.dff other.dff
prints 'file refused: 29 DsfForm'
absent other.dff
expect 0 make 7 made.dff 2 1
prints 'made 2 frames'
expect 0 make 7 --run 2 1
quiet

# Words: nothing is made, and the line names the command's usage.
expect 1
prints 'words not understood'
tells 'a command is missing; dst_cli --help'
expect 1 transcode plain.dff other.dff
tells 'no command is named transcode'
expect 1 encode plain.dff
tells 'OUT is missing; usage: dst_cli encode IN OUT [--level L] [--workers W]; more by dst_cli encode --help'
expect 1 encode plain.dff other.dff --speed 3
tells 'encode has no option --speed'
expect 1 encode plain.dff other.dff --level 9
tells "a word isn't one that its place takes; usage: dst_cli encode"
expect 1 cut plain.dff other.dff 5 4
absent other.dff
fits_a_screen() {
  [ "$(wc -l <printed)" -le 50 ] || fail "the help has $(wc -l <printed) lines"
  [ "$(wc -L <printed)" -le 80 ] || fail "the help has lines of $(wc -L <printed) columns"
}
for command in encode decode cut frame range check show index pipe encode-dsf decode-dsf make; do
  expect 1 "$command"
  tells "usage: dst_cli $command "
  expect 0 "$command" --help
  grep -q "^dst_cli $command " printed || fail "help of $command"
  fits_a_screen
done
expect 0 --help
fits_a_screen
expect 0 --version

# A file that can't be read.
expect 2 decode none.dff other.dff
prints 'read fault'
tells 'none.dff: No such file or directory'
absent other.dff

# A file that can't be written: it exists already, its folder doesn't, the disk is full.
echo kept >there.dff
expect 3 decode "$coded" there.dff
prints 'write fault'
tells 'there.dff: exists already'
[ "$(cat there.dff)" = kept ] || fail "there.dff was changed"
expect 3 decode "$coded" none/other.dff
tells 'none/other.dff: No such file or directory'
(
  ulimit -f 40
  trap '' XFSZ
  expect 3 make 7 short.dff 60 2
)
grep -qF 'short.dff: File too large' said || fail "said: $(cat said)"
grep -qF "short.dff: holds the beginning alone, $(wc -c <short.dff) bytes" said || fail "said: $(cat said)"

# Memory that is refused: nothing is made.
status=0
(ulimit -v 30000 && "$program" make 7 --run 100 6 --rate 256) >printed 2>said || status=$?
[ "$status" = 4 ] || fail "status $status, not 4, without memory"

# A file that is refused, and a frame: what stands in front of the frame is written, and people are shown so.
head -c 20000 /dev/zero | tr '\0' 'i' >noise
expect 5 decode noise other.dff
prints 'file refused: 1 NotForm'
absent other.dff
quiet
expect 0 make 7 twelve.dff 12 1
expect 0 encode twelve.dff twelve-coded.dff --level 2
expect 0 index twelve-coded.dff
read -r _ offset _ < <(tail -1 printed)
cp twelve-coded.dff damaged.dff
printf '\300' | dd of=damaged.dff bs=1 seek="$offset" conv=notrunc status=none
expect 6 decode damaged.dff begun.dff
grep -q '^frame 11 refused: ' printed || fail "printed: $(cat printed)"
tells "begun.dff: holds the beginning alone, $(wc -c <begun.dff) bytes"
cmp -n "$(wc -c <begun.dff)" twelve.dff begun.dff

# A pipe: the same sound; a stream that is cut off, refused or closed, and what stands in front of that is written.
expect 0 pipe piped.dff < <(cat twelve-coded.dff)
prints 'decoded 12 frames into 56448 bytes'
cmp piped.dff twelve.dff
quiet
expect 5 pipe cut-off.dff < <(head -c 157 "$coded")
prints 'file refused: 3 Overrun 140'
[ "$(wc -c <cut-off.dff)" = 126 ] || fail "cut-off.dff has $(wc -c <cut-off.dff) bytes"
tells 'cut-off.dff: holds the beginning alone, 126 bytes'
expect 5 pipe other.dff < <(cat plain.dff)
prints 'file refused: 27 NotCoded'
absent other.dff
expect 6 pipe damaged-sound.dff < <(cat damaged.dff)
grep -q '^frame 11 refused: ' printed || fail "printed: $(cat printed)"
cmp damaged-sound.dff begun.dff
expect 5 pipe other.dff </dev/null
prints 'file refused: 1 NotForm'
expect 3 pipe there.dff < <(cat twelve-coded.dff)
tells 'there.dff: exists already'
expect 1 pipe in.dff out.dff </dev/null
expect 2 pipe other.dff <&-
absent other.dff

# A report that can't be printed.
status=0
"$program" show level2.dff >/dev/full 2>said || status=$?
[ "$status" = 7 ] || fail "status $status, not 7, of a full report"

# Words that aren't text.
status=0
"$program" show "$(printf '\377')" >printed 2>said || status=$?
[ "$status" = 8 ] || fail "status $status, not 8, of words that aren't text"
[ ! -s printed ] || fail "printed: $(cat printed)"

# Nobody listens on standard error: the same status and report.
status=0
"$program" decode none.dff other.dff >printed 2>&- || status=$?
[ "$status" = 2 ] && prints 'read fault'
status=0
"$program" decode none.dff other.dff >printed 2>/dev/full || status=$?
[ "$status" = 2 ] && prints 'read fault'

echo "the program ends with each status from 0 to 8, and says why"
