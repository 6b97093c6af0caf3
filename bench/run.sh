#!/usr/bin/env bash
# Measures the built program: million samples a second of encode at each level, decode and check, with 1, 2 and 4 workers; of a pipe, whose
# frames are decoded one by one, and how much faster eight side by side are; resident memory and sizes. The least of several turns counts, all taken in turn in one run. Beside it ffmpeg and wavpack, where they are
# installed.
#
#   bench/run.sh [TURNS] [FILE ..]     plain DSDIFF files; made sound without any
#
# It's no part of the gate. The program is the one behind `rt ci`, or `rt run` in crates/dst_cli.
set -euo pipefail
cd "$(dirname "$0")/.."
program="$PWD/crates/dst_cli/out/dst_cli"
turns=${1:-5}
[ $# = 0 ] || shift
place=$(mktemp -d)
trap 'rm -rf "$place"' EXIT

files=("$@")
if [ ${#files[@]} = 0 ]; then
  for channels in 1 2 6; do
    "$program" make 7 "$place/made$channels.dff" 600 "$channels" >/dev/null
    files+=("$place/made$channels.dff")
  done
fi

# measure WORDS ..: runs them and puts seconds and kilobytes into the file `last`
measure() {
  rm -f "$place/out"
  /usr/bin/time -o "$place/last" -f '%e %M' "$@" >/dev/null 2>&1
}

# least NAME: keeps the least seconds and the most kilobytes of a measure
least() {
  read -r seconds kilobytes <"$place/last"
  if [ -e "$place/$1" ]; then
    read -r before most <"$place/$1"
    seconds=$(awk -v a="$seconds" -v b="$before" 'BEGIN { print (a < b) ? a : b }')
    [ "$kilobytes" -gt "$most" ] || kilobytes=$most
  fi
  echo "$seconds $kilobytes" >"$place/$1"
}

echo "$("$program" --version), $(git rev-parse --short HEAD), $(nproc) processors, $(sed -n 's/^model name[^:]*: //p' /proc/cpuinfo | head -1), least of $turns turns"
for file in "${files[@]}"; do
  rm -f "$place"/[edcpfw]-*
  samples=$(("$(stat -c %s "$file")" * 8))
  for level in 0 1 2 3; do
    rm -f "$place/coded$level.dff"
    "$program" encode "$file" "$place/coded$level.dff" --level "$level" --workers 4 >/dev/null
  done
  for _ in $(seq "$turns"); do
    for workers in 1 2 4; do
      for level in 0 1 2 3; do
        measure "$program" encode "$file" "$place/out" --level "$level" --workers "$workers"
        least "e-$level-$workers"
      done
      measure "$program" decode "$place/coded2.dff" "$place/out" --workers "$workers"
      least "d-$workers"
      measure "$program" check "$place/coded2.dff" --workers "$workers"
      least "c-$workers"
    done
    measure sh -c 'cat "$1" | "$2" pipe "$3"' sh "$place/coded2.dff" "$program" "$place/out"
    least p-1
    if command -v ffmpeg >/dev/null; then
      measure ffmpeg -v quiet -threads 1 -i "$place/coded2.dff" -f null -
      least f-1
    fi
    if command -v wavpack >/dev/null && wavpack --help 2>&1 | grep -qi dsd; then
      measure wavpack -q -y "$file" -o "$place/out.wv"
      least w-1
    fi
  done
  echo
  echo "$(basename "$file"), $samples samples"
  printf '%-18s %8s %8s %8s   %s\n' 'million samples/s' '1 worker' 2 4 'resident KB (1, 4)'
  row() {
    local name=$1 key=$2 line speed workers
    line=$(printf '%-18s' "$name")
    for workers in 1 2 4; do
      read -r seconds _ <"$place/$key-$workers"
      speed=$(awk -v n="$samples" -v s="$seconds" 'BEGIN { printf "%.1f", n / (s > 0 ? s : 0.01) / 1e6 }')
      line+=$(printf ' %8s' "$speed")
    done
    read -r _ one <"$place/$key-1"
    read -r _ four <"$place/$key-4"
    echo "$line   $one, $four"
  }
  for level in 0 1 2 3; do
    row "encode --level $level" "e-$level"
  done
  row decode d
  row check c
  for other in p:pipe f:ffmpeg w:wavpack; do
    [ -e "$place/${other%%:*}-1" ] || continue
    read -r seconds kilobytes <"$place/${other%%:*}-1"
    awk -v name="${other#*:}" -v n="$samples" -v s="$seconds" -v k="$kilobytes" 'BEGIN { printf "%-18s %8.1f %17s   %s\n", name, n / s / 1e6, "", k }'
  done
  read -r alone _ <"$place/p-1"
  read -r eight _ <"$place/d-1"
  awk -v a="$alone" -v e="$eight" 'BEGIN { printf "frames alone (pipe) by eight side by side (decode): %.2f\n", a / e }'
  for level in 0 1 2 3; do
    awk -v l="$level" -v c="$(stat -c %s "$place/coded$level.dff")" -v p="$(stat -c %s "$file")" 'BEGIN { printf "size at level %d     %s bytes, %.1f percent\n", l, c, 100 * c / p }'
  done
done
