#!/usr/bin/env bash
# Times one phase of the check, REPORTS reports of 2 bytes by 8 candidates at level 16, with 1, 2, 4 and 64 workers on four processors, and
# with 4 and 64 on two. REPORTS is 2000 and ROUNDS 10 where they are not given; PROGRAM is a built phase_bench. Each case is timed as the machine places the threads, and
# with the threads given processors in turn (bench/pin.c): a machine may put two threads on one processor while another stands idle.
# Beside them, four programs of one worker each run at once, each on a processor: what four processors give to work that shares nothing.
# The cases take turns, ROUNDS times, each with three phases one after another. Printed are the least, the middle and the most of a
# case's milliseconds, and the milliseconds for which the machine's own host took processors away while the case ran ("steal").
set -eu
root=$(cd "$(dirname "$(readlink -f "${BASH_SOURCE[0]}")")/.." && pwd)
reports=${1:-2000}
rounds=${2:-10}
program="${PROGRAM:-$root/crates/phase_bench/out/phase_bench}"
if [ -z "${PROGRAM:-}" ] && [ ! -x "$program" ]; then
  (cd "$root/crates/phase_bench" && rt run >/dev/null 2>&1 </dev/null) || true
fi
if [ ! -x "$program" ]; then
  echo "phase.sh: $program is no program" >&2
  exit 2
fi
folder=$(mktemp -d)
trap 'rm -rf "$folder"' EXIT
"${CC:-cc}" -O2 -shared -fPIC -o "$folder/pin.so" "$root/bench/pin.c" -ldl

stolen() { awk 'NR == 1 {print $9}' /proc/stat; }
phases() { "$@" 2>&1 >/dev/null | awk '{print $NF / 1000}'; }
placed() { phases taskset -c "$1" "$program" "$reports" "$2" 3; }
pinned() { phases env "PROCESSORS=$1" "LD_PRELOAD=$folder/pin.so" "$program" "$reports" "$2" 3; }
four() {
  local place
  for place in 0 1 2 3; do pinned "$place" 1 > "$folder/part$place" & done
  wait
  cat "$folder"/part[0-3]
}

# One round of a case, whose name is the first word.
once() {
  local case=$1 before
  shift
  before=$(stolen)
  "$@" >> "$folder/$case.times"
  echo $((10 * ($(stolen) - before))) >> "$folder/$case.stolen"
}
told() {
  echo "$1: $(sort -n "$folder/$1.times" | awk '{t[NR] = $1} END {printf "%.1f, %.1f, %.1f", t[1], t[int((NR + 1) / 2)], t[NR]}')," \
    "stolen $(awk '{s += $1} END {print s}' "$folder/$1.stolen")"
}

for _ in $(seq "$rounds"); do
  for how in placed pinned; do
    for workers in 1 2 4 64; do once "$how, $workers workers" "$how" 0,1,2,3 "$workers"; done
    for workers in 4 64; do once "$how, $workers workers on two processors" "$how" 0,1 "$workers"; done
  done
  once "four programs of 1 worker" four
done
for how in placed pinned; do
  for workers in 1 2 4 64; do told "$how, $workers workers"; done
  for workers in 4 64; do told "$how, $workers workers on two processors"; done
done
told "four programs of 1 worker"
