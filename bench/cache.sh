#!/usr/bin/env bash
# Times walks with caches of several sizes, with 4 workers and with 1, one after the other. First 4,096 reports of 16 bytes, with the
# default cache and with one of a single node a shard; then 20,000 reports of 4 bytes, with the greatest cache and with the least. Each
# line has the words, the answer and the milliseconds. With a second program as the first word, as that of the commit before,
# that one runs the first two cases too. A case runs as often as the second word says, once where there is none.
set -eu
root=$(cd "$(dirname "$(readlink -f "${BASH_SOURCE[0]}")")/.." && pwd)
before=${1:-}
times=${2:-1}
measure() {
  local program=$1
  shift
  for ((i = 0; i < times; i++)); do
    local start end answer
    start=$(date +%s%N)
    answer=$("$program" "$@" 2>/dev/null)
    end=$(date +%s%N)
    echo "$(basename "$(dirname "$(readlink -f "$program")")") $*: $answer, milliseconds $(((end - start) / 1000000))"
  done
}
for workers in 4 1; do
  for cache in 4096 1; do
    long=(make --reports 4096 --width 16 --threshold 40 --workers "$workers" --cache "$cache")
    measure "$root/poplar" "${long[@]}"
    if [ -n "$before" ]; then measure "$before" "${long[@]}"; fi
  done
  for cache in 65536 1; do
    measure "$root/poplar" make --reports 20000 --width 4 --threshold 200 --workers "$workers" --cache "$cache"
  done
done
