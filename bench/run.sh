#!/usr/bin/env bash
# Times `poplar run` with 1, 2 and 4 workers, one after the other, over the share files of REPORTS reports of 2 bytes: of every
# eight, one string each is held by 4, 2, 1 and 1 of them. REPORTS is 2000 where it is not given; the threshold is a tenth of it.
set -eu
root=$(cd "$(dirname "$(readlink -f "${BASH_SOURCE[0]}")")/.." && pwd)
reports=${1:-2000}
folder=$(mktemp -d)
trap 'rm -rf "$folder"' EXIT
for ((i = 0; i < reports; i++)); do
  case $((i % 8)) in 0 | 1 | 2 | 3) echo aa ;; 4 | 5) echo bb ;; 6) echo cc ;; 7) echo dd ;; esac
done > "$folder/strings"
master=$(printf '00%.0s' $(seq 32))
"$root/poplar" gen --width 2 --master "$master" "$folder/strings" "$folder/zero.share" "$folder/one.share"
for workers in 1 2 4; do
  start=$(date +%s%N)
  /usr/bin/time -f 'kilobytes at most %M' "$root/poplar" run --threshold $((reports / 10)) --workers "$workers" "$folder/zero.share" "$folder/one.share"
  end=$(date +%s%N)
  echo "reports $reports, workers $workers, milliseconds $(((end - start) / 1000000)), microseconds a report $(((end - start) / (1000 * reports)))"
done
