#!/usr/bin/env bash
# Times searches on one processor with one worker a side, each as often as TIMES says (3 where it is not given), and tells the least:
# two of `make` with the greatest cache; `find` over 4,096 host names of up to 16 bytes, of which 60 are frequent, with the default
# cache and with 65536 nodes a shard; then how the time grows with the reports at width 4 and with the width at 1,024 reports. Each
# further word is another form of the program, as the `poplar` of a checkout of an earlier commit; the answers must be equal.
set -eu
root=$(cd "$(dirname "$(readlink -f "${BASH_SOURCE[0]}")")/.." && pwd)
times=${1:-3}
forms=("$root/poplar" "${@:2}")
folder=$(mktemp -d)
trap 'rm -rf "$folder"' EXIT
awk 'BEGIN {
  for (i = 0; i < 4096; i++) {
    if (i % 2 == 0) printf "www%d.host.org\n", (i / 2) % 60
    else printf "h%05d.net.com\n", i
  }
}' > "$folder/hosts"

measure() {
  local place least round start end spent
  for place in "${!forms[@]}"; do
    least=
    for ((round = 0; round < times; round++)); do
      start=$(date +%s%N)
      taskset -c 0 "${forms[$place]}" "$@" --workers 1 --uploaders 1 > "$folder/answer$place" 2> /dev/null
      end=$(date +%s%N)
      spent=$(((end - start) / 1000000))
      if [ -z "$least" ] || [ "$spent" -lt "$least" ]; then least=$spent; fi
    done
    cmp "$folder/answer0" "$folder/answer$place"
    echo "${forms[$place]}: ${*//$folder\//}: milliseconds $least"
  done
}

for form in "${forms[@]}"; do "$form" make --reports 8 --width 1 --threshold 1 > /dev/null 2>&1; done
measure make --reports 20000 --width 4 --threshold 200 --cache 65536
measure make --reports 4096 --width 16 --threshold 40 --cache 65536
measure find --width 16 --threshold 20 "$folder/hosts"
measure find --width 16 --threshold 20 --cache 65536 "$folder/hosts"
for reports in 5000 10000 20000; do
  measure make --reports "$reports" --width 4 --threshold $((reports / 100))
done
for width in 4 8 16 32; do
  measure make --reports 1024 --width "$width" --threshold 10
done
