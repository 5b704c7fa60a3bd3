#!/usr/bin/env bash
# Times `poplar run` over the share files of REPORTS reports of 1 byte with 1 and with 4 uploaders, at a threshold that ends the walk at
# its first level: what is left is reading both files, collecting, sealing and one level. REPORTS is 200000 where it is not given.
set -eu
root=$(cd "$(dirname "$(readlink -f "${BASH_SOURCE[0]}")")/.." && pwd)
reports=${1:-200000}
folder=$(mktemp -d)
trap 'rm -rf "$folder"' EXIT
yes a | head -n "$reports" > "$folder/strings"
"$root/poplar" gen --width 1 --master "$(printf '00%.0s' $(seq 32))" "$folder/strings" "$folder/zero.share" "$folder/one.share"
for uploaders in 1 4; do
  start=$(date +%s%N)
  /usr/bin/time -f 'kilobytes at most %M' \
    "$root/poplar" run --threshold $((reports + 1)) --uploaders "$uploaders" "$folder/zero.share" "$folder/one.share"
  end=$(date +%s%N)
  echo "reports $reports, uploaders $uploaders, milliseconds $(((end - start) / 1000000))"
done
