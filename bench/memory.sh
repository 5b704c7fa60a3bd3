#!/usr/bin/env bash
# Tells the most memory of `poplar run` over the share files of REPORTS reports of 4 bytes, at a threshold that ends the walk at its first
# level, and beside it the bytes of both files, which are those of their shares. REPORTS is 20000 where it is not given.
set -eu
root=$(cd "$(dirname "$(readlink -f "${BASH_SOURCE[0]}")")/.." && pwd)
reports=${1:-20000}
folder=$(mktemp -d)
trap 'rm -rf "$folder"' EXIT
for ((i = 0; i < reports; i++)); do printf '%04d\n' $((i % 10000)); done > "$folder/strings"
"$root/poplar" gen --width 4 --master "$(printf '00%.0s' $(seq 32))" "$folder/strings" "$folder/zero.share" "$folder/one.share"
/usr/bin/time -o "$folder/peak" -f '%M' "$root/poplar" run --threshold $((reports + 1)) "$folder/zero.share" "$folder/one.share"
bytes=$(($(stat -c %s "$folder/zero.share") + $(stat -c %s "$folder/one.share")))
echo "reports $reports, kilobytes of both files $((bytes / 1000)), kilobytes at most $(tail -n 1 "$folder/peak")"
