#!/usr/bin/env bash
# Times `poplar eval` over a share file of RECORDS records of zero bytes at width 1, at 8 bits: 8 expansions and 8 conversions
# a record. RECORDS is 10000 where it is not given. Each further word is another form of the program, as the `poplar` of a checkout of
# an earlier commit: the forms take turns, five times each, and the least processor time of each is told.
set -eu
root=$(cd "$(dirname "$(readlink -f "${BASH_SOURCE[0]}")")/.." && pwd)
records=${1:-10000}
forms=("$root/poplar" "${@:2}")
folder=$(mktemp -d)
trap 'rm -rf "$folder"' EXIT
printf '\x50\x50\x4c\x52\x01\x00\x01\x00' > "$folder/zeros.share"
head -c $((600 * records)) /dev/zero >> "$folder/zeros.share"
for form in "${forms[@]}"; do "$form" eval 0 0 "$folder/zeros.share" > /dev/null; done
for _ in 1 2 3 4 5; do
  for place in "${!forms[@]}"; do
    /usr/bin/time -a -o "$folder/times$place" -f '%U %S' "${forms[$place]}" eval 0 01100001 "$folder/zeros.share" > "$folder/values$place"
  done
done
for place in "${!forms[@]}"; do
  cmp "$folder/values0" "$folder/values$place"
  awk -v form="${forms[$place]}" -v records="$records" '
    { spent = $1 + $2; if (NR == 1 || spent < least) least = spent }
    END { printf "%s: records %d, milliseconds of the processor %d, nanoseconds a step %d\n", form, records, 1000 * least, 1e9 * least / (8 * records) }
  ' "$folder/times$place"
done
