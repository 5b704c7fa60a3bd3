#!/usr/bin/env bash
# Times `poplar gen` over LINES strings of 4 bytes. LINES is 10000 where it is not given.
set -eu
root=$(cd "$(dirname "$(readlink -f "${BASH_SOURCE[0]}")")/.." && pwd)
lines=${1:-10000}
folder=$(mktemp -d)
trap 'rm -rf "$folder"' EXIT
for ((i = 0; i < lines; i++)); do printf '%04d\n' $((i % 10000)); done > "$folder/strings"
master=$(printf '00%.0s' $(seq 32))
start=$(date +%s%N)
"$root/poplar" gen --width 4 --master "$master" "$folder/strings" "$folder/zero.share" "$folder/one.share"
end=$(date +%s%N)
echo "strings $lines, bytes a file $(stat -c %s "$folder/zero.share"), milliseconds $(((end - start) / 1000000)), microseconds a string $(((end - start) / (1000 * lines)))"
