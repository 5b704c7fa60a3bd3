#!/usr/bin/env bash
# Refuses the built program one thing after another, by number, over small data: each growth of memory, each call of open, statx,
# lseek, read and write, and each thread; it lets each read and write move one byte. Prints a table of how the runs ended; the status is 1 where
# one ended as none may. Each STEP-th number is tried, 1 where STEP is not given. docs/REFUSALS.md has what was measured.
set -eu
root=$(cd "$(dirname "$(readlink -f "${BASH_SOURCE[0]}")")/.." && pwd)
step=${1:-1}
folder=$(mktemp -d)
trap 'rm -rf "$folder"' EXIT
"${CC:-cc}" -O2 -shared -fPIC -o "$folder/refuse.so" "$root/bench/refuse.c" -ldl
mkdir "$folder/data"
cd "$folder/data"
program="$root/crates/poplar_cli/out/poplar_cli"
master=$(printf '00%.0s' $(seq 32))
printf 'ab\nab\nac\n' > strings
"$root/poplar" gen --width 2 --master "$master" strings zero.share one.share
# two records of zero bytes at width 1, the first of which has a further bit set
{ printf '\x50\x50\x4c\x52\x01\x00\x01\x00'; head -c 112 /dev/zero; printf '\x04'; head -c 1087 /dev/zero; } > bits.share
echo "| Command | Refused | Numbers | Tried | Whole | Status 8 | Status 6 | Status 10 | Out empty, part, whole | Wrong |"
echo "|---|---|---|---|---|---|---|---|---|---|"
wrong=0
try() {
  python3 "$root/bench/refuse.py" "$folder/refuse.so" "$step" "$folder/data" "$1" "$2" "$program" "${@:3}" || wrong=1
}
try eval "" eval 0 1 bits.share
try gen "gen0.share,gen1.share" gen --width 2 --master "$master" strings gen0.share gen1.share
try "run, 1 worker" "" run --threshold 2 --workers 1 zero.share one.share
try "run, 4 workers" "" run --threshold 2 --workers 4 zero.share one.share
try find "" find --width 2 --threshold 2 strings
try make "" make --reports 3 --width 1 --threshold 1
exit $wrong
