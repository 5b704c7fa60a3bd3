#!/usr/bin/env bash
# Times the nodes of SHARES shares at both children of FRONTS fronts, at levels 8, 16 and 32: nanoseconds a node from the root, by one
# way down a share, and from the fronts' nodes. SHARES is 300 and FRONTS 24 where they are not given; CPU, as x86-64-v3, builds the
# program for that processor. It runs three times, on one processor. With other work beside, run it over few shares and take the least.
set -eu
root=$(cd "$(dirname "$(readlink -f "${BASH_SOURCE[0]}")")/.." && pwd)
shares=${1:-300}
fronts=${2:-24}
cpu=${3:-x86-64-v2}
cd "$root/crates/lane_bench"
rt run --cpu="$cpu" -- 1 1 >/dev/null 2>&1 </dev/null || true
for _ in 1 2 3; do taskset -c 0 out/lane_bench "$shares" "$fronts" 2>&1 >/dev/null; done
