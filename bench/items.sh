#!/usr/bin/env bash
# What a million values cost in a pool, a queue and a dictionary of items, beside a vector with indices, a priority queue
# and a map of the C++ standard library. Each step's least time of a number of runs, 5 unless the first word is another;
# the two programs run in turn.
# It prints and fails on no time, but fails where the two programs saw different values.
set -eu
cd "$(dirname "$0")"
ours=../crates/item_bench/out/item_bench
runs=${1:-5}
mkdir -p out
if [ ! -x "$ours" ]; then
    echo "$0: item_bench isn't built; run 'rt ci' at the top of the repository first" >&2
    exit 1
fi
if ! command -v c++ > /dev/null; then
    echo "$0: a C++ compiler, c++, is wanted" >&2
    exit 1
fi
c++ -O2 -std=c++17 -o out/items items.cpp
for container in pool queue dict; do
    : > out/ours
    : > out/theirs
    for _ in $(seq "$runs"); do
        "$ours" "$container" >> out/ours
        out/items "$container" >> out/theirs
    done
    awk -v container="$container" '
        FNR == 1 { file++ }
        $1 == "sum" { if (sum == "") sum = $2; if (sum != $2) { print container ": the programs saw different values"; bad = 1 } next }
        !(($1, file) in least) || $2 < least[$1, file] { least[$1, file] = $2 }
        file == 1 && !($1 in seen) { seen[$1]; step[++steps] = $1 }
        END {
            for (k = 1; k <= steps; k++) {
                name = step[k]
                printf "%s %s: %.1f ms, C++ %.1f ms, ratio %.2f\n", container, name, least[name, 1] / 1000, least[name, 2] / 1000, least[name, 1] / least[name, 2]
            }
            exit bad
        }' out/ours out/theirs
done
