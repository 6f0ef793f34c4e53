#!/usr/bin/env bash
# What 400,000 values of 80 bytes take in a pool, and 400,000 members in rings, each in bytes, and a graph of 100,000
# nodes and 400,000 edges: the greatest memory of a program that makes them, less that of the program that does nothing.
# It fails on no number.
set -eu
cd "$(dirname "$0")"
ours=../crates/item_bench/out/item_bench
graph=../crates/graph_bench/out/graph_bench
mkdir -p out
if [ ! -x "$ours" ] || [ ! -x "$graph" ]; then
    echo "$0: item_bench or graph_bench isn't built; run 'rt ci' at the top of the repository first" >&2
    exit 1
fi
if ! command -v cc > /dev/null; then
    echo "$0: a C compiler, cc, is wanted" >&2
    exit 1
fi
cc -O2 -o out/measure measure.c
peak() {
    out/measure /dev/null "$@" | cut -d ' ' -f 2
}
nothing=$(peak "$ours" nothing)
for word in pool_memory pool_room_memory ring_memory; do
    all=$(peak "$ours" "$word")
    awk -v word="$word" -v kib=$((all - nothing)) 'BEGIN { printf "%s: %d KiB, %.1f bytes each\n", word, kib, kib * 1024 / 400000 }'
done
kib=$(($(peak "$graph" graph) - $(peak "$graph")))
awk -v kib="$kib" 'BEGIN { printf "graph: %d KiB, %.1f bytes an edge with a quarter of a node\n", kib, kib * 1024 / 400000 }'
