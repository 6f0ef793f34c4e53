#!/usr/bin/env bash
# Times a script on a random net, its `node` and `edge` lines alone and with 20 `reach` queries of both outcomes, at half
# the size and at full size, so that the cost of one query and its growth are seen. Build the console first, by `rt ci`.
# usage: bench/reach.sh [ROUNDS]
set -euo pipefail
cd "$(dirname "$0")"
rounds=${1:-5}
. ./common.sh

# The net's last node has no edge, so each second query finds a closed set.
script() {
    awk -v nodes="$1" -v edges="$2" -v queries="$3" 'BEGIN {
        for (k = 0; k < nodes; k++) print "node";
        x = 1;
        for (k = 0; k < edges; k++) {
            x = (x * 48271) % 2147483647; from = x % (nodes - 1) + 1;
            x = (x * 48271) % 2147483647; to = x % (nodes - 1) + 1;
            print "edge n" from " n" to;
        }
        for (k = 1; k <= queries; k++) print "reach n" k " n" (k % 2 ? nodes - k : nodes);
    }'
}

# The least time of a script.
best() {
    for ((round = 0; round < rounds; round++)); do out/measure "$1" "$leda"; done | sort -n | head -1
}

for size in 50000 100000; do
    script "$size" $((4 * size)) 0 > out/lines
    script "$size" $((4 * size)) 20 > out/queries
    "$leda" < out/queries | awk '$2 == "walk" { walks++ } $2 == "closed" { closed++ } END {
        printf "%d walks, %d closed sets; ", walks, closed }'
    echo "$size $(best out/lines) $(best out/queries)" | awk '{
        printf "%d nodes, %d edges: lines alone %.3f s, with 20 queries %.3f s, a query %.1f ms, greatest memory %d KiB\n",
            $1, 4 * $1, $2, $4, ($4 - $2) * 50, $5 }'
done
