#!/usr/bin/env bash
# Times the console's graph, part by part, and a plain C++ program of the same job in the same run, at half the size and
# at full size: nodes and edges made by lines, looks at every node and edge, a quarter of the edges hidden and restored in
# another order, all edges deleted. Each part's time is that of the script up to it, less that of the parts before.
# Build the console first, by `rt ci`.
# usage: bench/graph.sh [ROUNDS]
set -euo pipefail
cd "$(dirname "$0")"
rounds=${1:-5}
. ./common.sh
if ! command -v c++ > /dev/null; then
    echo "$0: a C++ compiler, c++, is wanted" >&2
    exit 1
fi
c++ -O2 -o out/graph graph.cpp

# The script up to a part: 1 makes, 2 looks, 3 hides and restores, 4 deletes.
script() {
    awk -v nodes="$1" -v edges="$2" -v parts="$3" 'BEGIN {
        for (k = 0; k < nodes; k++) print "node";
        x = 1;
        for (k = 0; k < edges; k++) {
            x = (x * 48271) % 2147483647; from = x % nodes + 1;
            x = (x * 48271) % 2147483647; to = x % nodes + 1;
            print "edge n" from " n" to;
        }
        if (parts < 2) exit;
        for (k = 1; k <= nodes; k++) print "out n" k;
        for (k = 1; k <= edges; k++) print "source e" k;
        if (parts < 3) exit;
        # Every fourth edge, by a step that is prime to their count; back by another.
        some = edges / 4;
        for (k = 0; k < some; k++) print "hide_edge e" 4 * ((k * 7919) % some) + 1;
        for (k = 0; k < some; k++) print "restore_edge e" 4 * ((k * 104729) % some) + 1;
        if (parts < 4) exit;
        for (k = 0; k < edges; k++) print "del_edge e" (k * 7919) % edges + 1;
    }'
}

# The least time of a script, and the greatest memory.
best() {
    for ((round = 0; round < rounds; round++)); do out/measure "$1" "$2"; done | sort -n | head -1
}

for size in 50000 100000; do
    for part in 1 2 3 4; do
        script "$size" $((4 * size)) "$part" > "out/part$part"
    done
    "$leda" < out/part4 > out/replies.leda
    out/graph < out/part4 > out/replies.graph
    cmp out/replies.leda out/replies.graph
    for part in 1 2 3 4; do
        echo "$part $(best out/part$part "$leda") $(best out/part$part out/graph)"
    done | awk -v size="$size" '
        BEGIN { split("made looked_at hidden_and_restored deleted", names, " "); print size " nodes, " 4 * size " edges" }
        { printf "%-20s leda %.3f s, C++ %.3f s, ratio %.2f; greatest memory %d and %d KiB\n",
              names[$1], $2 - a, $4 - b, ($2 - a) / ($4 - b), $3, $5; a = $2; b = $4 }'
done
