#!/usr/bin/env bash
# Times 500,000 lines of `node` and `edge` through the built console and through a plain C program of the same job, in
# one run, and prints both times, their ratio and the greatest memory of each. Build the console first, by `rt ci`.
# usage: bench/console.sh [ROUNDS]
set -euo pipefail
cd "$(dirname "$0")"
rounds=${1:-5}
. ./common.sh
cc -O2 -o out/console console.c

# 100,000 nodes, then 400,000 edges between nodes that a fixed recurrence picks.
awk 'BEGIN {
    for (k = 0; k < 100000; k++) print "node";
    x = 1;
    for (k = 0; k < 400000; k++) {
        x = (x * 48271) % 2147483647; from = x % 100000 + 1;
        x = (x * 48271) % 2147483647; to = x % 100000 + 1;
        print "edge n" from " n" to;
    }
}' > out/script
"$leda" < out/script > out/replies.leda
out/console < out/script > out/replies.c
cmp out/replies.leda out/replies.c


# The least time and the greatest memory of each, taken in turn.
for ((round = 0; round < rounds; round++)); do
    for program in "$leda" out/console; do
        echo "$(basename "$program") $(out/measure out/script "$program")"
    done
done | awk '
    { if (!($1 in best) || $2 < best[$1]) best[$1] = $2; if ($3 > most[$1]) most[$1] = $3 }
    END {
        printf "leda     best %.3f s, greatest memory %d KiB\n", best["leda"], most["leda"]
        printf "plain C  best %.3f s, greatest memory %d KiB\n", best["console"], most["console"]
        printf "ratio    %.2f (goal: at most 1.5)\n", best["leda"] / best["console"]
    }'
