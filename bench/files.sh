#!/usr/bin/env bash
# Times loading a file of 100,000 nodes and 400,000 edges, and loading and saving it, through the built console, and a
# plain C++ program of the same job in the same run: with labels, and without any, of the type `void`. Where Python has
# NetworkX, its reader is timed too. A file is made by lines and saved first; what is saved of it again, by both
# programs, has to be the same bytes.
# Build the console first, by `rt ci`.
# usage: bench/files.sh [ROUNDS]
set -euo pipefail
cd "$(dirname "$0")"
rounds=${1:-5}
. ./common.sh
if ! command -v c++ > /dev/null; then
    echo "$0: a C++ compiler, c++, is wanted" >&2
    exit 1
fi
c++ -O2 -o out/files files.cpp

# The lines that make the graph, with labels or without, and save it.
lines() {
    awk -v labels="$1" -v file="$2" 'BEGIN {
        for (k = 0; k < 100000; k++) print labels ? "node |{a}|" : "node";
        x = 1;
        for (k = 0; k < 400000; k++) {
            x = (x * 48271) % 2147483647; from = x % 100000 + 1;
            x = (x * 48271) % 2147483647; to = x % 100000 + 1;
            print "edge n" from " n" to (labels ? " |{" k "}|" : "");
        }
        print "save " file;
    }'
}

# The least time of a program on an input, and its greatest memory.
best() {
    for ((round = 0; round < rounds; round++)); do out/measure "$@"; done | sort -n | head -1
}

for labels in 1 0; do
    file=out/graph$labels.gw
    lines "$labels" "$file" > out/lines
    "$leda" < out/lines > out/replies.leda
    echo "load $file" > out/loads
    printf 'load %s\nsave out/again.gw\n' "$file" > out/saves
    read -r load load_memory <<< "$(best out/loads "$leda")"
    read -r both both_memory <<< "$(best out/saves "$leda")"
    cmp "$file" out/again.gw
    read -r peer peer_memory <<< "$(best /dev/null out/files "$file")"
    read -r peer_both peer_both_memory <<< "$(best /dev/null out/files "$file" out/again.gw)"
    cmp "$file" out/again.gw
    echo "$(stat -c %s "$file") bytes, labels: $labels"
    awk -v a="$load" -v b="$peer" -v c="$both" -v d="$peer_both" -v m="$load_memory" -v n="$peer_memory" \
        -v o="$both_memory" -v p="$peer_both_memory" 'BEGIN {
        printf "loaded: leda %.3f s, C++ %.3f s, ratio %.2f; greatest memory %d and %d KiB\n", a, b, a / b, m, n;
        printf "loaded and saved: leda %.3f s, C++ %.3f s, ratio %.2f; greatest memory %d and %d KiB\n", c, d, c / d, o, p;
    }'
    if python3 -c 'import networkx' 2> /dev/null; then
        python3 -c '
import sys, time, networkx
begin = time.monotonic()
networkx.read_leda(sys.argv[1])
print("NetworkX: loaded in %.3f s" % (time.monotonic() - begin))' "$file"
    else
        echo "NetworkX: not timed, since Python has none (pip install networkx)"
    fi
done
