#!/usr/bin/env bash
# Times the query `matching` of the built console beside LEMON's MaxMatching (Debian's liblemon-dev), in one run, by
# processor time, the least of each of ROUNDS: the query where the net is at hand, and the making of the net. LEMON's
# graph is made before its time begins; its time is that of solving, and of solving and printing a reply of the same kind.
# It fails where the two find matchings of different sizes. Build the console first, by `rt ci`.
# usage: bench/matching.sh [ROUNDS]
set -euo pipefail
cd "$(dirname "$0")"
rounds=${1:-3}
. ./common.sh
if ! command -v c++ > /dev/null || ! [ -e /usr/include/lemon/matching.h ]; then
    echo "$0: a C++ compiler, c++, and LEMON are wanted (apt-get install g++ liblemon-dev)" >&2
    exit 1
fi
c++ -O2 -std=c++17 -o out/matching matching.cpp

echo "| Net | Nodes | Net made | LEMON's graph made | Query | LEMON, solving | and printing | Ratio | Edges |"
echo "|---|---|---|---|---|---|---|---|---|"
for net in random:25000 random:100000 cubic:25000 cubic:100000 triangles:100000 grid:100000 complete:890; do
    family=${net%:*}
    n=${net#*:}
    out/matching write "$family" "$n" out/matching.gw
    echo 'load out/matching.gw' > out/matching.load
    printf 'load out/matching.gw\nmatching\n' > out/matching.ask
    ours=$("$leda" < out/matching.ask | awk '/^= matching/ { print $3 }')
    read -r query made <<< "$(parts out/matching.load matching)"
    for ((round = 0; round < rounds; round++)); do
        out/matching solve "$family" "$n" 2>&1 > /dev/null
    done | awk -v net="$family" -v n="$n" -v ours="$ours" -v query="$query" -v made="$made" '
        NR == 1 || $1 < solve { solve = $1 }
        NR == 1 || $2 < print_ { print_ = $2 }
        NR == 1 || $3 < graph { graph = $3 }
        { theirs = $4 }
        END {
            solve /= 1000; both = solve + print_ / 1000
            printf "| %s | %d | %s ms | %.1f ms | %s ms | %.1f ms | %.1f ms | %.2f | %s |\n", net, n, made, graph / 1000,
                query, solve, both, query / both,
                ours == theirs ? ours ", both" : ours " and " theirs
            exit ours != theirs
        }'
done
