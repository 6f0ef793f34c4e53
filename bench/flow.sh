#!/usr/bin/env bash
# Times the query `maxflow` of the built console beside LEMON's Preflow on a StaticDigraph and Boost's
# boykov_kolmogorov_max_flow (Debian's liblemon-dev and libboost-graph-dev), in one run, by processor time, the least of
# each of ROUNDS: the query where the net is at hand, and the making of the net. The peers' graphs are made before their
# time begins; it is that of solving, and LEMON's printing of a reply of the same kind is told beside it.
# It fails where they find flows of different values. Build the console first, by `rt ci`.
# usage: bench/flow.sh [ROUNDS]
set -euo pipefail
cd "$(dirname "$0")"
rounds=${1:-3}
. ./common.sh
if ! command -v c++ > /dev/null || ! [ -e /usr/include/lemon/preflow.h ] ||
    ! [ -e /usr/include/boost/graph/boykov_kolmogorov_max_flow.hpp ]; then
    echo "$0: a C++ compiler, c++, LEMON and Boost are wanted (apt-get install g++ liblemon-dev libboost-graph-dev)" >&2
    exit 1
fi
c++ -O2 -std=c++17 -o out/flow flow.cpp

echo "| Net | Nodes | Net made | LEMON's graph made | Boost's | Query | LEMON, solving | and printing | Boost, solving | By LEMON's solving | By the best and printing | Value |"
echo "|---|---|---|---|---|---|---|---|---|---|---|---|"
for net in random:25000 random:50000 random:100000 layers:8000 layers:32000 levels:16000 levels:64000 bipartite:40000 \
    flood:14400; do
    family=${net%:*}
    n=${net#*:}
    out/flow write "$family" "$n" out/flow.gw
    printf 'load out/flow.gw\nedge_array c labels\n' > out/flow.load
    { cat out/flow.load; echo "maxflow n1 n2 c"; } > out/flow.ask
    ours=$("$leda" < out/flow.ask | awk '/^= maxflow/ { print $3 }')
    read -r query made <<< "$(parts out/flow.load 'maxflow n1 n2 c')"
    for ((round = 0; round < rounds; round++)); do
        out/flow solve "$family" "$n" 2>&1 > /dev/null
    done | awk -v net="$family" -v n="$n" -v ours="$ours" -v query="$query" -v made="$made" '
        NR == 1 || $1 < lemon { lemon = $1 }
        NR == 1 || $2 < boost { boost = $2 }
        NR == 1 || $3 < print_ { print_ = $3 }
        NR == 1 || $4 < first { first = $4 }
        NR == 1 || $5 < second { second = $5 }
        { theirs = $6 }
        END {
            lemon /= 1000; boost /= 1000; print_ /= 1000
            least = (lemon < boost ? lemon : boost) + print_
            printf "| %s | %d | %s ms | %.1f ms | %.1f ms | %s ms | %.1f ms | %.1f ms | %.1f ms | %.2f | %.2f | %s |\n", net,
                n, made, first / 1000, second / 1000, query, lemon, lemon + print_, boost, query / lemon, query / least,
                ours == theirs ? ours ", all" : ours " and " theirs
            exit ours != theirs
        }'
done
