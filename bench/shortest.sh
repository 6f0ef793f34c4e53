#!/usr/bin/env bash
# Times the queries `dijkstra` and `sp` of the built console beside LEMON's Dijkstra on a StaticDigraph and Boost's
# bellman_ford_shortest_paths (Debian's liblemon-dev and libboost-graph-dev), in one run, by processor time, the least of
# each of ROUNDS: the query where the net is at hand, and the making of the net. The peers' graphs are made before their
# time begins; it is that of solving, and of solving and printing a reply of the same kind. Of a negative cycle Boost only
# says that there is one. A peer is ended at LIMIT seconds, and that is printed.
# It fails where the two differ in the nodes reached or in the sum of their distances. Build the console first, by `rt ci`.
# usage: bench/shortest.sh [ROUNDS [LIMIT]]
set -euo pipefail
cd "$(dirname "$0")"
rounds=${1:-3}
limit=${2:-60}
. ./common.sh
if ! command -v c++ > /dev/null || ! [ -e /usr/include/lemon/static_graph.h ] ||
    ! [ -e /usr/include/boost/graph/bellman_ford_shortest_paths.hpp ]; then
    echo "$0: a C++ compiler, c++, LEMON and Boost are wanted (apt-get install g++ liblemon-dev libboost-graph-dev)" >&2
    exit 1
fi
c++ -O2 -std=c++17 -o out/shortest shortest.cpp
timeout=$(command -v timeout)

# What the console found, as the peer tells it.
found() {
    "$leda" < out/shortest.ask | awk '
        $2 == "finite" { reached++; sum += $4 }
        $2 == "-inf" { negative = 1 }
        END { if (negative) print "negative"; else printf "%d:%.0f\n", reached, sum }'
}

# The peer is asked once of a negative cycle, where it goes through as many rounds as there are nodes.
peer() {
    local rounds=$rounds
    if [ "$2" = negative ]; then rounds=1; fi
    for ((round = 0; round < rounds; round++)); do
        "$timeout" "$limit" out/shortest solve "$@" 2>&1 > /dev/null || { echo - - - -; return; }
    done
}

echo "| Query | Net | Nodes | Net made | Peer's graph made | Query's time | Peer, solving | and printing | By solving | By both |"
echo "|---|---|---|---|---|---|---|---|---|---|"
for net in dijkstra:random:25000 dijkstra:random:50000 dijkstra:random:100000 dijkstra:grid:100000 \
    sp:random:25000 sp:random:50000 sp:random:100000 sp:grid:100000 sp:acyclic:894 sp:negative:25000 sp:negative:50000; do
    IFS=: read -r query family n <<< "$net"
    out/shortest write "$query" "$family" "$n" out/shortest.gw
    printf 'load out/shortest.gw\nedge_array c labels\n' > out/shortest.load
    { cat out/shortest.load; echo "$query n1 c"; } > out/shortest.ask
    ours=$(found)
    read -r time made <<< "$(parts out/shortest.load "$query n1 c")"
    peer "$query" "$family" "$n" | awk -v query="$query" -v net="$family" -v n="$n" -v ours="$ours" -v time="$time" \
        -v made="$made" -v limit="$limit" '
        function ms(x) { return sprintf("%.1f ms", x) }
        $1 == "-" { ended = 1 }
        NR == 1 || $1 < solve { solve = $1 }
        NR == 1 || $2 < print_ { print_ = $2 }
        NR == 1 || $3 < graph { graph = $3 }
        { theirs = $4 }
        END {
            over = "over " limit " s"; ratio = by = "-"
            solve /= 1000; both = solve + print_ / 1000
            if (!ended) { ratio = sprintf("%.2f", time / solve); by = sprintf("%.2f", time / both) }
            printf "| `%s` | %s | %d | %s ms | %s | %s ms | %s | %s | %s | %s |\n", query, net, n, made,
                ended ? "-" : ms(graph / 1000), time, ended ? over : ms(solve), ended ? over : ms(both), ratio, by
            if (!ended && ours != theirs) { print "found: " ours " and " theirs; exit 1 }
        }'
done
