// Maximum flows by LEMON's Preflow and Boost's boykov_kolmogorov_max_flow, the yardsticks of bench/flow.sh.
// `flow write FAMILY NODES FILE` writes a net as a GRAPH file whose labels are the capacities; the flow is asked from the
// first node to the second. `flow solve FAMILY NODES` prints to the standard error the least microseconds of LEMON's
// solve, those of Boost's, those of printing LEMON's, and the value, and to the standard output a reply like the console's.
#include <algorithm>
#include <boost/graph/adjacency_list.hpp>
#include <boost/graph/boykov_kolmogorov_max_flow.hpp>
#include <climits>
#include <cstdint>
#include <cstdio>
#include <cstdlib>
#include <ctime>
#include <lemon/preflow.h>
#include <lemon/static_graph.h>
#include <string>
#include <utility>
#include <vector>

struct Arc {
    uint32_t from, to;
    int64_t room;
};
struct Net {
    uint32_t n;
    std::vector<Arc> arcs;
    void add(uint32_t from, uint32_t to, int64_t room) { arcs.push_back({from, to, room}); }
};

struct Random {
    uint64_t state = 1;
    uint32_t below(uint32_t n) {
        state = state * 6364136223846793005u + 1442695040888963407u;
        return uint32_t(state >> 33) % n;
    }
};

// Four times as many arcs as nodes; some more at the source and at the sink.
static Net random_net(uint32_t n, Random &random) {
    Net net{n, {}};
    for (uint32_t k = 0; k < 4 * n; k++) {
        uint32_t from = k < 40 ? 0 : random.below(n), to = k >= 40 && k < 80 ? 1 : random.below(n);
        net.add(from, to, 1 + random.below(10000));
    }
    return net;
}

// Squares of nodes in layers, each joined within both ways and to a shuffle of the next (D. Goldfarb, M. Grigoriadis, A
// computational comparison of the Dinic and network simplex methods for maximum flow, 1988).
static Net layers(uint32_t side, uint32_t depth, Random &random) {
    uint32_t square = side * side;
    Net net{square * depth, {}};
    auto at = [&](uint32_t layer, uint32_t k) {
        uint32_t node = layer * square + k;
        // the source is in the first layer, and the sink in the last
        if (node == 1) return net.n - 1;
        if (node == net.n - 1) return uint32_t(1);
        return node;
    };
    int64_t wide = 100000;
    std::vector<uint32_t> order(square);
    for (uint32_t k = 0; k < square; k++) order[k] = k;
    for (uint32_t layer = 0; layer < depth; layer++) {
        for (uint32_t k = 0; k < square; k++) {
            if (k % side + 1 < side) net.add(at(layer, k), at(layer, k + 1), wide), net.add(at(layer, k + 1), at(layer, k), wide);
            if (k + side < square) net.add(at(layer, k), at(layer, k + side), wide), net.add(at(layer, k + side), at(layer, k), wide);
        }
        if (layer + 1 == depth) break;
        for (uint32_t k = 1; k < square; k++) std::swap(order[k], order[random.below(k + 1)]);
        for (uint32_t k = 0; k < square; k++) net.add(at(layer, k), at(layer + 1, order[k]), 1 + random.below(1000));
    }
    return net;
}

// Rows of nodes, each with arcs to three of the next row.
static Net levels(uint32_t n, Random &random) {
    uint32_t wide = 64, rows = n / wide;
    Net net{2 + wide * rows, {}};
    for (uint32_t k = 0; k < wide; k++) {
        net.add(0, 2 + k, 1 + random.below(1000));
        net.add(2 + (rows - 1) * wide + k, 1, 1 + random.below(1000));
    }
    for (uint32_t row = 0; row + 1 < rows; row++)
        for (uint32_t k = 0; k < wide; k++)
            for (uint32_t j = 0; j < 3; j++)
                net.add(2 + row * wide + k, 2 + (row + 1) * wide + random.below(wide), 1 + random.below(1000));
    return net;
}

// Two sides with arcs of capacity 1 from each to four of the other.
static Net bipartite(uint32_t n, Random &random) {
    uint32_t half = n / 2 - 1;
    Net net{2 + 2 * half, {}};
    for (uint32_t k = 0; k < half; k++) {
        net.add(0, 2 + k, 1);
        net.add(2 + half + k, 1, 1);
        for (uint32_t j = 0; j < 4; j++) net.add(2 + k, 2 + half + random.below(half), 1);
    }
    return net;
}

// A wide path both ways whose last arc takes little: nearly all that the source sends has to flow back.
static Net flood(uint32_t n, Random &random) {
    uint32_t wide = 12, rows = (n - 2) / wide;
    Net net{2 + wide * rows, {}};
    for (uint32_t k = 0; k < wide; k++) net.add(0, 2 + k, 100000);
    for (uint32_t row = 0; row + 1 < rows; row++)
        for (uint32_t k = 0; k < wide; k++) {
            uint32_t here = 2 + row * wide + k, there = 2 + (row + 1) * wide + (k ? random.below(wide) : 0);
            net.add(here, there, 100000), net.add(there, here, 1 + random.below(1000));
        }
    net.add(2 + (rows - 1) * wide, 1, 1);
    return net;
}

static Net net_of(const std::string &family, uint32_t n) {
    Random random;
    if (family == "layers") {
        uint32_t side = 1;
        while ((side + 1) * (side + 1) * 8 <= n) side++;
        return layers(side, 8, random);
    }
    if (family == "levels") return levels(n, random);
    if (family == "bipartite") return bipartite(n, random);
    if (family == "flood") return flood(n, random);
    return random_net(n, random);
}

static void write(const Net &net, const char *name) {
    FILE *file = fopen(name, "w");
    if (!file) exit(1);
    fprintf(file, "LEDA.GRAPH\nvoid\nint\n-1\n%u\n", net.n);
    for (uint32_t k = 0; k < net.n; k++) fputs("|{}|\n", file);
    fprintf(file, "%zu\n", net.arcs.size());
    for (auto &arc : net.arcs) fprintf(file, "%u %u 0 |{%ld}|\n", arc.from + 1, arc.to + 1, long(arc.room));
    if (fclose(file)) exit(1);
}

// The microseconds of the processor so far.
static long now() {
    timespec time;
    clock_gettime(CLOCK_PROCESS_CPUTIME_ID, &time);
    return time.tv_sec * 1000000L + time.tv_nsec / 1000;
}

struct Found {
    long solved = LONG_MAX, printed = LONG_MAX, made = 0;
    int64_t value = 0;
};

static std::vector<Arc> sorted(const Net &net) {
    auto arcs = net.arcs;
    std::stable_sort(arcs.begin(), arcs.end(), [](auto &a, auto &b) { return a.from < b.from; });
    return arcs;
}

static Found by_lemon(const Net &net, int rounds) {
    using Graph = lemon::StaticDigraph;
    long begin = now();
    auto arcs = sorted(net);
    std::vector<std::pair<int, int>> ends;
    for (auto &arc : arcs) ends.push_back({int(arc.from), int(arc.to)});
    Graph graph;
    graph.build(int(net.n), ends.begin(), ends.end());
    Graph::ArcMap<int64_t> room(graph);
    for (size_t k = 0; k < arcs.size(); k++) room[graph.arc(int(k))] = arcs[k].room;
    Found found;
    found.made = now() - begin;
    for (int round = 0; round < rounds; round++) {
        long start = now();
        lemon::Preflow<Graph, Graph::ArcMap<int64_t>> search(graph, room, graph.node(0), graph.node(1));
        search.run();
        long middle = now();
        found.value = search.flowValue();
        printf("= maxflow %ld\n+ flow", long(found.value));
        for (size_t k = 0; k < arcs.size(); k++) {
            int64_t flow = search.flow(graph.arc(int(k)));
            if (flow) printf(" e%zu:%ld", k + 1, long(flow));
        }
        printf("\n+ cut");
        for (uint32_t v = 0; v < net.n; v++)
            if (search.minCut(graph.node(int(v)))) printf(" n%u", v + 1);
        printf("\n");
        fflush(stdout);
        long end = now();
        found.solved = std::min(found.solved, middle - start);
        found.printed = std::min(found.printed, end - middle);
    }
    return found;
}

static Found by_boost(const Net &net, int rounds) {
    using Traits = boost::adjacency_list_traits<boost::vecS, boost::vecS, boost::directedS>;
    using Edge = boost::property<boost::edge_capacity_t, int64_t, boost::property<boost::edge_residual_capacity_t, int64_t,
        boost::property<boost::edge_reverse_t, Traits::edge_descriptor>>>;
    using Node = boost::property<boost::vertex_index_t, long, boost::property<boost::vertex_color_t, boost::default_color_type,
        boost::property<boost::vertex_distance_t, long, boost::property<boost::vertex_predecessor_t, Traits::edge_descriptor>>>>;
    using Graph = boost::adjacency_list<boost::vecS, boost::vecS, boost::directedS, Node, Edge>;
    long begin = now();
    Graph graph(net.n);
    auto room = boost::get(boost::edge_capacity, graph);
    auto twin = boost::get(boost::edge_reverse, graph);
    for (auto &arc : net.arcs) {
        if (arc.from == arc.to) continue;
        auto along = boost::add_edge(arc.from, arc.to, graph).first, against = boost::add_edge(arc.to, arc.from, graph).first;
        room[along] = arc.room, room[against] = 0, twin[along] = against, twin[against] = along;
    }
    Found found;
    found.made = now() - begin;
    for (int round = 0; round < rounds; round++) {
        long start = now();
        found.value = boost::boykov_kolmogorov_max_flow(graph, 0, 1);
        found.solved = std::min(found.solved, now() - start);
    }
    return found;
}

int main(int count, char **words) {
    if (count < 4) return 1;
    std::string what = words[1];
    Net net = net_of(words[2], strtoul(words[3], nullptr, 10));
    if (what == "write" && count > 4) {
        write(net, words[4]);
        return 0;
    }
    Found lemon = by_lemon(net, 2), boost = by_boost(net, 1);
    if (lemon.value != boost.value) return 1;
    fprintf(stderr, "%ld %ld %ld %ld %ld %ld\n", lemon.solved, boost.solved, lemon.printed, lemon.made, boost.made,
            long(lemon.value));
}
