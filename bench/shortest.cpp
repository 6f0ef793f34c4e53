// Shortest paths by LEMON's Dijkstra and Boost's bellman_ford_shortest_paths, the yardsticks of bench/shortest.sh.
// `shortest write QUERY FAMILY NODES FILE` writes a net as a GRAPH file whose labels are the costs, for the query
// `dijkstra` or `sp`. `shortest solve QUERY FAMILY NODES` prints to the standard error the least microseconds of a solve,
// those of printing, those of making the graph, and what was found, and to the standard output a reply like the console's.
#include <algorithm>
#include <boost/graph/bellman_ford_shortest_paths.hpp>
#include <boost/graph/compressed_sparse_row_graph.hpp>
#include <climits>
#include <cstdint>
#include <cstdio>
#include <cstdlib>
#include <ctime>
#include <lemon/dijkstra.h>
#include <lemon/static_graph.h>
#include <string>
#include <utility>
#include <vector>

struct Arc {
    uint32_t from, to;
    int64_t cost;
};
struct Net {
    uint32_t n;
    std::vector<Arc> arcs;
};

struct Random {
    uint64_t state = 1;
    uint32_t below(uint32_t n) {
        state = state * 6364136223846793005u + 1442695040888963407u;
        return uint32_t(state >> 33) % n;
    }
};

static Net random_net(uint32_t n, Random &random) {
    Net net{n, {}};
    for (uint32_t k = 0; k < 4 * n; k++) {
        uint32_t from = k < 4 ? 0 : random.below(n), to = random.below(n);
        net.arcs.push_back({from, to, int64_t(random.below(1001))});
    }
    return net;
}

// Arcs to all neighbours of a square.
static Net grid(uint32_t n, Random &random) {
    uint32_t side = 1;
    while ((side + 1) * (side + 1) <= n) side++;
    Net net{side * side, {}};
    auto join = [&](uint32_t a, uint32_t b) {
        net.arcs.push_back({a, b, int64_t(random.below(1001))});
        net.arcs.push_back({b, a, int64_t(random.below(1001))});
    };
    for (uint32_t node = 0; node < net.n; node++) {
        if (node % side + 1 < side) join(node, node + 1);
        if (node + side < net.n) join(node, node + side);
    }
    return net;
}

// All arcs onwards in an order of the nodes that begins with the source and is shuffled behind it.
static Net acyclic(uint32_t n, Random &random) {
    std::vector<uint32_t> order(n);
    for (uint32_t k = 0; k < n; k++) order[k] = k;
    for (uint32_t k = 1; k < n; k++) std::swap(order[k], order[k + random.below(n - k)]);
    Net net{n, {}};
    for (uint32_t a = 0; a < n; a++)
        for (uint32_t b = a + 1; b < n; b++) net.arcs.push_back({order[a], order[b], -1 - int64_t(random.below(1000))});
    return net;
}

// Costs shifted by potentials of the nodes: those of cycles stay.
static void shift(Net &net, Random &random) {
    std::vector<int64_t> potential(net.n);
    for (auto &p : potential) p = random.below(1001);
    for (auto &arc : net.arcs) arc.cost += potential[arc.from] - potential[arc.to];
}

// The last arcs become a cycle of three of cost -1, and an arc of the source that leads there.
static void close(Net &net, Random &random) {
    uint32_t a = 1 + random.below(net.n - 3), b = a + 1, c = a + 2;
    Arc last[] = {{0, a, 0}, {a, b, 400}, {b, c, -900}, {c, a, 499}};
    std::copy(last, last + 4, net.arcs.end() - 4);
}

static Net net_of(const std::string &query, const std::string &family, uint32_t n) {
    Random random;
    if (family == "acyclic") return acyclic(n, random);
    Net net = family == "grid" ? grid(n, random) : random_net(n, random);
    if (query == "sp") shift(net, random);
    if (family == "negative") close(net, random);
    return net;
}

static void write(const Net &net, const char *name) {
    FILE *file = fopen(name, "w");
    if (!file) exit(1);
    fprintf(file, "LEDA.GRAPH\nvoid\nint\n-1\n%u\n", net.n);
    for (uint32_t k = 0; k < net.n; k++) fputs("|{}|\n", file);
    fprintf(file, "%zu\n", net.arcs.size());
    for (auto &arc : net.arcs) fprintf(file, "%u %u 0 |{%ld}|\n", arc.from + 1, arc.to + 1, long(arc.cost));
    if (fclose(file)) exit(1);
}

// The microseconds of the processor so far.
static long now() {
    timespec time;
    clock_gettime(CLOCK_PROCESS_CPUTIME_ID, &time);
    return time.tv_sec * 1000000L + time.tv_nsec / 1000;
}

struct Found {
    long solved = LONG_MAX, printed = LONG_MAX, made = 0;
    long reached = 0, sum = 0;
    bool negative = false;
};

static void line(uint32_t node, long dist, long pred) {
    if (pred < 0) printf("+ finite n%u %ld -\n", node + 1, dist);
    else printf("+ finite n%u %ld e%ld\n", node + 1, dist, pred + 1);
}

static std::vector<Arc> sorted(const Net &net) {
    auto arcs = net.arcs;
    std::stable_sort(arcs.begin(), arcs.end(), [](auto &a, auto &b) { return a.from < b.from; });
    return arcs;
}

static Found by_lemon(const Net &net) {
    using Graph = lemon::StaticDigraph;
    long begin = now();
    auto arcs = sorted(net);
    std::vector<std::pair<int, int>> ends;
    for (auto &arc : arcs) ends.push_back({int(arc.from), int(arc.to)});
    Graph graph;
    graph.build(int(net.n), ends.begin(), ends.end());
    Graph::ArcMap<int64_t> cost(graph);
    for (size_t k = 0; k < arcs.size(); k++) cost[graph.arc(int(k))] = arcs[k].cost;
    Found found;
    found.made = now() - begin;
    for (int round = 0; round < 3; round++) {
        long start = now();
        lemon::Dijkstra<Graph, Graph::ArcMap<int64_t>> search(graph, cost);
        search.run(graph.node(0));
        long middle = now();
        found.reached = found.sum = 0;
        for (uint32_t v = 0; v < net.n; v++) {
            auto node = graph.node(int(v));
            if (!search.reached(node)) continue;
            auto pred = search.predArc(node);
            line(v, search.dist(node), pred == lemon::INVALID ? -1 : graph.index(pred));
            found.reached++, found.sum += search.dist(node);
        }
        fflush(stdout);
        long end = now();
        found.solved = std::min(found.solved, middle - start);
        found.printed = std::min(found.printed, end - middle);
    }
    return found;
}

// Boost keeps the node before in place of the arc, which is as long in print. Of a negative cycle it says only that there
// is one, and is asked once, since it goes through all rounds.
static Found by_boost(const Net &net) {
    struct Cost { int64_t cost; };
    using Graph = boost::compressed_sparse_row_graph<boost::directedS, boost::no_property, Cost>;
    long begin = now();
    auto arcs = sorted(net);
    std::vector<std::pair<size_t, size_t>> ends;
    std::vector<Cost> costs;
    for (auto &arc : arcs) ends.push_back({arc.from, arc.to}), costs.push_back({arc.cost});
    Graph graph(boost::edges_are_sorted, ends.begin(), ends.end(), costs.begin(), net.n);
    Found found;
    found.made = now() - begin;
    for (int round = 0; round < 3 && !found.negative; round++) {
        long start = now();
        std::vector<int64_t> dist(net.n);
        std::vector<size_t> pred(net.n);
        found.negative = !boost::bellman_ford_shortest_paths(graph, int(net.n), boost::root_vertex(size_t(0))
            .weight_map(boost::get(&Cost::cost, graph)).distance_map(dist.data()).predecessor_map(pred.data()));
        long middle = now();
        found.reached = found.sum = 0;
        for (uint32_t v = 0; v < net.n && !found.negative; v++) {
            if (dist[v] == INT64_MAX) continue;
            line(v, dist[v], v == 0 ? -1 : long(pred[v]));
            found.reached++, found.sum += dist[v];
        }
        fflush(stdout);
        long end = now();
        found.solved = std::min(found.solved, middle - start);
        found.printed = std::min(found.printed, end - middle);
    }
    return found;
}

int main(int count, char **words) {
    if (count < 5) return 1;
    std::string what = words[1], query = words[2];
    Net net = net_of(query, words[3], strtoul(words[4], nullptr, 10));
    if (what == "write" && count > 5) {
        write(net, words[5]);
        return 0;
    }
    Found found = query == "sp" ? by_boost(net) : by_lemon(net);
    fprintf(stderr, "%ld %ld %ld ", found.solved, found.printed, found.made);
    if (found.negative) fprintf(stderr, "negative\n");
    else fprintf(stderr, "%ld:%ld\n", found.reached, found.sum);
}
