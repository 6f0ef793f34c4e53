// Maximum matchings by LEMON's MaxMatching, the yardstick of bench/matching.sh.
// `matching write FAMILY NODES FILE` writes a net as a GRAPH file. `matching solve FAMILY NODES` prints to the standard
// error the least microseconds of three solves, those of printing, those of making the graph, and the number of edges, and to the standard output
// a reply like the console's.
#include <algorithm>
#include <cstdint>
#include <cstdio>
#include <cstdlib>
#include <cstring>
#include <ctime>
#include <lemon/matching.h>
#include <lemon/smart_graph.h>
#include <utility>
#include <vector>

using Arcs = std::vector<std::pair<uint32_t, uint32_t>>;

struct Random {
    uint64_t state = 1;
    uint32_t below(uint32_t n) {
        state = state * 6364136223846793005u + 1442695040888963407u;
        return n ? uint32_t(state >> 33) % n : 0;
    }
};

static Arcs random_net(uint32_t n) {
    Random random;
    Arcs arcs;
    for (uint32_t k = 0; k < n + n / 2; k++) {
        uint32_t from = random.below(n);
        arcs.push_back({from, random.below(n)});
    }
    return arcs;
}

static Arcs cubic(uint32_t half) {
    Random random;
    std::vector<uint32_t> ends;
    for (uint32_t node = 0; node < 2 * half; node++)
        for (int k = 0; k < 3; k++) ends.push_back(node);
    for (size_t left = 0; left < ends.size(); left++)
        std::swap(ends[left], ends[left + random.below(uint32_t(ends.size() - left))]);
    Arcs arcs;
    for (size_t k = 0; k + 1 < ends.size(); k += 2) arcs.push_back({ends[k], ends[k + 1]});
    return arcs;
}

static Arcs triangles(uint32_t count) {
    Arcs arcs;
    for (uint32_t k = 0; k < count; k++) {
        arcs.push_back({3 * k, 3 * k + 1});
        arcs.push_back({3 * k + 1, 3 * k + 2});
        arcs.push_back({3 * k + 2, 3 * k});
        if (k + 1 < count) arcs.push_back({3 * k + 2, 3 * k + 3});
    }
    return arcs;
}

static Arcs grid(uint32_t &n) {
    uint32_t rows = 1;
    while ((rows + 1) * (rows + 1) <= n) rows++;
    uint32_t columns = n / rows;
    Arcs arcs;
    for (uint32_t row = 0; row < rows; row++)
        for (uint32_t column = 0; column < columns; column++) {
            uint32_t node = row * columns + column;
            if (column + 1 < columns) arcs.push_back({node, node + 1});
            if (row + 1 < rows) arcs.push_back({node, node + columns});
        }
    n = rows * columns;
    return arcs;
}

static Arcs complete(uint32_t n) {
    Arcs arcs;
    for (uint32_t to = 0; to < n; to++)
        for (uint32_t from = 0; from < to; from++) arcs.push_back({from, to});
    return arcs;
}

// The microseconds of the processor so far.
static long now() {
    timespec time;
    clock_gettime(CLOCK_PROCESS_CPUTIME_ID, &time);
    return time.tv_sec * 1000000L + time.tv_nsec / 1000;
}

static void write(uint32_t n, const Arcs &arcs, const char *name) {
    FILE *file = fopen(name, "w");
    if (!file) exit(1);
    fprintf(file, "LEDA.GRAPH\nvoid\nvoid\n-1\n%u\n", n);
    for (uint32_t k = 0; k < n; k++) fputs("|{}|\n", file);
    fprintf(file, "%zu\n", arcs.size());
    for (auto [from, to] : arcs) fprintf(file, "%u %u 0 |{}|\n", from + 1, to + 1);
    if (fclose(file)) exit(1);
}

using Graph = lemon::SmartGraph;

// LEMON's labels of nodes have three values; they are as long in print as most of ours.
static void print(const Graph &graph, const lemon::MaxMatching<Graph> &matching, uint32_t n, size_t m) {
    printf("= matching %d\n+ match", matching.matchingSize());
    for (size_t k = 0; k < m; k++)
        if (matching.matching(graph.edgeFromId(k))) printf(" e%zu", k + 1);
    printf("\n+ cover");
    for (uint32_t k = 0; k < n; k++) printf(" n%u:%d", k + 1, int(matching.status(graph.nodeFromId(k))) + 1);
    putchar('\n');
    fflush(stdout);
}

static void solve(uint32_t n, const Arcs &arcs) {
    long begin = now();
    Graph graph;
    graph.reserveNode(n);
    graph.reserveEdge(arcs.size());
    for (uint32_t k = 0; k < n; k++) graph.addNode();
    for (auto [from, to] : arcs) graph.addEdge(graph.nodeFromId(from), graph.nodeFromId(to));
    long made = now() - begin, solved = -1, printed = -1;
    int edges = 0;
    for (int round = 0; round < 3; round++) {
        long start = now();
        lemon::MaxMatching<Graph> matching(graph);
        matching.run();
        long middle = now();
        print(graph, matching, n, arcs.size());
        long end = now();
        edges = matching.matchingSize();
        if (round == 0 || middle - start < solved) solved = middle - start;
        if (round == 0 || end - middle < printed) printed = end - middle;
    }
    fprintf(stderr, "%ld %ld %ld %d\n", solved, printed, made, edges);
}

int main(int count, char **words) {
    if (count < 4) return 1;
    uint32_t n = strtoul(words[3], nullptr, 10);
    Arcs arcs;
    if (!strcmp(words[2], "random")) arcs = random_net(n);
    else if (!strcmp(words[2], "cubic")) n = n / 2 * 2, arcs = cubic(n / 2);
    else if (!strcmp(words[2], "triangles")) n = n / 3 * 3, arcs = triangles(n / 3);
    else if (!strcmp(words[2], "grid")) arcs = grid(n);
    else if (!strcmp(words[2], "complete")) arcs = complete(n);
    else return 1;
    if (!strcmp(words[1], "write") && count > 4) write(n, arcs, words[4]);
    else if (!strcmp(words[1], "solve")) solve(n, arcs);
    else return 1;
}
