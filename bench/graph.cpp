// The job of the console's graph in plain C++: nodes and edges in vectors, the out list and the in list of each node
// doubly linked through its edges, a mark on what is hidden, and each command answered by one write.
// It is the yardstick of bench/graph.sh; it tests less than the console does.
#include <charconv>
#include <cstdint>
#include <cstdio>
#include <cstdlib>
#include <cstring>
#include <string>
#include <unistd.h>
#include <vector>

struct List {
    uint32_t first = 0, last = 0;
};
struct Node {
    List out, in;
    bool hidden = false, live = true;
};
struct Links {
    uint32_t before = 0, behind = 0;
};
struct Edge {
    uint32_t from, to;
    Links out, in, all;
    bool hidden = false, live = true;
};

static std::vector<Node> nodes(1);
static std::vector<Edge> edges(1);
static List edge_list;
static std::string reply;

static void push(List &list, Links Edge::*links, uint32_t e) {
    (edges[e].*links).before = list.last;
    if (list.last) (edges[list.last].*links).behind = e;
    else list.first = e;
    list.last = e;
}

static void unlink(List &list, Links Edge::*links, uint32_t e) {
    Links own = edges[e].*links;
    if (own.before) (edges[own.before].*links).behind = own.behind;
    else list.first = own.behind;
    if (own.behind) (edges[own.behind].*links).before = own.before;
    else list.last = own.before;
}

static void put(char mark, uint32_t number) {
    char text[12];
    auto end = std::to_chars(text, text + sizeof text, number).ptr;
    reply += ' ';
    reply += mark;
    reply.append(text, end);
}

static bool visible(const Edge &e) {
    return !e.hidden && !nodes[e.from].hidden && !nodes[e.to].hidden;
}

// Reads ` n7` or ` e3`, and gives the number, or 0.
static uint32_t item(const char *&rest, char mark) {
    if (rest[0] != ' ' || rest[1] != mark) return 0;
    char *end;
    unsigned long value = std::strtoul(rest + 2, &end, 10);
    rest = end;
    return static_cast<uint32_t>(value);
}

static bool is_node(uint32_t v) { return v > 0 && v < nodes.size() && nodes[v].live; }
static bool is_edge(uint32_t e) { return e > 0 && e < edges.size() && edges[e].live; }

static void run(const char *line) {
    const char *rest = line + std::strcspn(line, " ");
    size_t length = rest - line;
    auto is = [&](const char *word) { return std::strlen(word) == length && std::memcmp(word, line, length) == 0; };
    reply = "=";
    if (is("node")) {
        nodes.emplace_back();
        put('n', nodes.size() - 1);
    } else if (is("edge")) {
        uint32_t from = item(rest, 'n'), to = item(rest, 'n');
        if (!is_node(from) || !is_node(to)) { reply = "! unknown"; }
        else {
            uint32_t e = edges.size();
            edges.push_back({from, to});
            push(nodes[from].out, &Edge::out, e);
            push(nodes[to].in, &Edge::in, e);
            push(edge_list, &Edge::all, e);
            put('e', e);
        }
    } else if (is("out")) {
        uint32_t v = item(rest, 'n');
        if (!is_node(v)) reply = "! unknown";
        else
            for (uint32_t e = nodes[v].out.first; e; e = edges[e].out.behind)
                if (visible(edges[e])) put('e', e);
    } else if (is("source")) {
        uint32_t e = item(rest, 'e');
        if (!is_edge(e) || !visible(edges[e])) reply = "! unknown";
        else put('n', edges[e].from);
    } else if (is("hide_edge")) {
        uint32_t e = item(rest, 'e');
        if (!is_edge(e) || edges[e].hidden) reply = "! hidden";
        else edges[e].hidden = true;
    } else if (is("restore_edge")) {
        uint32_t e = item(rest, 'e');
        if (!is_edge(e) || !edges[e].hidden) reply = "! not_hidden";
        else edges[e].hidden = false;
    } else if (is("del_edge")) {
        uint32_t e = item(rest, 'e');
        if (!is_edge(e) || !visible(edges[e])) reply = "! unknown";
        else {
            unlink(nodes[edges[e].from].out, &Edge::out, e);
            unlink(nodes[edges[e].to].in, &Edge::in, e);
            unlink(edge_list, &Edge::all, e);
            edges[e].live = false;
        }
    } else {
        reply = "! syntax 1";
    }
    reply += '\n';
    if (write(1, reply.data(), reply.size()) < 0) std::exit(4);
}

int main() {
    static char line[65538];
    while (std::fgets(line, sizeof line, stdin)) {
        line[std::strcspn(line, "\n")] = 0;
        run(line);
    }
}
