// The job of `load` and `save` in plain C++: a graph file read into vectors, and written again.
// It is the yardstick of bench/files.sh; it knows the layout that the console writes and refuses nothing.
// usage: files FILE [NEW]
#include <charconv>
#include <cstdint>
#include <cstdio>
#include <fstream>
#include <string>
#include <string_view>
#include <vector>

struct Edge {
    uint32_t from, to, reversal;
    std::string label;
};

struct Graph {
    std::string node_type, edge_type, kind;
    std::vector<std::string> nodes;
    std::vector<Edge> edges;
};

static std::string_view rest;

static std::string_view line() {
    size_t end = rest.find('\n');
    std::string_view found = rest.substr(0, end);
    rest.remove_prefix(end + 1);
    return found;
}

static uint32_t number(std::string_view &text) {
    uint32_t value = 0;
    auto end = std::from_chars(text.data(), text.data() + text.size(), value).ptr;
    text.remove_prefix(end - text.data());
    if (!text.empty()) text.remove_prefix(1);
    return value;
}

static uint32_t count() {
    std::string_view text = line();
    return number(text);
}

static std::string label(std::string_view text) {
    return std::string(text.substr(2, text.size() - 4));
}

static Graph read(const char *path) {
    std::ifstream file(path, std::ios::binary | std::ios::ate);
    std::string text(file.tellg(), '\0');
    file.seekg(0);
    file.read(text.data(), text.size());
    rest = text;
    Graph graph;
    line();
    graph.node_type = line();
    graph.edge_type = line();
    graph.kind = line();
    graph.nodes.resize(count());
    for (auto &node : graph.nodes) node = label(line());
    graph.edges.resize(count());
    for (auto &edge : graph.edges) {
        std::string_view text = line();
        edge.from = number(text);
        edge.to = number(text);
        edge.reversal = number(text);
        edge.label = label(text);
    }
    return graph;
}

static void put(std::string &text, uint32_t value, char end) {
    char digits[12];
    text.append(digits, std::to_chars(digits, digits + sizeof digits, value).ptr);
    text += end;
}

static void put(std::string &text, const std::string &label) {
    text += "|{";
    text += label;
    text += "}|\n";
}

static void write(const char *path, const Graph &graph) {
    std::string text = "LEDA.GRAPH\n" + graph.node_type + "\n" + graph.edge_type + "\n" + graph.kind + "\n";
    put(text, graph.nodes.size(), '\n');
    for (auto &node : graph.nodes) put(text, node);
    put(text, graph.edges.size(), '\n');
    for (auto &edge : graph.edges) {
        put(text, edge.from, ' ');
        put(text, edge.to, ' ');
        put(text, edge.reversal, ' ');
        put(text, edge.label);
    }
    std::ofstream(path, std::ios::binary).write(text.data(), text.size());
}

int main(int count, char **words) {
    if (count < 2) {
        std::fputs("usage: files FILE [NEW]\n", stderr);
        return 1;
    }
    Graph graph = read(words[1]);
    if (count > 2) write(words[2], graph);
    std::printf("= %zu %zu\n", graph.nodes.size(), graph.edges.size());
}
