// The work of crates/item_bench over the C++ standard library: `items pool`, `items queue` or `items dict` prints the
// microseconds of each step, and a sum of what it saw, which is the same there.
#include <chrono>
#include <cstdint>
#include <cstdio>
#include <cstring>
#include <functional>
#include <map>
#include <optional>
#include <queue>
#include <utility>
#include <vector>

static const uint32_t values = 1000000;

static uint32_t next_random(uint64_t &state) {
    state = state * 6364136223846793005u + 1442695040888963407u;
    return state >> 33;
}

class Step {
    std::chrono::steady_clock::time_point start = std::chrono::steady_clock::now();

public:
    void report(const char *name) {
        auto time = std::chrono::steady_clock::now() - start;
        printf("%s %lld\n", name, (long long)std::chrono::duration_cast<std::chrono::microseconds>(time).count());
        start = std::chrono::steady_clock::now();
    }
};

// A vector with indices in place of a pool.
static uint64_t time_vector() {
    std::vector<std::optional<uint64_t>> vector;
    std::vector<uint32_t> indices;
    uint64_t seen = 0, taken = 0;
    Step step;
    for (uint32_t value = 0; value < values; value++) {
        indices.push_back(vector.size());
        vector.push_back(value);
    }
    step.report("in");
    for (uint64_t turn = 0; turn < values; turn++) {
        auto &value = vector[indices[turn * 7919 % values]];
        if (value) seen = seen * 31 + *value;
    }
    step.report("look");
    for (uint32_t index : indices) {
        if (vector[index]) taken = taken * 31 + *vector[index];
        vector[index].reset();
    }
    step.report("out");
    return seen + taken;
}

static uint64_t time_priority_queue() {
    using Pair = std::pair<int64_t, uint32_t>;
    std::priority_queue<Pair, std::vector<Pair>, std::greater<Pair>> queue;
    uint64_t state = 1, sum = 0;
    Step step;
    for (uint32_t value = 0; value < values; value++) queue.push({next_random(state), value});
    step.report("in");
    while (!queue.empty()) {
        sum = sum * 31 + queue.top().second;
        queue.pop();
    }
    step.report("out");
    return sum;
}

static uint64_t time_map() {
    std::map<int64_t, uint32_t> map;
    uint64_t state = 1, sum = 0;
    Step step;
    for (uint32_t value = 0; value < values; value++) map[next_random(state)] = value;
    step.report("in");
    state = 1;
    for (uint32_t turn = 0; turn < values; turn++) {
        auto found = map.find(next_random(state));
        if (found != map.end()) sum = sum * 31 + found->second;
    }
    step.report("look");
    return sum;
}

int main(int count, char **words) {
    uint64_t sum;
    if (count != 2) return 2;
    if (!strcmp(words[1], "pool")) sum = time_vector();
    else if (!strcmp(words[1], "queue")) sum = time_priority_queue();
    else if (!strcmp(words[1], "dict")) sum = time_map();
    else return 2;
    printf("sum %llu\n", (unsigned long long)sum);
    return 0;
}
