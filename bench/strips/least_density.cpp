// The least density of a strip, by the same method as diddy and with the same certificate: the states and windows of the transfer
// graph, the mean that falls from cycle to cycle (E. Lawler, 1976), and the check of each edge's potentials. A symbol is 0 or 1.
//     least_density RULE HEIGHT
// It prints the density and the certificate as diddy does, as a whole output but for the script.
#include <cstdint>
#include <cstdio>
#include <cstdlib>
#include <cstring>
#include <numeric>
#include <vector>

// A window: its slices, each a number whose bits are the symbols, the first cell's as the most significant.
struct Window {
    const uint32_t *slices;
    int height;

    bool at(int x, int y) const {
        return slices[x] >> (height - 1 - (y + height) % height) & 1;
    }
};

struct Rule {
    const char *name;
    int state_slices; // so many slices has a state
    int stand;        // the rule stands in this slice of a window
    int weights[2];
    bool (*holds)(const Window &w, int x, int y);
};

static bool dominated(const Window &w, int x, int y) {
    return w.at(x, y) || w.at(x - 1, y) || w.at(x + 1, y) || w.at(x, y - 1) || w.at(x, y + 1);
}
static bool totally(const Window &w, int x, int y) {
    return w.at(x - 1, y) || w.at(x + 1, y) || w.at(x, y - 1) || w.at(x, y + 1);
}
static bool far_right(const Window &w, int x, int y) {
    return w.at(x, y) || w.at(x - 1, y) || w.at(x + 1, y) || w.at(x + 2, y) || w.at(x, y + 1);
}
static bool within_six(const Window &w, int x, int y) {
    for (int d = -6; d <= 6; d++)
        if (w.at(x + d, y))
            return true;
    return false;
}
static bool hard(const Window &w, int x, int y) {
    return !w.at(x, y) || (!w.at(x + 1, y) && !w.at(x, y + 1));
}

static const Rule rules[] = {
    {"dominated", 2, 1, {0, 1}, dominated}, {"totally", 2, 1, {0, 1}, totally},   {"far_right", 3, 1, {0, 1}, far_right},
    {"within_six", 12, 6, {0, 1}, within_six}, {"hard", 1, 0, {1, 0}, hard},
};

struct Edge {
    uint32_t from, to, weight;
};
struct Mean {
    int64_t weight, length;
};

static std::vector<Edge> edges_of(const Rule &rule, int height, uint32_t &states) {
    uint32_t slices = 1u << height;
    states = 1;
    for (int i = 0; i < rule.state_slices; i++)
        states *= slices;
    std::vector<uint32_t> weights(slices);
    for (uint32_t t = 0; t < slices; t++) {
        int ones = __builtin_popcount(t);
        weights[t] = ones * rule.weights[1] + (height - ones) * rule.weights[0];
    }
    std::vector<Edge> edges;
    std::vector<uint32_t> window(rule.state_slices + 1);
    for (uint32_t number = 0; number < states * slices; number++) {
        uint32_t rest = number;
        for (int x = rule.state_slices; x >= 0; x--, rest /= slices)
            window[x] = rest % slices;
        Window w{window.data(), height};
        bool kept = true;
        for (int y = 0; y < height && kept; y++)
            kept = rule.holds(w, rule.stand, y);
        if (kept)
            edges.push_back({number / slices, number % states, weights[number % slices]});
    }
    return edges;
}

// A state to which the marked edges lead back from itself, or -1.
static int64_t on_cycle(const std::vector<Edge> &edges, const std::vector<int64_t> &parents) {
    std::vector<uint32_t> seen(parents.size());
    for (uint32_t start = 0; start < parents.size(); start++)
        for (uint32_t at = start;;) {
            if (seen[at] == start + 1)
                return at;
            if (seen[at] || parents[at] < 0)
                break;
            seen[at] = start + 1;
            at = edges[parents[at]].from;
        }
    return -1;
}

int main(int count, char **words) {
    if (count != 3)
        return 1;
    const Rule *rule = nullptr;
    for (const Rule &r : rules)
        if (!strcmp(r.name, words[1]))
            rule = &r;
    int height = atoi(words[2]);
    if (!rule || height < 1)
        return 1;
    uint32_t states;
    std::vector<Edge> edges = edges_of(*rule, height, states);

    std::vector<int64_t> potentials(states), parents(states, -1);
    std::vector<uint32_t> cycle;
    Mean mean{int64_t(1) << 40, 1};
    for (;;) {
        bool lowered = false;
        for (size_t i = 0; i < edges.size(); i++) {
            const Edge &e = edges[i];
            int64_t here = potentials[e.from] + mean.length * e.weight - mean.weight;
            if (here < potentials[e.to]) {
                potentials[e.to] = here;
                parents[e.to] = i;
                lowered = true;
            }
        }
        if (!lowered)
            break;
        int64_t state = on_cycle(edges, parents);
        if (state < 0)
            continue;
        cycle.clear();
        int64_t weight = 0;
        uint32_t at = state;
        do {
            cycle.push_back(at);
            weight += edges[parents[at]].weight;
            at = edges[parents[at]].from;
        } while (at != state);
        int64_t common = std::gcd(weight, int64_t(cycle.size()));
        mean = {weight / common, int64_t(cycle.size()) / common};
        potentials.assign(states, 0);
        parents.assign(states, -1);
    }
    for (const Edge &e : edges)
        if (cycle.empty() || potentials[e.to] - potentials[e.from] > mean.length * e.weight - mean.weight)
            return 1;

    int64_t common = std::gcd(mean.weight, mean.length * height);
    printf("query 1 DENSITY %lld/%lld\ncycle %zu", (long long)(mean.weight / common), (long long)(mean.length * height / common), cycle.size());
    for (size_t i = cycle.size(); i-- > 0;)
        printf(" %u", cycle[i]);
    printf("\npotentials");
    for (int64_t p : potentials)
        printf(" %lld", (long long)p);
    printf("\nend\n");
}
