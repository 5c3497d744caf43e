// Solves an instance document, on standard input, by LEMON's network simplex or its cost scaling, and writes how many items are
// covered, in version 2 left at bins that drain, and moved, and then the pairs.
// usage: lemon simplex|scaling
// build: c++ -O3 -o lemon lemon.cpp -llemon      (Debian: liblemon-dev)
#include <cstdio>
#include <cstdlib>
#include <cstring>
#include <iterator>
#include <string>
#include <utility>
#include <vector>

#include <lemon/cost_scaling.h>
#include <lemon/network_simplex.h>
#include <lemon/static_graph.h>

using Numbers = std::vector<int>;
using Graph = lemon::StaticDigraph;

struct Instance {
    int version;
    Numbers limits;
    std::vector<bool> drains;
    std::vector<Numbers> rows;
    Numbers before;
};

[[noreturn]] void fail(const char *why) {
    std::fprintf(stderr, "lemon: %s\n", why);
    std::exit(1);
}

std::string read_input() {
    std::string text;
    char piece[1 << 16];
    while (size_t count = std::fread(piece, 1, sizeof piece, stdin)) text.append(piece, count);
    return text;
}

// A reader of the compact JSON that bench/instances.py writes.
class Reader {
public:
    explicit Reader(const std::string &text) : text(text) {}

    void go_to_member(const std::string &name) {
        at = text.find("\"" + name + "\":");
        if (at == std::string::npos) fail("a member is missing");
        at += name.size() + 3;
    }

    template <typename Read> void read_list(Read read_element) {
        take('[');
        if (text[at] == ']') {
            ++at;
            return;
        }
        do read_element();
        while (text[at++] == ',');
        if (text[at - 1] != ']') fail("a list does not end");
    }

    int read_number() {
        int number = 0;
        while (text[at] >= '0' && text[at] <= '9') number = 10 * number + (text[at++] - '0');
        return number;
    }

    Numbers read_numbers() {
        Numbers numbers;
        read_list([&] { numbers.push_back(read_number()); });
        return numbers;
    }

private:
    void take(char wanted) {
        if (text[at] != wanted) fail("no list where one is wanted");
        ++at;
    }

    const std::string &text;
    size_t at = 0;
};

Instance read_instance(const std::string &text) {
    Instance instance;
    Reader reader(text);
    reader.go_to_member("version");
    instance.version = reader.read_number();
    reader.go_to_member("bins");
    instance.limits = reader.read_numbers();
    instance.drains.assign(instance.limits.size(), false);
    if (instance.version == 2) {
        reader.go_to_member("draining");
        reader.read_list([&] { instance.drains[reader.read_number()] = true; });
    }
    reader.go_to_member("reach");
    reader.read_list([&] { instance.rows.push_back(reader.read_numbers()); });
    instance.before.assign(instance.rows.size(), -1);
    reader.go_to_member("before");
    reader.read_list([&] {
        Numbers pair = reader.read_numbers();
        instance.before[pair[0]] = pair[1];
    });
    return instance;
}

// The graph has a node for each item, for each bin, and one at which all flow ends; an item that is left out flows there itself.
struct Network {
    explicit Network(const Instance &instance) : instance(instance) {
        items = instance.rows.size();
        bins = instance.limits.size();
        std::vector<std::pair<int, int>> arcs;
        for (int item = 0; item < items; ++item) {
            for (int bin : instance.rows[item]) arcs.emplace_back(item, items + bin);
            arcs.emplace_back(item, items + bins);
        }
        for (int bin = 0; bin < bins; ++bin) arcs.emplace_back(items + bin, items + bins);
        graph.build(items + bins + 1, arcs.begin(), arcs.end());
    }

    // what an arc earns: a kept pair more than another, in version 2 a bin that does not drain more than all that could be kept,
    // and any pair more than all of that
    int weight(int item, int bin) const {
        int more = items + 1;
        int place = instance.version == 1 ? more : more * more + (instance.drains[bin] ? 0 : more);
        return place + (instance.before[item] == bin);
    }

    int capacity(int bin) const {
        int limit = instance.limits[bin];
        return limit == 0 || limit > items ? items : limit;
    }

    template <typename Solver> void solve() {
        Graph::ArcMap<int> capacities(graph);
        Graph::ArcMap<typename Solver::Cost> costs(graph);
        Graph::NodeMap<int> supplies(graph, 0);
        for (int arc = 0; arc < graph.arcNum(); ++arc) {
            int from = graph.id(graph.source(graph.arc(arc)));
            int to = graph.id(graph.target(graph.arc(arc)));
            capacities[graph.arc(arc)] = from < items ? 1 : capacity(from - items);
            costs[graph.arc(arc)] = from < items && to < items + bins ? -weight(from, to - items) : 0;
        }
        for (int item = 0; item < items; ++item) supplies[graph.node(item)] = 1;
        supplies[graph.node(items + bins)] = -items;
        Solver solver(graph);
        solver.upperMap(capacities).costMap(costs).supplyMap(supplies);
        if (solver.run() != Solver::OPTIMAL) fail("no optimum");
        write(solver);
    }

    template <typename Solver> void write(const Solver &solver) const {
        int covered = 0, left = 0, kept = 0;
        std::string pairs;
        for (int arc = 0; arc < graph.arcNum(); ++arc) {
            int item = graph.id(graph.source(graph.arc(arc)));
            int bin = graph.id(graph.target(graph.arc(arc))) - items;
            if (item >= items || bin >= bins || solver.flow(graph.arc(arc)) == 0) continue;
            ++covered;
            left += instance.drains[bin];
            kept += instance.before[item] == bin;
            pairs += "[" + std::to_string(item) + "," + std::to_string(bin) + "]";
        }
        int placed = 0;
        for (int bin : instance.before) placed += bin >= 0;
        std::printf("covered=%d ", covered);
        if (instance.version == 2) std::printf("left=%d ", left);
        std::printf("moved=%d\n%s\n", placed - kept, pairs.c_str());
    }

    const Instance &instance;
    Graph graph;
    int items, bins;
};

int main(int count, char **arguments) {
    if (count != 2) fail("usage: lemon simplex|scaling");
    std::string text = read_input();
    Instance instance = read_instance(text);
    Network network(instance);
    bool simplex = std::strcmp(arguments[1], "simplex") == 0;
    if (!simplex && std::strcmp(arguments[1], "scaling") != 0) fail("usage: lemon simplex|scaling");
    // the weights of version 2 are too large for sums of 32 bits
    using Wide = long long;
    if (instance.version == 1) {
        if (simplex) network.solve<lemon::NetworkSimplex<Graph>>();
        else network.solve<lemon::CostScaling<Graph>>();
    } else {
        if (simplex) network.solve<lemon::NetworkSimplex<Graph, int, Wide>>();
        else network.solve<lemon::CostScaling<Graph, int, Wide>>();
    }
}
