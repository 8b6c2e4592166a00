// What LEMON's network simplex takes for a question, by classes alone: no spread.
//
//     g++ -O3 -std=gnu++17 lemon.cpp -o lemon && ./lemon QUESTION [ARCS]
//
// Reads a question for `gasday solve`, without quotes and taken to be right. Prints the seconds of `run` alone, by the
// wall clock, and then `best` and the totals of the eight classes, or `cut`. A line is ten parallel arcs, one a tenth,
// as in the solver's own network, or as many as ARCS says: by classes alone one would do.

#include <algorithm>
#include <chrono>
#include <cstdio>
#include <fstream>
#include <sstream>
#include <string>
#include <unordered_map>
#include <vector>

#include <lemon/network_simplex.h>
#include <lemon/smart_graph.h>

using Quantity = long long;
using Cost = __int128;
// `run` works on its own copy of the digraph, which matters by the order of its arcs alone: StaticDigraph took less time
// for a few questions, and more in all.
using Graph = lemon::SmartDigraph;
using Simplex = lemon::NetworkSimplex<Graph, Quantity, Cost>;

const int CLASSES = 8;
// A cycle passes each point and pool once, so it crosses 4,352 lines at most. At 13 bits a class, the lower classes of
// a cycle never outweigh a higher one, and its whole cost stays below 2^104: LEMON takes 2^126 for an artificial arc.
const int BITS = 13;

struct Arc {
    int from, to;
    Quantity lower, upper;
    int priority;  // the line's class, or 0 for an element
};

struct Network {
    int nodes = 0;
    std::vector<Arc> arcs;
};

std::vector<std::string> fields_of(const std::string &row) {
    std::vector<std::string> fields;
    std::istringstream source(row);
    for (std::string field; std::getline(source, field, ',');) fields.push_back(field);
    return fields;
}

Network read(const char *path, int pieces) {
    Network network;
    auto &arcs = network.arcs;
    std::unordered_map<std::string, int> places, ends;    // their nodes; an end is a point or pool
    std::unordered_map<std::string, std::size_t> arc_of;  // a segment's or point's arc
    auto place = [&](const std::string &name) {
        auto [found, fresh] = places.emplace(name, network.nodes);
        network.nodes += fresh;
        return found->second;
    };
    std::ifstream source(path);
    for (std::string row; std::getline(source, row);) {
        const auto fields = fields_of(row);
        if (fields.empty()) continue;
        const auto &kind = fields[0];
        if (kind == "segment") {
            arc_of[fields[1]] = arcs.size();
            arcs.push_back({place(fields[2]), place(fields[3]), 0, std::stoll(fields[4]), 0});
        } else if (kind == "point") {
            const int from = place(fields[3]), to = ends[fields[1]] = network.nodes++;
            arc_of[fields[1]] = arcs.size();
            arcs.push_back({from, to, 0, std::stoll(fields[5]), 0});
            if (fields[2] == "receipt") std::swap(arcs.back().from, arcs.back().to);
        } else if (kind == "pool") {
            // Its element's arc carries nothing.
            ends[fields[1]] = network.nodes++;
        } else if (kind == "capacity") {
            arcs[arc_of.at(fields[1])].upper = std::stoll(fields[2]);
        } else if (kind == "line") {
            const int from = ends.at(fields[2]), to = ends.at(fields[1]), priority = std::stoi(fields[3]);
            const Quantity floor = std::stoll(fields[4]), ceiling = std::stoll(fields[5]);
            for (int piece = 1; piece <= pieces; piece++) {
                const Quantity below = ceiling * (piece - 1) / pieces, width = ceiling * piece / pieces - below;
                arcs.push_back({from, to, std::clamp(floor - below, Quantity(0), width), width, priority});
            }
        }
    }
    return network;
}

int main(int count, char **words) {
    if (count < 2 || count > 3) return std::fprintf(stderr, "usage: lemon QUESTION [ARCS]\n"), 2;
    const Network network = read(words[1], count > 2 ? std::stoi(words[2]) : 10);
    if (network.nodes == 0) return std::fprintf(stderr, "no question in %s\n", words[1]), 2;
    Graph graph;
    for (int node = 0; node < network.nodes; node++) graph.addNode();
    Graph::ArcMap<Quantity> lower(graph), upper(graph);
    Graph::ArcMap<Cost> cost(graph);
    for (const Arc &arc : network.arcs) {
        const auto added = graph.addArc(graph.nodeFromId(arc.from), graph.nodeFromId(arc.to));
        lower[added] = arc.lower;
        upper[added] = arc.upper;
        cost[added] = arc.priority ? -(Cost(1) << BITS * (CLASSES - arc.priority)) : Cost(0);
    }
    Simplex simplex(graph);
    simplex.lowerMap(lower).upperMap(upper).costMap(cost);

    const auto begin = std::chrono::steady_clock::now();
    const auto found = simplex.run();
    const std::chrono::duration<double> took = std::chrono::steady_clock::now() - begin;

    std::printf("%.6f\n%s", took.count(), found == Simplex::OPTIMAL ? "best" : "cut");
    if (found == Simplex::OPTIMAL) {
        std::vector<Quantity> totals(CLASSES + 1);
        for (std::size_t arc = 0; arc < network.arcs.size(); arc++)
            totals[network.arcs[arc].priority] += simplex.flow(graph.arcFromId(int(arc)));
        for (int priority = 1; priority <= CLASSES; priority++) std::printf(" %lld", totals[priority]);
    }
    std::printf("\n");
}
