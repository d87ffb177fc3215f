/* SPDX-License-Identifier: LicenseRef-Wengeludo */
// LEMON's network simplex as a peer: the cheapest balanced flow in whole numbers, its cost taken piece by piece.
//
// Does: reads the file; the real-number optimum of the plant without its ranges, for a start (a few lines of our own, LEMON has
// none); a flow of least cost in whole numbers, within the ranges, or that there is none; exact, since the last round has pieces of
// one kg/h about its flow and none of them is used up.
// Does not: the tie rule (of several flows of least cost it gives any), classes and blanks (every unmetered stream gets some flow),
// the test, the sheet, which places are overfull.
#include <lemon/network_simplex.h>
#include <lemon/smart_graph.h>

#include <algorithm>
#include <cmath>

#include "peer.h"

namespace {

using lemon::SmartDigraph;
using Simplex = lemon::NetworkSimplex<SmartDigraph, std::int64_t, std::int64_t>;
__extension__ typedef __int128 Cost;

// No flow goes farther where there is no range: 96 times the farthest end of a range is less.
constexpr std::int64_t FAR = std::int64_t{1} << 38;

// Pieces of the cost of a stream in each direction, all of one width but for a last one up to the end of the range.
constexpr int PIECES = 3;

// With ranges the first round has pieces of this width, each later one an eighth of it; without ranges all have width 1.
constexpr std::int64_t WIDEST = std::int64_t{1} << 21;

struct Labels {
    int of[peer::PLACES];

    explicit Labels(const peer::Plant &plant) {
        for (int u = 0; u < peer::PLACES; u++) of[u] = u;
        for (int i = 0; i < plant.count; i++)
            if (!plant.streams[i].metered) join(of[plant.streams[i].from], of[plant.streams[i].to]);
    }

    void join(int a, int b) { std::replace(of, of + peer::PLACES, std::max(a, b), std::min(a, b)); }
};

// The real-number optimum without ranges: potentials by elimination in the weighted Laplacian of the groups, the outside's 0.
struct Potentials {
    double of[peer::PLACES] = {}, rows[peer::PLACES][peer::PLACES] = {};
    Labels labels;

    explicit Potentials(const peer::Plant &plant) : labels(plant) {
        for (int i = 0; i < plant.count; i++)
            if (plant.streams[i].metered) add(plant.streams[i]);
        for (int k = 1; k <= plant.units; k++) eliminate(k, plant.units);
        for (int k = plant.units; k >= 1; k--) substitute(k, plant.units);
        of[0] = 0;
    }

    void add(const peer::Stream &s) {
        const int a = labels.of[s.from], b = labels.of[s.to];
        if (a == b) return;
        const double give = 0.5 / static_cast<double>(s.weight);
        rows[a][a] += give, rows[b][b] += give, rows[a][b] -= give, rows[b][a] -= give;
        of[a] += static_cast<double>(s.reading), of[b] -= static_cast<double>(s.reading);
    }

    void eliminate(int k, int units) {
        for (int i = k + 1; i <= units; i++) {
            const double f = rows[k][k] < 1e-9 ? 0 : rows[i][k] / rows[k][k];
            if (f == 0) continue;
            for (int j = k; j <= units; j++) rows[i][j] -= f * rows[k][j];
            of[i] -= f * of[k];
        }
    }

    void substitute(int k, int units) {
        for (int j = k + 1; j <= units; j++) of[k] -= rows[k][j] * of[j];
        of[k] = rows[k][k] < 1e-9 ? 0 : of[k] / rows[k][k];
    }

    std::int64_t flow(const peer::Stream &s) const {
        const double climb = of[labels.of[s.to]] - of[labels.of[s.from]];
        return std::llround(static_cast<double>(s.reading) + climb * 0.5 / static_cast<double>(s.weight));
    }
};

std::int64_t low(const peer::Stream &s) { return s.ranged ? s.low : -FAR; }
std::int64_t high(const peer::Stream &s) { return s.ranged ? s.high : FAR; }

Cost cost(const peer::Plant &plant, const std::int64_t *flows) {
    Cost sum = 0;
    for (int i = 0; i < plant.count; i++) {
        const Cost off = flows[i] - plant.streams[i].reading;
        sum += off * off * plant.streams[i].weight;
    }
    return sum;
}

// The network about a flow: arcs for the pieces of each stream's cost, unmetered streams without end and cost.
struct Network {
    const peer::Plant &plant;
    SmartDigraph graph;
    SmartDigraph::ArcMap<std::int64_t> room, price;
    SmartDigraph::NodeMap<std::int64_t> supply;
    int stream[peer::MAX_STREAMS * (2 * PIECES + 2)], sign[peer::MAX_STREAMS * (2 * PIECES + 2)];

    Network(const peer::Plant &plant, const std::int64_t *flows, std::int64_t width)
        : plant(plant), room(graph), price(graph), supply(graph, 0) {
        graph.reserveNode(plant.units + 1);
        graph.reserveArc(plant.count * (2 * PIECES + 2));
        for (int u = 0; u <= plant.units; u++) supply[graph.addNode()] = 0;
        for (int i = 0; i < plant.count; i++) {
            add_pieces(i, flows[i], width, 1);
            add_pieces(i, flows[i], width, -1);
            supply[node(plant.streams[i].from)] -= flows[i];
            supply[node(plant.streams[i].to)] += flows[i];
        }
    }

    static SmartDigraph::Node node(int place) { return SmartDigraph::nodeFromId(place); }

    // The pieces upwards or downwards; the price of a piece is what its whole width costs, by the kg/h.
    void add_pieces(int i, std::int64_t flow, std::int64_t width, int sign) {
        const peer::Stream &s = plant.streams[i];
        if (!s.metered) return add(i, sign, FAR, 0);
        std::int64_t left = sign > 0 ? high(s) - flow : flow - low(s), off = sign * (flow - s.reading);
        for (int piece = 0; piece <= PIECES && left > 0; piece++) {
            const std::int64_t wide = piece < PIECES ? std::min(width, left) : left;
            add(i, sign, wide, s.weight * (2 * off + wide));
            off += wide;
            left -= wide;
        }
    }

    void add(int i, int up, std::int64_t wide, std::int64_t by_kg) {
        const SmartDigraph::Node from = node(plant.streams[i].from), to = node(plant.streams[i].to);
        const SmartDigraph::Arc arc = up > 0 ? graph.addArc(from, to) : graph.addArc(to, from);
        room[arc] = wide;
        price[arc] = by_kg;
        stream[graph.id(arc)] = i;
        sign[graph.id(arc)] = up;
    }

    // The cheapest change of the flow, added to it; false where there is none within the ranges.
    bool improve(std::int64_t *flows) const {
        Simplex simplex(graph);
        if (simplex.upperMap(room).costMap(price).supplyMap(supply).run() != Simplex::OPTIMAL) return false;
        for (SmartDigraph::ArcIt arc(graph); arc != lemon::INVALID; ++arc) {
            const int k = graph.id(arc);
            flows[stream[k]] += sign[k] * simplex.flow(arc);
        }
        return true;
    }
};

// Whether some metered stream went so far that a piece beyond, narrower than it was taken, could have been better.
bool used_up(const peer::Plant &plant, const std::int64_t *before, const std::int64_t *after, std::int64_t width) {
    for (int i = 0; i < plant.count; i++) {
        const peer::Stream &s = plant.streams[i];
        const bool at_end = after[i] == low(s) || after[i] == high(s);
        if (s.metered && !at_end && std::abs(after[i] - before[i]) >= PIECES * width) return true;
    }
    return false;
}

}  // namespace

std::uint8_t solve_plant(const std::uint8_t *file, std::size_t length, std::uint8_t *kinds, double *flows) {
    peer::Plant plant;
    if (!peer::read(file, length, plant)) return peer::BAD_FILE;
    const Potentials potentials(plant);
    std::int64_t now[peer::MAX_STREAMS] = {}, before[peer::MAX_STREAMS];
    for (int i = 0; i < plant.count; i++) {
        const peer::Stream &s = plant.streams[i];
        if (s.metered) now[i] = std::clamp(potentials.flow(s), low(s), high(s));
    }
    bool balanced = false;
    for (std::int64_t width = plant.ranged ? WIDEST : 1; width > 0;) {
        std::copy(now, now + plant.count, before);
        if (!Network(plant, now, width).improve(now)) return peer::NO_FLOW;
        const bool better = !balanced || cost(plant, now) < cost(plant, before);
        balanced = true;
        if (!better || !used_up(plant, before, now, width)) width /= 8;
    }
    std::fill(kinds, kinds + plant.count, std::uint8_t{0});
    std::copy(now, now + plant.count, flows);
    return 0;
}
