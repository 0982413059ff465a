// The proved router, timed beside LEMON's Suurballe and CapacityScaling, each with several heaps, on the same random cards in one run.
//
// Ours is given the faults and heats of a card, and marks them, routes, and makes the plan with its tolls: all of that is its time.
// LEMON is given its network ready made, and the number of columns too: its time is the solver's alone. Times are of the processor, since
// on a busy machine a longer run waits more often.
#include "timing.hpp"
#include <lemon/bin_heap.h>
#include <lemon/bucket_heap.h>
#include <lemon/capacity_scaling.h>
#include <lemon/quad_heap.h>
#include <lemon/radix_heap.h>
#include <lemon/static_graph.h>
#include <lemon/suurballe.h>
#include <cstdint>
#include <cstdio>
#include <cstdlib>
#include <functional>
#include <memory>
#include <numeric>
#include <random>
#include <string>
#include <time.h>
#include <utility>

extern "C" uint32_t route_links(uint8_t rows, uint8_t columns, const uint16_t *faults, size_t count);
extern "C" uint32_t route_wire(uint8_t rows, uint8_t columns, uint32_t d, uint32_t w, const uint16_t *faults, size_t count);
extern "C" uint32_t route_heat(uint8_t rows, uint8_t columns, const uint8_t *heats, size_t pes, const uint16_t *faults, size_t count);

namespace {

int cards_each = 101, rounds = 5;
constexpr uint32_t WORTH = 5000000;

struct Card {
    int side;
    std::vector<uint16_t> faults; // 64 times row plus column
    std::vector<uint8_t> heats;   // 64 to a row
};

Card random_card(int side, int percent, std::mt19937_64 &random)
{
    Card card{side, {}, std::vector<uint8_t>(64 * 64)};
    std::vector<uint16_t> places;
    for (int row = 0; row < side; ++row)
        for (int column = 0; column < side; ++column)
            places.push_back(uint16_t(64 * row + column));
    std::shuffle(places.begin(), places.end(), random);
    places.resize((side * side * percent + 50) / 100);
    card.faults = places;
    for (uint8_t &heat : card.heats)
        heat = uint8_t(random() % 256);
    return card;
}

// A tariff: how ours routes a card under it, and what it charges in words of rows and columns.
struct Tariff {
    std::string name;
    std::function<uint32_t(const Card &)> route;
    int straight, aside;
    bool hot;
};

Tariff links()
{
    return {"links", [](const Card &c) { return route_links(c.side, c.side, c.faults.data(), c.faults.size()); }, 0, 1, false};
}

Tariff wire(int d, int w)
{
    auto route = [=](const Card &c) { return route_wire(c.side, c.side, d, w, c.faults.data(), c.faults.size()); };
    return {"wire " + std::to_string(d) + ", " + std::to_string(w), route, d, 2 * d + w, false};
}

Tariff heat()
{
    auto route = [](const Card &c) { return route_heat(c.side, c.side, c.heats.data(), c.heats.size(), c.faults.data(), c.faults.size()); };
    return {"heat", route, 0, 1, true};
}

// The network of a card: each usable PE is an arc from where it is entered to where it is left, and bears one column.
struct Network {
    using Graph = lemon::StaticDigraph;
    Graph graph;
    std::unique_ptr<Graph::ArcMap<int>> costs;
    Graph::Node source, sink;

    Network(const Card &card, const Tariff &tariff)
    {
        int side = card.side, nodes = 1;
        std::vector<int> entry(64 * 64, 0); // the node where a PE is entered, 0 where it is faulty
        std::vector<bool> faulty(64 * 64, false);
        for (uint16_t place : card.faults)
            faulty[place] = true;
        for (int row = 0; row < side; ++row)
            for (int column = 0; column < side; ++column)
                if (!faulty[64 * row + column])
                    entry[64 * row + column] = nodes, nodes += 2;
        std::vector<std::pair<int, int>> arcs;
        std::vector<int> charges;
        auto join = [&](int from, int to, int charge) { arcs.emplace_back(from, to), charges.push_back(charge); };
        auto heat = [&](int place) { return tariff.hot ? card.heats[place] : 0; };
        for (int column = 0; column < side; ++column)
            if (entry[column])
                join(0, entry[column], heat(column));
        for (int row = 0; row < side; ++row)
            for (int column = 0; column < side; ++column) {
                int in = entry[64 * row + column], out = in + 1;
                if (!in)
                    continue;
                join(in, out, 0);
                if (row == side - 1)
                    join(out, nodes, 0);
                else
                    for (int next = std::max(column - 1, 0); next <= std::min(column + 1, side - 1); ++next)
                        if (int below = 64 * (row + 1) + next; entry[below])
                            join(out, entry[below], (next == column ? tariff.straight : tariff.aside) + heat(below));
            }
        graph.build(nodes + 1, arcs.begin(), arcs.end());
        costs = std::make_unique<Graph::ArcMap<int>>(graph);
        for (size_t i = 0; i < charges.size(); ++i)
            (*costs)[graph.arc(int(i))] = charges[i];
        source = graph.node(0), sink = graph.node(nodes);
    }
};

// Each solver answers what as many columns are worth less what they cost.
using Solver = std::function<uint32_t(const Network &, int columns)>;
using Places = Network::Graph::NodeMap<int>;
using Range = lemon::RangeMap<int>;

template <class Heap> uint32_t suurballe(const Network &net, int columns)
{
    typename lemon::Suurballe<Network::Graph>::SetHeap<Heap, Places>::Create solver(net.graph, *net.costs);
    solver.init(net.source);
    int found = solver.findFlow(net.sink, columns);
    return found * WORTH - solver.totalLength();
}

template <class Heap> uint32_t capacity_scaling(const Network &net, int columns)
{
    typename lemon::CapacityScaling<Network::Graph>::SetHeap<Heap>::Create solver(net.graph);
    lemon::ConstMap<Network::Graph::Arc, int> one(1);
    solver.upperMap(one).costMap(*net.costs).stSupply(net.source, net.sink, columns);
    if (solver.run() != solver.OPTIMAL)
        return 0;
    return columns * WORTH - solver.totalCost();
}

struct Named {
    const char *name;
    Solver solve;
};

const std::vector<Named> SOLVERS = {
    {"Suurballe, binary heap", suurballe<lemon::BinHeap<int, Places>>},
    {"Suurballe, heap of four", suurballe<lemon::QuadHeap<int, Places>>},
    {"Suurballe, radix heap", suurballe<lemon::RadixHeap<Places>>},
    {"Suurballe, buckets", suurballe<lemon::BucketHeap<Places>>},
    {"CapacityScaling, binary heap", capacity_scaling<lemon::BinHeap<int, Range>>},
    {"CapacityScaling, heap of four", capacity_scaling<lemon::QuadHeap<int, Range>>},
    {"CapacityScaling, radix heap", capacity_scaling<lemon::RadixHeap<Range>>},
    {"CapacityScaling, buckets", capacity_scaling<lemon::BucketHeap<Range>>},
};

// The medians over the cards of each round; the middle one counts, and how far they spread is the machine's noise.
struct Measure {
    std::vector<double> rounds, cards;

    void end_round() { rounds.push_back(median(cards)), cards.clear(); }
    double middle() { return median(rounds); }
    double spread() const
    {
        auto [least, most] = std::minmax_element(rounds.begin(), rounds.end());
        return 100 * (*most - *least) / *least;
    }
};

double processor_microseconds()
{
    timespec t;
    clock_gettime(CLOCK_THREAD_CPUTIME_ID, &t);
    return 1e6 * double(t.tv_sec) + 1e-3 * double(t.tv_nsec);
}

template <class Run> uint32_t timed(Measure &measure, Run run)
{
    double start = processor_microseconds();
    uint32_t gain = run();
    measure.cards.push_back(processor_microseconds() - start);
    return gain;
}

// How many columns so large a gain has: their charges together are below the worth of one.
int columns_of(uint32_t gain) { return int((gain + WORTH - 1) / WORTH); }

// The measures of one case, and which solvers take part.
struct Race {
    const Tariff &tariff;
    Measure ours, building;
    std::vector<Measure> theirs = std::vector<Measure>(SOLVERS.size());
    std::vector<size_t> runners;

    explicit Race(const Tariff &t) : tariff(t), runners(SOLVERS.size()) { std::iota(runners.begin(), runners.end(), 0); }

    size_t fastest()
    {
        return *std::min_element(runners.begin(), runners.end(), [&](size_t i, size_t j) { return theirs[i].middle() < theirs[j].middle(); });
    }

    void run(const Card &card)
    {
        std::unique_ptr<Network> net;
        timed(building, [&] { return net = std::make_unique<Network>(card, tariff), 0u; });
        uint32_t gain = timed(ours, [&] { return tariff.route(card); });
        for (size_t i : runners) {
            uint32_t other = timed(theirs[i], [&] { return SOLVERS[i].solve(*net, columns_of(gain)); });
            if (other != gain) {
                std::printf("ours gains %u, %s %u\n", gain, SOLVERS[i].name, other);
                std::exit(1);
            }
        }
    }

    void round(const Card *first, size_t count)
    {
        for (size_t i = 0; i < count; ++i)
            run(first[i]);
        ours.end_round(), building.end_round();
        for (size_t i : runners)
            theirs[i].end_round();
    }
};

void compare(const Tariff &tariff, int side, int percent)
{
    std::mt19937_64 random(1000 * side + percent);
    std::vector<Card> cards;
    for (int i = 0; i < cards_each; ++i)
        cards.push_back(random_card(side, percent, random));
    // who is far from the fastest on a few cards takes no further part
    Race trial(tariff), race(tariff);
    trial.round(cards.data(), std::min<size_t>(cards.size(), 11));
    double limit = 1.2 * trial.theirs[trial.fastest()].middle();
    race.runners.erase(std::remove_if(race.runners.begin(), race.runners.end(), [&](size_t i) { return trial.theirs[i].middle() > limit; }), race.runners.end());
    for (int round = 0; round < rounds; ++round)
        race.round(cards.data(), cards.size());
    size_t best = race.fastest();
    double a = race.ours.middle(), b = race.theirs[best].middle();
    std::printf("%-13s %2d x %2d %6d %%   %8.1f  %3.0f %%   %8.1f  %3.0f %%   %6.2f   %15.1f   %s\n", tariff.name.c_str(), side, side, percent, a,
        race.ours.spread(), b, race.theirs[best].spread(), b / a, race.building.middle(), SOLVERS[best].name);
    std::fflush(stdout);
}

} // namespace

int main(int count, char **arguments)
{
    if (count == 3)
        cards_each = std::atoi(arguments[1]), rounds = std::atoi(arguments[2]);
    std::printf("routing, median of %d random cards, middle of %d rounds, microseconds of processor a card; +- is the spread of the rounds\n", cards_each, rounds);
    std::printf("tariff           card   faulty      route    +-      LEMON    +-     LEMON / route   LEMON's network   LEMON's best\n");
    for (const Tariff &tariff : {links(), wire(1, 1), wire(250, 500), heat()})
        for (int percent : {1, 5, 10})
            compare(tariff, 64, percent);
    for (const Tariff &tariff : {links(), heat()})
        for (int side : {8, 16, 24, 32, 40, 48, 56, 64})
            compare(tariff, side, 5);
    return 0;
}
