// Where the time of a listing goes: jobs of one card each, with marks alone, with a route, with the judge of a sheet, and with a second route.
// The sheets, and the listings that ours are compared with, come from the separate listing in fuzz/.
#include "../fuzz/listing.hpp"
#include "timing.hpp"
#include <cstdio>
#include <cstdlib>
#include <random>

extern "C" {
#include "harvest.h"
}

namespace {

constexpr int CARDS = 100, ROUNDS = 5;

struct Asked {
    Bytes marks, sheet;
};

// A card of 64 by 64 with some faulty PEs, and the sheet of a best family.
Asked asked(std::mt19937_64 &chance, int per_cent)
{
    Asked asked;
    asked.marks = {SIZE, SIDE, SIDE};
    Card card;
    card.rows = card.columns = SIDE;
    for (int i = 0; i < SIDE; ++i)
        for (int j = 0; j < SIDE; ++j)
            if (int(chance() % 100) < per_cent) {
                const uint8_t mark[] = {PE, uint8_t(i), uint8_t(j), 1};
                card.change(mark);
                asked.marks.insert(asked.marks.end(), mark, mark + 4);
            }
    Grid grid(card);
    asked.sheet = sheet_of(card, grid, Flow(grid, false, false).plan());
    return asked;
}

Bytes with(Bytes job, std::initializer_list<Bytes> more)
{
    for (const Bytes &bytes : more)
        job.insert(job.end(), bytes.begin(), bytes.end());
    return job;
}

// The least time of some rounds. The listing must be that of the separate program.
double timed(const Bytes &job)
{
    static uint8_t out[65536];
    double least = 1e9;
    for (int round = 0; round < ROUNDS; ++round) {
        auto start = std::chrono::steady_clock::now();
        int64_t length = harvest_listing(job.data(), job.size(), out, sizeof out);
        least = std::min(least, microseconds(start));
        if (length < 0 || Listing(job).text != std::string(out, out + length)) {
            std::printf("a listing differs\n");
            std::exit(1);
        }
    }
    return least;
}

} // namespace

int main()
{
    std::mt19937_64 chance(1);
    std::printf("a listing of one card of 64 by 64, middle of %d cards, least of %d runs, microseconds\n", CARDS, ROUNDS);
    std::printf("faulty   marks   their time   route   sheet bytes   judge   a second route\n");
    for (int per_cent : {1, 5, 10}) {
        std::vector<double> number, marks, route, bytes, judge, again;
        for (int card = 0; card < CARDS; ++card) {
            Asked a = asked(chance, per_cent);
            double alone = timed(a.marks), routed = timed(with(a.marks, {{ROUTE}}));
            number.push_back(double(a.marks.size() / 4));
            marks.push_back(alone);
            route.push_back(routed - alone);
            bytes.push_back(double(a.sheet.size()));
            judge.push_back(timed(with(a.marks, {{JUDGE}, a.sheet})) - alone);
            again.push_back(timed(with(a.marks, {{ROUTE}, {ROUTE}})) - routed);
        }
        std::printf("%5d%%   %5.0f   %10.1f   %5.0f   %11.0f   %5.1f   %14.1f\n", per_cent, median(number), median(marks), median(route), median(bytes), median(judge), median(again));
    }
}
