// Greedy column rerouting, written apart from the proved one, and both timed on the same random cards in one run.
#include "timing.hpp"
#include <cstdint>
#include <cstdio>
#include <cstring>
#include <random>

extern "C" uint32_t greedy_columns(uint64_t *untried, size_t rows, uint8_t *out, size_t room);

namespace {

constexpr int SIDE = 64;

// A plain depth-first search over flags, with the path on the call stack.
struct Plain {
    bool untried[SIDE][SIDE];
    uint8_t path[SIDE];
    uint8_t *out;
    uint32_t columns = 0;

    bool reach(int row, int column)
    {
        untried[row][column] = false;
        path[row] = uint8_t(column);
        if (row == SIDE - 1)
            return true;
        for (int next = std::max(column - 1, 0); next <= std::min(column + 1, SIDE - 1); ++next)
            if (untried[row + 1][next] && reach(row + 1, next))
                return true;
        return false;
    }

    void search()
    {
        for (int start = 0; start < SIDE; ++start)
            if (untried[0][start] && reach(0, start)) {
                std::memcpy(out + columns * SIDE, path, SIDE);
                ++columns;
            }
    }
};

} // namespace

int main()
{
    std::mt19937_64 random(1);
    std::printf("greedy, 64 by 64, median of 1001 random cards, microseconds a card\n");
    std::printf("faulty PEs   proved   plain C++   plain / proved\n");
    for (int percent : {0, 1, 5, 10, 30}) {
        std::vector<double> proved, plain;
        for (int card = 0; card < 1001; ++card) {
            uint64_t usable[SIDE];
            Plain other;
            for (int row = 0; row < SIDE; ++row) {
                usable[row] = 0;
                for (int column = 0; column < SIDE; ++column) {
                    bool healthy = int(random() % 100) >= percent;
                    usable[row] |= uint64_t(healthy) << column;
                    other.untried[row][column] = healthy;
                }
            }
            static uint8_t ours[SIDE * SIDE], theirs[SIDE * SIDE];
            std::memset(ours, 0, sizeof ours);
            std::memset(theirs, 0, sizeof theirs);
            other.out = theirs;
            auto start = std::chrono::steady_clock::now();
            uint32_t columns = greedy_columns(usable, SIDE, ours, sizeof ours);
            proved.push_back(microseconds(start));
            start = std::chrono::steady_clock::now();
            other.search();
            plain.push_back(microseconds(start));
            if (columns != other.columns || std::memcmp(ours, theirs, sizeof ours) != 0) {
                std::printf("they differ on card %d at %d per cent\n", card, percent);
                return 1;
            }
        }
        double a = median(proved), b = median(plain);
        std::printf("%8d %%   %6.1f   %9.1f   %14.2f\n", percent, a, b, b / a);
    }
    return 0;
}
