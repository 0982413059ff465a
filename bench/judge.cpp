// The judge of sheets, timed beside a plain scan that walks the same records and adds up their tolls.
#include "timing.hpp"
#include <cstdint>
#include <cstdio>

extern "C" int64_t judge_columns(uint8_t rows, uint8_t columns, const uint8_t *sheet, size_t length);

namespace {

constexpr int SIDE = 64;
constexpr uint32_t WORTH = 5000000;

void number(std::vector<uint8_t> &out, uint64_t value, int bytes)
{
    for (int i = bytes - 1; i >= 0; --i)
        out.push_back(uint8_t(value >> (8 * i)));
}

// On a card without faults: each column straight down, and on each of its PEs the same toll.
std::vector<uint8_t> straight(int columns)
{
    std::vector<uint8_t> out = {0x01, SIDE, uint8_t(columns)};
    number(out, UINT64_MAX, 8);
    for (int column = 0; column < columns; ++column) {
        out.push_back(0x02);
        out.push_back(uint8_t(column));
        out.insert(out.end(), SIDE - 1, 0x04);
    }
    for (int row = 0; row < SIDE; ++row)
        for (int column = 0; column < columns; ++column) {
            out.insert(out.end(), {0x06, uint8_t(row), uint8_t(column)});
            number(out, WORTH / SIDE, 4);
        }
    out.push_back(0x07);
    return out;
}

// Kinds and lengths alone: the sum of the tolls, or -1 where the records do not fill the bytes.
__attribute__((noinline)) int64_t scan(const uint8_t *sheet, size_t length)
{
    int64_t sum = 0;
    for (size_t at = 0; at < length;) {
        size_t body = 0;
        switch (sheet[at]) {
        case 0x01: body = 10; break;
        case 0x02: body = 1; break;
        case 0x03: case 0x04: case 0x05: break;
        case 0x06: body = 6; break;
        case 0x07: return at + 1 == length ? sum : -1;
        default: return -1;
        }
        if (body >= length - at)
            return -1;
        if (body == 6)
            sum += int64_t(sheet[at + 3]) << 24 | sheet[at + 4] << 16 | sheet[at + 5] << 8 | sheet[at + 6];
        at += 1 + body;
    }
    return -1;
}

} // namespace

int main()
{
    std::printf("judging a sheet for a card of 64 rows, median of 1001 runs\n");
    std::printf("columns   bytes   judge us   ns/byte   scan us   ns/byte   judge / scan   judge ns per further byte\n");
    double first = 0, first_bytes = 0;
    for (int columns : {1, 2, 4, 8, 16, 32, 64}) {
        std::vector<uint8_t> sheet = straight(columns);
        std::vector<double> judged, scanned;
        for (int run = 0; run < 1001; ++run) {
            auto start = std::chrono::steady_clock::now();
            int64_t found = judge_columns(SIDE, uint8_t(columns), sheet.data(), sheet.size());
            judged.push_back(microseconds(start));
            start = std::chrono::steady_clock::now();
            int64_t sum = scan(sheet.data(), sheet.size());
            scanned.push_back(microseconds(start));
            if (found != columns || sum != int64_t(WORTH) * columns) {
                std::printf("%d columns: judged %lld, scanned %lld\n", columns, (long long)found, (long long)sum);
                return 1;
            }
        }
        double a = median(judged), b = median(scanned), bytes = double(sheet.size());
        std::printf("%7d   %5.0f   %8.2f   %7.2f   %7.2f   %7.2f   %12.1f", columns, bytes, a, 1000 * a / bytes, b, 1000 * b / bytes, a / b);
        if (columns == 1)
            first = a, first_bytes = bytes, std::printf("\n");
        else
            std::printf("   %25.2f\n", 1000 * (a - first) / (bytes - first_bytes));
    }
    return 0;
}
