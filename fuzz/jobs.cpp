// Compares the listing call for C, and the harvest program, with the listing written from docs/ alone, on random jobs, whole and damaged.
//
//     fuzz-jobs PROGRAM [JOBS [SEED]]
//
// Each job is made from a seed of its own, SEED and up, so one that differs is run again by `fuzz-jobs PROGRAM 1 ITS_SEED`.
#include "listing.hpp"
#include <csignal>
#include <cstdio>
#include <cstdlib>
#include <cstring>
#include <ctime>
#include <fstream>
#include <unistd.h>

extern "C" {
#include "harvest.h"
}

namespace {

constexpr size_t LONGEST = 60000, PAGE = 65536;

// ---- Chance

struct Chance {
    uint64_t state;

    uint64_t next()
    {
        uint64_t x = state += 0x9E3779B97F4A7C15;
        x = (x ^ (x >> 30)) * 0xBF58476D1CE4E5B9;
        x = (x ^ (x >> 27)) * 0x94D049BB133111EB;
        return x ^ (x >> 31);
    }
    int below(size_t bound) { return int(next() % bound); }
    bool once_in(int times) { return below(size_t(times)) == 0; }
    template <class T> T one_of(std::initializer_list<T> all) { return all.begin()[below(all.size())]; }

    // A byte that often means something: a kind, a small number, a full stop between them.
    uint8_t byte() { return uint8_t(once_in(3) ? next() : once_in(2) ? SIZE + below(8) : below(8)); }
};

// Changes some bytes in one to three places.
void damage(Chance &chance, Bytes &bytes)
{
    for (int times = 1 + chance.below(3); times > 0 && !bytes.empty(); --times) {
        auto at = bytes.begin() + chance.below(bytes.size());
        switch (chance.below(8)) {
        case 0: *at ^= uint8_t(1 << chance.below(8)); break;
        case 1: *at = uint8_t(*at + chance.one_of({-1, 1})); break;
        case 2:
        case 3: *at = chance.byte(); break;
        case 4: bytes.insert(at, chance.byte()); break;
        case 5: bytes.erase(at); break;
        case 6: bytes.erase(at, at + 1 + chance.below(size_t(bytes.end() - at))); break;
        case 7: bytes.resize(size_t(at - bytes.begin())); break;
        }
    }
}

// Changes one or two records of a good sheet.
Bytes varied(Chance &chance, const Bytes &sheet)
{
    std::vector<Bytes> records;
    for (auto at = sheet.begin(); at != sheet.end(); at += long(records.back().size()))
        records.emplace_back(at, at + 1 + sheet_body(*at));
    for (int times = 1 + chance.below(2); times > 0; --times) {
        // often among the last ones, where the tolls are
        size_t from = chance.once_in(2) ? 0 : records.size() - std::min<size_t>(records.size(), 6);
        size_t n = from + size_t(chance.below(records.size() - from)), other = size_t(chance.below(records.size()));
        Bytes &record = records[n];
        switch (chance.below(8)) {
        case 0: std::swap(record, records[chance.once_in(2) ? other : n > 0 ? n - 1 : 0]); break;
        case 1: records.insert(records.begin() + long(n), Bytes(records[other])); break;
        case 2: records.insert(records.begin() + long(n), Bytes(record)); break;
        case 3: record.clear(); break;
        case 4: record[0] = uint8_t(record[0] >= LEFT && record[0] <= RIGHT ? LEFT + chance.below(3) : record[0]); break;
        case 5: record.back() = uint8_t(record.back() + chance.one_of({-1, 1})); break;
        case 6: record[size_t(chance.below(record.size()))] ^= uint8_t(1 << chance.below(8)); break;
        case 7:
            if (record[0] == TOLL) {
                record.resize(3);
                put_number(record, chance.one_of<uint64_t>({0, 1, WORTH - 1, WORTH, WORTH + 1, UINT32_MAX}), 4);
            }
            break;
        }
        records.erase(std::remove(records.begin(), records.end(), Bytes()), records.end());
        if (records.empty())
            break;
    }
    Bytes out;
    for (const Bytes &record : records)
        out.insert(out.end(), record.begin(), record.end());
    return out;
}

// A sheet of a plan. Sometimes columns and tolls come from two plans: all tolls of plans support all best families.
Bytes good_sheet(Chance &chance, const Card &card, const Grid &grid)
{
    Plan plan = Flow(grid, chance.once_in(2), chance.once_in(2)).plan();
    if (chance.once_in(4))
        plan.columns = Flow(grid, chance.once_in(2), chance.once_in(2)).plan().columns;
    return sheet_of(card, grid, plan);
}

// ---- Jobs. The maker keeps the map that its job should leave, so as to write sheets that are good for it.

class Maker {
public:
    Bytes job;

    explicit Maker(Chance &chance) : chance(chance) {}

    void random_bytes()
    {
        if (chance.once_in(2))
            open();
        for (int n = chance.below(40); n > 0; --n)
            job.push_back(chance.byte());
    }

    // A card or more, each with marks, and questions with some more marks between them.
    void whole()
    {
        if (chance.once_in(20))
            question();
        do {
            open();
            int area = card.rows * card.columns;
            marks(chance.below(size_t(area / (2 + chance.below(8)) + 4)));
            for (int n = 1 + chance.below(4); n > 0; --n) {
                question();
                marks(chance.below(4));
            }
        } while (chance.once_in(8));
    }

    // Near the longest job that is listed, or longer.
    void very_long()
    {
        size_t more = size_t(chance.below(20000));
        size_t length = chance.one_of({LONGEST, LONGEST - more % 50, LONGEST + 1, LONGEST + 2 + more, LONGEST - 2 * more, LONGEST - 2 * more});
        int way = chance.below(5);
        while (way < 2 && job.size() < length) // many cards, or marks with few questions between them
            if (way == 0 || job.empty())
                whole();
            else
                marks(100), chance.once_in(40) ? question() : void();
        if (way >= 2)
            again_and_again(way, length);
        job.resize(length);
    }

private:
    Chance &chance;
    Card card;
    int rarity = 10; // one mark in so many is of a switch or a row
    Bytes last_sheet;

    // The same bytes to the job's end: one mark, a question, or what a sheet is made of.
    void again_and_again(int way, size_t length)
    {
        do
            open();
        while (card.rows * card.columns > 6);
        size_t opened = job.size();
        marks(way == 2 ? 1 : 4);
        Bytes again(job.begin() + long(opened), job.end());
        if (way == 3)
            again = {uint8_t(chance.once_in(2) ? ROUTE : GREEDY)};
        if (way == 4) {
            job.push_back(JUDGE);
            again = chance.one_of<Bytes>({{END, JUDGE}, {STRAIGHT}, {START, 1, STRAIGHT}, {TOLL, 0, 0, 0, 76, 75, 64}});
        }
        while (job.size() < length)
            job.insert(job.end(), again.begin(), again.end());
    }

    void open()
    {
        auto side = [&](int most) { return 1 + chance.below(size_t(most)); };
        int shape = chance.below(400); // rarely large, narrow or flat; often tiny
        int most = shape < 30 ? SIDE : shape < 42 ? 20 : shape < 100 ? 2 : 7;
        card = Card{side(shape < 6 ? 2 : most), side(shape >= 6 && shape < 12 ? 2 : most)};
        if (shape >= 12 && shape < 22)
            card = Card{SIDE, SIDE};
        rarity = chance.one_of({2, 8, 40, 400});
        job.insert(job.end(), {SIZE, uint8_t(card.rows), uint8_t(card.columns)});
        if (chance.once_in(30)) // a size that may be refused
            job.insert(job.end(), {SIZE, chance.one_of<uint8_t>({0, 65, uint8_t(card.rows)}), chance.one_of<uint8_t>({0, 65, 255})});
    }

    void marks(int count)
    {
        while (count-- > 0)
            mark();
    }

    void mark()
    {
        int kind = chance.once_in(rarity) ? ROW_SWITCH + chance.below(3) : int(PE);
        auto number = [&](int bound) { return uint8_t(chance.once_in(50) ? bound + chance.below(3) : chance.below(size_t(bound))); };
        uint8_t row = number(card.rows), state = uint8_t(chance.once_in(60) ? chance.below(256) : !chance.once_in(8));
        Bytes record{uint8_t(kind), row};
        if (kind == CHOOSE)
            state = chance.once_in(30) ? state : uint8_t(chance.below(2));
        else
            record.push_back(number(card.columns));
        record.push_back(state);
        card.change(record.data());
        job.insert(job.end(), record.begin(), record.end());
    }

    void question()
    {
        int kind = chance.one_of<int>({GREEDY, GREEDY, ROUTE, ROUTE, JUDGE, JUDGE, JUDGE});
        job.push_back(uint8_t(kind));
        if (kind != JUDGE)
            return;
        if (last_sheet.empty() || !chance.once_in(6)) // else one that was good before the last marks
            last_sheet = good_sheet(chance, card, Grid(card));
        Bytes sheet = last_sheet;
        int way = chance.below(20);
        if (way > 9)
            sheet = varied(chance, sheet);
        if (way > 16)
            damage(chance, sheet);
        job.insert(job.end(), sheet.begin(), sheet.end());
    }
};

Bytes made_from(uint64_t seed, int &slack)
{
    Chance chance{Chance{seed}.next()};
    Maker maker(chance);
    slack = chance.one_of({0, 0, 1, 1000, 1000, 1000, -1, -1 - chance.below(60)});
    int way = chance.below(4000);
    if (way < 4)
        maker.very_long();
    else if (way < 300)
        maker.random_bytes();
    else
        maker.whole();
    if (way % 5 == 0)
        damage(chance, maker.job);
    maker.job.reserve(1); // an empty job has an address too
    return maker.job;
}

// ---- Comparing

struct Timing {
    long jobs = 0;
    double longest = 0, longest_a_byte = 0; // microseconds of the processor
    uint64_t longest_seed = 0;
};

Timing timings[6]; // by the length of jobs: below 16 bytes, 128, 1 K, 8 K, 64 K, and above
uint64_t seed_now;
long call_answers[25], program_runs, program_refusals; // the call's by the number of its refusal, or 0

double microseconds()
{
    timespec t;
    clock_gettime(CLOCK_PROCESS_CPUTIME_ID, &t);
    return double(t.tv_sec) * 1e6 + double(t.tv_nsec) / 1e3;
}

void note_time(size_t length, double time)
{
    int group = 0;
    for (size_t bound = 16; group < 5 && length >= bound; bound *= 8)
        ++group;
    Timing &t = timings[group];
    t.jobs += 1;
    t.longest_a_byte = std::max(t.longest_a_byte, time / double(length + 1));
    if (time > t.longest)
        t.longest = time, t.longest_seed = seed_now;
}

// Whether the call does not answer as it should, with room for the listing and so much more or less, or does not leave the buffer so.
bool call_differs(const Bytes &job, int slack, bool print = false)
{
    static uint8_t buffer[1 << 20];
    constexpr uint8_t FILL = 0xA5;
    constexpr size_t GUARD = 64;
    std::string text = job.size() > LONGEST ? "" : Listing(job).text;
    size_t room = size_t(std::max(0, int(text.size()) + slack));
    int64_t due = job.size() > LONGEST ? -24 : text.size() > room ? -21 : int64_t(text.size());
    std::memset(buffer, FILL, room + GUARD);
    double start = microseconds();
    int64_t answer = harvest_listing(job.data(), job.size(), buffer, room);
    note_time(job.size(), microseconds() - start);
    call_answers[due < 0 ? -due : 0] += 1;

    size_t written = due < 0 ? 0 : text.size();
    bool kept = std::all_of(buffer + written, buffer + room + GUARD, [](uint8_t b) { return b == FILL; });
    bool same = answer == due && std::memcmp(buffer, text.data(), written) == 0 && kept;
    if (print) {
        int shown = answer > 0 && size_t(answer) <= room ? int(answer) : 0;
        std::printf("room %zu\ndue %ld:\n%s\n", room, long(due), text.c_str());
        std::printf("answered %ld, the rest of the buffer %s:\n%.*s\n", long(answer), kept ? "kept" : "changed", shown, (char *)buffer);
    }
    return !same;
}

bool program_differs(const std::string &program, const Bytes &job, bool print = false)
{
    std::string text = job.size() > LONGEST ? "no 24\n" : Listing(job).text;
    if (text.size() > PAGE)
        text = "no 21\n";
    program_runs += 1;
    program_refusals += text == "no 24\n" || text == "no 21\n";
    std::string path = "/tmp/fuzz-jobs." + std::to_string(getpid());
    std::ofstream(path, std::ios::binary).write((const char *)job.data(), long(job.size()));
    FILE *output = popen(("'" + program + "' < " + path).c_str(), "r");
    std::string printed(PAGE + 1, 0);
    printed.resize(output ? fread(&printed[0], 1, printed.size(), output) : 0);
    int status = output ? pclose(output) : -1;
    unlink(path.c_str());
    if (print)
        std::printf("due:\n%s\nthe program ends with status %d and prints:\n%s\n", text.c_str(), status, printed.c_str());
    return status != 0 || printed != text;
}

// A shorter job that differs too, by leaving out runs of bytes, for as long as 20 seconds.
template <class Differs> Bytes shortened(Bytes job, Differs differs)
{
    time_t stop = std::time(nullptr) + 20;
    for (size_t run = job.size(); run > 0; run /= 2)
        for (size_t at = 0; at + run <= job.size() && std::time(nullptr) < stop;) {
            Bytes less = job;
            less.erase(less.begin() + long(at), less.begin() + long(at + run));
            less.reserve(1);
            if (differs(less))
                job = less;
            else
                at += run;
        }
    return job;
}

template <class Differs> [[noreturn]] void report(const Bytes &whole, Differs differs)
{
    std::printf("they differ at seed %lu on a job of %zu bytes, shortened here:\n", (unsigned long)seed_now, whole.size());
    std::fflush(stdout);
    Bytes job = shortened(whole, [&](const Bytes &less) { return differs(less, false); });
    for (uint8_t byte : job)
        std::printf("%02x", byte);
    std::printf("\n");
    differs(job, true);
    std::exit(1);
}

void compare(const std::string &program)
{
    int slack;
    Bytes job = made_from(seed_now, slack);
    if (call_differs(job, slack))
        report(job, [&](const Bytes &less, bool print) { return call_differs(less, slack, print); });
    if (seed_now % 200 == 0 || job.size() > LONGEST / 2)
        if (program_differs(program, job))
            report(job, [&](const Bytes &less, bool print) { return program_differs(program, less, print); });
}

// ---- The listing of docs/ itself: cards worked through, each refusal, and plans against their judge

Bytes from_hex(const std::string &hex)
{
    Bytes bytes;
    int digits = 0, value = 0;
    for (char c : hex)
        if (c != ' ') {
            value = value * 16 + (c <= '9' ? c - '0' : c - 'A' + 10);
            if (++digits % 2 == 0)
                bytes.push_back(uint8_t(value)), value = 0;
        }
    return bytes;
}

void expect(bool holds, const std::string &what)
{
    if (!holds)
        std::printf("the listing of docs/ is wrong itself: %s\n", what.c_str()), std::exit(2);
}

const std::string HEAD_OF_D = "01 02 03 0000000000000003 ", COLUMNS_OF_D = "02 01 03 02 02 03 ", TOLL_OF_D = "06 00 01 004C4B3F ";

void test_worked_cards()
{
    const std::string toll_1_0 = "06 01 00 004C4B40", toll_1_2 = "06 01 02 004C4B40", straight_0_2 = "02 00 04 04 02 02 04 04 ";
    const std::string d = "10 02 03 11 00 00 01 11 01 02 01 ", ok_d = "10 ok\n11 ok\n11 ok\n";
    const std::string d_sheet = "17" + HEAD_OF_D + COLUMNS_OF_D + TOLL_OF_D;
    const std::pair<std::string, std::string> cases[] = {
        {"10 01 01 15 16 17 01 01 01 0000000000000001 02 00 06 00 00 004C4B40 07", "10 ok\n15 1 0\n16 1 0\n17 1 0\n"},
        {"10 01 01 11 00 00 01 15 17 01 01 01 0000000000000001 07", "10 ok\n11 ok\n15 0 0\n17 0 0\n"},
        {"10 03 03 11 01 01 01 16 15 17 01 03 03 0000000000000007" + straight_0_2 + toll_1_0 + toll_1_2 + "07",
         "10 ok\n11 ok\n16 2 2\n15 2 0\n17 2 0\n"},
        {d + "16 15" + d_sheet + "06 01 01 004C4B3F 07", ok_d + "16 2 2\n15 2 2\n17 2 2\n"},
        {d + d_sheet + "06 01 01 004C4B3E 07", ok_d + "17 no 19 at 31\n"},
        {d + d_sheet + "06 01 01 004C4B40 07 16", ok_d + "17 no 20 at 31\n16 2 2\n"},
        {"10 03 03 13 00 01 01 15 17 01 03 03 0000000000000007" + straight_0_2 + toll_1_0 + toll_1_2 + "07",
         "10 ok\n13 ok\n15 2 0\n17 2 0\n"},
        {"10 03 03 12 01 00 01 11 01 01 01 15 17 01 03 03 0000000000000005 02 00 04 02 01 04 02 02 04"
         "06 00 00 004C4B40 06 00 01 004C4B40 06 00 02 004C4B40 07",
         "10 ok\n12 ok\n11 ok\n15 3 0\n17 3 0\n"},
    };
    for (const auto &[job, listing] : cases)
        expect(Listing(from_hex(job)).text == listing, job);
}

void test_refusals()
{
    const std::string card = "10 02 03 11 00 00 01 11 01 02 01 ", ok = "10 ok\n11 ok\n11 ok\n", head = "17" + HEAD_OF_D;
    const std::pair<std::string, std::string> cases[] = {
        {"15 16 17 07 17 01 02 16", "15 no 9\n16 no 9\n17 no 9\n17 no 9\n"},
        {"17 10 10 01 01", "17 no 9\n"},
        {card + "14 00 00 14 01 00 15 16 17 07 16 17 08 16", ok + "14 ok\n14 ok\n15 no 6\n16 no 6\n17 no 6\n16 no 6\n17 no 6\n"},
        {card + "17", ok + "17 no 10 at 0\n"},
        {card + head + COLUMNS_OF_D, ok + "17 no 10 at 17\n"},
        {card + head + "08 07 16", ok + "17 no 7 at 11\n"},
        {card + head + "02", ok + "17 no 8 at 11\n"},
        {card + "17 07 16", ok + "17 no 9 at 0\n16 2 2\n"},
        {card + head + "02 01 07 16", ok + "17 no 9 at 13\n16 2 2\n"},
        {card + head + TOLL_OF_D + "02 01 07", ok + "17 no 9 at 18\n"},
        {card + "17 01 02 02 0000000000000003 02 00 07 16", ok + "17 no 12 at 0\n16 2 2\n"},
        {card + head + "02 02 05 07", ok + "17 no 13 at 13\n"},
        {card + head + "02 00 07", ok + "17 no 14 at 11\n"},
        {card + head + "02 01 03 02 01 07", ok + "17 no 15 at 14\n"},
        {card + head + "06 00 00 00000001 07", ok + "17 no 16 at 11\n"},
        {card + head + TOLL_OF_D + TOLL_OF_D + "07", ok + "17 no 17 at 18\n"},
        {card + head + "06 00 01 00000000 07", ok + "17 no 18 at 11\n"},
        {card + head + "07", ok + "17 no 19 at 11\n"},
    };
    for (const auto &[job, listing] : cases)
        expect(Listing(from_hex(job)).text == listing, job);
    Bytes longer = from_hex(HEAD_OF_D + COLUMNS_OF_D + TOLL_OF_D + "06 01 01 004C4B3F 07 07");
    Card d{2, 3};
    d.faulty[0][0][0] = d.faulty[0][1][2] = true;
    Verdict v = Judging(d, Grid(d)).read(longer.data(), longer.size());
    expect(v.fault == 11 && v.place == 32, "a byte behind the end");
}

void test_plans()
{
    Chance chance{1};
    for (int times = 0; times < 3000; ++times) {
        Card card{1 + chance.below(times < 2900 ? 6 : 40), 1 + chance.below(times < 2900 ? 6 : 40)};
        for (int n = chance.below(size_t(card.rows * card.columns)); n > 0; --n)
            card.faulty[0][chance.below(size_t(card.rows))][chance.below(size_t(card.columns))] = true;
        Grid grid(card);
        Found best = Flow(grid, false, false).found;
        Bytes sheet = good_sheet(chance, card, grid);
        Verdict v = Judging(card, grid).read(sheet.data(), sheet.size());
        expect(v.fault == 0 && v.found.columns == best.columns && v.found.total == best.total, "a plan's sheet is not accepted");
        Found quick = greedy(grid);
        expect(quick.columns == best.columns && quick.total >= best.total, "greedy and the flow");
    }
}

// ---- What was told, and how long it took

void print_told()
{
    std::printf("the call is done %ld times, refused by 21 %ld, by 24 %ld times\n", call_answers[0], call_answers[21], call_answers[24]);
    std::printf("the program is run %ld times, of which %ld times it prints a refusal\n", program_runs, program_refusals);
    std::printf("lines due, by kind: done, and each refusal\n");
    for (int kind = SIZE; kind <= JUDGE; ++kind) {
        std::printf("  %02X  ok %ld", unsigned(kind), told[kind][0]);
        for (int number = 1; number < 32; ++number)
            if (told[kind][number] != 0)
                std::printf("  %d: %ld", number, told[kind][number]);
        std::printf("\n");
    }
}

void print_times()
{
    std::printf("time of the processor for one listing\njobs below bytes     jobs   longest ms (seed)     most us a byte\n");
    const char *bounds[] = {"16", "128", "1,024", "8,192", "65,536", "longer"};
    for (int group = 0; group < 6; ++group) {
        const Timing &t = timings[group];
        std::printf("%16s %8ld %12.3f (%lu) %18.3f\n", bounds[group], t.jobs, t.longest / 1e3, (unsigned long)t.longest_seed, t.longest_a_byte);
    }
}

void broken_off(int signal)
{
    std::printf("broken off by signal %d at seed %lu\n", signal, (unsigned long)seed_now);
    std::fflush(stdout);
    _exit(1);
}

} // namespace

int main(int count, char **words)
{
    if (count < 2)
        return std::fprintf(stderr, "usage: fuzz-jobs PROGRAM [JOBS [SEED]]\n"), 2;
    uint64_t jobs = count > 2 ? std::strtoull(words[2], nullptr, 10) : 10000;
    uint64_t seed = count > 3 ? std::strtoull(words[3], nullptr, 10) : 1;
    for (int signal : {SIGSEGV, SIGBUS, SIGILL, SIGFPE, SIGABRT})
        std::signal(signal, broken_off);

    test_worked_cards(), test_refusals(), test_plans();
    std::memset(told, 0, sizeof told);
    time_t last = std::time(nullptr);
    for (seed_now = seed; seed_now < seed + jobs; ++seed_now) {
        if (std::time(nullptr) >= last + 30) {
            last = std::time(nullptr);
            std::printf("%lu jobs of %lu from seed %lu\n", (unsigned long)(seed_now - seed), (unsigned long)jobs, (unsigned long)seed);
            std::fflush(stdout);
        }
        compare(words[1]);
    }
    print_told();
    print_times();
    std::printf("%lu jobs from seed %lu, no difference\n", (unsigned long)jobs, (unsigned long)seed);
}
