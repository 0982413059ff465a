// The listing of a job, written from docs/ alone.
#pragma once
#include <algorithm>
#include <cstdint>
#include <deque>
#include <optional>
#include <string>
#include <vector>

using Bytes = std::vector<uint8_t>;

constexpr int SIDE = 64;
constexpr int64_t WORTH = 5000000;
enum JobKind { SIZE = 0x10, PE, ROW_SWITCH, COLUMN_SWITCH, CHOOSE, ROUTE, GREEDY, JUDGE };
enum SheetKind { HEAD = 1, START, LEFT, STRAIGHT, RIGHT, TOLL, END };

// ---- The card: docs/card.md

struct Card {
    int rows = 1, columns = 1;
    bool faulty[3][SIDE][SIDE]{}; // PEs, row switches, column switches
    bool left_out[SIDE]{};

    bool has(int kind, int i, int j) const
    {
        return i < rows - (kind == COLUMN_SWITCH) && j < columns - (kind == ROW_SWITCH);
    }
    bool usable(int i, int j) const
    {
        return !faulty[0][i][j] && !(i > 0 && faulty[2][i - 1][j]) && !faulty[2][i][j];
    }
    bool stands(int i) const { return !left_out[i] && std::none_of(faulty[1][i], faulty[1][i] + SIDE, [](bool x) { return x; }); }

    // Does a mark or a choice. Answers the number of its refusal, or 0.
    int change(const uint8_t *record)
    {
        int kind = record[0], i = record[1], j = record[2];
        bool choice = kind == CHOOSE;
        int state = choice ? record[2] : record[3];
        if (choice ? i >= rows : !has(kind, i, j))
            return 2;
        if (state > 1)
            return 3;
        (choice ? left_out[i] : faulty[kind - PE][i][j]) = choice ? !state : state;
        return 0;
    }
};

// What routing sees of a card: its standing rows, and which of their PEs are usable.
struct Grid {
    int columns;
    std::vector<int> rows;
    bool usable[SIDE][SIDE]{};

    explicit Grid(const Card &card) : columns(card.columns)
    {
        for (int i = 0; i < card.rows; ++i)
            if (card.stands(i)) {
                for (int j = 0; j < columns; ++j)
                    usable[rows.size()][j] = card.usable(i, j);
                rows.push_back(i);
            }
    }
    int height() const { return int(rows.size()); }
};

struct Found {
    int64_t columns = 0, total = 0;
};

// ---- Greedy: docs/book.md

struct GreedySearch {
    const Grid &grid;
    bool tried[SIDE][SIDE]{};

    // The charge of the column's rest below a PE, or nothing where the PE is given up.
    std::optional<int> reach(int s, int j)
    {
        tried[s][j] = true;
        if (s == grid.height() - 1)
            return 0;
        for (int k = std::max(j - 1, 0); k <= std::min(j + 1, grid.columns - 1); ++k)
            if (grid.usable[s + 1][k] && !tried[s + 1][k])
                if (auto rest = reach(s + 1, k))
                    return *rest + (k != j);
        return {};
    }
};

inline Found greedy(const Grid &grid)
{
    GreedySearch search{grid};
    Found found;
    for (int j = 0; j < grid.columns; ++j)
        if (grid.usable[0][j])
            if (auto charge = search.reach(0, j))
                found.columns += 1, found.total += *charge;
    return found;
}

// ---- Best families, as a flow of least cost over PEs split in two: docs/plans.md

struct Plan {
    std::vector<std::vector<int>> columns; // physical columns, going down
    int64_t tolls[SIDE][SIDE]{};           // by standing row
};

class Flow {
public:
    Found found;

    // Turned sideways or upside down, another best family or other tolls come out.
    Flow(const Grid &grid, bool sideways, bool upside_down)
        : grid(grid), sideways(sideways), upside_down(upside_down), first(2 + 2 * grid.height() * grid.columns, -1)
    {
        int last = grid.height() - 1;
        for (int s = 0; s <= last; ++s)
            for (int j = 0; j < grid.columns; ++j)
                if (usable(s, j)) {
                    add(entry(s, j), entry(s, j) + 1, 0, 1);
                    if (s == 0)
                        add(ABOVE, entry(s, j), 0, MANY);
                    if (s == last)
                        add(entry(s, j) + 1, BELOW, 0, MANY);
                    for (int k = std::max(j - 1, 0); s < last && k <= std::min(j + 1, grid.columns - 1); ++k)
                        if (usable(s + 1, k))
                            add(entry(s, j) + 1, entry(s + 1, k), k != j, MANY);
                }
        while (augment()) {
        }
    }

    // Tolls are how far labels rise over used PEs, where labels are least costs from above, and below they are the worth.
    Plan plan()
    {
        Plan plan;
        add(ABOVE, BELOW, WORTH, MANY);
        find_least();
        for (int k = first[ABOVE]; k >= 0; k = arcs[k].next)
            if (arcs[k].to != BELOW && arcs[k ^ 1].room > 0)
                plan.columns.push_back(column_from(arcs[k].to, plan));
        std::sort(plan.columns.begin(), plan.columns.end());
        return plan;
    }

private:
    struct Arc {
        int to, cost, room, next;
    };
    enum { ABOVE, BELOW, MANY = 1000, FAR = 1 << 30 };

    const Grid &grid;
    bool sideways, upside_down;
    std::vector<int> first;
    std::vector<Arc> arcs; // behind each its reverse
    std::vector<int> least;
    std::vector<char> met;

    int row(int s) const { return upside_down ? grid.height() - 1 - s : s; }
    int column(int j) const { return sideways ? grid.columns - 1 - j : j; }
    bool usable(int s, int j) const { return grid.usable[row(s)][column(j)]; }
    int entry(int s, int j) const { return 2 + 2 * (s * grid.columns + j); }

    void add(int from, int to, int cost, int room)
    {
        arcs.push_back({to, cost, room, first[from]});
        first[from] = int(arcs.size()) - 1;
        arcs.push_back({from, -cost, 0, first[to]});
        first[to] = int(arcs.size()) - 1;
    }

    // Least costs from above, by a queue of nodes whose cost was lowered.
    void find_least()
    {
        least.assign(first.size(), FAR);
        std::vector<char> queued(first.size());
        std::deque<int> queue{ABOVE};
        least[ABOVE] = 0;
        while (!queue.empty()) {
            int node = queue.front();
            queue.pop_front();
            queued[node] = false;
            for (int k = first[node]; k >= 0; k = arcs[k].next) {
                const Arc &arc = arcs[k];
                if (arc.room == 0 || least[node] + arc.cost >= least[arc.to])
                    continue;
                least[arc.to] = least[node] + arc.cost;
                if (queued[arc.to])
                    continue;
                queued[arc.to] = true;
                if (!queue.empty() && least[arc.to] < least[queue.front()]) // cheap ones first: fewer are lowered again
                    queue.push_front(arc.to);
                else
                    queue.push_back(arc.to);
            }
        }
    }

    // Takes a cheapest way down from a node, by nodes that were not met before.
    bool take(int node)
    {
        met[node] = true;
        if (node == BELOW)
            return true;
        for (int k = first[node]; k >= 0; k = arcs[k].next) {
            int to = arcs[k].to;
            if (arcs[k].room > 0 && !met[to] && least[to] == least[node] + arcs[k].cost && take(to)) {
                arcs[k].room -= 1, arcs[k ^ 1].room += 1;
                met[BELOW] = false;
                return true;
            }
        }
        return false;
    }

    // Takes cheapest ways from above to below, at least one, unless there is none.
    bool augment()
    {
        find_least();
        if (least[BELOW] == FAR)
            return false;
        met.assign(first.size(), false);
        met[ABOVE] = true;
        for (int k = first[ABOVE]; k >= 0; k = arcs[k].next)
            if (!met[arcs[k].to] && least[arcs[k].to] == 0 && take(arcs[k].to)) {
                arcs[k].room -= 1, arcs[k ^ 1].room += 1;
                found.columns += 1, found.total += least[BELOW];
            }
        return true;
    }

    // The column of the flow that enters here; its tolls are set in the plan.
    std::vector<int> column_from(int node, Plan &plan)
    {
        std::vector<int> places;
        while (node != BELOW) {
            int cell = (node - 2) / 2, s = row(cell / grid.columns), j = column(cell % grid.columns);
            places.push_back(j);
            plan.tolls[s][j] = least[node + 1] - least[node];
            int k = first[node + 1];
            while ((k & 1) != 0 || arcs[k ^ 1].room == 0) // the arc that leaves, and is used
                k = arcs[k].next;
            node = arcs[k].to;
        }
        if (upside_down)
            std::reverse(places.begin(), places.end());
        return places;
    }
};

// ---- Sheets: docs/sheets.md

// How many bytes follow a kind, or -1 for an unknown one.
inline int sheet_body(int kind)
{
    static const int LENGTHS[] = {-1, 10, 1, 0, 0, 0, 6, 0};
    return kind <= END ? LENGTHS[kind] : -1;
}

inline void put_number(Bytes &out, uint64_t value, int bytes)
{
    while (bytes-- > 0)
        out.push_back(uint8_t(value >> (8 * bytes)));
}

inline uint64_t number_at(const uint8_t *bytes, int length)
{
    uint64_t value = 0;
    for (int n = 0; n < length; ++n)
        value = value << 8 | bytes[n];
    return value;
}

inline uint64_t mask_of(const Grid &grid)
{
    uint64_t mask = 0;
    for (int i : grid.rows)
        mask |= uint64_t(1) << i;
    return mask;
}

inline Bytes sheet_of(const Card &card, const Grid &grid, const Plan &plan)
{
    Bytes out{HEAD, uint8_t(card.rows), uint8_t(card.columns)};
    put_number(out, mask_of(grid), 8);
    for (const auto &column : plan.columns) {
        out.insert(out.end(), {START, uint8_t(column[0])});
        for (size_t s = 1; s < column.size(); ++s)
            out.push_back(uint8_t(STRAIGHT + column[s] - column[s - 1]));
    }
    for (int s = 0; s < grid.height(); ++s)
        for (int j = 0; j < grid.columns; ++j)
            if (plan.tolls[s][j] != 0) {
                out.insert(out.end(), {TOLL, uint8_t(grid.rows[s]), uint8_t(j)});
                put_number(out, uint64_t(plan.tolls[s][j]), 4);
            }
    out.push_back(END);
    return out;
}

struct Verdict {
    int fault = 0; // or 0 where the sheet is accepted
    size_t place = 0;
    Found found;
};

class Judging {
public:
    Judging(const Card &card, const Grid &grid) : card(card), grid(grid), done(grid.height()), before(done, -1) {}

    Verdict read(const uint8_t *sheet, size_t length)
    {
        size_t at = 0;
        while (at < length) {
            int kind = sheet[at], body = sheet_body(kind);
            if (body < 0)
                return {7, at, {}};
            if (length - at - 1 < size_t(body))
                return {8, at, {}};
            if (int fault = take(sheet + at))
                return {fault, at, {}};
            if (kind == END && at + 1 < length)
                return {11, at + 1, {}};
            if (kind == END)
                return {ending(), at, found};
            at += 1 + size_t(body);
        }
        return {10, length, {}};
    }

private:
    const Card &card;
    const Grid &grid;
    bool headed = false, tolled = false;
    int done; // PEs of the column that came last
    std::vector<int> before; // in each standing row the PE that came last
    int last_row = -1, last_column = -1; // of the toll that came last
    int64_t tolls[SIDE][SIDE]{}, tolls_sum = 0;
    Found found;

    // The number of a record's fault, or 0.
    int take(const uint8_t *record)
    {
        bool in_column = done < grid.height();
        switch (record[0]) {
        case HEAD:
            return headed ? 9 : head(record + 1);
        case START:
            return !headed || in_column || tolled ? 9 : start(record[1]);
        case TOLL:
            return !headed || in_column ? 9 : toll(record[1], record[2], int64_t(number_at(record + 3, 4)));
        case END:
            return !headed || in_column ? 9 : 0;
        default:
            return in_column ? pe(before[done - 1] + record[0] - STRAIGHT) : 9;
        }
    }

    int head(const uint8_t *body)
    {
        headed = true;
        return body[0] != card.rows || body[1] != card.columns || number_at(body + 2, 8) != mask_of(grid) ? 12 : 0;
    }

    int start(int j)
    {
        done = 0;
        found.columns += 1;
        return pe(j);
    }

    int pe(int j)
    {
        if (j < 0 || j >= grid.columns)
            return 13;
        if (!grid.usable[done][j])
            return 14;
        if (j <= before[done])
            return 15;
        found.total += done > 0 && j != before[done - 1];
        before[done++] = j;
        return 0;
    }

    int toll(int i, int j, int64_t amount)
    {
        tolled = true;
        if (i >= card.rows || j >= card.columns || !card.usable(i, j) || !card.stands(i))
            return 16;
        if (i < last_row || (i == last_row && j <= last_column))
            return 17;
        if (amount < 1 || amount > WORTH)
            return 18;
        last_row = i, last_column = j;
        tolls[i][j] = amount;
        tolls_sum += amount;
        return 0;
    }

    int ending() const { return underpriced() ? 19 : tolls_sum != WORTH * found.columns - found.total ? 20 : 0; }

    // Least prices of columns that come to each PE, row by row.
    bool underpriced() const
    {
        constexpr int64_t FAR = INT64_MAX / 2;
        int64_t least[SIDE + 2]; // the PE of column j at j + 1
        std::fill(least, least + SIDE + 2, FAR);
        for (int s = 0; s < grid.height(); ++s) {
            int64_t upper[SIDE + 2];
            std::copy(least, least + SIDE + 2, upper);
            for (int j = 0; j < grid.columns; ++j) {
                int64_t come = s == 0 ? 0 : std::min({upper[j] + 1, upper[j + 1], upper[j + 2] + 1});
                least[j + 1] = grid.usable[s][j] ? come + tolls[grid.rows[s]][j] : FAR;
            }
        }
        return *std::min_element(least, least + SIDE + 2) < WORTH;
    }
};

// ---- Listings: docs/job-format.md

inline int job_body(int kind)
{
    static const int LENGTHS[] = {2, 3, 3, 3, 2, 0, 0, 0};
    bool known = kind >= SIZE && kind <= JUDGE;
    return known ? LENGTHS[kind - SIZE] : -1;
}

// How many of the bytes belong to the sheet that they begin with.
inline size_t sheet_length(const uint8_t *bytes, size_t length)
{
    for (size_t at = 0; at < length;) {
        int body = sheet_body(bytes[at]);
        if (body < 0 || length - at - 1 < size_t(body))
            return length;
        if (bytes[at] == END)
            return at + 1;
        at += 1 + size_t(body);
    }
    return length;
}

inline long told[256][32]; // how often each refusal was told on each kind of line, or 0 for none

class Listing {
public:
    std::string text;

    explicit Listing(const Bytes &job)
    {
        const uint8_t *at = job.data();
        for (size_t left = job.size(); left > 0;) {
            int body = job_body(*at);
            bool faulty = body < 0 || left - 1 < size_t(body);
            size_t length = faulty ? left : 1 + size_t(body);
            if (*at == JUDGE && !faulty)
                length += sheet_length(at + 1, left - 1);
            if (faulty)
                refuse(*at, body < 0 ? 7 : 8);
            else
                take(at, length);
            at += length, left -= length;
        }
    }

private:
    std::optional<Card> card;
    // of the card as it is
    std::optional<Grid> grid;
    std::optional<Found> greedy_found, best;

    void tell(int kind, int refusal, const std::string &said)
    {
        const char *digits = "0123456789ABCDEF";
        text += digits[kind / 16];
        text += digits[kind % 16];
        text += ' ' + said + '\n';
        told[kind][refusal] += 1;
    }
    void refuse(int kind, int number) { tell(kind, number, "no " + std::to_string(number)); }
    void tell_found(int kind, const Found &f) { tell(kind, 0, std::to_string(f.columns) + ' ' + std::to_string(f.total)); }

    void take(const uint8_t *record, size_t length)
    {
        int kind = record[0];
        if (kind != SIZE && !card)
            return refuse(kind, 9);
        if (kind >= ROUTE)
            return question(kind, record + 1, length - 1);
        if (int refusal = kind == SIZE ? open(record[1], record[2]) : card->change(record))
            return refuse(kind, refusal);
        grid.reset(), greedy_found.reset(), best.reset();
        tell(kind, 0, "ok");
    }

    int open(int rows, int columns)
    {
        if (rows < 1 || rows > SIDE || columns < 1 || columns > SIDE)
            return 1;
        card = Card{rows, columns};
        return 0;
    }

    void question(int kind, const uint8_t *sheet, size_t length)
    {
        if (!grid)
            grid.emplace(*card);
        if (grid->rows.empty())
            return refuse(kind, 6);
        if (kind == JUDGE) {
            Verdict v = Judging(*card, *grid).read(sheet, length);
            if (v.fault == 0)
                return tell_found(kind, v.found);
            return tell(kind, v.fault, "no " + std::to_string(v.fault) + " at " + std::to_string(v.place));
        }
        auto &known = kind == ROUTE ? best : greedy_found;
        if (!known)
            known = kind == ROUTE ? Flow(*grid, false, false).found : greedy(*grid);
        tell_found(kind, *known);
    }
};
