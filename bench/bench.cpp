// Times the compiled reducer, both ways, beside OpenFst's Minimize on the same tables, in one run, and prints tables of microseconds and ratios in Markdown.
// A ratio is the reducer's time over OpenFst's: below 1 the reducer is faster. The sheet stands beside one reduction. What each load is stands in docs/BENCH.md.
#include <fst/fstlib.h>

#include <algorithm>
#include <chrono>
#include <cstdint>
#include <cstdio>
#include <cstdlib>
#include <functional>
#include <random>
#include <string>
#include <vector>

extern "C" {
void gelfost_generate(uint32_t seed, size_t rows, size_t events, uint16_t *cells, size_t cells_len, uint8_t *marks, size_t marks_len,
                      size_t answer[4]);
// Both of bench/recorded.part: the reduction, the first way if `second` is 0, else the second; and the fewest rows at every offset.
void gelfost_reduce_recorded(uint32_t second, uint32_t offset, uint32_t mask, size_t rows, size_t events, size_t start,
                             const uint16_t *cells, size_t cells_len, const uint8_t *marks, size_t marks_len, uint16_t *new_cells,
                             size_t new_cells_len, uint8_t *new_marks, size_t new_marks_len, uint16_t *scratch, size_t scratch_len,
                             size_t answer[4]);
void gelfost_sheet_wide(uint32_t mask, size_t rows, size_t events, size_t start, const uint16_t *cells, size_t cells_len,
                        const uint8_t *marks, size_t marks_len, uint16_t *list, size_t list_len, uint16_t *scratch, size_t scratch_len,
                        size_t answer[4]);
}

namespace {

constexpr uint32_t no_offset = 65536;

[[noreturn]] void fail(const std::string &what) {
    std::fprintf(stderr, "\nbench: %s\n", what.c_str());
    std::exit(1);
}

// ---- tables: targets row by row, packed marks, start 0

struct Table {
    size_t rows, events;
    std::vector<uint16_t> cells;
    std::vector<uint8_t> marks;

    Table(size_t rows, size_t events) : rows(rows), events(events), cells(rows * events), marks((rows + 7) / 8) {}

    uint16_t &target(size_t row, size_t event) { return cells[row * events + event]; }
    size_t target(size_t row, size_t event) const { return cells[row * events + event]; }
    bool ready(size_t row) const { return marks[row / 8] >> row % 8 & 1; }
    void set_ready(size_t row) { marks[row / 8] |= 1 << row % 8; }
};

using Draw = std::mt19937;

void draw_marks(Table &table, Draw &draw) {
    for (size_t r = 0; r < table.rows; r++)
        if (draw() % 2) table.set_ready(r);
}

Table random_table(size_t rows, size_t events) {
    Table table(rows, events);
    Draw draw(1);
    for (uint16_t &cell : table.cells) cell = draw() % rows;
    draw_marks(table, draw);
    return table;
}

Table stated_load(size_t rows, size_t events) {
    Table table(rows, events);
    size_t answer[4];
    gelfost_generate(1, rows, events, table.cells.data(), table.cells.size(), table.marks.data(), table.marks.size(), answer);
    if (answer[0]) fail("the generator refused by rule " + std::to_string(answer[0]));
    return table;
}

// Every event leads to the row after; the last row, which alone is ready, leads to `last`.
Table line(size_t rows, size_t events, size_t last) {
    Table table(rows, events);
    for (size_t r = 0; r < rows; r++)
        for (size_t a = 0; a < events; a++) table.target(r, a) = r + 1 < rows ? r + 1 : last;
    table.set_ready(rows - 1);
    return table;
}

Table chain(size_t rows, size_t events) { return line(rows, events, rows - 1); }

Table cycle(size_t rows, size_t events) { return line(rows, events, 0); }

// The first half is a chain that leads into the second half, a random table; marks are drawn.
Table chain_with_random_tail(size_t rows, size_t events) {
    Table table(rows, events);
    Draw draw(1);
    size_t half = rows / 2;
    for (size_t r = 0; r < rows; r++)
        for (size_t a = 0; a < events; a++) table.target(r, a) = r < half ? r + 1 : half + draw() % (rows - half);
    draw_marks(table, draw);
    return table;
}

// ---- shapes that are hard for the levels: many splits, or many levels at which something changes

// Every event leads to the row after; marks are drawn.
Table chain_with_random_marks(size_t rows, size_t events) {
    Table table = chain(rows, events);
    Draw draw(1);
    table.marks.assign(table.marks.size(), 0);
    draw_marks(table, draw);
    return table;
}

// A chain of half the rows into another, on whose first row event 0 stays: its rows have endless depth. Marks are drawn.
Table chain_on_endless_chain(size_t rows, size_t events) {
    Table table = chain_with_random_marks(rows, events);
    if (events > 1) table.target(rows / 2, 0) = rows / 2;
    return table;
}

// One drawn event leads from each row to the next, the others home to row 0; the last row, which alone is ready, leads to itself.
Table pattern(size_t rows, size_t events) {
    Table table = chain(rows, events);
    Draw draw(1);
    for (size_t r = 0; r + 1 < rows; r++) {
        size_t right = draw() % events;
        for (size_t a = 0; a < events; a++) table.target(r, a) = a == right ? r + 1 : 0;
    }
    return table;
}

// The same with its rows shuffled but for the first, which is the start.
Table shuffled_pattern(size_t rows, size_t events) {
    const Table plain = pattern(rows, events);
    std::vector<size_t> to(rows);
    for (size_t r = 0; r < rows; r++) to[r] = r;
    std::shuffle(to.begin() + 1, to.end(), Draw(1));
    Table table(rows, events);
    for (size_t r = 0; r < rows; r++) {
        for (size_t a = 0; a < events; a++) table.target(to[r], a) = to[plain.target(r, a)];
        if (plain.ready(r)) table.set_ready(to[r]);
    }
    return table;
}

// One drawn event leads from each row to the next, the others to any row up to its own.
Table deep_and_dense(size_t rows, size_t events) {
    Table table = chain(rows, events);
    Draw draw(1);
    for (size_t r = 0; r + 1 < rows; r++) {
        size_t right = draw() % events;
        for (size_t a = 0; a < events; a++) table.target(r, a) = a == right ? r + 1 : draw() % (r + 1);
    }
    return table;
}

// ---- the two sides

double seconds(const std::function<void()> &work) {
    auto began = std::chrono::steady_clock::now();
    work();
    return std::chrono::duration<double>(std::chrono::steady_clock::now() - began).count();
}

using Fst = fst::VectorFst<fst::StdArc>;

// The table as an acceptor: ready rows are final. Labels begin at 1, for 0 is the empty word.
Fst acceptor(const Table &table) {
    Fst made;
    made.ReserveStates(table.rows);
    for (size_t r = 0; r < table.rows; r++) made.AddState();
    made.SetStart(0);
    for (size_t r = 0; r < table.rows; r++) {
        if (table.ready(r)) made.SetFinal(r, fst::TropicalWeight::One());
        made.ReserveArcs(r, table.events);
        for (size_t a = 0; a < table.events; a++)
            made.AddArc(r, fst::StdArc(a + 1, a + 1, fst::TropicalWeight::One(), table.target(r, a)));
    }
    return made;
}

// Seconds of Minimize alone: the acceptor is built anew each time, before the clock starts.
double minimize(const Table &table, size_t &states) {
    Fst made = acceptor(table);
    double took = seconds([&] { fst::Minimize(&made); });
    states = made.NumStates();
    return took;
}

// How many scratch cells each way through the reducer needs.
size_t needed(uint32_t way, size_t rows) { return way == 0 ? rows * (rows - 1) / 2 + 4 * rows : 12 * rows; }

// The lent buffers, and the reduced table afterwards.
struct Lent {
    std::vector<uint16_t> cells;
    std::vector<uint8_t> marks;
    std::vector<uint16_t> scratch;

    Lent(const Table &table, uint32_t way) : cells(table.cells.size()), marks(table.marks.size()), scratch(needed(way, table.rows)) {}
};

// The mask in which the first `counted` events count.
uint32_t mask_of(size_t counted) { return counted < 32 ? (uint32_t{1} << counted) - 1 : UINT32_MAX; }

// Seconds of the whole call, with its checks, the records and the clearing of the scratch; `counted` events count.
double reduce(uint32_t way, const Table &table, size_t counted, uint32_t offset, Lent &lent, size_t &rows) {
    size_t answer[4];
    double took = seconds([&] {
        gelfost_reduce_recorded(way, offset, mask_of(counted), table.rows, table.events, 0, table.cells.data(), table.cells.size(),
                                table.marks.data(), table.marks.size(), lent.cells.data(), lent.cells.size(), lent.marks.data(),
                                lent.marks.size(), lent.scratch.data(), lent.scratch.size(), answer);
    });
    if (answer[0]) fail("the reducer refused by rule " + std::to_string(answer[0]));
    rows = answer[1];
    return took;
}

// Seconds of the fewest rows at every offset, the whole call too; the scratch is that of the first way.
double write_sheet(const Table &table, size_t counted, std::vector<uint16_t> &list, std::vector<uint16_t> &scratch) {
    size_t answer[4];
    double took = seconds([&] {
        gelfost_sheet_wide(mask_of(counted), table.rows, table.events, 0, table.cells.data(), table.cells.size(), table.marks.data(),
                           table.marks.size(), list.data(), list.size(), scratch.data(), scratch.size(), answer);
    });
    if (answer[0]) fail("the sheet was refused by rule " + std::to_string(answer[0]));
    return took;
}

// OpenFst drops the states from which no final one is reached; a reduced table has at most one such row, which leads to itself.
size_t lost_rows(const Lent &lent, size_t rows, size_t events) {
    size_t lost = 0;
    for (size_t r = 0; r < rows; r++) {
        bool ready = lent.marks[r / 8] >> r % 8 & 1;
        auto first = lent.cells.begin() + r * events;
        lost += !ready && std::all_of(first, first + events, [r](size_t to) { return to == r; });
    }
    return lost;
}

// ---- the run

struct Load {
    const char *name;
    Table (*make)(size_t rows, size_t events);
    bool half_idle = false;
};

// OpenFst's seconds, those of the sheet, and by way and offset the rows that are left and the seconds.
struct Times {
    double theirs = 1e9, sheet = 1e9, ours[2][4];
    size_t left[2][4];
};

// Best of so many, all in turn, so that what else the machine does falls on all of them alike. Both ways must leave as many rows, as many as OpenFst at offset 0 where every event counts, and as many as the sheet says.
// A sheet that takes above 0.1 s is taken at most three times.
Times time_table(const Table &table, size_t counted, int repeats) {
    const uint32_t offsets[4] = {0, 10, static_cast<uint32_t>(4 * table.rows / 3), no_offset};
    Times times;
    for (auto &of_way : times.ours) std::fill(of_way, of_way + 4, 1e9);
    size_t states = 0;
    Lent lent[2] = {Lent(table, 0), Lent(table, 1)};
    std::vector<uint16_t> list(2 * table.rows + 1);
    for (int i = 0; i < repeats; i++) {
        times.theirs = std::min(times.theirs, minimize(table, states));
        if (i < 3 || times.sheet <= 0.1) times.sheet = std::min(times.sheet, write_sheet(table, counted, list, lent[0].scratch));
        for (int k = 0; k < 4; k++) {
            for (uint32_t way = 0; way < 2; way++)
                times.ours[way][k] = std::min(times.ours[way][k], reduce(way, table, counted, offsets[k], lent[way], times.left[way][k]));
            if (times.left[0][k] != times.left[1][k]) fail("the two ways differ in rows");
            if (k == 0 && counted == table.events && times.left[1][0] != states + lost_rows(lent[1], times.left[1][0], table.events))
                fail("reducer and OpenFst differ in rows");
            if (times.left[1][k] != list[std::min<size_t>(offsets[k], 2 * table.rows)]) fail("reducer and sheet differ in rows");
        }
    }
    return times;
}

void print_head(const char *what) {
    std::printf("\n| %s | events | rows | OpenFst |", what);
    for (const char *offset : {"0", "10", "4 rows / 3", "none"}) std::printf(" rows at %s | first | second | ratio |", offset);
    std::printf("\n|---|---|---|---|");
    for (int k = 0; k < 4; k++) std::printf("---|---|---|---|");
    std::printf("\n");
}

void print_times(const char *name, const Table &table, const Times &times) {
    std::printf("| %s | %zu | %zu | %.0f |", name, table.events, table.rows, 1e6 * times.theirs);
    for (int k = 0; k < 4; k++)
        std::printf(" %zu | %.0f | %.0f | %.2f |", times.left[1][k], 1e6 * times.ours[0][k], 1e6 * times.ours[1][k],
                    times.ours[1][k] / times.theirs);
    std::printf("\n");
    std::fflush(stdout);
}

// A line of the sheets' table.
std::string sheet_line(const char *name, size_t events, const Times &times) {
    char numbers[96];
    std::snprintf(numbers, sizeof numbers, " | %zu | %.0f | %.0f | %.1f |\n", events, 1e6 * times.ours[1][3], 1e6 * times.sheet,
                  times.sheet / times.ours[1][3]);
    return "| " + std::string(name) + numbers;
}

// The loads at three sizes, and how much a doubling of the rows costs the second way at its dearest. Answers the lines of their sheets at 1,024 rows.
std::string time_loads(int repeats) {
    const Load loads[] = {{"random", random_table},
                          {"stated load", stated_load},
                          {"chain", chain},
                          {"chain, random tail", chain_with_random_tail},
                          {"cycle", cycle}};
    print_head("load");
    std::string growth, sheets;
    for (const Load &load : loads)
        for (size_t events : {1, 4, 32}) {
            growth += "| " + std::string(load.name) + " | " + std::to_string(events) + " |";
            Times before;
            for (size_t rows : {256, 512, 1024}) {
                std::fprintf(stderr, "bench: %s, %zu events, %zu rows\n", load.name, events, rows);
                const Table table = load.make(rows, events);
                const Times times = time_table(table, events, repeats);
                print_times(load.name, table, times);
                for (int k = 0; rows > 256 && k < 4; k++) {
                    char factor[32];
                    std::snprintf(factor, sizeof factor, " %.1f |", times.ours[1][k] / before.ours[1][k]);
                    growth += factor;
                }
                if (rows == 1024) sheets += sheet_line(load.name, events, times);
                before = times;
            }
            growth += "\n";
        }
    std::printf("\n| growth of the second way | events |");
    for (const char *size : {"512", "1,024"})
        for (const char *offset : {"0", "10", "4 rows / 3", "none"}) std::printf(" to %s, at %s |", size, offset);
    std::printf("\n|---|---|---|---|---|---|---|---|---|---|\n%s", growth.c_str());
    return sheets;
}

// The hard shapes at 1,024 rows; of the last two only half the events count, so that idle events move rows. Answers the lines of their sheets.
std::string time_shapes(int repeats) {
    const Load shapes[] = {{"chain, random marks", chain_with_random_marks},
                           {"chain on an endless chain", chain_on_endless_chain},
                           {"chain on a random table", chain_with_random_tail},
                           {"pattern", pattern},
                           {"shuffled pattern", shuffled_pattern},
                           {"deep and dense", deep_and_dense},
                           {"stated load, half the events idle", stated_load, true},
                           {"chain on an endless chain, half the events idle", chain_on_endless_chain, true}};
    print_head("shape");
    std::string sheets;
    for (const Load &shape : shapes)
        for (size_t events : {2, 32}) {
            std::fprintf(stderr, "bench: %s, %zu events\n", shape.name, events);
            const Table table = shape.make(1024, events);
            const Times times = time_table(table, shape.half_idle ? events / 2 : events, repeats);
            print_times(shape.name, table, times);
            sheets += sheet_line(shape.name, events, times);
        }
    return sheets;
}

}  // namespace

int main(int count, char **words) {
    int repeats = count > 1 ? std::atoi(words[1]) : 25;
    if (repeats < 1) fail("usage: bench [REPEATS]");
    std::string sheets = time_loads(repeats);
    sheets += time_shapes(repeats);
    std::printf("\n| load or shape at 1,024 rows | events | reduction | sheet | sheet over reduction |\n|---|---|---|---|---|\n%s",
                sheets.c_str());
}
