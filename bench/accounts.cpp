// How fast the library gives the account of a peak, and checks one, measured against its own list of the same grid and
// against plain C++ that does the same.
//
//     accounts           times all at three sizes, of two peaks of each kind of grid, and prints two tables
//     accounts --work    the same for an emulator, where a time says nothing: counts instructions (counter.cpp), and
//                        where nobody counts prints the emulator's own time, for its ratios
//     accounts --small   only checks the library's accounts and checks: of small grids by the definitions
//                        (made_up_accounts.hpp), of others and of the greatest by plain C++
//     accounts --peaks SIZE
//                        prints the peaks that are taken: the number of the kind, the cell, and what they are called
//     accounts --one KIND SIZE CELL WHO
//                        runs one of all once, for who looks where instructions go; KIND is the number of the kind, WHO
//                        account, check, list, plain-account or plain-check
//
// Every account is compared with that of plain C++, and must be accepted; a difference ends the program with status 1.

#include <algorithm>
#include <array>
#include <cinttypes>
#include <cstddef>
#include <cstdint>
#include <cstdio>
#include <cstdlib>
#include <functional>
#include <optional>
#include <string>
#include <string_view>
#include <vector>

#include "account.hpp"
#include "grids.hpp"
#include "instructions.hpp"
#include "lent.hpp"
#include "made_up_accounts.hpp"
#include "mayexoton.h"
#include "meter.hpp"
#include "reference.hpp"
#include "tables.hpp"
#include "times.hpp"

static_assert(__BYTE_ORDER__ == __ORDER_LITTLE_ENDIAN__, "the benchmark needs a little-endian machine");
static_assert(sizeof(reference::Record) == MAYEXOTON_RECORD_BYTES);
static_assert(reference::work_per_cell * sizeof(std::uint32_t) == MAYEXOTON_WORK_BYTES);

namespace {

using grids::Heights;
using lent::bytes;
using reference::Cells;

// ---- who is measured

enum Who { account, check, list, plain_account, plain_check };

constexpr std::array<std::string_view, 5> names{"account", "check", "list", "plain-account", "plain-check"};

// One peak of a grid. All use one work area.
class Contest {
public:
    Contest(const char *kind, std::uint32_t rows, const Heights &heights, std::uint32_t peak)
        : kind(kind), rows(rows), heights(heights), peak(peak), work(reference::work_per_cell * heights.size()),
          table(heights.size()), path(heights.size(), lent::untouched_number), island(path), plain_path(path),
          plain_island(path), plain(*reference::account(rows, heights, peak)) {}

    void run(std::size_t who) {
        switch (who) {
        case account: run_account(); break;
        case check: run_check(); break;
        case list: run_list(); break;
        case plain_account: run_plain_account(); break;
        default: run_plain_check();
        }
    }

    void require_agreement() const {
        const bool agree = level == made_up::level_of(plain.key_height) && verdict == 1 &&
                           path == lent::row_with(plain.path, path.size()) &&
                           island == lent::row_with(plain.island, island.size()) &&
                           plain_verdict == reference::Verdict::yes;
        if (agree) return;
        std::printf("DIFFERENT: %s, %" PRIu32 " rows, %zu cells, the peak at %" PRIu32
                    "; the library gives the level %" PRId64 " and says %" PRId64
                    ", plain C++ gives the key height %" PRId32 "\n",
                    kind, rows, heights.size(), peak, level, verdict, plain.key_height);
        std::exit(EXIT_FAILURE);
    }

    double cells() const { return static_cast<double>(heights.size()); }
    std::size_t on_path() const { return plain.path.size(); }
    std::size_t on_island() const { return plain.island.size(); }

private:
    // Each is a function of its own in the program, so that the instructions of it can be counted (callgrind.py).
    [[gnu::noinline]] void run_account() {
        level = meter_account(rows, heights.data(), heights.size(), peak, bytes(work), work.size() * sizeof(work[0]),
                              path.data(), path.size(), island.data(), island.size());
    }

    [[gnu::noinline]] void run_check() {
        verdict = meter_check(rows, heights.data(), heights.size(), peak, plain.key_height, plain.path.data(),
                              plain.path.size(), plain.island.data(), plain.island.size(), bytes(work),
                              work.size() * sizeof(work[0]));
    }

    [[gnu::noinline]] void run_list() {
        mayexoton_list(rows, bytes(heights), heights.size() * sizeof(heights[0]), 1, bytes(work),
                       work.size() * sizeof(work[0]), bytes(table), table.size() * sizeof(table[0]));
    }

    [[gnu::noinline]] void run_plain_account() {
        reference::account(rows, heights.data(), heights.size(), peak, work.data(), plain_path.data(),
                           plain_island.data());
    }

    [[gnu::noinline]] void run_plain_check() {
        plain_verdict = reference::Checker(rows, heights.data(), heights.size(), work.data()).check(peak, plain);
    }

    const char *kind;
    std::uint32_t rows;
    const Heights &heights;
    std::uint32_t peak;
    std::vector<std::uint32_t> work;
    std::vector<reference::Record> table;
    Cells path;
    Cells island;
    Cells plain_path;
    Cells plain_island;
    reference::Account plain;
    std::int64_t level = 0;
    std::int64_t verdict = 0;
    reference::Verdict plain_verdict = reference::Verdict::no;
};

// ---- the peaks

using Records = std::vector<reference::Record>;

std::uint32_t prominence(const reference::Record &record) {
    return static_cast<std::uint32_t>(record.height) - static_cast<std::uint32_t>(record.key_height);
}

// How far the floods for the account of a peak with a key height go: the cells of its island and of its region.
std::size_t extent(std::uint32_t rows, const Heights &heights, const reference::Record &record, Cells &work) {
    const auto flooded = [&](std::int32_t lowest) {
        return reference::Flood(rows, heights.data(), heights.size(), record.cell, lowest, work.data()).count();
    };
    return flooded(record.key_height + 1) + flooded(record.key_height);
}

// Of some peaks with the greatest prominences, and of some with the lowest key heights, the one whose floods go
// farthest. All have a key height, and there is one at least.
std::uint32_t farthest(std::uint32_t rows, const Heights &heights, Records keyed) {
    constexpr std::size_t most_tried = 8;
    const std::size_t tried = std::min(keyed.size(), most_tried);
    Cells work(2 * heights.size());
    std::size_t greatest = 0;
    std::uint32_t found = 0;
    const auto try_first = [&](auto before) {
        std::stable_sort(keyed.begin(), keyed.end(), before);
        for (std::size_t i = 0; i < tried; ++i) {
            const std::size_t size = extent(rows, heights, keyed[i], work);
            if (size > greatest) found = keyed[i].cell;
            greatest = std::max(greatest, size);
        }
    };
    using reference::Record;
    try_first([](const Record &a, const Record &b) { return prominence(a) > prominence(b); });
    try_first([](const Record &a, const Record &b) { return a.key_height < b.key_height; });
    return found;
}

struct Peak {
    const char *name;
    std::uint32_t cell;
};

// The peaks of a grid without blank cells that are taken: one with a key height, and the only one without.
std::vector<Peak> peaks_of(std::uint32_t rows, const Heights &heights) {
    Records keyed = reference::list(rows, heights.data(), heights.size(), 1);
    const auto top = std::find_if(keyed.begin(), keyed.end(),
                                  [](const reference::Record &record) { return record.pass == reference::no_pass; });
    if (top == keyed.end()) return {};
    const Peak highest{"top", top->cell};
    keyed.erase(top);
    if (keyed.empty()) return {highest};
    return {{"keyed", farthest(rows, heights, keyed)}, highest};
}

// ---- costs

// Per cell.
struct Cost {
    std::array<double, names.size()> each;
    std::size_t on_path;
    std::size_t on_island;

    double ratio(Who who) const { return each[who] / each[list]; }
};

using Costing = Cost (*)(Contest &, std::uint32_t);

Cost per_cell(const Contest &contest, std::array<double, names.size()> each) {
    for (double &cost : each) cost /= contest.cells();
    return {each, contest.on_path(), contest.on_island()};
}

// Nanoseconds.
Cost cost_in_time(Contest &contest, std::uint32_t size) {
    std::array<std::function<void()>, names.size()> runs;
    for (std::size_t who = 0; who < runs.size(); ++who) runs[who] = [&contest, who] { contest.run(who); };
    return per_cell(contest, times::all_in_turn(tables::turns_at(size), runs, [&] { contest.require_agreement(); }));
}

// Instructions. They are the same in every run, so one is enough.
Cost cost_in_instructions(Contest &contest, std::uint32_t) {
    const instructions::Counter counter;
    std::array<double, names.size()> counts{};
    for (std::size_t who = 0; who < counts.size(); ++who) {
        counts[who] = counter.count([&] { contest.run(who); });
    }
    contest.require_agreement();
    return per_cell(contest, counts);
}

// ---- tables

struct Row {
    std::string name;
    tables::Costs<Cost> costs;
};

void print_heading(const char *unit, const char *what, double wanted) {
    std::printf("%s: %s per cell; square grids; wanted: at most %.1f of a list\n\n", what, unit, wanted);
    std::printf("%-20s %7s %7s |%21s |%21s |%21s |%21s |\n%-20s %7s %7s |", "", "", "", what, "list",
                (std::string(what) + " / list").c_str(), "plain C++", "kind, peak", "island", "path");
    for (int i = 0; i < 4; ++i) tables::print_sizes();
    std::printf("\n");
}

void print_row(const Row &row, Who who, Who plain) {
    std::printf("%-20s %7zu %7zu |", row.name.c_str(), row.costs.back().on_island, row.costs.back().on_path);
    tables::print_each(row.costs, " %6.1f", [=](const Cost &cost) { return cost.each[who]; });
    tables::print_each(row.costs, " %6.1f", [](const Cost &cost) { return cost.each[list]; });
    tables::print_each(row.costs, " %6.2f", [=](const Cost &cost) { return cost.ratio(who); });
    tables::print_each(row.costs, " %6.1f", [=](const Cost &cost) { return cost.each[plain]; });
    std::printf("\n");
    std::fflush(stdout);
}

// The rows of a kind, one for each of its peaks.
std::vector<Row> rows_of(const grids::Kind &kind, Costing cost) {
    std::vector<Row> rows;
    for (std::size_t i = 0; i < tables::sizes.size(); ++i) {
        const std::uint32_t size = tables::sizes[i];
        const Heights heights = kind.make(size, size);
        const std::vector<Peak> peaks = peaks_of(size, heights);
        rows.resize(peaks.size());
        for (std::size_t peak = 0; peak < peaks.size(); ++peak) {
            Contest contest(kind.name, size, heights, peaks[peak].cell);
            rows[peak].name = std::string(kind.name) + ", " + peaks[peak].name;
            rows[peak].costs[i] = cost(contest, size);
        }
    }
    return rows;
}

int print_costs(const char *unit, Costing cost) {
    std::vector<Row> all;
    print_heading(unit, "account", 1.6);
    for (const grids::Kind &kind : grids::kinds) {
        for (const Row &row : rows_of(kind, cost)) {
            print_row(row, account, plain_account);
            all.push_back(row);
        }
    }
    std::printf("\n");
    print_heading(unit, "check", 0.5);
    for (const Row &row : all) print_row(row, check, plain_check);
    return EXIT_SUCCESS;
}

// ---- agreement

// The kinds that are timed, small, and made-up grids.
void try_grids(grids::Random &random, made_up::Tally &tally) {
    constexpr std::uint32_t greatest = 21, made_up_greatest = 40;
    constexpr int made_up_grids = 100;
    for (const grids::Kind &kind : grids::kinds) {
        for (std::uint32_t rows = 1; rows <= greatest; rows += 4) {
            for (std::uint32_t columns = 1; columns <= greatest; columns += 4) {
                made_up::try_grid(random, rows, kind.make(rows, columns), tally);
            }
        }
    }
    for (int i = 0; i < made_up_grids; ++i) {
        const std::uint32_t rows = made_up::up_to(random, made_up_greatest);
        const std::uint32_t columns = made_up::up_to(random, made_up_greatest);
        made_up::try_grid(random, rows, made_up::heights_of(random, std::size_t{rows} * columns), tally);
    }
}

// Grids of as many cells as there may be, and with a column more.
void try_greatest(grids::Random &random, made_up::Tally &tally) {
    constexpr std::uint32_t size = tables::sizes.back();
    for (const auto make : {grids::chromatogram, grids::all_equal}) {
        const Heights heights = make(size, size);
        for (const Peak &peak : peaks_of(size, heights)) made_up::try_one_cell(random, size, heights, peak.cell, tally);
    }
    made_up::try_one_cell(random, size, grids::all_equal(size, size + 1), 0, tally);
}

int check_small() {
    constexpr int small_grids = 2000;
    grids::Random random(7);
    made_up::Tally small, other, greatest;
    for (int i = 0; i < small_grids; ++i) made_up::try_small_grid(random, small);
    try_grids(random, other);
    try_greatest(random, greatest);
    std::printf("library and definitions agree on %zu small accounts and %zu checks, of which %zu accept; library and "
                "plain C++ on %zu and %zu, of which %zu, and on %zu and %zu of the greatest grids\n",
                small.accounts, small.checks, small.accepted, other.accounts, other.checks, other.accepted,
                greatest.accounts, greatest.checks);
    return EXIT_SUCCESS;
}

// ---- for callgrind.py

int print_peaks(std::uint32_t size) {
    for (std::size_t kind = 0; kind < grids::kinds.size(); ++kind) {
        for (const Peak &peak : peaks_of(size, grids::kinds[kind].make(size, size))) {
            std::printf("%zu %" PRIu32 " %s, %s\n", kind, peak.cell, grids::kinds[kind].name, peak.name);
        }
    }
    return EXIT_SUCCESS;
}

int run_one(const grids::Kind &kind, std::uint32_t size, std::uint32_t cell, std::size_t who) {
    const Heights heights = kind.make(size, size);
    Contest(kind.name, size, heights, cell).run(who);
    return EXIT_SUCCESS;
}

int usage() {
    std::fprintf(stderr, "usage: accounts [--work | --small | --peaks SIZE | --one KIND SIZE CELL WHO]\n");
    return EXIT_FAILURE;
}

} // namespace

int main(int argc, char **argv) {
    const std::string_view option = argc >= 2 ? argv[1] : "";
    const auto number = [&](int i) { return static_cast<std::uint32_t>(std::atoi(argv[i])); };
    if (argc == 1) return tables::print_times<Costing>(print_costs, cost_in_time);
    if (argc == 2 && option == "--work") {
        return tables::print_work<Costing>(print_costs, cost_in_time, cost_in_instructions);
    }
    if (argc == 2 && option == "--small") return check_small();
    if (argc == 3 && option == "--peaks") return print_peaks(number(2));
    if (argc == 6 && option == "--one") {
        const auto who = std::find(names.begin(), names.end(), argv[5]);
        const auto place = static_cast<std::size_t>(who - names.begin());
        if (number(2) < grids::kinds.size() && who != names.end()) {
            return run_one(grids::kinds[number(2)], number(3), number(4), place);
        }
    }
    return usage();
}
