// How fast the library outlines, measured against its own list of the same grid and against a plain C++ outline.
//
//     outlines           times the three at three sizes and prints a table
//     outlines --work    the same for an emulator, where a time says nothing: counts instructions (counter.cpp), and
//                        where nobody counts prints the emulator's own time, for its ratios
//     outlines --small   only checks the library's outlines of small grids, by the definitions (made_up_outlines.hpp)
//                        and by plain C++, and one of the greatest grid
//     outlines --one KIND SIZE WHO TURNS
//                        makes one of the three so many times, for who looks where instructions go; KIND is the number
//                        of the kind, WHO outline, list or reference
//
// Every text is compared with that of plain C++; a difference ends the program with status 1.

#include <array>
#include <cinttypes>
#include <cstddef>
#include <cstdint>
#include <cstdio>
#include <cstdlib>
#include <string>
#include <string_view>
#include <vector>

#include "grids.hpp"
#include "instructions.hpp"
#include "lent.hpp"
#include "made_up_outlines.hpp"
#include "mayexoton.h"
#include "meter.hpp"
#include "outline.hpp"
#include "reference.hpp"
#include "tables.hpp"
#include "times.hpp"

static_assert(__BYTE_ORDER__ == __ORDER_LITTLE_ENDIAN__, "the benchmark needs a little-endian machine");
static_assert(sizeof(reference::Record) == MAYEXOTON_RECORD_BYTES);
static_assert(reference::work_per_cell * sizeof(std::uint32_t) == MAYEXOTON_WORK_BYTES);

namespace {

using grids::Heights;
using lent::bytes;

constexpr std::uint32_t most_levels = 64;

// ---- one grid, outlined twice and listed

// All three use one work area. The library's text has a room with one byte more than it needs.
class Contest {
public:
    Contest(const char *kind, std::uint32_t rows, const Heights &heights, std::uint32_t threshold, std::uint32_t levels)
        : kind(kind), rows(rows), columns(static_cast<std::uint32_t>(heights.size() / rows)), threshold(threshold),
          levels(levels), heights(heights), work(reference::work_per_cell * heights.size()), table(heights.size()),
          plain(reference::outline(rows, heights, threshold, levels)), room(plain.size() + 1, lent::untouched_byte) {}

    void run_outline() {
        answer = meter_outline(rows, columns, threshold, levels, heights.data(), heights.size(), bytes(work),
                               work.size() * sizeof(work[0]), room.data(), room.size());
    }

    void run_list() {
        peaks = mayexoton_list(rows, bytes(heights), heights.size() * sizeof(heights[0]), threshold, bytes(work),
                               work.size() * sizeof(work[0]), bytes(table), table.size() * sizeof(table[0]));
    }

    void run_reference() {
        reference::outline(rows, heights.data(), heights.size(), threshold, levels, work.data(), plain);
    }

    void require_agreement() const {
        if (answer == static_cast<std::int64_t>(plain.size()) && room == lent::room_with(plain, room.size())) return;
        std::printf("DIFFERENT: %s, %" PRIu32 " rows, %" PRIu32 " columns, threshold %" PRIu32 ", levels %" PRIu32
                    "; the library answers %" PRId64 ", plain C++ %zu\n",
                    kind, rows, columns, threshold, levels, answer, plain.size());
        std::exit(EXIT_FAILURE);
    }

    double cells() const { return static_cast<double>(heights.size()); }
    std::int64_t listed() const { return peaks; }
    std::size_t text_bytes() const { return plain.size(); }

private:
    const char *kind;
    std::uint32_t rows;
    std::uint32_t columns;
    std::uint32_t threshold;
    std::uint32_t levels;
    const Heights &heights;
    std::vector<std::uint32_t> work;
    std::vector<reference::Record> table;
    std::string plain;
    lent::Bytes room;
    std::int64_t answer = 0;
    std::int64_t peaks = 0;
};

// ---- costs

// Per cell.
struct Cost {
    double outline;
    double list;
    double reference;
    std::int64_t peaks;
    std::size_t text_bytes;

    double ratio() const { return outline / list; }
};

using Costing = Cost (*)(const grids::Kind &, std::uint32_t);

Cost per_cell(const Contest &contest, double outline, double list, double reference) {
    const double cells = contest.cells();
    return {outline / cells, list / cells, reference / cells, contest.listed(), contest.text_bytes()};
}

// Nanoseconds.
Cost cost_in_time(const grids::Kind &kind, std::uint32_t size) {
    const Heights heights = kind.make(size, size);
    Contest contest(kind.name, size, heights, 1, most_levels);
    const int turns = tables::turns_at(size);
    const auto check = [&] { contest.require_agreement(); };
    const auto outline = [&] { contest.run_outline(); };
    const times::Medians by_list = times::in_turn(turns, outline, [&] { contest.run_list(); }, check);
    const times::Medians by_reference = times::in_turn(turns, outline, [&] { contest.run_reference(); }, check);
    return per_cell(contest, by_list.first, by_list.second, by_reference.second);
}

// Instructions. They are the same in every run, so one is enough.
Cost cost_in_instructions(const grids::Kind &kind, std::uint32_t size) {
    const instructions::Counter counter;
    const Heights heights = kind.make(size, size);
    Contest contest(kind.name, size, heights, 1, most_levels);
    const double outline = counter.count([&] { contest.run_outline(); });
    const double list = counter.count([&] { contest.run_list(); });
    const double reference = counter.count([&] { contest.run_reference(); });
    contest.require_agreement();
    return per_cell(contest, outline, list, reference);
}

// ---- tables

int print_costs(const char *unit, Costing cost) {
    std::printf("%s per cell; square grids, threshold 1, %" PRIu32 " levels; outline / list wanted: at most 1.6\n\n",
                unit, most_levels);
    std::printf("%-13s %7s %8s |%21s |%21s |%21s |%21s |\n", "", "", "", "outline", "list", "outline / list",
                "outline in plain C++");
    std::printf("%-13s %7s %8s |", "kind", "peaks", "bytes");
    for (int i = 0; i < 4; ++i) tables::print_sizes();
    std::printf("\n");
    for (const grids::Kind &kind : grids::kinds) {
        const auto costs = tables::costs_of([&](std::uint32_t size) { return cost(kind, size); });
        std::printf("%-13s %7" PRId64 " %8zu |", kind.name, costs.back().peaks, costs.back().text_bytes);
        tables::print_each(costs, " %6.1f", [](const Cost &each) { return each.outline; });
        tables::print_each(costs, " %6.1f", [](const Cost &each) { return each.list; });
        tables::print_each(costs, " %6.2f", [](const Cost &each) { return each.ratio(); });
        tables::print_each(costs, " %6.1f", [](const Cost &each) { return each.reference; });
        std::printf("\n");
        std::fflush(stdout);
    }
    return EXIT_SUCCESS;
}

// ---- agreement on small grids

// The kinds that are timed, small: there are chains of more than 64 peaks.
std::size_t check_kind(const grids::Kind &kind, std::uint32_t rows, std::uint32_t columns) {
    constexpr std::array<std::uint32_t, 3> thresholds{0, 1, 100};
    constexpr std::array<std::uint32_t, 3> numbers_of_levels{1, 5, most_levels};
    const Heights heights = kind.make(rows, columns);
    std::size_t calls = 0;
    for (const std::uint32_t threshold : thresholds) {
        for (const std::uint32_t levels : numbers_of_levels) {
            Contest contest(kind.name, rows, heights, threshold, levels);
            contest.run_outline();
            contest.require_agreement();
            ++calls;
        }
    }
    return calls;
}

void check_greatest() {
    const std::uint32_t size = tables::sizes.back();
    const grids::Kind &kind = grids::kinds.front();
    const Heights heights = kind.make(size, size);
    Contest contest(kind.name, size, heights, 1, most_levels);
    contest.run_outline();
    contest.require_agreement();
}

int check_small() {
    constexpr int made_up_grids = 4000;
    constexpr std::uint32_t greatest = 21;
    std::size_t by_definitions = 0, by_plain = 0;
    grids::Random random(6);
    for (int i = 0; i < made_up_grids; ++i) by_definitions += made_up::check_grid(random);
    for (const grids::Kind &kind : grids::kinds) {
        for (std::uint32_t rows = 1; rows <= greatest; rows += 2) {
            for (std::uint32_t columns = 1; columns <= greatest; columns += 2) {
                by_plain += check_kind(kind, rows, columns);
            }
        }
    }
    check_greatest();
    std::printf("%zu small outlines are as the definitions say, %zu and that of the greatest grid as plain C++\n",
                by_definitions, by_plain);
    return EXIT_SUCCESS;
}

// ---- one kind, one of the three

int run_one(const grids::Kind &kind, std::uint32_t size, std::string_view who, int turns) {
    const Heights heights = kind.make(size, size);
    Contest contest(kind.name, size, heights, 1, most_levels);
    for (int turn = 0; turn < turns; ++turn) {
        if (who == "outline") contest.run_outline();
        else if (who == "list") contest.run_list();
        else contest.run_reference();
    }
    std::printf("%s, %" PRIu32 "\n", kind.name, size * size);
    return EXIT_SUCCESS;
}

int usage() {
    std::fprintf(stderr, "usage: outlines [--work | --small | --one KIND SIZE WHO TURNS]\n");
    return EXIT_FAILURE;
}

} // namespace

int main(int argc, char **argv) {
    const std::string_view option = argc >= 2 ? argv[1] : "";
    if (argc == 1) return tables::print_times<Costing>(print_costs, cost_in_time);
    if (argc == 2 && option == "--work") {
        return tables::print_work<Costing>(print_costs, cost_in_time, cost_in_instructions);
    }
    if (argc == 2 && option == "--small") return check_small();
    if (argc == 6 && option == "--one") {
        const auto kind = static_cast<std::size_t>(std::atoi(argv[2]));
        const auto size = static_cast<std::uint32_t>(std::atoi(argv[3]));
        if (kind < grids::kinds.size()) return run_one(grids::kinds[kind], size, argv[4], std::atoi(argv[5]));
    }
    return usage();
}
