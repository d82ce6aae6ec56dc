// How fast the library lists, measured against a plain C++ lister of the same grids.
//
//     bench           times both at three sizes and prints a table
//     bench --work    the same for an emulator, where a time says nothing: counts instructions (counter.cpp), and where
//                     nobody counts prints only how the two times compare
//     bench --small   only checks that both agree, on small grids of all kinds
//     bench --one KIND WHO TURNS
//                     lists a grid of 256 x 256 cells so many times, for who counts instructions (callgrind.py);
//                     KIND is the number of the kind, WHO library or reference
//
// Every call's records are compared; a difference ends the program with status 1.

#include <algorithm>
#include <array>
#include <cinttypes>
#include <cstddef>
#include <cstdint>
#include <cstdio>
#include <cstdlib>
#include <cstring>
#include <string_view>
#include <vector>

#include "grids.hpp"
#include "instructions.hpp"
#include "mayexoton.h"
#include "reference.hpp"
#include "times.hpp"

// The library is lent the very numbers the reference works on, so that neither pays for a copy.
static_assert(__BYTE_ORDER__ == __ORDER_LITTLE_ENDIAN__, "the benchmark needs a little-endian machine");
static_assert(sizeof(reference::Record) == MAYEXOTON_RECORD_BYTES);
static_assert(offsetof(reference::Record, cell) == MAYEXOTON_RECORD_CELL);
static_assert(offsetof(reference::Record, height) == MAYEXOTON_RECORD_HEIGHT);
static_assert(offsetof(reference::Record, key_height) == MAYEXOTON_RECORD_KEY_HEIGHT);
static_assert(offsetof(reference::Record, pass) == MAYEXOTON_RECORD_PASS);
static_assert(reference::work_per_cell * sizeof(std::uint32_t) == MAYEXOTON_WORK_BYTES);

namespace {

using reference::Record;

constexpr std::array<std::uint32_t, 3> sizes{256, 512, 1024};

// ---- one grid, two listers

// Both listers use one work area, so that neither has the warmer memory; each has a table of its own.
class Contest {
public:
    Contest(std::uint32_t rows, const grids::Heights &heights)
        : rows(rows), heights(heights), work(reference::work_per_cell * heights.size()), library_table(heights.size()),
          reference_table(heights.size()) {}

    void run_library(std::uint32_t threshold) {
        library_count = mayexoton_list(rows, reinterpret_cast<const std::uint8_t *>(heights.data()),
                                       heights.size() * sizeof(std::int32_t), threshold,
                                       reinterpret_cast<std::uint8_t *>(work.data()),
                                       work.size() * sizeof(std::uint32_t),
                                       reinterpret_cast<std::uint8_t *>(library_table.data()),
                                       library_table.size() * sizeof(Record));
    }

    void run_reference(std::uint32_t threshold) {
        reference_count = static_cast<std::int64_t>(reference::list(rows, heights.data(), heights.size(), threshold,
                                                                    work.data(), reference_table.data()));
    }

    bool agree() const {
        return library_count == reference_count &&
               std::memcmp(library_table.data(), reference_table.data(),
                           static_cast<std::size_t>(reference_count) * sizeof(Record)) == 0;
    }

    void print_difference() const {
        std::printf("the library answers %" PRId64 ", the reference %" PRId64 "\n", library_count, reference_count);
        for (std::int64_t i = 0; i < std::min(library_count, reference_count); ++i) {
            const Record &ours = library_table[static_cast<std::size_t>(i)];
            const Record &theirs = reference_table[static_cast<std::size_t>(i)];
            if (std::memcmp(&ours, &theirs, sizeof(Record)) == 0) continue;
            std::printf("first differing record %" PRId64 ":\n", i);
            print("library", ours);
            print("reference", theirs);
            return;
        }
    }

    std::int64_t count() const { return reference_count; }
    std::size_t cells() const { return heights.size(); }

private:
    static void print(const char *whose, const Record &record) {
        std::printf("  %s: cell %" PRIu32 " height %" PRId32 " key height %" PRId32 " pass %" PRIu32 "\n", whose,
                    record.cell, record.height, record.key_height, record.pass);
    }

    std::uint32_t rows;
    const grids::Heights &heights;
    std::vector<std::uint32_t> work;
    std::vector<Record> library_table;
    std::vector<Record> reference_table;
    std::int64_t library_count = 0;
    std::int64_t reference_count = 0;
};

void require_agreement(const Contest &contest, const char *kind, std::uint32_t rows, std::uint32_t columns,
                       std::uint32_t threshold) {
    if (contest.agree()) return;
    std::printf("DIFFERENT: %s, %" PRIu32 " rows, %" PRIu32 " columns, threshold %" PRIu32 "\n", kind, rows, columns,
                threshold);
    contest.print_difference();
    std::exit(EXIT_FAILURE);
}

// ---- times

// What a list costs, per cell.
struct Cost {
    double library;
    double reference;
    std::int64_t peaks;

    double ratio() const { return library / reference; }
};

// Nanoseconds.
Cost cost_in_time(const grids::Kind &kind, std::uint32_t size) {
    const grids::Heights heights = kind.make(size, size);
    Contest contest(size, heights);
    const int turns = size < 512 ? 31 : size < 1024 ? 15 : 9;
    const times::Medians medians =
        times::in_turn(turns, [&] { contest.run_library(1); }, [&] { contest.run_reference(1); },
                       [&] { require_agreement(contest, kind.name, size, size, 1); });
    const auto cells = static_cast<double>(contest.cells());
    return {medians.first / cells, medians.second / cells, contest.count()};
}

// Instructions. They are the same in every run, so one is enough.
Cost cost_in_instructions(const grids::Kind &kind, std::uint32_t size) {
    const instructions::Counter counter;
    const grids::Heights heights = kind.make(size, size);
    Contest contest(size, heights);
    const double library = counter.count([&] { contest.run_library(1); });
    const double reference = counter.count([&] { contest.run_reference(1); });
    require_agreement(contest, kind.name, size, size, 1);
    const auto cells = static_cast<double>(contest.cells());
    return {library / cells, reference / cells, contest.count()};
}

// ---- tables

using Costs = std::array<Cost, sizes.size()>;

Costs costs_of(const grids::Kind &kind, Cost (*cost)(const grids::Kind &, std::uint32_t)) {
    Costs costs{};
    std::transform(sizes.begin(), sizes.end(), costs.begin(), [&](std::uint32_t size) { return cost(kind, size); });
    return costs;
}

void print_sizes() {
    for (const std::uint32_t size : sizes) std::printf(" %7" PRIu32 " ", size);
}

int print_costs(const char *unit, Cost (*cost)(const grids::Kind &, std::uint32_t)) {
    std::printf("%s per cell; square grids, threshold 1\n\n", unit);
    std::printf("%-13s %9s |%26s |%26s | %s\n", "", "", "library", "reference", "library / reference");
    std::printf("%-13s %9s |", "kind", "peaks");
    print_sizes();
    std::printf("|");
    print_sizes();
    std::printf("| at %" PRIu32 "\n", sizes.back());
    for (const grids::Kind &kind : grids::kinds) {
        const Costs costs = costs_of(kind, cost);
        std::printf("%-13s %9" PRId64 " |", kind.name, costs.back().peaks);
        for (const Cost &each : costs) std::printf(" %7.2f ", each.library);
        std::printf("|");
        for (const Cost &each : costs) std::printf(" %7.2f ", each.reference);
        std::printf("| %.2f\n", costs.back().ratio());
        std::fflush(stdout);
    }
    return EXIT_SUCCESS;
}

int print_emulated_ratios() {
    std::printf("EMULATED library / reference: time under the emulator, which stands for work done and not for time\n"
                "square grids, threshold 1\n\n");
    std::printf("%-13s %9s |", "kind", "peaks");
    print_sizes();
    std::printf("\n");
    for (const grids::Kind &kind : grids::kinds) {
        const Costs costs = costs_of(kind, cost_in_time);
        std::printf("%-13s %9" PRId64 " |", kind.name, costs.back().peaks);
        for (const Cost &each : costs) std::printf(" %7.2f ", each.ratio());
        std::printf("\n");
        std::fflush(stdout);
    }
    return EXIT_SUCCESS;
}

int print_times() { return print_costs("nanoseconds of processor time, medians,", cost_in_time); }

int print_work() {
    if (!instructions::Counter().counts()) return print_emulated_ratios();
    return print_costs("x86-64 instructions, counted by the emulator,", cost_in_instructions);
}

// ---- agreement on small grids

int check_small() {
    constexpr std::uint32_t greatest = 40;
    constexpr std::array<std::uint32_t, 4> thresholds{0, 1, 100, 0x80000000u};
    std::size_t calls = 0;
    for (const grids::Kind &kind : grids::kinds) {
        for (std::uint32_t rows = 1; rows <= greatest; ++rows) {
            for (std::uint32_t columns = 1; columns <= greatest; ++columns) {
                const grids::Heights heights = kind.make(rows, columns);
                Contest contest(rows, heights);
                for (const std::uint32_t threshold : thresholds) {
                    contest.run_library(threshold);
                    contest.run_reference(threshold);
                    require_agreement(contest, kind.name, rows, columns, threshold);
                    ++calls;
                }
            }
        }
    }
    std::printf("library and reference agree on %zu small lists\n", calls);
    return EXIT_SUCCESS;
}

// ---- one kind, one lister

int run_one(const grids::Kind &kind, std::string_view who, int turns) {
    constexpr std::uint32_t size = sizes.front();
    const grids::Heights heights = kind.make(size, size);
    Contest contest(size, heights);
    for (int turn = 0; turn < turns; ++turn) {
        if (who == "library") contest.run_library(1);
        else contest.run_reference(1);
    }
    std::printf("%s, %" PRIu32 "\n", kind.name, size * size);
    return EXIT_SUCCESS;
}

int usage() {
    std::fprintf(stderr, "usage: bench [--work | --small | --one KIND WHO TURNS]\n");
    return EXIT_FAILURE;
}

} // namespace

int main(int argc, char **argv) {
    const std::string_view option = argc >= 2 ? argv[1] : "";
    if (argc == 1) return print_times();
    if (argc == 2 && option == "--work") return print_work();
    if (argc == 2 && option == "--small") return check_small();
    if (argc == 5 && option == "--one") {
        const auto kind = static_cast<std::size_t>(std::atoi(argv[2]));
        if (kind < grids::kinds.size()) return run_one(grids::kinds[kind], argv[3], std::atoi(argv[4]));
    }
    return usage();
}
