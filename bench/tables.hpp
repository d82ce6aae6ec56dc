// What the tables of the benchmarks have in common: square grids of three sizes, with a column for each.
#pragma once

#include <algorithm>
#include <array>
#include <cinttypes>
#include <cstdint>
#include <cstdio>

#include "instructions.hpp"

namespace tables {

constexpr std::array<std::uint32_t, 3> sizes{256, 512, 1024};

// How often what is done at a size is timed.
constexpr int turns_at(std::uint32_t size) { return size < 512 ? 31 : size < 1024 ? 15 : 9; }

template <typename Cost> using Costs = std::array<Cost, sizes.size()>;

template <typename CostAt> auto costs_of(CostAt cost_at) {
    Costs<decltype(cost_at(sizes.front()))> costs{};
    std::transform(sizes.begin(), sizes.end(), costs.begin(), cost_at);
    return costs;
}

inline void print_sizes() {
    for (const std::uint32_t size : sizes) std::printf(" %6" PRIu32, size);
    std::printf(" |");
}

template <typename Cost, typename Value> void print_each(const Costs<Cost> &costs, const char *form, Value value) {
    for (const Cost &each : costs) std::printf(form, value(each));
    std::printf(" |");
}

// What a program prints of times, and of work where it runs under an emulator. Costs are found one way or the other.
template <typename Costing> int print_times(int (*print)(const char *unit, Costing cost), Costing in_time) {
    return print("nanoseconds of processor time, medians,", in_time);
}

template <typename Costing>
int print_work(int (*print)(const char *unit, Costing cost), Costing in_time, Costing in_instructions) {
    const bool counted = instructions::Counter().counts();
    if (counted) return print("x86-64 instructions, counted by the emulator,", in_instructions);
    return print("EMULATED: nanoseconds under the emulator, which stand for work done and not for time,", in_time);
}

} // namespace tables
