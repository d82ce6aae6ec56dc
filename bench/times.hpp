// How long pieces of a program take, run in turn.
#pragma once

#include <algorithm>
#include <array>
#include <cstddef>
#include <ctime>
#include <functional>
#include <vector>

namespace times {

// The processor's time, not the clock's: on a busy machine the time spent waiting is nobody's.
template <typename Run> double nanoseconds(Run run) {
    const std::clock_t start = std::clock();
    run();
    return static_cast<double>(std::clock() - start) * (1e9 / CLOCKS_PER_SEC);
}

inline double median(std::vector<double> values) {
    const auto middle = values.begin() + static_cast<std::ptrdiff_t>(values.size() / 2);
    std::nth_element(values.begin(), middle, values.end());
    return *middle;
}

// Nanoseconds.
struct Medians {
    double first;
    double second;

    double ratio() const { return first / second; }
};

// Runs all in turn, so that what else the machine does meets all alike, and changes who begins. What they leave is
// checked after each turn.
template <std::size_t Count, typename Check>
std::array<double, Count> all_in_turn(int turns, const std::array<std::function<void()>, Count> &runs, Check check) {
    for (const std::function<void()> &run : runs) run(); // once untimed: the first touch of memory is the system's work
    check();
    std::array<std::vector<double>, Count> taken;
    for (int turn = 0; turn < turns; ++turn) {
        for (std::size_t i = 0; i < Count; ++i) {
            const std::size_t who = (static_cast<std::size_t>(turn) + i) % Count;
            taken[who].push_back(nanoseconds(runs[who]));
        }
        check();
    }
    std::array<double, Count> medians{};
    std::transform(taken.begin(), taken.end(), medians.begin(), median);
    return medians;
}

template <typename First, typename Second, typename Check>
Medians in_turn(int turns, First first, Second second, Check check) {
    const std::array<double, 2> medians = all_in_turn<2>(turns, {first, second}, check);
    return {medians[0], medians[1]};
}

} // namespace times
