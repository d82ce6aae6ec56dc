// Outlines of made-up grids, asked of the library and held against the definitions.
//
// After each call everything lent is looked at: the text room behind the text, the grid, and the work area where
// nothing may have been written. Some calls are to be refused, by one refusal or by the first of several.
#pragma once

#include <algorithm>
#include <array>
#include <cinttypes>
#include <cstddef>
#include <cstdint>
#include <cstdio>
#include <cstdlib>
#include <string>

#include "definitions.hpp"
#include "lent.hpp"
#include "made_up_grids.hpp"
#include "mayexoton.h"
#include "meter.hpp"
#include "outline.hpp"

namespace made_up {

// ---- one call

// The run has ended.
struct Call {
    std::uint32_t rows;
    std::uint32_t columns;
    std::uint32_t threshold;
    std::uint32_t levels;
    std::size_t work_bytes;
    std::size_t room_bytes;
};

inline std::size_t cells_of(const Call &call) { return std::size_t{call.rows} * call.columns; }

// The refusal, or 0, by the order 1, 9, 16, 14, 4, 15. The text is that of a call which no refusal before 15 meets.
inline int refusal_of(const Call &call, std::size_t grid_length, std::size_t text_bytes) {
    if (call.rows == 0 || call.rows > 1024) return 1;
    if (cells_of(call) > grid_length || cells_of(call) > 1048576) return 9;
    if (call.levels == 0 || call.levels > 64) return 14;
    if (call.work_bytes < MAYEXOTON_WORK_BYTES * cells_of(call)) return 4;
    return call.room_bytes < text_bytes ? 15 : 0;
}

[[noreturn]] inline void fail(const Call &call, const Heights &heights, const char *what, std::int64_t answer) {
    std::printf("WRONG: %s; rows %" PRIu32 ", columns %" PRIu32 ", threshold %" PRIu32 ", levels %" PRIu32
                ", work %zu, room %zu; the library answers %" PRId64 "; heights:",
                what, call.rows, call.columns, call.threshold, call.levels, call.work_bytes, call.room_bytes, answer);
    for (const std::int32_t height : heights) std::printf(" %" PRId32, height);
    std::printf("\n");
    std::exit(EXIT_FAILURE);
}

inline void check(const Call &call, const Heights &heights, const std::string &text) {
    const Heights grid = heights;
    lent::Bytes work(call.work_bytes, lent::untouched_byte), room(call.room_bytes, lent::untouched_byte);
    const std::int64_t answer =
        meter_outline(call.rows, call.columns, call.threshold, call.levels, grid.data(), grid.size(), work.data(),
                      work.size(), room.data(), room.size());
    const int refusal = refusal_of(call, grid.size(), text.size());
    const auto expected = refusal == 0 ? static_cast<std::int64_t>(text.size()) : -refusal;
    if (answer != expected) fail(call, heights, "the answer", answer);
    if (room != lent::room_with(refusal == 0 ? text : "", room.size())) fail(call, heights, "the text", answer);
    if (grid != heights) fail(call, heights, "the grid", answer);

    const bool worked = refusal == 0 || refusal == 15;
    const std::size_t used = worked ? MAYEXOTON_WORK_BYTES * cells_of(call) : 0;
    const auto untouched = [](std::uint8_t byte) { return byte == lent::untouched_byte; };
    if (std::all_of(work.begin() + static_cast<std::ptrdiff_t>(used), work.end(), untouched)) return;
    fail(call, heights, "the work area", answer);
}

// ---- made-up calls

// The call with some of what it takes spoilt.
inline Call spoilt(Random &random, Call call) {
    constexpr std::array<std::uint32_t, 3> bad_rows{0, 1025, 0xffffffff};
    constexpr std::array<std::uint32_t, 3> bad_levels{0, 65, 0xffffffff};
    if (one_in(random, 3)) call.levels = one_of(random, bad_levels);
    if (one_in(random, 3) && call.work_bytes > 0) --call.work_bytes;
    if (one_in(random, 3) && call.room_bytes > 0) --call.room_bytes;
    if (one_in(random, 6)) call.rows = one_of(random, bad_rows);
    if (one_in(random, 6)) call.columns = one_in(random, 2) ? 0xffffffff : call.columns + 1;
    return call;
}

// Makes up a grid, and calls for its outline with just enough room, with a byte too little, spoilt, and with more of
// everything. Plain C++ must agree too. Answers how many calls were made.
inline std::size_t check_grid(Random &random) {
    constexpr std::array<std::uint32_t, 6> thresholds{0, 1, 2, 5, 0x80000000, 0xffffffff};
    constexpr std::uint32_t most_cells = 32;
    const std::uint32_t rows = up_to(random, one_in(random, 4) ? most_cells : 6);
    const auto columns = static_cast<std::uint32_t>(random.below(most_cells / rows + 1));
    const std::uint32_t threshold = one_of(random, thresholds);
    const std::uint32_t levels = up_to(random, one_in(random, 2) ? 4 : 64);
    Heights heights = heights_of(random, std::size_t{rows} * columns);
    const std::string text = definitions::outline(rows, heights, threshold, levels);

    const Call enough{rows, columns, threshold, levels, MAYEXOTON_WORK_BYTES * heights.size(), text.size()};
    if (reference::outline(rows, heights, threshold, levels) != text) fail(enough, heights, "plain C++", 0);
    check(enough, heights, text);
    std::size_t calls = 1;
    if (!text.empty()) {
        Call short_room = enough;
        --short_room.room_bytes;
        check(short_room, heights, text);
        ++calls;
    }
    for (int turn = 0; turn < 3; ++turn, ++calls) check(spoilt(random, enough), heights, text);
    Call plenty = enough;
    plenty.work_bytes += 3;
    plenty.room_bytes += 3;
    heights.push_back(1); // a cell that the run has not taken
    check(plenty, heights, text);
    return calls + 1;
}

} // namespace made_up
