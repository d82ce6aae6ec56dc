// Grids to measure by: eight kinds, at any size, the same on every machine.
//
// Heights stand in reading order, column by column. Only whole-number arithmetic is used, so that no library and no
// rounding mode can make two machines measure different grids.
#pragma once

#include <algorithm>
#include <array>
#include <cstddef>
#include <cstdint>
#include <limits>
#include <vector>

namespace grids {

using Heights = std::vector<std::int32_t>;

// A small generator with a fixed sequence (splitmix64).
class Random {
public:
    explicit Random(std::uint64_t seed) : state(seed) {}

    std::uint64_t next() {
        state += 0x9e3779b97f4a7c15u;
        std::uint64_t mixed = state;
        mixed = (mixed ^ (mixed >> 30)) * 0xbf58476d1ce4e5b9u;
        mixed = (mixed ^ (mixed >> 27)) * 0x94d049bb133111ebu;
        return mixed ^ (mixed >> 31);
    }

    // A number from 0 to bound - 1. Bounds are far below 2^64, so the bias of the remainder does not matter.
    std::int64_t below(std::uint64_t bound) { return static_cast<std::int64_t>(next() % bound); }

private:
    std::uint64_t state;
};

// Noise over all legal heights: hardly two cells are equal, and one cell in nine is a peak.
inline Heights noise(std::uint32_t rows, std::uint32_t columns) {
    Random random(1);
    Heights heights(std::size_t{rows} * columns);
    for (std::int32_t &height : heights) {
        height = static_cast<std::int32_t>(random.below(0xffffffffu) - std::numeric_limits<std::int32_t>::max());
    }
    return heights;
}

// Adds a peak that is narrow across the columns, rises fast along the rows and tails behind its top. Its flanks fall
// as 1 / (1 + (x / width)^2), which needs no exponential and reaches about as far as a real tail does.
inline void add_peak(Heights &heights, std::int64_t rows, std::int64_t columns, std::int64_t top_row,
                     std::int64_t top_column, std::int64_t height) {
    const std::int64_t first_column = std::max<std::int64_t>(0, top_column - 5);
    const std::int64_t last_column = std::min(columns - 1, top_column + 5);
    const std::int64_t first_row = std::max<std::int64_t>(0, top_row - 12);
    const std::int64_t last_row = std::min(rows - 1, top_row + 60);
    for (std::int64_t column = first_column; column <= last_column; ++column) {
        const std::int64_t across = (column - top_column) * (column - top_column);
        for (std::int64_t row = first_row; row <= last_row; ++row) {
            const std::int64_t along = (row - top_row) * (row - top_row);
            const std::int64_t width = row < top_row ? 4 : 100; // squared: 2 cells before the top, 10 behind it
            const std::int64_t part = height * 2 * width / ((2 + across * across) * (width + along));
            heights[static_cast<std::size_t>(column * rows + row)] += static_cast<std::int32_t>(part);
        }
    }
}

// A separation as a detector sees it: some 3,000 tailing peaks at 1024 x 1024 cells, of 200 to some millions, on a
// noisy baseline that drifts.
inline Heights chromatogram(std::uint32_t rows, std::uint32_t columns) {
    Random random(2);
    const std::size_t cells = std::size_t{rows} * columns;
    Heights heights(cells);
    for (std::size_t cell = 0; cell < cells; ++cell) {
        const auto drift = static_cast<std::int64_t>(cell / rows % 512);
        const std::int64_t ripple = random.below(64) + random.below(64) + random.below(64);
        heights[cell] = static_cast<std::int32_t>(1000 + drift + ripple);
    }
    for (std::size_t peak = 0; peak < cells / 350 + 1; ++peak) {
        const std::int64_t top_row = random.below(rows);
        const std::int64_t top_column = random.below(columns);
        const std::int64_t height = (std::int64_t{200} << random.below(15)) + random.below(200);
        add_peak(heights, rows, columns, top_row, top_column, height);
    }
    return heights;
}

inline Heights all_equal(std::uint32_t rows, std::uint32_t columns) {
    return Heights(std::size_t{rows} * columns, 12345);
}

// A path that winds through every other column, from the first cell on, with the heights that its cells are to have by
// their place on it and the number of places. The walls between are the lowest, in no order.
template <typename HeightAt> Heights winding(std::uint32_t rows, std::uint32_t columns, HeightAt height_at) {
    Random random(3);
    const std::size_t cells = std::size_t{rows} * columns;
    Heights heights(cells);
    for (std::int32_t &height : heights) { // all walls at first
        height = static_cast<std::int32_t>(-(1 << 21) - random.below(4 * cells));
    }
    std::vector<std::size_t> path;
    for (std::uint32_t column = 0; column < columns; column += 2) {
        const bool forward = column % 4 == 0;
        for (std::uint32_t i = 0; i < rows; ++i) {
            path.push_back(std::size_t{column} * rows + (forward ? i : rows - 1 - i));
        }
        const std::uint32_t door = forward ? rows - 1 : 0; // to the next
        if (column + 2 < columns) path.push_back(std::size_t{column + 1} * rows + door);
    }
    const auto places = static_cast<std::int32_t>(path.size());
    for (std::int32_t place = 0; place < places; ++place) {
        heights[path[static_cast<std::size_t>(place)]] = height_at(place, places);
    }
    return heights;
}

// The worst case for a forest whose roots must be the best cells. Along the path stand peaks, each higher than the
// last, and between them saddles, each lower than the last. So the first two peaks join first, and each next one takes
// the whole region before it: a chain of a quarter of all cells, each peak hung under the next. The walls look for
// roots from all along the chain. Without shortening of paths 256 x 256 cells take some thousand times as long.
inline Heights staircase(std::uint32_t rows, std::uint32_t columns) {
    return winding(rows, columns, [](std::int32_t place, std::int32_t) {
        const std::int32_t peak = place / 2 + 1;
        return place % 2 == 0 ? peak : -peak;
    });
}

// The worst case for passes, which must lead over. Along the path stand peaks, and between them shelves of one height,
// so that all is settled in one level. The first peak is the highest, and the others rise. So of the peaks beside a
// shelf the later is the better, and shelves have nothing to do with each other until it shows that one of them leads
// to the highest. Where the path goes against the reading order, the last shelf of a column shows it for all there.
inline std::int32_t height_on_chain(std::int32_t place) {
    if (place == 0) return 1 << 21;
    return place % 2 == 0 ? place / 2 : 0;
}

inline Heights rising_chain(std::uint32_t rows, std::uint32_t columns) {
    return winding(rows, columns, [](std::int32_t place, std::int32_t) { return height_on_chain(place); });
}

// The same the other way round: the highest peak ends the path, and the last shelf of all shows it for all.
inline Heights falling_chain(std::uint32_t rows, std::uint32_t columns) {
    return winding(rows, columns,
                   [](std::int32_t place, std::int32_t places) { return height_on_chain(places - 1 - place); });
}

// Eight heights only: many flats, of many shapes, and many equal summits.
inline Heights few_heights(std::uint32_t rows, std::uint32_t columns) {
    Random random(4);
    Heights heights(std::size_t{rows} * columns);
    for (std::int32_t &height : heights) height = static_cast<std::int32_t>(random.below(8));
    return heights;
}

inline Heights all_blank(std::uint32_t rows, std::uint32_t columns) {
    return Heights(std::size_t{rows} * columns, std::numeric_limits<std::int32_t>::min());
}

struct Kind {
    const char *name;
    Heights (*make)(std::uint32_t rows, std::uint32_t columns);
};

constexpr std::array<Kind, 8> kinds{{
    {"noise", noise},
    {"GCxGC-like", chromatogram},
    {"all equal", all_equal},
    {"staircase", staircase},
    {"few heights", few_heights},
    {"rising chain", rising_chain},
    {"falling chain", falling_chain},
    {"all blank", all_blank},
}};

} // namespace grids
