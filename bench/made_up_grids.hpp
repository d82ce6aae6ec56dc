// Grids and choices, made up at random.
#pragma once

#include <array>
#include <cstddef>
#include <cstdint>
#include <limits>

#include "grids.hpp"
#include "reference.hpp"

namespace made_up {

using grids::Heights;
using grids::Random;

template <typename Values> auto one_of(Random &random, const Values &values) {
    return values[static_cast<std::size_t>(random.below(values.size()))];
}

inline bool one_in(Random &random, std::uint64_t chances) { return random.below(chances) == 0; }

inline std::uint32_t up_to(Random &random, std::uint32_t most) {
    return static_cast<std::uint32_t>(1 + random.below(most));
}

// Few heights or all, high or low or about 0; some cells blank, or none.
inline Heights heights_of(Random &random, std::size_t cells) {
    constexpr std::array<std::int64_t, 6> spans{1, 2, 4, 10, 1000, 0xffffffff};
    constexpr std::array<std::int64_t, 4> blanks_in_a_hundred{0, 0, 10, 50};
    const std::int64_t highest = std::numeric_limits<std::int32_t>::max();
    const std::int64_t span = one_of(random, spans);
    const std::array<std::int64_t, 3> lowest{-highest, -(span / 2), highest - span + 1};
    const std::int64_t base = one_of(random, lowest);
    const std::int64_t blanks = one_of(random, blanks_in_a_hundred);
    Heights heights(cells);
    for (std::int32_t &height : heights) {
        const auto legal = static_cast<std::int32_t>(base + random.below(static_cast<std::uint64_t>(span)));
        height = random.below(100) < blanks ? reference::blank : legal;
    }
    return heights;
}

} // namespace made_up
