// The eight places around a cell, and which of the neighbours there are worth a search for their region.
#pragma once

#include <array>
#include <cstddef>
#include <cstdint>

namespace reference {

// The places have numbers, and a set of them is the bits of a number:
//
//     0 3 5
//     1 . 6
//     2 4 7
using Places = unsigned;

constexpr unsigned all_places = 8;
constexpr Places upper = 0x29, lower = 0x94, before = 0x07, behind = 0xe0;
constexpr Places earlier = 0x0f; // where cells have smaller numbers than the one in the middle

using Offsets = std::array<std::uint32_t, all_places>;

// From a cell to those around it.
inline Offsets offsets_of(std::uint32_t rows) {
    return {0u - rows - 1, 0u - rows, 0u - rows + 1, 0u - 1, 1, rows - 1, rows, rows + 1};
}

// The places around a cell where the grid has none.
[[gnu::always_inline]] inline Places missing_around(std::uint32_t cell, std::uint32_t rows, std::size_t cells) {
    const std::uint32_t row = cell % rows;
    return (row == 0 ? upper : 0) | (row + 1 == rows ? lower : 0) | (cell < rows ? before : 0) |
           (cell + rows >= cells ? behind : 0);
}

constexpr bool touch(unsigned a, unsigned b) {
    const int place = static_cast<int>(a < 4 ? a : a + 1), other = static_cast<int>(b < 4 ? b : b + 1); // of nine
    const int columns = place / 3 - other / 3, rows = place % 3 - other % 3;
    return a != b && columns * columns <= 1 && rows * rows <= 1;
}

constexpr Places touching(Places places) {
    Places found = 0;
    for (unsigned a = 0; a < all_places; ++a) {
        for (unsigned b = 0; b < all_places; ++b) {
            if ((places >> a & 1) != 0 && touch(a, b)) found |= 1u << b;
        }
    }
    return found;
}

// The places that are joined to the first of some, by touching, among them.
constexpr Places first_bunch(Places places) {
    Places bunch = places & (0u - places);
    while ((touching(bunch) & places & ~bunch) != 0) bunch |= touching(bunch) & places;
    return bunch;
}

// The first place of each bunch; but of no bunch that touches a place in `met`.
constexpr Places firsts(Places places, Places met) {
    Places found = 0;
    while (places != 0) {
        const Places bunch = first_bunch(places);
        if ((touching(bunch) & met) == 0) found |= bunch & (0u - bunch);
        places &= ~bunch;
    }
    return found;
}

// Neighbours that touch each other are of one region, so that one of a bunch is enough. If an equal neighbour that is
// taken touches a higher one too, its group knows that region, by an earlier cell.
struct Searched {
    std::array<std::uint8_t, earlier + 1> equal{};                   // by those that are equal and taken
    std::array<std::array<std::uint8_t, earlier + 1>, 256> higher{}; // by those that are higher, and those
};

constexpr Searched search_all() {
    Searched all;
    for (Places equal = 0; equal <= earlier; ++equal) {
        all.equal[equal] = static_cast<std::uint8_t>(firsts(equal, 0));
        for (Places higher = 0; higher < 256; ++higher) {
            all.higher[higher][equal] = static_cast<std::uint8_t>(firsts(higher & ~equal, equal));
        }
    }
    return all;
}

constexpr Searched searched = search_all();

} // namespace reference
