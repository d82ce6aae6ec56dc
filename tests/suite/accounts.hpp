// Accounts of peaks straight from request (iii) of document 02, for grids of at most 64 cells.
//
// As in definitions.hpp nothing here is clever, and the words in quotation marks are the paper's.
#pragma once

#include <cstddef>
#include <cstdint>
#include <optional>
#include <vector>

#include "definitions.hpp"

namespace definitions {

using Cells = std::vector<std::uint32_t>;

struct Account {
    std::optional<Height> key; // nothing if it says that there is no key height
    Cells path;
    Cells island;
};

class Accounts {
public:
    explicit Accounts(const Grid &grid) : grid(grid), peaks(grid.peaks()) {}

    // "For a peak the analyst clicks on, the tool gives an account". Nothing if the cell is not a peak's.
    std::optional<Account> own(std::uint32_t cell) const {
        for (const Peak &peak : peaks) {
            if (peak.cell == cell) return own(peak);
        }
        return std::nullopt;
    }

    // "A small check accepts any such account from any source, and no other". The cell is a peak's.
    bool accepts(std::uint32_t peak, const Account &account) const {
        return leads_out(peak, account) && is_island(peak, account);
    }

    // "Island: with a key height k, the cells reachable from the peak through cells higher than k; without one, all
    // reachable cells." There are none above a k that the peak is not above.
    Cells island(std::uint32_t peak, const std::optional<Height> &k) const { return row_of(island_set(peak, k)); }

private:
    // Of the ways to the peak's parent at or above its key height the first of the shortest. "Without one the path is
    // empty."
    Account own(const Peak &peak) const {
        if (!peak.key) return {std::nullopt, {}, island(peak.cell, std::nullopt)};
        const Height k = peak.key->height;
        return {k, first_way(peak.cell, *grid.parent_of(peak), at_or_above(k)), island(peak.cell, k)};
    }

    Set at_or_above(Height k) const {
        return grid.where([=](Height other) { return other >= k; });
    }

    Set island_set(std::uint32_t peak, const std::optional<Height> &k) const {
        const Set above = grid.where([=](Height other) { return !k || other > *k; });
        return Grid::holds(above, peak) ? grid.reachable(peak, above) : 0;
    }

    // "in reading order"
    static Cells row_of(Set set) {
        Cells row;
        for (std::uint32_t cell = 0; cell < most_cells; ++cell) {
            if (Grid::holds(set, cell)) row.push_back(cell);
        }
        return row;
    }

    // Each cell of it is the earliest that touches the one before and has few enough steps to go.
    Cells first_way(std::uint32_t from, std::uint32_t to, Set through) const {
        std::vector<Set> within{Grid::only(to)}; // by their number, the cells that have at most so many steps to go
        while (!Grid::holds(within.back(), from)) {
            within.push_back(within.back() | (grid.touching_any(within.back()) & through));
        }
        Cells way{from};
        for (std::size_t steps = within.size() - 1; steps-- > 0;) {
            const Set next = grid.touching_any(Grid::only(way.back())) & within[steps];
            way.push_back(static_cast<std::uint32_t>(*grid.earliest(next)));
        }
        return way;
    }

    // "a path from the peak's cell to outranking ground that stays at or above it", the key height. "Without one the
    // path is empty."
    bool leads_out(std::uint32_t peak, const Account &account) const {
        const Cells &path = account.path;
        if (!account.key) return path.empty();
        if (path.empty() || path.front() != peak) return false;
        const Set allowed = at_or_above(*account.key);
        for (std::size_t i = 0; i < path.size(); ++i) {
            if (path[i] >= most_cells || !Grid::holds(allowed, path[i])) return false;
            if (i > 0 && !grid.touch(path[i - 1], path[i])) return false;
        }
        return Grid::holds(grid.outranking_ground(peak), path.back());
    }

    // "the island in reading order, touched by nothing higher than the key height; nothing on it outranks"
    bool is_island(std::uint32_t peak, const Account &account) const {
        const Set island = island_set(peak, account.key);
        const Set higher = grid.where([&](Height other) { return !account.key || other > *account.key; });
        const bool bounded = (grid.touching_any(island) & higher & ~island) == 0;
        return account.island == row_of(island) && bounded && (island & grid.outranking_ground(peak)) == 0;
    }

    const Grid &grid;
    std::vector<Peak> peaks;
};

} // namespace definitions
