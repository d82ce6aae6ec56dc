// What a column call hands out, in plain C++: the listed peaks of reference.hpp that are closed.
//
// It is not timed. Whether an island reaches the last column is found by a second sweep of the plainest kind, in which
// a region keeps whether it does. When a cell of a lower level touches a region for the first time, the region is the
// island that its root has if it loses at this level.
#pragma once

#include <algorithm>
#include <cstddef>
#include <cstdint>
#include <limits>
#include <vector>

#include "reference.hpp"

namespace batches {

using reference::Record;

class Sweep {
public:
    Sweep(std::uint32_t rows, const std::int32_t *heights, std::size_t cells)
        : rows(rows), cells(cells), heights(heights), parent(cells, unswept), level(cells), reaches(cells),
          island_reaches(cells) {
        std::vector<std::uint32_t> work(reference::work_per_cell * cells);
        const std::size_t count = reference::rank(heights, cells, work.data());
        for (std::size_t i = 0; i < count; ++i) take(work[i]);
    }

    // The closed peaks of the wanted prominence, in reading order, with the passes that they have in this grid.
    std::vector<Record> closed(std::uint32_t threshold) const {
        std::vector<Record> records = reference::list(rows, heights, cells, threshold);
        const auto open = [&](const Record &record) {
            return record.pass == reference::no_pass ? reaches[record.cell] : island_reaches[record.cell];
        };
        records.erase(std::remove_if(records.begin(), records.end(), open), records.end());
        return records;
    }

private:
    static constexpr std::uint32_t unswept = std::numeric_limits<std::uint32_t>::max();

    void take(std::uint32_t cell) {
        parent[cell] = cell;
        level[cell] = heights[cell];
        reaches[cell] = cell + rows >= cells;
        std::uint32_t root = cell;
        const std::uint32_t column = cell / rows, row = cell % rows;
        for (std::uint32_t c = column == 0 ? 0 : column - 1; c <= column + 1 && c * rows < cells; ++c) {
            for (std::uint32_t r = row == 0 ? 0 : row - 1; r <= row + 1 && r < rows; ++r) {
                if (parent[c * rows + r] != unswept) root = join(cell, root, c * rows + r);
            }
        }
    }

    std::uint32_t join(std::uint32_t cell, std::uint32_t root, std::uint32_t neighbour) {
        const std::uint32_t other = root_of(neighbour);
        if (other == root) return root;
        if (level[other] > heights[cell]) { // so far the region was above this level
            level[other] = heights[cell];
            island_reaches[other] = reaches[other];
        }
        const bool wins = heights[other] > heights[root] || (heights[other] == heights[root] && other < root);
        const std::uint32_t winner = wins ? other : root, loser = wins ? root : other;
        parent[loser] = winner;
        reaches[winner] |= reaches[loser];
        return winner;
    }

    std::uint32_t root_of(std::uint32_t cell) {
        while (parent[cell] != cell) cell = parent[cell] = parent[parent[cell]];
        return cell;
    }

    std::uint32_t rows;
    std::size_t cells;
    const std::int32_t *heights;
    std::vector<std::uint32_t> parent;
    std::vector<std::int32_t> level;          // of a root: the lowest height that has touched its region
    std::vector<std::uint8_t> reaches;        // of a root: whether its region has a cell in the last column
    std::vector<std::uint8_t> island_reaches; // the same of what is above that level
};

// The peaks that the column behind the first `columns` hands out: those closed with it, less those closed before it.
inline std::vector<Record> batch(std::uint32_t rows, std::uint32_t columns, const std::int32_t *heights,
                                 std::uint32_t threshold) {
    const std::size_t taken = std::size_t{rows} * columns;
    std::vector<Record> records = Sweep(rows, heights, taken + rows).closed(threshold);
    const std::vector<Record> before = Sweep(rows, heights, taken).closed(threshold);
    const auto was_closed = [&](const Record &record) {
        const auto earlier = [](const Record &a, const Record &b) { return a.cell < b.cell; };
        return std::binary_search(before.begin(), before.end(), record, earlier);
    };
    records.erase(std::remove_if(records.begin(), records.end(), was_closed), records.end());
    return records;
}

} // namespace batches
