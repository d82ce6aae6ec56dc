// The yardstick's account of a peak, and its check of any account, in plain C++ written for speed.
//
// An account is made by the sweep of reference.hpp, which tells the key height, and two floods: above the key height
// for the island, at or above it for the path. A check is made by floods alone. A flood goes on from its cells in the
// order in which it reached them, and looks around each in reading order; so the way by which it came to a cell is a
// shortest, and of the shortest the first.
//
// There is no checking of arguments here but for what an account may claim: the cell, the key height and the numbers of
// both rows may be anything.
#pragma once

#include <algorithm>
#include <cstddef>
#include <cstdint>
#include <optional>
#include <vector>

#include "reference.hpp"

namespace reference {

using Cells = std::vector<std::uint32_t>;

struct Account {
    std::int32_t key_height; // or `no_key_height`
    Cells path;
    Cells island;
};

// ---- a flood

// The cells that a start reaches through cells that are not lower than a height. The start is not. Of the work area the
// first two numbers for each cell are used.
class Flood {
public:
    Flood(std::uint32_t rows, const std::int32_t *heights, std::size_t cells, std::uint32_t start, std::int32_t lowest,
          std::uint32_t *work)
        : heights(heights), cells(cells), queue(work), from(work + cells) {
        for (std::size_t cell = 0; cell < cells; ++cell) from[cell] = heights[cell] < lowest ? shut : open;
        from[start] = 0;
        queue[0] = start;
        const Offsets offsets = offsets_of(rows);
        std::uint32_t *end = queue + 1;
        for (std::uint32_t head = 0; queue + head != end; ++head) {
            const std::uint32_t cell = queue[head];
            const Places missing = missing_around(cell, rows, cells);
            if (missing == 0) end = look(head, cell, offsets, end, [](unsigned) { return true; });
            else end = look(head, cell, offsets, end, [=](unsigned place) { return (missing >> place & 1) == 0; });
        }
        reached = static_cast<std::size_t>(end - queue);
    }

    std::size_t count() const { return reached; }

    // The place in the queue of the best cell.
    std::uint32_t best_place() const {
        std::uint32_t best = 0;
        for (std::uint32_t place = 1; place < reached; ++place) {
            if (better(heights, queue[place], queue[best])) best = place;
        }
        return best;
    }

    std::uint32_t best_cell() const { return queue[best_place()]; }

    // Puts the way from the start to a place in the queue into a row, and answers how many cells it has.
    std::size_t put_way(std::uint32_t place, std::uint32_t *row) const {
        std::size_t length = 0;
        for (; place != 0; place = from[queue[place]]) row[length++] = queue[place];
        row[length++] = queue[0];
        std::reverse(row, row + length);
        return length;
    }

    // Puts the cells into a row, in reading order.
    void put_cells(std::uint32_t *row) const {
        for (std::uint32_t cell = 0; cell < cells; ++cell) {
            if (from[cell] < open) *row++ = cell;
        }
    }

    // Whether a row of as many numbers holds just the cells, in reading order.
    bool is(const std::uint32_t *row) const {
        for (std::uint32_t cell = 0; cell < cells; ++cell) {
            if (from[cell] < open && *row++ != cell) return false;
        }
        return true;
    }

private:
    // What `from` has of a cell that is not reached: no place in the queue.
    static constexpr std::uint32_t open = 0xfffffffe, shut = 0xffffffff;

    // Puts the open cells around a cell behind the queue, and answers its new end. The eight are written out, since the
    // compiler would keep the loop.
    template <typename There>
    [[gnu::always_inline]] std::uint32_t *look(std::uint32_t head, std::uint32_t cell, const Offsets &offsets,
                                               std::uint32_t *end, There there) const {
        const auto reach = [&](unsigned place) __attribute__((always_inline)) {
            if (!there(place)) return;
            const std::uint32_t neighbour = cell + offsets[place];
            if (from[neighbour] != open) return;
            from[neighbour] = head;
            *end++ = neighbour;
        };
        reach(0), reach(1), reach(2), reach(3), reach(4), reach(5), reach(6), reach(7);
        return end;
    }

    const std::int32_t *heights;
    std::size_t cells;
    std::uint32_t *queue;
    std::uint32_t *from; // of a reached cell: the place in the queue of the one from which it was reached
    std::size_t reached;
};

// ---- the account

// What an account says, with the lengths of its rows.
struct Accounted {
    std::int32_t key_height;
    std::size_t path;
    std::size_t island;
};

// The key height of a swept cell that is a peak's, or the mark of none; nothing if it is not a peak's.
inline std::optional<std::int32_t> key_height_at(const Forest &forest, std::uint32_t cell) {
    if (forest.parent[cell] == cell) return no_key_height;
    if (!is_listed(forest, cell, 0)) return std::nullopt;
    return forest.heights[forest.pass[cell]];
}

// Gives the account of the peak at a cell, or nothing if the cell is not a peak's. The work area is as that of `list`;
// both rows have a number for each cell. The mark of a missing key height is below all heights, as the blank mark is.
inline std::optional<Accounted> account(std::uint32_t rows, const std::int32_t *heights, std::size_t cells,
                                        std::uint32_t cell, std::uint32_t *work, std::uint32_t *path,
                                        std::uint32_t *island) {
    if (cell >= cells || heights[cell] == blank) return std::nullopt;
    const std::optional<std::int32_t> key = key_height_at(forest_of(rows, heights, cells, work), cell);
    if (!key) return std::nullopt;
    const Flood above(rows, heights, cells, cell, *key + 1, work);
    above.put_cells(island);
    if (*key == no_key_height) return Accounted{*key, 0, above.count()};
    const Flood region(rows, heights, cells, cell, *key, work);
    return Accounted{*key, region.put_way(region.best_place(), path), above.count()};
}

// The same in memory of its own.
inline std::optional<Account> account(std::uint32_t rows, const std::vector<std::int32_t> &heights,
                                      std::uint32_t cell) {
    Cells work(work_per_cell * heights.size()), path(heights.size()), island(heights.size());
    const std::optional<Accounted> given =
        account(rows, heights.data(), heights.size(), cell, work.data(), path.data(), island.data());
    if (!given) return std::nullopt;
    path.resize(given->path);
    island.resize(given->island);
    return Account{given->key_height, path, island};
}

// ---- the check

enum class Verdict { no, yes, no_peak };

// The check of accounts of one grid.
class Checker {
public:
    Checker(std::uint32_t rows, const std::int32_t *heights, std::size_t cells, std::uint32_t *work)
        : rows(rows), heights(heights), cells(cells), work(work) {}

    // A cell that is the best of what it reaches above the claimed key height is a peak's, and nothing on its island
    // outranks it. Only of others it is asked whether they are peaks at all.
    Verdict check(std::uint32_t cell, const Account &claim) const {
        if (cell >= cells || heights[cell] == blank) return Verdict::no_peak;
        if (heights[cell] > claim.key_height) {
            const Flood above = flood(cell, claim.key_height + 1);
            if (above.best_cell() == cell) {
                const bool isle = claim.island.size() == above.count() && above.is(claim.island.data());
                return isle && leads_out(cell, claim) ? Verdict::yes : Verdict::no;
            }
        }
        return flood(cell, heights[cell]).best_cell() == cell ? Verdict::no : Verdict::no_peak;
    }

private:
    Flood flood(std::uint32_t cell, std::int32_t lowest) const {
        return Flood(rows, heights, cells, cell, lowest, work);
    }

    bool leads_out(std::uint32_t peak, const Account &claim) const {
        const Cells &path = claim.path;
        if (claim.key_height == no_key_height) return path.empty();
        if (path.empty() || path.front() != peak) return false;
        for (std::size_t i = 0; i < path.size(); ++i) {
            if (path[i] >= cells || heights[path[i]] < claim.key_height) return false;
            if (i > 0 && !touch(path[i - 1], path[i])) return false;
        }
        return outranks(path.back(), peak);
    }

    bool touch(std::uint32_t a, std::uint32_t b) const {
        const auto near = [](std::uint32_t one, std::uint32_t other) { return one - other + 1 <= 2; };
        return a != b && near(a % rows, b % rows) && near(a / rows, b / rows);
    }

    // Of ground as high as the peak that has nothing higher beside it the best cell is a peak's.
    bool outranks(std::uint32_t cell, std::uint32_t peak) const {
        if (heights[cell] != heights[peak]) return heights[cell] > heights[peak];
        const std::uint32_t best = flood(cell, heights[cell]).best_cell();
        return heights[best] == heights[peak] && best < peak;
    }

    std::uint32_t rows;
    const std::int32_t *heights;
    std::size_t cells;
    std::uint32_t *work;
};

// The same in memory of its own.
inline Verdict check(std::uint32_t rows, const std::vector<std::int32_t> &heights, std::uint32_t cell,
                     const Account &claim) {
    Cells work(work_per_cell * heights.size());
    return Checker(rows, heights.data(), heights.size(), work.data()).check(cell, claim);
}

} // namespace reference
