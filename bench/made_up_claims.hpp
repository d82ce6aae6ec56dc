// Accounts to be checked, made up from a true one, and two oracles that say what is true: the definitions, for grids of
// at most 64 cells, and plain C++.
#pragma once

#include <algorithm>
#include <array>
#include <cstddef>
#include <cstdint>
#include <optional>

#include "account.hpp"
#include "accounts.hpp"
#include "made_up_grids.hpp"

namespace made_up {

using reference::Account;
using reference::Cells;

inline bool same(const std::optional<Account> &a, const std::optional<Account> &b) {
    if (!a || !b) return a.has_value() == b.has_value();
    return a->key_height == b->key_height && a->path == b->path && a->island == b->island;
}

// ---- oracles

class ByDefinitions {
public:
    ByDefinitions(std::uint32_t rows, const Heights &heights) : grid(rows, heights), accounts(grid) {}

    std::optional<Account> own(std::uint32_t cell) const {
        const std::optional<definitions::Account> account = accounts.own(cell);
        if (!account) return std::nullopt;
        const definitions::Height key = account->key.value_or(reference::no_key_height);
        return Account{static_cast<std::int32_t>(key), account->path, account->island};
    }

    bool accepts(std::uint32_t peak, const Account &claim) const {
        return accounts.accepts(peak, {key_of(claim), claim.path, claim.island});
    }

    // The island that the peak would have with the claimed key height.
    Cells island(std::uint32_t peak, const Account &claim) const { return accounts.island(peak, key_of(claim)); }

private:
    static std::optional<definitions::Height> key_of(const Account &claim) {
        if (claim.key_height == reference::no_key_height) return std::nullopt;
        return claim.key_height;
    }

    definitions::Grid grid;
    definitions::Accounts accounts;
};

class ByPlain {
public:
    ByPlain(std::uint32_t rows, const Heights &heights) : rows(rows), heights(heights) {}

    std::optional<Account> own(std::uint32_t cell) const { return reference::account(rows, heights, cell); }

    bool accepts(std::uint32_t peak, const Account &claim) const {
        return reference::check(rows, heights, peak, claim) == reference::Verdict::yes;
    }

    Cells island(std::uint32_t peak, const Account &claim) const {
        if (heights[peak] <= claim.key_height) return {};
        Cells work(2 * heights.size());
        const reference::Flood above(rows, heights.data(), heights.size(), peak, claim.key_height + 1, work.data());
        Cells row(above.count());
        above.put_cells(row.data());
        return row;
    }

private:
    std::uint32_t rows;
    const Heights &heights;
};

// ---- claims

// Claims of an account of one peak. Some of what is made up is an account again, most is none.
template <typename Oracle> class Claims {
public:
    Claims(Random &random, std::uint32_t rows, const Heights &heights, const Oracle &oracle, std::uint32_t peak,
           const Account &own)
        : random(random), rows(rows), heights(heights), oracle(oracle), peak(peak), own(own) {}

    // The account with some of it changed.
    Account make_up() {
        claim = own;
        for (std::uint32_t changes = up_to(random, 3); changes > 0; --changes) {
            switch (random.below(4)) {
            case 0: change_key(); break;
            case 1: change_path(); break;
            case 2: change_island(); break;
            default: claim.path = wander();
            }
        }
        return claim;
    }

private:
    std::uint32_t any_cell() const { return static_cast<std::uint32_t>(random.below(heights.size())); }

    std::uint32_t no_cell() const {
        const std::array<std::uint32_t, 3> numbers{static_cast<std::uint32_t>(heights.size()), 1u << 20, 0xffffffff};
        return one_of(random, numbers);
    }

    // The island stays as it was, or becomes what it would be with the changed key height.
    void change_key() {
        const auto moved = [&](std::uint32_t by) {
            return static_cast<std::int32_t>(static_cast<std::uint32_t>(claim.key_height) + by);
        };
        switch (random.below(4)) {
        case 0: claim.key_height = moved(1); break;
        case 1: claim.key_height = moved(0u - 1); break;
        case 2: claim.key_height = heights[any_cell()]; break;
        default: claim.key_height = reference::no_key_height;
        }
        if (one_in(random, 2)) claim.island = oracle.island(peak, claim);
    }

    // A place in a row, or behind its last number.
    Cells::iterator any_place(Cells &row) const { return row.begin() + random.below(row.size() + 1); }

    void change_path() {
        Cells &path = claim.path;
        const Cells::iterator place = any_place(path);
        switch (random.below(8)) {
        case 0: path.insert(place, any_cell()); break;
        case 1: path.insert(place, no_cell()); break;
        case 2: path.push_back(any_cell()); break;
        case 3: path.erase(place, path.end()); break; // its front may lead out, too
        case 4: path.erase(path.begin(), place); break;
        case 5:
            if (!path.empty()) path.pop_back();
            break;
        case 6:
            if (place != path.end()) *place = any_cell();
            break;
        default: turn_back();
        }
    }

    // Goes a step of the path there and back, once or so often that the path is longer than the grid.
    void turn_back() {
        Cells &path = claim.path;
        if (path.size() < 2) return;
        const auto place = path.begin() + random.below(path.size() - 1);
        Cells turns;
        for (std::size_t times = one_in(random, 4) ? heights.size() : 1; times > 0; --times) {
            turns.insert(turns.end(), place, place + 2);
        }
        path.insert(place, turns.begin(), turns.end());
    }

    void change_island() {
        Cells &island = claim.island;
        const Cells::iterator place = any_place(island), other = any_place(island);
        const std::uint32_t cell = any_cell();
        switch (random.below(7)) {
        case 0: island.insert(std::lower_bound(island.begin(), island.end(), cell), cell); break;
        case 1: island.insert(place, cell); break;
        case 2: island.push_back(no_cell()); break;
        case 3: island.erase(place, island.end()); break;
        case 4:
            if (place != island.end()) island.erase(place);
            break;
        case 5:
            if (place != island.end()) *place = cell;
            break;
        default:
            if (place != island.end() && other != island.end()) std::iter_swap(place, other);
        }
    }

    // A walk from the peak through cells at or above the claimed key height, which may end where it is as high as the
    // peak. That may be outranking ground, the peak's own flat, a later one, or the foot of something higher.
    Cells wander() {
        constexpr int most_steps = 40;
        Cells walk{peak};
        for (int steps = 0; steps < most_steps; ++steps) {
            const std::uint32_t here = walk.back();
            if (steps > 0 && heights[here] >= heights[peak] && one_in(random, 3)) break;
            const std::int64_t column = here / rows + random.below(3) - 1, row = here % rows + random.below(3) - 1;
            const std::int64_t next = column * rows + row;
            if (row < 0 || row >= rows || next < 0 || next >= static_cast<std::int64_t>(heights.size())) continue;
            const std::int32_t height = heights[static_cast<std::size_t>(next)];
            if (next == here || height < claim.key_height || height == reference::blank) continue;
            walk.push_back(static_cast<std::uint32_t>(next));
        }
        return walk;
    }

    Random &random;
    std::uint32_t rows;
    const Heights &heights;
    const Oracle &oracle;
    std::uint32_t peak;
    const Account &own;
    Account claim{};
};

} // namespace made_up
