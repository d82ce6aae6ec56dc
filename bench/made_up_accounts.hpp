// Accounts asked of the library, and claims of accounts that it is to check, all held against an oracle.
//
// After each call everything lent is looked at: the rows behind path and island, the heights, a claim's own rows, and
// the work area where nothing may have been written. Some calls are to be refused, by one refusal or by the first of
// several.
#pragma once

#include <algorithm>
#include <array>
#include <cinttypes>
#include <cstddef>
#include <cstdint>
#include <cstdio>
#include <cstdlib>
#include <optional>
#include <vector>

#include "account.hpp"
#include "lent.hpp"
#include "made_up_claims.hpp"
#include "made_up_grids.hpp"
#include "mayexoton.h"
#include "meter.hpp"

namespace made_up {

// ---- calls

// What was asked, and how many of the claims were accepted.
struct Tally {
    std::size_t accounts = 0;
    std::size_t checks = 0;
    std::size_t accepted = 0;
};

// What is lent of the heights, and beside them: bytes and numbers.
struct Call {
    std::uint32_t rows;
    std::uint32_t cell;
    std::size_t heights;
    std::size_t work_bytes;
    std::size_t path;
    std::size_t island;
};

// The refusal of a check, or 0, by the order 1, 2, 3, 4, 17.
inline int check_refusal(const Call &call, bool peak) {
    if (call.rows == 0 || call.rows > 1024) return 1;
    if (call.heights % call.rows != 0) return 2;
    if (call.heights > 1048576) return 3;
    if (call.work_bytes < MAYEXOTON_WORK_BYTES * call.heights) return 4;
    return peak ? 0 : 17;
}

// That of an account: 18 behind those.
inline int account_refusal(const Call &call, bool peak) {
    const int refusal = check_refusal(call, peak);
    if (refusal != 0) return refusal;
    return call.path < call.heights || call.island < call.heights ? 18 : 0;
}

// 0 for the mark of a missing one.
inline std::int64_t level_of(std::int32_t key_height) { return std::int64_t{key_height} - reference::no_key_height; }

template <typename Oracle> class Trial {
public:
    Trial(Random &random, std::uint32_t rows, const Heights &heights, Tally &tally)
        : random(random), rows(rows), heights(heights), oracle(rows, heights), tally(tally) {}

    // Asks for the account of a cell, any number, with just enough room, with a number too little, with more and with
    // something spoilt, and has claims of so many made-up accounts of it checked. Plain C++ must agree.
    void try_cell(std::uint32_t cell, int claims) {
        const std::optional<Account> own = oracle.own(cell);
        Call call{rows, cell, heights.size(), MAYEXOTON_WORK_BYTES * heights.size(), heights.size(), heights.size()};
        if (!same(reference::account(rows, heights, cell), own)) fail(call, own.value_or(Account{}), "plain C++", 0);
        ask(call, own);
        check(call, own.value_or(Account{}), own.has_value());
        ask(spoilt(call), own);
        check(spoilt(call), own.value_or(Account{}), own.has_value());
        call.work_bytes += 3;
        (one_in(random, 2) ? call.path : call.island) += 3;
        ask(call, own);
        if (!own) return;
        Claims<Oracle> made_up(random, rows, heights, oracle, cell, *own);
        for (; claims > 0; --claims) check(call, made_up.make_up(), true);
    }

private:
    Call spoilt(Call call) {
        constexpr std::array<std::uint32_t, 3> bad_rows{0, 1025, 0xffffffff};
        if (one_in(random, 2) && call.path > 0) --(one_in(random, 2) ? call.path : call.island);
        if (one_in(random, 4) && call.work_bytes > 0) --call.work_bytes;
        if (one_in(random, 6) && call.rows > 1 && call.heights > 0) --call.heights;
        if (one_in(random, 6)) call.rows = one_of(random, bad_rows);
        return call;
    }

    void ask(const Call &call, const std::optional<Account> &own) {
        ++tally.accounts;
        const int refusal = account_refusal(call, own.has_value());
        const Account given = refusal == 0 ? *own : Account{};
        Cells path(call.path, lent::untouched_number), island(call.island, lent::untouched_number);
        lent::Bytes work(call.work_bytes, lent::untouched_byte);
        const Heights grid = heights;
        const std::int64_t answer = meter_account(call.rows, grid.data(), call.heights, call.cell, work.data(),
                                                  work.size(), path.data(), path.size(), island.data(), island.size());
        if (answer != (refusal == 0 ? level_of(given.key_height) : -refusal)) fail(call, given, "the answer", answer);
        if (path != lent::row_with(given.path, call.path)) fail(call, given, "the path", answer);
        if (island != lent::row_with(given.island, call.island)) fail(call, given, "the island", answer);
        if (grid != heights) fail(call, given, "the heights", answer);
        if (!kept(work, call, refusal)) fail(call, given, "the work area of an account", answer);
    }

    void check(const Call &call, const Account &claim, bool peak) {
        ++tally.checks;
        const int refusal = check_refusal(call, peak);
        const bool accepted = refusal == 0 && oracle.accepts(call.cell, claim);
        tally.accepted += accepted;
        const reference::Verdict plain = reference::check(rows, heights, call.cell, claim);
        const reference::Verdict of_peak = accepted ? reference::Verdict::yes : reference::Verdict::no;
        const bool agrees = plain == (peak ? of_peak : reference::Verdict::no_peak);
        if (!agrees && (refusal == 0 || refusal == 17)) fail(call, claim, "the verdict of plain C++", 0);

        lent::Bytes work(call.work_bytes, lent::untouched_byte);
        const Heights grid = heights;
        const Account given = claim;
        const std::int64_t answer =
            meter_check(call.rows, grid.data(), call.heights, call.cell, given.key_height, given.path.data(),
                        given.path.size(), given.island.data(), given.island.size(), work.data(), work.size());
        if (answer != (refusal == 0 ? accepted : -refusal)) fail(call, claim, "the verdict", answer);
        if (grid != heights || !same(given, claim)) fail(call, claim, "what a check was lent", answer);
        if (!kept(work, call, refusal)) fail(call, claim, "the work area of a check", answer);
    }

    // Whether nothing was written to a work area where nothing may be.
    static bool kept(const lent::Bytes &work, const Call &call, int refusal) {
        const bool worked = refusal == 0 || refusal >= 17;
        const std::size_t used = worked ? MAYEXOTON_WORK_BYTES * call.heights : 0;
        return std::all_of(work.begin() + static_cast<std::ptrdiff_t>(used), work.end(),
                           [](std::uint8_t byte) { return byte == lent::untouched_byte; });
    }

    [[noreturn]] void fail(const Call &call, const Account &account, const char *what, std::int64_t answer) const {
        std::printf("WRONG: %s; rows %" PRIu32 ", cell %" PRIu32 ", heights %zu, work %zu, room %zu and %zu; "
                    "answer %" PRId64 "; key height %" PRId32 ";",
                    what, call.rows, call.cell, call.heights, call.work_bytes, call.path, call.island, answer,
                    account.key_height);
        print("path", account.path);
        print("island", account.island);
        print("heights", heights);
        std::printf("\n");
        std::exit(EXIT_FAILURE);
    }

    template <typename Numbers> static void print(const char *title, const Numbers &numbers) {
        std::printf(" %s (%zu):", title, numbers.size());
        if (numbers.size() > 100) return;
        for (const auto number : numbers) std::printf(" %" PRId64, std::int64_t{number});
    }

    Random &random;
    std::uint32_t rows;
    const Heights &heights;
    Oracle oracle;
    Tally &tally;
};

// ---- grids

// Every cell of a made-up grid, and two numbers that are no cells, by the definitions.
inline void try_small_grid(Random &random, Tally &tally) {
    constexpr std::uint32_t most_cells = 32;
    constexpr int claims = 24;
    const std::uint32_t rows = up_to(random, one_in(random, 4) ? most_cells : 6);
    const auto columns = static_cast<std::uint32_t>(random.below(most_cells / rows + 1));
    const Heights heights = heights_of(random, std::size_t{rows} * columns);
    Trial<ByDefinitions> trial(random, rows, heights, tally);
    for (std::uint32_t cell = 0; cell <= heights.size(); ++cell) trial.try_cell(cell, claims);
    trial.try_cell(0xffffffff, claims);
}

// Some peaks of a grid that is too great for the definitions, and some cells, by plain C++.
inline void try_grid(Random &random, std::uint32_t rows, const Heights &heights, Tally &tally) {
    constexpr int peaks = 6, cells = 2, claims = 8;
    const std::vector<reference::Record> listed = reference::list(rows, heights.data(), heights.size(), 0);
    Trial<ByPlain> trial(random, rows, heights, tally);
    for (int i = 0; i < peaks && !listed.empty(); ++i) trial.try_cell(one_of(random, listed).cell, claims);
    for (int i = 0; i < cells; ++i) trial.try_cell(static_cast<std::uint32_t>(random.below(heights.size())), claims);
}

// One cell of any grid, by plain C++.
inline void try_one_cell(Random &random, std::uint32_t rows, const Heights &heights, std::uint32_t cell, Tally &tally) {
    Trial<ByPlain>(random, rows, heights, tally).try_cell(cell, 2);
}

} // namespace made_up
