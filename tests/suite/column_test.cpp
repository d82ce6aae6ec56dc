// A test of the column call at its limits: what it refuses, in the order of document 01's table, that it takes a column
// with which the run has exactly 1,048,576 cells, and that a pass which moves is handed out once, as it was then.
//
//     column_test
//
// After each call everything lent is looked at: the column, the grid, the work area where nothing may have been
// written, the table behind the counted records, and the bytes around all four. A call that must be refused by its
// lengths alone is also made with lengths that are claimed, and nothing stands there. Prints `N column calls agree`, or
// the first call that goes wrong, and then ends with status 1. Refusal 6 is not among them: the exported call takes no
// ended run.

#include <algorithm>
#include <cinttypes>
#include <cstddef>
#include <cstdint>
#include <cstdio>
#include <cstdlib>
#include <limits>
#include <vector>

#include "meter.hpp"
#include "room.hpp"

namespace {

using Heights = std::vector<std::int32_t>;

constexpr std::int32_t blank = std::numeric_limits<std::int32_t>::min();
constexpr std::uint32_t most_rows = 1024;
constexpr std::size_t cell_limit = 1048576;
constexpr std::size_t greatest_length = std::numeric_limits<std::size_t>::max();

// ---- a call

// The run record, and the lengths of what is offered and lent: numbers of 32 bits, or bytes.
struct Call {
    std::uint32_t rows;
    std::uint32_t columns;
    std::size_t column;
    std::size_t grid;
    std::size_t work;
    std::size_t table;
};

[[noreturn]] void fail(const Call &call, const char *what) {
    std::printf("WRONG: %s\nrows %" PRIu32 ", columns %" PRIu32 ", column %zu, grid %zu, work %zu, table %zu\n", what,
                call.rows, call.columns, call.column, call.grid, call.work, call.table);
    std::exit(EXIT_FAILURE);
}

// "Column: 1, 9, 6, 7, 3, 8, 4, 5", where so many records are handed out; 0 is none.
int refusal_of(const Call &call, std::size_t records) {
    if (call.rows == 0 || call.rows > most_rows) return 1;
    const std::size_t taken = std::size_t{call.columns} * call.rows;
    if (taken > call.grid || taken > cell_limit) return 9;
    if (call.column != call.rows) return 7;
    const std::size_t cells = taken + call.rows;
    if (cells > cell_limit) return 3;
    if (call.grid < cells) return 8;
    if (call.work < 16 * cells) return 4;
    if (call.table / 16 < records) return 5;
    return 0;
}

// ---- records, as bytes

void put(std::uint8_t *bytes, std::uint32_t number) {
    for (int i = 0; i < 4; ++i) bytes[i] = static_cast<std::uint8_t>(number >> (8 * i));
}

// Without the last two the peak has no key height.
std::vector<std::uint8_t> record_of(std::size_t cell, std::int32_t height, std::int32_t key_height = blank,
                                    std::uint32_t pass = 0xffffffffu) {
    std::vector<std::uint8_t> bytes(16);
    put(&bytes[0], static_cast<std::uint32_t>(cell));
    put(&bytes[4], static_cast<std::uint32_t>(height));
    put(&bytes[8], static_cast<std::uint32_t>(key_height));
    put(&bytes[12], pass);
    return bytes;
}

// ---- a column whose batch is known

struct Known {
    Heights taken;
    Heights offered;
    std::vector<std::uint8_t> batch;

    std::size_t records() const { return batch.size() / 16; }
};

// All cells of the first columns are 0, one flat that the blank column behind it closed long ago. Of the last column
// taken every other cell is blank and the others are peaks, each alone: the blank column that is offered closes them.
Known lone_cells(std::uint32_t rows, std::uint32_t columns) {
    Known known{Heights(std::size_t{rows} * columns, 0), Heights(rows, blank), {}};
    const std::size_t last = std::size_t{rows} * (columns - 1);
    std::fill(known.taken.begin() + static_cast<std::ptrdiff_t>(last - rows), known.taken.end(), blank);
    for (std::size_t row = 0; row < rows; row += 2) {
        const auto height = static_cast<std::int32_t>(row) - 500;
        known.taken[last + row] = height;
        const std::vector<std::uint8_t> record = record_of(last + row, height);
        known.batch.insert(known.batch.end(), record.begin(), record.end());
    }
    return known;
}

// ---- lending and looking

class Columns {
public:
    std::size_t calls() const { return count; }

    // A call with real memory for everything; the grid begins with the cells that are taken.
    void check(const Call &call, const Known &known, Place place) {
        std::int32_t *const offered = lend_numbers(column_room, call.column, place);
        std::int32_t *const cells = lend_numbers(grid_room, call.grid, place);
        std::uint8_t *const work = work_room.lend(call.work, place, 3);
        std::uint8_t *const table = table_room.lend(call.table, place, 5);
        fill(offered, call.column, known.offered);
        fill(cells, call.grid, known.taken);
        std::fill_n(work, call.work, mark);
        std::fill_n(table, call.table, mark);

        const int refusal = refusal_of(call, known.records());
        const std::int64_t expected = refusal != 0 ? -refusal : static_cast<std::int64_t>(known.records());
        if (make(call, offered, cells, work, table) != expected) fail(call, "the answer");

        const bool written = refusal == 0 || refusal == 5;
        if (!holds(offered, call.column, known.offered, {})) fail(call, "the column has changed");
        if (!holds(cells, call.grid, known.taken, written ? known.offered : Heights{})) fail(call, "the grid");
        const std::size_t filled = refusal == 0 ? known.batch.size() : 0;
        if (!std::equal(table, table + filled, known.batch.begin())) fail(call, "the records");
        if (!marked(table + filled, call.table - filled)) fail(call, "the table behind the records has changed");
        if (!written && !marked(work, call.work)) fail(call, "a refusal before 5 has used the work area");
        for (const Room *room : {&column_room, &grid_room, &work_room, &table_room}) {
            if (!room->guards_stand()) fail(call, "bytes beside what is lent have changed");
        }
    }

    // A call that must be refused by its lengths alone.
    void check_claim(const Call &call) {
        const int refusal = refusal_of(call, 0);
        if (refusal == 0) fail(call, "the test claims what is not refused");
        std::uint8_t *const nowhere = grid_room.nowhere();
        auto *const cells = reinterpret_cast<std::int32_t *>(nowhere);
        if (make(call, cells, cells, nowhere, nowhere) != -refusal) fail(call, "the answer to a claim");
    }

private:
    static constexpr std::uint8_t mark = 0x5a;
    static constexpr std::int32_t mark_height = 0x5a5a5a5a;

    std::int64_t make(const Call &call, const std::int32_t *column, std::int32_t *grid, std::uint8_t *work,
                      std::uint8_t *table) {
        ++count;
        return meter_column(call.rows, call.columns, 1, column, call.column, grid, call.grid, work, call.work, table,
                            call.table);
    }

    // Inside a room, shifted to where a number of 32 bits may stand.
    static std::int32_t *lend_numbers(Room &room, std::size_t length, Place place) {
        const std::size_t half = (room.size() - 4 * length) / 2;
        return reinterpret_cast<std::int32_t *>(room.lend(4 * length, place, 4 - half % 4));
    }

    // Lays the first of the heights, and marks behind them.
    static void fill(std::int32_t *lent, std::size_t length, const Heights &heights) {
        for (std::size_t i = 0; i < length; ++i) lent[i] = i < heights.size() ? heights[i] : mark_height;
    }

    // Whether the numbers are those heights, then those, then marks.
    static bool holds(const std::int32_t *lent, std::size_t length, const Heights &first, const Heights &then) {
        for (std::size_t i = 0; i < length; ++i) {
            std::int32_t expected = mark_height;
            if (i < first.size()) expected = first[i];
            else if (i - first.size() < then.size()) expected = then[i - first.size()];
            if (lent[i] != expected) return false;
        }
        return true;
    }

    static bool marked(const std::uint8_t *lent, std::size_t length) {
        return std::all_of(lent, lent + length, [](std::uint8_t byte) { return byte == mark; });
    }

    Room column_room{4 * most_rows + 4096};
    Room grid_room{4 * (cell_limit + most_rows) + 4096};
    Room work_room{16 * cell_limit + 4096};
    Room table_room{16 * most_rows + 4096};
    std::size_t count = 0;
};

// ---- what is tried

constexpr Place places[] = {Place::at_start, Place::at_end, Place::inside};

// What just fits a run of so many columns, and one more.
Call enough(const Known &known, std::uint32_t rows, std::uint32_t columns) {
    const std::size_t cells = std::size_t{rows} * columns + rows;
    return {rows, columns, rows, cells, 16 * cells, known.batch.size()};
}

// What just fits is accepted. With one byte, one cell or one record less it is refused, as it is with more to offer.
void try_around(Columns &columns, std::uint32_t rows, std::uint32_t taken) {
    const Known known = lone_cells(rows, taken);
    const Call just = enough(known, rows, taken);
    for (const Place place : places) {
        columns.check(just, known, place);
        Call call = just;
        call.table -= 1; // 5
        columns.check(call, known, place);
        call = just;
        call.work -= 1; // 4
        columns.check(call, known, place);
        call = just;
        call.grid -= 1; // 8
        columns.check(call, known, place);
        call.grid = known.taken.size(); // 8, and no cell behind those taken
        columns.check(call, known, place);
        call.grid -= 1; // 9
        columns.check(call, known, place);
        call = just;
        call.column -= 1; // 7
        columns.check(call, known, place);
    }
}

// A run of 1,048,576 cells is full: one column more gets 3, whatever room there is.
void try_full(Columns &columns) {
    const Known known = lone_cells(most_rows, most_rows);
    Call call = enough(known, most_rows, most_rows);
    call.work = 16 * cell_limit;
    columns.check(call, known, Place::at_start);
    call.grid = cell_limit; // 8 as well
    columns.check(call, known, Place::at_end);
}

// The second column closes the 2 at cell 1. It touches two cells of its key height 1: from cell 6 the 3 beside it is
// reached, and cell 4 leads nowhere. The third column makes that one lead to a 3 as well, and it is the earlier: now
// the pass is 4. A closed peak is not handed out again for that.
void try_moving_pass(Columns &columns) {
    constexpr std::int32_t B = blank;
    constexpr std::uint32_t rows = 4;
    const Known runs[] = {
        {{}, {B, 2, B, B}, {}},
        {{B, 2, B, B}, {1, B, 1, 3}, record_of(1, 2, 1, 6)},
        {{B, 2, B, B, 1, B, 1, 3}, {3, B, B, B}, {}},
    };
    for (const Known &known : runs) {
        const auto taken = static_cast<std::uint32_t>(known.taken.size() / rows);
        for (const Place place : places) columns.check(enough(known, rows, taken), known, place);
    }
}

// Every refusal by lengths alone, and each where a later one of the order applies as well.
void try_claims(Columns &columns) {
    const std::size_t huge = greatest_length / 4;
    for (const std::uint32_t rows : {0u, 1025u, 65536u, 0xffffffffu}) {
        for (const std::uint32_t taken : {0u, 1u, 0xffffffffu}) columns.check_claim({rows, taken, 0, 0, 0, 0}); // 1
    }
    for (const std::uint32_t rows : {1u, 2u, 1023u, 1024u}) {
        const std::size_t column = rows;
        const auto most = static_cast<std::uint32_t>(cell_limit / rows);
        const std::size_t full = most * column;
        columns.check_claim({rows, 1, 0, column - 1, 0, 0});                          // 9: above the grid; and 7
        columns.check_claim({rows, most + 1, column, huge, 0, 0});                    // 9: above 1,048,576
        columns.check_claim({rows, 0xffffffffu, 0, huge, 0, 0});                      // 9, and 7
        columns.check_claim({rows, most, column - 1, huge, 0, 0});                    // 7, and 3
        columns.check_claim({rows, most, column + 1, huge, 0, 0});                    // 7, and 3
        columns.check_claim({rows, most, column, huge, 0, 0});                        // 3, and 4
        columns.check_claim({rows, most, column, full, 0, 0});                        // 3, and 8
        columns.check_claim({rows, most - 1, column, full - column, 0, 0});           // 8, and 4
        columns.check_claim({rows, most - 1, column, full, 16 * full - 1, 0});        // 4
    }
}

} // namespace

int main() {
    Columns columns;
    try_claims(columns);
    for (const std::uint32_t rows : {1u, 2u, 7u, 64u}) try_around(columns, rows, 4);
    try_around(columns, most_rows, most_rows - 1);
    try_full(columns);
    try_moving_pass(columns);
    std::printf("%zu column calls agree\n", columns.calls());
    return EXIT_SUCCESS;
}
