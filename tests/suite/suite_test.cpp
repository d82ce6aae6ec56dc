// A hard test of the C entry: some hundred thousand calls, the same in every run.
//
//     suite_test        all calls
//     suite_test PART   only one in PART of the small grids, and all else; for an emulator
//
// What a call must answer comes from definitions.hpp, from the paper's table of refusals, or is known by construction.
// After each call everything lent is looked at: the heights, the table behind the counted records, the work area where
// nothing may have been written, and the bytes around all three. Prints `N calls agree`, or the first call that goes
// wrong, and then ends with status 1.

#include <signal.h>
#include <unistd.h>

#include <algorithm>
#include <array>
#include <cinttypes>
#include <cstddef>
#include <cstdint>
#include <cstdio>
#include <cstdlib>
#include <limits>
#include <random>
#include <vector>

#include "definitions.hpp"
#include "mayexoton.h"
#include "room.hpp"

namespace {

using Heights = std::vector<std::int32_t>;

constexpr std::int32_t blank = std::numeric_limits<std::int32_t>::min();
constexpr std::int32_t lowest = blank + 1;
constexpr std::int32_t highest = std::numeric_limits<std::int32_t>::max();
constexpr std::size_t greatest_length = std::numeric_limits<std::size_t>::max();
constexpr std::size_t cell_limit = 1048576;

static_assert(sizeof(std::size_t) == 8, "the claimed lengths below need 64 bits");

// ---- numbers

// The engine's sequence is fixed by the standard; its distributions are not, so they are not used.
class Random {
public:
    explicit Random(std::uint64_t seed) : engine(seed) {}

    std::uint64_t below(std::uint64_t bound) { return engine() % bound; }
    bool one_in(std::uint64_t chances) { return below(chances) == 0; }
    std::uint8_t byte() { return static_cast<std::uint8_t>(engine() >> 32); }

    std::int32_t legal_height() {
        return static_cast<std::int32_t>(static_cast<std::int64_t>(below(0xffffffffu)) + lowest);
    }

    template <typename Values> auto one_of(const Values &values) -> typename Values::value_type {
        return *(values.begin() + static_cast<std::ptrdiff_t>(below(values.size())));
    }

private:
    std::mt19937_64 engine;
};

void put(std::uint8_t *bytes, std::uint32_t number) {
    for (int i = 0; i < 4; ++i) bytes[i] = static_cast<std::uint8_t>(number >> (8 * i));
}

std::uint32_t get(const std::uint8_t *bytes) {
    std::uint32_t number = 0;
    for (int i = 0; i < 4; ++i) number |= std::uint32_t{bytes[i]} << (8 * i);
    return number;
}

// ---- records

struct Record {
    std::uint32_t cell;
    std::int32_t height;
    std::int32_t key_height;
    std::uint32_t pass;

    bool operator==(const Record &other) const {
        return cell == other.cell && height == other.height && key_height == other.key_height && pass == other.pass;
    }
};

Record without_key(std::uint32_t cell, std::int32_t height) { return {cell, height, -2147483647 - 1, 4294967295u}; }

Record record_at(const std::uint8_t *bytes) {
    return {get(bytes), static_cast<std::int32_t>(get(bytes + 4)), static_cast<std::int32_t>(get(bytes + 8)),
            get(bytes + 12)};
}

Record record_of(const definitions::Peak &peak) {
    const auto height = static_cast<std::int32_t>(peak.height);
    if (!peak.key) return without_key(peak.cell, height);
    return {peak.cell, height, static_cast<std::int32_t>(peak.key->height), peak.key->pass};
}

std::vector<Record> listed(const std::vector<definitions::Peak> &peaks, std::uint32_t threshold) {
    std::vector<Record> records;
    for (const definitions::Peak &peak : peaks) {
        if (definitions::listed(peak, threshold)) records.push_back(record_of(peak));
    }
    return records;
}

// ---- a call, and what is said of it when it goes wrong

struct Call {
    std::uint32_t rows = 0;
    std::size_t heights_length = 0;
    std::uint32_t threshold = 0;
    std::size_t work_length = 0;
    std::size_t table_length = 0;
    const Heights *heights = nullptr; // those lent; a null pointer if the lengths are only claimed
};

// The call being made, for the report of a call that does not come back.
Call current;

void print_call(const Call &call) {
    std::printf("rows %" PRIu32 ", heights_length %zu, threshold %" PRIu32 ", work_length %zu, table_length %zu\n",
                call.rows, call.heights_length, call.threshold, call.work_length, call.table_length);
    if (call.heights == nullptr || call.rows == 0 || call.heights->size() > 1024) return;
    std::printf("heights, a line for each row (. is blank):\n");
    for (std::size_t row = 0; row < call.rows && row < call.heights->size(); ++row) {
        for (std::size_t cell = row; cell < call.heights->size(); cell += call.rows) {
            const std::int32_t height = (*call.heights)[cell];
            if (height == blank) std::printf(" .");
            else std::printf(" %" PRId32, height);
        }
        std::printf("\n");
    }
}

void print_records(const char *title, const std::vector<Record> &records) {
    std::printf("%s %zu (cell, height, key height, pass cell)\n", title, records.size());
    for (std::size_t i = 0; i < std::min<std::size_t>(records.size(), 70); ++i) {
        const Record &record = records[i];
        std::printf("  %" PRIu32 " %" PRId32 " %" PRId32 " %" PRIu32 "\n", record.cell, record.height,
                    record.key_height, record.pass);
    }
}

[[noreturn]] void fail(const char *what) {
    std::printf("WRONG: %s\n", what);
    print_call(current);
    std::fflush(stdout);
    std::_Exit(EXIT_FAILURE);
}

// A call that reads where it may not, aborts, or runs for ever. Printing is not safe in a signal's handler in general;
// here the signal comes out of the library, which does not print.
void report_signal(int signal) {
    fail(signal == SIGALRM ? "the call does not come back" : "the call ends the program");
}

void watch_signals() {
    for (const int signal : {SIGSEGV, SIGBUS, SIGILL, SIGFPE, SIGABRT, SIGTRAP, SIGALRM}) {
        struct sigaction action = {};
        action.sa_handler = report_signal;
        sigaction(signal, &action, nullptr);
    }
}

// ---- lending and looking

constexpr unsigned seconds_for_a_call = 20;

class Suite {
public:
    std::size_t calls() const { return count; }

    // A call with real memory for everything. `records` is the whole list at the call's threshold.
    void check(std::uint32_t rows, const Heights &heights, std::size_t heights_length, std::uint32_t threshold,
               std::size_t work_length, std::size_t table_length, const std::vector<Record> &records) {
        current = {rows, heights_length, threshold, work_length, table_length, &heights};
        lend();
        const bool read_only = random.one_in(16);
        if (read_only) heights_room.protect(PROT_READ);
        const std::int64_t answer = make(or_null(heights_lent, current.heights_length),
                                         or_null(work_lent, current.work_length),
                                         or_null(table_lent, current.table_length));
        if (read_only) heights_room.protect(PROT_READ | PROT_WRITE);

        const int refusal = refusal_of(current, records.size());
        const std::int64_t expected = refusal != 0 ? -refusal : static_cast<std::int64_t>(records.size());
        if (answer != expected) {
            std::printf("answer %" PRId64 ", expected %" PRId64 "\n", answer, expected);
            print_records("expected records", records);
            fail("the answer");
        }
        look_at_records(refusal == 0 ? records : std::vector<Record>{});
        if (!std::equal(heights_before.begin(), heights_before.end(), heights_lent)) fail("the heights have changed");
        if (refusal >= 1 && refusal <= 4 && !std::equal(work_before.begin(), work_before.end(), work_lent)) {
            fail("a refusal before 5 has used the work area");
        }
        if (!heights_room.guards_stand()) fail("bytes beside the heights have changed");
        if (!work_room.guards_stand()) fail("bytes beside the work area have changed");
        if (!table_room.guards_stand()) fail("bytes beside the table have changed");
    }

    // The same with lengths as they should be: work area and table fit exactly.
    void check(std::uint32_t rows, const Heights &heights, std::uint32_t threshold,
               const std::vector<Record> &records) {
        check(rows, heights, 4 * heights.size(), threshold, 16 * heights.size(), 16 * records.size(), records);
    }

    // A call that must be refused before it looks at any memory: the lengths are claimed, and nothing stands there.
    void check_claim(const Call &claim) {
        current = claim;
        std::uint8_t *const nowhere = heights_room.nowhere();
        const std::int64_t answer = make(nowhere, nowhere, nowhere);
        const int refusal = refusal_of(claim, 0);
        if (answer == -refusal) return;
        std::printf("answer %" PRId64 ", expected %d\n", answer, -refusal);
        fail("the answer to a claim");
    }

    // Null pointers throughout, all lengths 0; the list is empty or refused.
    void check_null(std::uint32_t rows, std::int64_t expected) {
        current = {rows, 0, 1, 0, 0, nullptr};
        if (make(nullptr, nullptr, nullptr) != expected) fail("the answer to null pointers");
    }


    // The paper's table, refusals 1 to 5 in their order; 0 is none.
    static int refusal_of(const Call &call, std::size_t records) {
        if (call.rows == 0 || call.rows > 1024) return 1;
        if (call.heights_length % (std::size_t{4} * call.rows) != 0) return 2;
        const std::size_t cells = call.heights_length / 4;
        if (cells > cell_limit) return 3;
        if (call.work_length < 16 * cells) return 4;
        if (call.table_length / 16 < records) return 5;
        return 0;
    }

private:
    std::int64_t make(const std::uint8_t *heights, std::uint8_t *work, std::uint8_t *table) {
        ++count;
        alarm(seconds_for_a_call);
        return mayexoton_list(current.rows, heights, current.heights_length, current.threshold, work,
                              current.work_length, table, current.table_length);
    }

    // What has no bytes may have no address.
    std::uint8_t *or_null(std::uint8_t *lent, std::size_t length) {
        return length == 0 && random.one_in(2) ? nullptr : lent;
    }

    Place any_place() {
        return random.one_of(std::array<Place, 3>{Place::at_start, Place::at_end, Place::inside});
    }

    // What the work area and the table hold before a call must not matter: nothing, ones, anything, or what was left.
    void soil(std::uint8_t *bytes, std::size_t length) {
        switch (random.below(4)) {
        case 0: std::fill_n(bytes, length, std::uint8_t{0}); break;
        case 1: std::fill_n(bytes, length, std::uint8_t{0xff}); break;
        case 2: std::generate_n(bytes, length, [&] { return random.byte(); }); break;
        default: break;
        }
    }

    void lend() {
        const Heights &heights = *current.heights;
        heights_lent = heights_room.lend(current.heights_length, any_place(), random.below(16));
        work_lent = work_room.lend(current.work_length, any_place(), random.below(16));
        table_lent = table_room.lend(current.table_length, any_place(), random.below(16));
        for (std::size_t cell = 0; 4 * cell + 4 <= current.heights_length; ++cell) {
            const std::int32_t height = cell < heights.size() ? heights[cell] : blank;
            put(heights_lent + 4 * cell, static_cast<std::uint32_t>(height));
        }
        soil(work_lent, current.work_length);
        soil(table_lent, current.table_length);
        heights_before.assign(heights_lent, heights_lent + current.heights_length);
        work_before.assign(work_lent, work_lent + current.work_length);
        table_before.assign(table_lent, table_lent + current.table_length);
    }

    void look_at_records(const std::vector<Record> &records) const {
        for (std::size_t i = 0; i < records.size(); ++i) {
            if (record_at(table_lent + 16 * i) == records[i]) continue;
            std::vector<Record> found;
            for (std::size_t j = 0; j < records.size(); ++j) found.push_back(record_at(table_lent + 16 * j));
            print_records("expected records", records);
            print_records("found records", found);
            std::printf("they differ at record %zu\n", i);
            fail("a record");
        }
        const auto counted = static_cast<std::ptrdiff_t>(16 * records.size());
        if (!std::equal(table_before.begin() + counted, table_before.end(), table_lent + counted)) {
            fail("the table has changed behind the counted records");
        }
    }

    Random random{1};
    std::size_t count = 0;
    Room heights_room{4 * cell_limit + 4096};
    Room work_room{16 * cell_limit + 4096};
    Room table_room{16 * cell_limit + 4096};
    std::uint8_t *heights_lent = nullptr;
    std::uint8_t *work_lent = nullptr;
    std::uint8_t *table_lent = nullptr;
    std::vector<std::uint8_t> heights_before, work_before, table_before;
};

// ---- the papers' grids, and some by hand

constexpr std::int32_t B = blank;

struct KnownGrid {
    std::uint32_t rows;
    Heights heights;
    std::uint32_t threshold;
    std::vector<Record> records;
};

const std::vector<KnownGrid> &known_grids() {
    static const std::vector<KnownGrid> grids{
        {1, {}, 1, {}},
        {1, {B}, 1, {}},
        {1, {0}, 1, {without_key(0, 0)}},
        {1, {5, 3, 5}, 1, {without_key(0, 5), {2, 5, 3, 1}}},
        {1, {5, 3, 5}, 2, {without_key(0, 5), {2, 5, 3, 1}}},
        {1, {5, 3, 5}, 3, {without_key(0, 5)}},
        {1, {5, 5, 5}, 1, {without_key(0, 5)}},
        {1, {5, B, 6}, 1, {without_key(0, 5), without_key(2, 6)}},
        {1, {highest, lowest, highest}, 4294967294u, {without_key(0, highest), {2, highest, lowest, 1}}},
        {1, {highest, lowest, highest}, 4294967295u, {without_key(0, highest)}},
        {1, {9, 2, 5, 4, 1}, 1, {without_key(0, 9), {2, 5, 2, 1}}},
        {1, {5, B}, 1, {without_key(0, 5)}},
        {2, {8, 1, 1, 7}, 1, {without_key(0, 8)}},
        {3, {1, 9, 1, 1, 2, 1, 1, 5, 1, 1, 4, 1, 1, 7, 1}, 1, {without_key(1, 9), {7, 5, 4, 10}, {13, 7, 2, 4}}},
        {3, {1, 9, 1, 1, 2, 1, 1, 5, 1, 1, 4, 1, 1, 7, 1}, 2, {without_key(1, 9), {13, 7, 2, 4}}},
        {1, {4, 6, 4, 9}, 1, {{1, 6, 4, 2}, without_key(3, 9)}},
        // By hand: a shelf that leads to a lower peak only, and one that leads on over it.
        {1, {2, 1, 5, 1, 9}, 1, {{0, 2, 1, 1}, {2, 5, 1, 3}, without_key(4, 9)}},
        {1, {9, 1, 2, 1, 5, 1}, 1, {without_key(0, 9), {2, 2, 1, 1}, {4, 5, 1, 3}}},
        // Two peaks share a pass: it leads from the first to the last, and from the second to the first.
        {1, {1, 0, 1, 0, 2}, 1, {{0, 1, 0, 1}, {2, 1, 0, 1}, without_key(4, 2)}},
        // The third column makes the shelf at cell 4 lead to a higher peak, and the pass of the 2 moves there.
        {4, {B, 2, B, B, 1, B, 1, 3}, 1, {{1, 2, 1, 6}, without_key(7, 3)}},
        {4, {B, 2, B, B, 1, B, 1, 3, 3, B, B, B}, 1, {{1, 2, 1, 4}, without_key(7, 3), {8, 3, 1, 4}}},
        // Two shelves beside the 2, which meet before the 3. The one that begins earlier touches the 2 later.
        {5,
         {1, B, B, 1, B, 1, B, 2, B, 1, B, 1, B, 1, B, B, B, 1, B, B, B, B, 3, B, B},
         1,
         {{7, 2, 1, 3}, without_key(22, 3)}},
    };
    return grids;
}

// They don't come from the definitions' lister, so they test it as well.
void try_known_grids(Suite &suite) {
    for (const KnownGrid &grid : known_grids()) {
        suite.check(grid.rows, grid.heights, grid.threshold, grid.records);
        const std::vector<Record> defined = listed(definitions::Grid(grid.rows, grid.heights).peaks(), grid.threshold);
        if (defined == grid.records) continue;
        print_records("the definitions' records", defined);
        fail("definitions.hpp itself, on a known grid");
    }
}

// ---- refusals

void try_null_pointers(Suite &suite) {
    for (const std::uint32_t rows : {1u, 2u, 1023u, 1024u}) suite.check_null(rows, 0);
    for (const std::uint32_t rows : {0u, 1025u, 0x40000000u, 0xffffffffu}) suite.check_null(rows, -1);
}

// Lengths of heights around every limit of a row count, and those that turn small when cut to 32 bits.
std::vector<std::size_t> lengths_for(std::uint32_t rows) {
    const std::size_t column = std::size_t{4} * rows;
    const std::size_t two_32 = std::size_t{1} << 32;
    const std::size_t two_34 = std::size_t{1} << 34;
    std::vector<std::size_t> lengths{0, 1, 2, 3, 4, 5, 8, 4095, 4096, 4097, 4 * cell_limit, 4 * cell_limit + 1,
                                     4 * cell_limit + 4, two_32 - 4, two_32, two_32 + 4, two_34, two_34 + 4,
                                     two_34 + column, greatest_length, greatest_length - 3};
    if (column == 0) return lengths;
    for (const std::size_t limit : {column, 2 * column, 4 * cell_limit, two_32, two_34, greatest_length}) {
        const std::size_t whole = limit / column * column; // the greatest multiple up to the limit, and beside it
        for (const std::size_t length : {whole - 1, whole, whole + 1, whole + column - 1, whole + column}) {
            lengths.push_back(length);
        }
    }
    return lengths;
}

// Small lengths are lent; large ones are only claimed, where the call must be refused before it looks at memory.
void try_refusal(Suite &suite, const Call &call) {
    constexpr std::size_t small = 8192;
    const Heights none; // what is lent beyond these is blank
    if (std::max({call.heights_length, call.work_length, call.table_length}) <= small) {
        suite.check(call.rows, none, call.heights_length, call.threshold, call.work_length, call.table_length, {});
    } else if (const int refusal = Suite::refusal_of(call, 0); refusal >= 1 && refusal <= 3) {
        suite.check_claim(call);
    }
}

// All combinations of hostile values. The grids are blank, so refusal 5 does not come in; it has its turn below.
void try_refusals(Suite &suite) {
    using Lengths = std::vector<std::size_t>;
    const std::vector<std::uint32_t> row_counts{0, 1, 2, 3, 5, 1000, 1023, 1024, 1025, 1026, 2048, 65536, 65537,
                                                0x40000000u, 0x80000000u, 0xffffffffu};
    for (const std::uint32_t rows : row_counts) {
        for (const std::size_t heights_length : lengths_for(rows)) {
            const std::size_t needed = heights_length / 4 * 16;
            for (const std::size_t work_length : Lengths{0, 15, needed - 1, needed, needed + 1, greatest_length}) {
                for (const std::size_t table_length : Lengths{0, 17, greatest_length}) {
                    try_refusal(suite, {rows, heights_length, 1, work_length, table_length, nullptr});
                }
            }
        }
    }
}

// The limit of cells from below: accepted with exactly the work area that is needed, refused with a byte less.
void try_cell_limit(Suite &suite) {
    for (const std::uint32_t rows : {1u, 3u, 1023u, 1024u}) {
        const std::size_t cells = cell_limit / rows * rows;
        const Heights blanks(cells, blank);
        suite.check(rows, blanks, 0, {});
        suite.check(rows, blanks, 4 * cells, 1, 16 * cells - 1, 0, {});
    }
}

// ---- grids of all sizes whose list is known by construction

// Single cells stand out of a plain of zeros, so each is an island of its own down to 0, and its pass cell is the
// earliest cell beside it. But in one row the zero before a cell leads only to what stands before: where nothing there
// outranks the cell, its pass is the zero behind it. The first of the highest has no key height.
void try_plain(Suite &suite, std::uint32_t rows, std::uint32_t columns, std::uint64_t different, std::uint64_t seed) {
    Random random(seed);
    Heights heights(std::size_t{rows} * columns, 0);
    std::vector<Record> records;
    std::size_t top = 0;
    for (std::uint32_t column = 0; column < columns; column += 2) {
        for (std::uint32_t row = 0; row < rows; row += 2) {
            const std::uint32_t cell = column * rows + row;
            heights[cell] = static_cast<std::int32_t>(1 + random.below(different));
            std::uint32_t pass = cell + 1; // below it; in one row, behind it
            if (row > 0) pass = cell - 1;
            const bool highest_yet = records.empty() || heights[cell] > records[top].height;
            const bool leads_back = column > 0 && (rows > 1 || !highest_yet);
            if (leads_back) pass = row > 0 ? cell - rows - 1 : cell - rows;
            if (highest_yet) top = records.size();
            records.push_back({cell, heights[cell], 0, pass});
        }
    }
    records[top] = without_key(records[top].cell, records[top].height);
    suite.check(rows, heights, 1, records);

    const std::size_t short_table = 16 * records.size() - 1;
    suite.check(rows, heights, 4 * heights.size(), 0, 16 * heights.size(), short_table, records);

    const auto threshold = static_cast<std::uint32_t>(different / 2 + 1);
    std::vector<Record> prominent;
    for (const Record &record : records) {
        const bool keyless = record.pass == 4294967295u;
        if (keyless || static_cast<std::uint32_t>(record.height) >= threshold) prominent.push_back(record);
    }
    suite.check(rows, heights, threshold, prominent);
}

void try_plains(Suite &suite) {
    std::uint64_t seed = 100;
    for (const std::uint32_t rows : {1u, 2u, 3u, 17u, 64u, 255u, 256u, 257u, 1023u, 1024u}) {
        for (const std::uint32_t columns : {2u, 3u, 16u, 129u}) {
            for (const std::uint64_t different : {1u, 3u, 70000u, 2147483647u}) {
                try_plain(suite, rows, columns, different, ++seed);
            }
        }
    }
    try_plain(suite, 1024, 1024, 2147483647, ++seed);
    try_plain(suite, 1, cell_limit, 1000, ++seed);
}

// A grid of one height has one peak, a grid that only rises has one, and so has one that only falls.
void try_slopes(Suite &suite) {
    for (const std::uint32_t rows : {1u, 7u, 1024u}) {
        const std::uint32_t columns = 300;
        const std::uint32_t last = rows * columns - 1;
        Heights equal(last + 1, lowest), rising, falling;
        for (std::uint32_t cell = 0; cell <= last; ++cell) {
            rising.push_back(static_cast<std::int32_t>(cell) - 1000);
            falling.push_back(highest - static_cast<std::int32_t>(cell));
        }
        suite.check(rows, equal, 4294967295u, {without_key(0, lowest)});
        suite.check(rows, rising, 4294967295u, {without_key(last, rising[last])});
        suite.check(rows, falling, 4294967295u, {without_key(0, highest)});
    }
}

// ---- small grids against the definitions

// How much is done with small grids: one in so many of them is taken. A part that shared a factor with the number of
// heights in use would leave out all grids that begin with some height; so it has no factor 2 or 3.
constexpr bool is_part(unsigned long part) { return part % 2 != 0 && part % 3 != 0; }

// Every grid of a shape over a few heights.
void try_every_grid(Suite &suite, std::size_t part, std::uint32_t rows, std::uint32_t columns,
                    const std::vector<std::int32_t> &symbols) {
    const std::size_t cells = std::size_t{rows} * columns;
    std::vector<std::size_t> digits(cells, 0); // a number that counts through all grids
    Heights heights(cells, symbols[0]);
    for (std::size_t grid = 0;; ++grid) {
        if (grid % part == 0) suite.check(rows, heights, 1, listed(definitions::Grid(rows, heights).peaks(), 1));
        std::size_t place = 0;
        while (place < cells && digits[place] + 1 == symbols.size()) {
            digits[place] = 0;
            heights[place] = symbols[0];
            ++place;
        }
        if (place == cells) return;
        heights[place] = symbols[++digits[place]];
    }
}

void try_every_small_grid(Suite &suite, std::size_t part) {
    const std::vector<std::int32_t> four{blank, -1, 0, 1};
    const std::vector<std::int32_t> two_and_blank{blank, 7, 8};
    const std::vector<std::int32_t> three{-1, 0, 1};
    for (std::uint32_t length = 1; length <= 7; ++length) {
        try_every_grid(suite, part, 1, length, four);
        if (length > 1 && length < 7) try_every_grid(suite, part, length, 1, four);
    }
    try_every_grid(suite, part, 1, 9, three);
    try_every_grid(suite, part, 2, 2, four);
    try_every_grid(suite, part, 2, 3, four);
    try_every_grid(suite, part, 3, 2, four);
    try_every_grid(suite, part, 2, 4, four);
    try_every_grid(suite, part, 4, 2, four);
    try_every_grid(suite, part, 3, 3, two_and_blank);
    try_every_grid(suite, part, 3, 3, three);
    // These are too many for all, but have shelves that lead nowhere more often than the others.
    try_every_grid(suite, 11 * part, 4, 3, two_and_blank);
}

// Heights of one of several hostile styles.
Heights random_heights(Random &random, std::size_t cells) {
    static const std::vector<std::int32_t> extremes{blank, lowest, lowest + 1, -1, 0, 1, highest - 1, highest};
    // A sort by digits goes wrong where a digit carries over.
    static const std::vector<std::int32_t> carries{-65536, -65535, -257,  -256,  -255,  255,
                                                   256,    2047,   2048, 65535, 65536, 16777216};
    const std::uint64_t style = random.below(8);
    const std::uint64_t few = 2 + random.below(6);
    const std::uint64_t blanks = random.one_of(std::array<std::uint64_t, 4>{0, 0, 10, 3}); // none, or one in so many
    const std::int32_t base = random.one_of(carries);
    Heights heights(cells);
    for (std::size_t cell = 0; cell < cells; ++cell) {
        std::int32_t &height = heights[cell];
        const auto small = static_cast<std::int32_t>(random.below(few));
        switch (style) {
        case 0: height = random.legal_height(); break;
        case 1: height = random.one_of(extremes); break;
        case 2: height = random.one_of(carries); break;
        case 3: height = base + small - 1; break;
        case 4: height = static_cast<std::int32_t>(cell) * (base < 0 ? -1 : 1) + small; break; // a slope, roughened
        case 5: height = cell % 2 == 0 ? highest - small : lowest + small; break;
        default: height = small; break;
        }
        if (blanks != 0 && random.one_in(blanks)) height = blank;
    }
    return heights;
}

// A threshold that is extreme, or on either side of a prominence of the grid.
std::uint32_t random_threshold(Random &random, const std::vector<definitions::Peak> &peaks) {
    static const std::vector<std::uint32_t> fixed{0, 1, 2, 3, 0x7fffffffu, 0x80000000u, 4294967294u, 4294967295u};
    if (peaks.empty() || random.one_in(3)) return random.one_of(fixed);
    const definitions::Peak &peak = random.one_of(peaks);
    if (!peak.key) return static_cast<std::uint32_t>(random.below(4294967296u));
    const std::int64_t prominence = peak.height - peak.key->height; // 1 to 4294967294
    return static_cast<std::uint32_t>(prominence - 1 + static_cast<std::int64_t>(random.below(3)));
}

void try_random_grid(Suite &suite, Random &random) {
    const auto rows = static_cast<std::uint32_t>(1 + random.below(random.one_in(4) ? definitions::most_cells : 8));
    const std::size_t most_columns = random.one_in(8) ? definitions::most_cells : 12;
    const std::size_t columns = random.below(std::min(definitions::most_cells / rows, most_columns) + 1);
    const Heights heights = random_heights(random, rows * columns);
    const std::vector<definitions::Peak> peaks = definitions::Grid(rows, heights).peaks();
    const std::uint32_t threshold = random_threshold(random, peaks);
    const std::vector<Record> records = listed(peaks, threshold);

    const std::size_t length = 4 * heights.size();
    const std::size_t work = 16 * heights.size();
    const std::size_t table = 16 * records.size();
    suite.check(rows, heights, length, threshold, work + random.below(40), table + random.below(70), records);
    suite.check(rows, heights, random.one_in(2) ? 0 : 1, listed(peaks, 1));
    if (!records.empty()) {
        const std::size_t missing = random.one_in(2) ? 1 : 1 + random.below(table);
        suite.check(rows, heights, length, threshold, work, table - missing, records); // refused by 5
    }
    if (!heights.empty() && random.one_in(4)) {
        const std::size_t missing = random.one_in(2) ? 1 : 1 + random.below(work);
        const std::size_t any_table = random.below(table + 20);
        suite.check(rows, heights, length, threshold, work - missing, any_table, records); // by 4, even where 5 applies
        const std::size_t off = 1 + random.below(std::size_t{4} * rows - 1);
        suite.check(rows, heights, length - off, threshold, random.below(work), any_table, records); // by 2
    }
}

void try_random_grids(Suite &suite, std::size_t part) {
    Random random(2);
    for (std::size_t grid = 0; grid < 120000; grid += part) try_random_grid(suite, random);
}

} // namespace

int main(int argc, char **argv) {
    const unsigned long part = argc == 2 ? std::strtoul(argv[1], nullptr, 10) : 1;
    if (argc > 2 || !is_part(part)) {
        std::fprintf(stderr, "usage: suite_test [PART], a number with no factor 2 or 3\n");
        return EXIT_FAILURE;
    }
    watch_signals();
    Suite suite;
    try_known_grids(suite);
    try_null_pointers(suite);
    try_refusals(suite);
    try_cell_limit(suite);
    try_plains(suite);
    try_slopes(suite);
    try_every_small_grid(suite, part);
    try_random_grids(suite, part);
    std::printf("%zu calls agree", suite.calls());
    if (part != 1) std::printf(", with one in %lu of the small grids", part);
    std::printf("\n");
    return EXIT_SUCCESS;
}
