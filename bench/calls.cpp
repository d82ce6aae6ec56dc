// How fast the library's other calls are: a column offered to a run, measured against the library's own list of the
// same grid, and the run file written and read, measured against plain C++ that does the same checks.
//
//     calls           times them at 1,024 rows and prints three tables
//     calls --small   only checks that library and plain C++ agree, on small runs and files of all kinds
//
// Every batch, grid, file and table is compared with what plain C++ makes of the same input; a difference ends the
// program with status 1.

#include <algorithm>
#include <array>
#include <cinttypes>
#include <cstddef>
#include <cstdint>
#include <cstdio>
#include <cstdlib>
#include <cstring>
#include <string_view>
#include <vector>

#include "batches.hpp"
#include "grids.hpp"
#include "lent.hpp"
#include "mayexoton.h"
#include "meter.hpp"
#include "reference.hpp"
#include "runfile.hpp"
#include "times.hpp"

static_assert(__BYTE_ORDER__ == __ORDER_LITTLE_ENDIAN__, "the benchmark needs a little-endian machine");
static_assert(sizeof(reference::Record) == MAYEXOTON_RECORD_BYTES);
static_assert(reference::work_per_cell * sizeof(std::uint32_t) == MAYEXOTON_WORK_BYTES);

namespace {

using grids::Heights;
using reference::Record;
using Records = std::vector<Record>;
using lent::bytes;
using lent::Bytes;
using lent::same;
using lent::untouched_byte;

// What no call may touch holds this.
constexpr std::int32_t untouched_height = 0x5a5a5a5a;
constexpr Record untouched_record{0x5a5a5a5au, 0x5a5a5a5a, 0x5a5a5a5a, 0x5a5a5a5au};

[[noreturn]] void differ(const char *what, const char *kind, std::uint32_t rows, std::size_t cells,
                         std::int64_t library, std::int64_t plain) {
    std::printf("DIFFERENT: %s, %s, %" PRIu32 " rows, %zu cells; the library answers %" PRId64 ", plain C++ %" PRId64
                "\n",
                what, kind, rows, cells, library, plain);
    std::exit(EXIT_FAILURE);
}

Records list_of(std::uint32_t rows, const Heights &heights, std::uint32_t threshold) {
    return reference::list(rows, heights.data(), heights.size(), threshold);
}

// Whether a call has answered just these records and left the rest of its table alone.
bool holds(const Records &table, std::int64_t answer, const Records &records) {
    Records expected(table.size(), untouched_record);
    std::copy(records.begin(), records.end(), expected.begin());
    return answer == static_cast<std::int64_t>(records.size()) && same(table, expected);
}

// ---- a column

// A run of all columns of a grid but the last, which is offered to it; and the list of the whole grid. Both use one
// work area and fill a table, as records in the file's layout.
class ColumnContest {
public:
    ColumnContest(const char *kind, std::uint32_t rows, const Heights &heights, std::uint32_t threshold)
        : kind(kind), rows(rows), taken(heights.size() / rows - 1), threshold(threshold), heights(heights),
          grid(heights), work(reference::work_per_cell * heights.size()),
          column_table(heights.size(), untouched_record), list_table(heights.size(), untouched_record),
          batch(batches::batch(rows, static_cast<std::uint32_t>(taken), heights.data(), threshold)),
          list(list_of(rows, heights, threshold)) {
        forget_column();
    }

    // The call must copy the column behind the taken cells.
    void forget_column() { std::fill_n(grid.end() - rows, rows, untouched_height); }

    void run_column() {
        column_answer = meter_column(rows, static_cast<std::uint32_t>(taken), threshold, heights.data() + taken * rows,
                                     rows, grid.data(), grid.size(), bytes(work), work.size() * sizeof(work[0]),
                                     bytes(column_table), column_table.size() * sizeof(Record));
    }

    void run_list() {
        list_answer = mayexoton_list(rows, bytes(heights), heights.size() * sizeof(heights[0]), threshold, bytes(work),
                                     work.size() * sizeof(work[0]), bytes(list_table),
                                     list_table.size() * sizeof(Record));
    }

    void require_agreement() const {
        if (!holds(column_table, column_answer, batch) || !same(grid, heights)) {
            differ("column", kind, rows, heights.size(), column_answer, handed_out());
        }
        if (!holds(list_table, list_answer, list)) {
            differ("list", kind, rows, heights.size(), list_answer, static_cast<std::int64_t>(list.size()));
        }
    }

    std::int64_t handed_out() const { return static_cast<std::int64_t>(batch.size()); }

private:
    const char *kind;
    std::uint32_t rows;
    std::size_t taken;
    std::uint32_t threshold;
    const Heights &heights;
    Heights grid;
    std::vector<std::uint32_t> work;
    Records column_table;
    Records list_table;
    Records batch;
    Records list;
    std::int64_t column_answer = 0;
    std::int64_t list_answer = 0;
};

times::Medians time_column(ColumnContest &contest, int turns) {
    return times::in_turn(turns, [&] { contest.run_column(); }, [&] { contest.run_list(); }, [&] {
        contest.require_agreement();
        contest.forget_column();
    });
}

void print_columns() {
    constexpr std::uint32_t rows = 1024, columns = 1024;
    std::printf("one column call, the last of %" PRIu32 " x %" PRIu32 " cells, and one list of the same grid\n"
                "milliseconds of processor time, medians; threshold 1\n\n",
                rows, columns);
    std::printf("%-13s %10s | %8s %8s | %s\n", "kind", "handed out", "column", "list",
                "column / list, wanted: at most 2.5");
    for (const grids::Kind &kind : grids::kinds) {
        const Heights heights = kind.make(rows, columns);
        ColumnContest contest(kind.name, rows, heights, 1);
        const times::Medians medians = time_column(contest, 9);
        std::printf("%-13s %10" PRId64 " | %8.1f %8.1f | %.2f\n", kind.name, contest.handed_out(), medians.first / 1e6,
                    medians.second / 1e6, medians.ratio());
        std::fflush(stdout);
    }
}

// ---- a whole run

constexpr std::array<std::uint32_t, 4> run_lengths{64, 256, 512, 1024};

// What the calls of a run of the last length take together, if a call's time is straight between the measured lengths.
double run_seconds(const std::array<double, run_lengths.size()> &milliseconds) {
    double sum = 0, shorter = 0, at_shorter = 0;
    for (std::size_t i = 0; i < run_lengths.size(); ++i) {
        sum += (run_lengths[i] - shorter) * (at_shorter + milliseconds[i]) / 2;
        shorter = run_lengths[i];
        at_shorter = milliseconds[i];
    }
    return sum / 1e3;
}

void print_runs() {
    constexpr std::uint32_t rows = 1024;
    std::printf("\none column call along a run of %" PRIu32 " rows, by the columns it makes\n"
                "milliseconds of processor time, medians; threshold 1\n\n%-13s |",
                rows, "kind");
    for (const std::uint32_t length : run_lengths) std::printf(" %7" PRIu32, length);
    std::printf(" | all %" PRIu32 " calls, by these\n", run_lengths.back());
    for (const grids::Kind &kind : grids::kinds) {
        const Heights whole = kind.make(rows, run_lengths.back());
        std::array<double, run_lengths.size()> milliseconds{};
        std::printf("%-13s |", kind.name);
        for (std::size_t i = 0; i < run_lengths.size(); ++i) {
            const Heights heights(whole.begin(), whole.begin() + std::ptrdiff_t{rows} * run_lengths[i]);
            ColumnContest contest(kind.name, rows, heights, 1);
            milliseconds[i] = time_column(contest, 5).first / 1e6;
            std::printf(" %7.1f", milliseconds[i]);
            std::fflush(stdout);
        }
        std::printf(" | %.0f s\n", run_seconds(milliseconds));
    }
}

// ---- the run file

// How much is lent: bytes of room to write to, heights and records to read to.
struct Lent {
    std::size_t room;
    std::size_t heights;
    std::size_t records;
};

// What a file needs, and one more of each, which must stay untouched.
Lent enough(const Heights &heights, const Records &records) {
    return {runfile::total_bytes(heights.size(), records.size()) + 1, heights.size() + 1, records.size() + 1};
}

// A grid with a row of records, written and read by the library and by plain C++, each to memory of its own.
class FileContest {
public:
    FileContest(const char *kind, std::uint32_t rows, const Heights &heights, const Records &records, const Lent &lent)
        : kind(kind), rows(rows), heights(heights), records(records), library(lent), plain(lent) {}

    void write_library() {
        library.written = meter_write(rows, heights.data(), heights.size(), bytes(records),
                                      records.size() * sizeof(Record), library.room.data(), library.room.size());
    }

    void write_plain() {
        plain.written = runfile::write(rows, heights.data(), heights.size(), records.data(), records.size(),
                                       plain.room.data(), plain.room.size());
    }

    void read_library(const Bytes &file, std::size_t length) {
        library.read = meter_read(file.data(), length, library.heights.data(), library.heights.size(),
                                  bytes(library.table), library.table.size() * sizeof(Record));
    }

    void read_plain(const Bytes &file, std::size_t length) {
        plain.read = runfile::read(file.data(), length, plain.heights.data(), plain.heights.size(), plain.table.data(),
                                   plain.table.size());
    }

    void require_written() const {
        if (library.written == plain.written && same(library.room, plain.room)) return;
        differ("writing", kind, rows, heights.size(), library.written, plain.written);
    }

    void require_read() const {
        const bool as_lent = same(library.heights, plain.heights) && same(library.table, plain.table);
        if (library.read == plain.read && as_lent) return;
        differ("reading", kind, rows, heights.size(), library.read, plain.read);
    }

    // What was written was not refused, and reading it has given back what was written.
    void require_return() const {
        const bool written = plain.written == static_cast<std::int64_t>(bytes_written());
        const bool read = plain.read == static_cast<std::int64_t>(records.size()) &&
                          std::equal(heights.begin(), heights.end(), plain.heights.begin()) &&
                          same(records, Records(plain.table.begin(), plain.table.begin() + plain.read));
        if (!written || !read) differ("there and back", kind, rows, heights.size(), library.read, plain.read);
    }

    const Bytes &file() const { return plain.room; }
    std::size_t bytes_written() const { return runfile::total_bytes(heights.size(), records.size()); }

private:
    struct Side {
        explicit Side(const Lent &lent)
            : room(lent.room, untouched_byte), heights(lent.heights, untouched_height),
              table(lent.records, untouched_record) {}

        Bytes room;
        Heights heights;
        Records table;
        std::int64_t written = 0;
        std::int64_t read = 0;
    };

    const char *kind;
    std::uint32_t rows;
    const Heights &heights;
    const Records &records;
    Side library;
    Side plain;
};

void print_files() {
    constexpr std::uint32_t rows = 1024, columns = 1024;
    constexpr int turns = 31;
    std::printf("\nthe run file of %" PRIu32 " x %" PRIu32 " cells with its list\n"
                "milliseconds of processor time, medians; speed wanted: at least 0.5 of plain C++\n\n",
                rows, columns);
    std::printf("%-13s %8s %8s | %26s | %26s\n", "", "", "", "writing", "reading");
    std::printf("%-13s %8s %8s | %8s %8s %8s | %8s %8s %8s\n", "kind", "peaks", "bytes", "library", "C++", "speed",
                "library", "C++", "speed");
    for (const grids::Kind &kind : grids::kinds) {
        const Heights heights = kind.make(rows, columns);
        const Records records = list_of(rows, heights, 1);
        FileContest contest(kind.name, rows, heights, records, enough(heights, records));
        const times::Medians writing =
            times::in_turn(turns, [&] { contest.write_library(); }, [&] { contest.write_plain(); },
                           [&] { contest.require_written(); });
        const Bytes file = contest.file();
        const std::size_t length = contest.bytes_written();
        const times::Medians reading =
            times::in_turn(turns, [&] { contest.read_library(file, length); },
                           [&] { contest.read_plain(file, length); }, [&] { contest.require_read(); });
        contest.require_return();
        std::printf("%-13s %8zu %8zu | %8.2f %8.2f %8.2f | %8.2f %8.2f %8.2f\n", kind.name, records.size(), length,
                    writing.first / 1e6, writing.second / 1e6, 1 / writing.ratio(), reading.first / 1e6,
                    reading.second / 1e6, 1 / reading.ratio());
        std::fflush(stdout);
    }
}

// ---- agreement on small runs and files

// Every column of a run, at several thresholds.
std::size_t check_run(const grids::Kind &kind, std::uint32_t rows, std::uint32_t columns) {
    constexpr std::array<std::uint32_t, 4> thresholds{0, 1, 100, 0x80000000u};
    const Heights whole = kind.make(rows, columns);
    std::size_t calls = 0;
    for (std::uint32_t length = 1; length <= columns; ++length) {
        const Heights heights(whole.begin(), whole.begin() + std::ptrdiff_t{rows} * length);
        for (const std::uint32_t threshold : thresholds) {
            ColumnContest contest(kind.name, rows, heights, threshold);
            contest.run_column();
            contest.run_list();
            contest.require_agreement();
            ++calls;
        }
    }
    return calls;
}

// A number that spoils what it takes the place of, or just not.
std::uint32_t spoiler(grids::Random &random, std::uint32_t number) {
    switch (random.below(6)) {
    case 0: return 0;
    case 1: return number + 1;
    case 2: return number - 1;
    case 3: return 0x80000000u;
    case 4: return 0xffffffffu;
    default: return static_cast<std::uint32_t>(random.next());
    }
}

// Spoils one of the numbers that so many bytes hold.
void spoil(grids::Random &random, std::uint8_t *numbers, std::size_t length) {
    if (length < 4) return;
    std::uint8_t *const place = numbers + 4 * random.below(length / 4);
    std::uint32_t number;
    std::memcpy(&number, place, sizeof number);
    number = spoiler(random, number);
    std::memcpy(place, &number, sizeof number);
}

// Records of which one may not be sound: a number is spoilt, two stand the wrong way round, one takes its own cell for
// its pass, or one is that of the first cell, though it be blank.
Records forge(grids::Random &random, const Heights &heights, Records records) {
    const auto choice = records.empty() ? 3 : random.below(4);
    const auto any = [&] { return records.begin() + random.below(records.size()); };
    if (choice == 0) spoil(random, bytes(records), records.size() * sizeof(Record));
    if (choice == 1) std::iter_swap(any(), any());
    if (choice == 2) {
        Record &record = *any();
        record.key_height = record.height;
        record.pass = record.cell;
    }
    if (choice == 3) records.assign(1, {0, heights[0], reference::no_key_height, reference::no_pass});
    return records;
}

// A file with one record more than it has cells, all else as computed.
Bytes crowded(std::uint32_t rows, std::uint32_t columns) {
    const std::size_t cells = std::size_t{rows} * columns;
    const runfile::Header header{rows,
                                 columns,
                                 static_cast<std::uint32_t>(cells + 1),
                                 static_cast<std::uint32_t>(runfile::header_bytes),
                                 static_cast<std::uint32_t>(runfile::total_bytes(cells, 0)),
                                 static_cast<std::uint32_t>(runfile::total_bytes(cells, cells + 1))};
    Bytes file(header.total);
    std::memcpy(file.data(), &header, sizeof header);
    return file;
}

// Enough of it, or one less.
std::size_t scant(grids::Random &random, std::size_t needed) {
    return needed > 0 && random.below(4) == 0 ? needed - 1 : needed;
}

Lent scant(grids::Random &random, const Heights &heights, const Records &records) {
    return {scant(random, runfile::total_bytes(heights.size(), records.size())), scant(random, heights.size()),
            scant(random, records.size())};
}

void check_writing(FileContest &contest) {
    contest.write_library();
    contest.write_plain();
    contest.require_written();
}

void check_reading(FileContest &contest, const Bytes &file, std::size_t length) {
    contest.read_library(file, length);
    contest.read_plain(file, length);
    contest.require_read();
}

// A file there and back; then files and records with a number spoilt, cut off, or for too little room.
std::size_t check_file(const grids::Kind &kind, std::uint32_t rows, std::uint32_t columns, grids::Random &random) {
    constexpr int spoilt = 24;
    const Heights heights = kind.make(rows, columns);
    const Records records = list_of(rows, heights, 1);
    FileContest whole(kind.name, rows, heights, records, enough(heights, records));
    check_writing(whole);
    const Bytes file = whole.file();
    const std::size_t length = whole.bytes_written();
    check_reading(whole, file, length);
    whole.require_return();
    check_reading(whole, crowded(rows, columns), crowded(rows, columns).size());
    for (int turn = 0; turn < spoilt; ++turn) {
        FileContest contest(kind.name, turn % 4 == 0 ? spoiler(random, rows) : rows, heights, records,
                            scant(random, heights, records));
        check_writing(contest);

        const Records forged = forge(random, heights, records);
        FileContest forgery(kind.name, rows, heights, forged, enough(heights, forged));
        check_writing(forgery);

        Bytes bad = file;
        if (turn % 3 != 0) spoil(random, bad.data(), turn % 3 == 1 ? runfile::header_bytes : length);
        check_reading(contest, bad, turn % 8 == 0 ? static_cast<std::size_t>(random.below(length)) : length);
    }
    return 3 + 3 * spoilt;
}

int check_small() {
    constexpr std::uint32_t greatest = 12;
    std::size_t columns_offered = 0, files = 0;
    grids::Random random(5);
    for (const grids::Kind &kind : grids::kinds) {
        for (std::uint32_t rows = 1; rows <= greatest; ++rows) {
            columns_offered += check_run(kind, rows, 2 * greatest);
            for (std::uint32_t columns = 1; columns <= greatest; ++columns) {
                files += check_file(kind, rows, columns, random);
            }
        }
    }
    std::printf("library and plain C++ agree on %zu small columns and %zu small files\n", columns_offered, files);
    return EXIT_SUCCESS;
}

int print_all() {
    print_columns();
    print_runs();
    print_files();
    return EXIT_SUCCESS;
}

int usage() {
    std::fprintf(stderr, "usage: calls [--small]\n");
    return EXIT_FAILURE;
}

} // namespace

int main(int argc, char **argv) {
    const std::string_view option = argc == 2 ? argv[1] : "";
    if (argc == 1) return print_all();
    if (option == "--small") return check_small();
    return usage();
}
