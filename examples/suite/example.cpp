// Lists the peaks of a small grid through the C entry and prints them:
//
//     1 1 1 1 1
//     9 2 5 4 7
//     1 1 1 1 1
//
// The 5 drops to the 4 beside it before it meets the higher 7; the 7 must go down to the 2 to reach the 9; nothing
// outranks the 9, so it has no key height.
//
//     (cd crates/suite && rt lib)
//     g++ -std=c++17 -Iinclude examples/suite/example.cpp crates/suite/out/libsuite.a -o example
//
// It puts numbers into bytes and takes them out one by one, which works on any machine. On a little-endian one the
// vector of heights could be lent as its bytes, as mayexoton.h shows.

#include <cstddef>
#include <cstdint>
#include <cstdlib>
#include <iostream>
#include <optional>
#include <vector>

#include "mayexoton.h"

namespace {

using Bytes = std::vector<std::uint8_t>;

struct Key {
    std::int32_t height;
    std::uint32_t pass;
};

struct Peak {
    std::uint32_t cell;
    std::int32_t height;
    std::optional<Key> key;

    // Up to 4,294,967,294, so the heights are widened before they are subtracted.
    std::int64_t prominence() const { return std::int64_t{height} - key->height; }
};

void append(Bytes &bytes, std::int32_t number) {
    for (int shift = 0; shift < 32; shift += 8) {
        bytes.push_back(static_cast<std::uint8_t>(static_cast<std::uint32_t>(number) >> shift));
    }
}

std::uint32_t number_at(const Bytes &bytes, std::size_t place) {
    std::uint32_t number = 0;
    for (std::size_t i = 0; i < 4; ++i) number |= std::uint32_t{bytes[place + i]} << (8 * i);
    return number;
}

Peak peak_at(const Bytes &table, std::size_t index) {
    const std::size_t start = index * MAYEXOTON_RECORD_BYTES;
    Peak peak{number_at(table, start + MAYEXOTON_RECORD_CELL),
              static_cast<std::int32_t>(number_at(table, start + MAYEXOTON_RECORD_HEIGHT)), std::nullopt};
    const std::uint32_t pass = number_at(table, start + MAYEXOTON_RECORD_PASS);
    if (pass != MAYEXOTON_NO_PASS) {
        peak.key = Key{static_cast<std::int32_t>(number_at(table, start + MAYEXOTON_RECORD_KEY_HEIGHT)), pass};
    }
    return peak;
}

void print(const Peak &peak) {
    std::cout << peak.cell << ' ' << peak.height << ' ';
    if (peak.key) std::cout << peak.key->height << ' ' << peak.key->pass << ' ' << peak.prominence() << '\n';
    else std::cout << "- - -\n";
}

} // namespace

int main() {
    constexpr std::uint32_t rows = 3;
    const std::vector<std::int32_t> grid{1, 9, 1, 1, 2, 1, 1, 5, 1, 1, 4, 1, 1, 7, 1}; // column by column

    Bytes heights;
    for (const std::int32_t height : grid) append(heights, height);
    Bytes work(grid.size() * MAYEXOTON_WORK_BYTES);
    Bytes table(grid.size() * MAYEXOTON_RECORD_BYTES); // a grid never has more peaks than cells

    const std::int64_t answer = mayexoton_list(rows, heights.data(), heights.size(), 1, work.data(), work.size(),
                                               table.data(), table.size());
    if (answer < 0) {
        std::cout << "refused " << -answer << '\n';
        return EXIT_FAILURE;
    }
    std::cout << "rows " << rows << " columns " << grid.size() / rows << " peaks " << answer << '\n';
    for (std::int64_t i = 0; i < answer; ++i) print(peak_at(table, static_cast<std::size_t>(i)));
    return EXIT_SUCCESS;
}
