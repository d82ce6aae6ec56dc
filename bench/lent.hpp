// What the benchmarks lend to the library: rows of numbers as bytes, and values that show what a call has not touched.
#pragma once

#include <algorithm>
#include <cstddef>
#include <cstdint>
#include <cstring>
#include <string>
#include <vector>

namespace lent {

using Bytes = std::vector<std::uint8_t>;

// What no call may touch holds one of these. The number is no cell.
constexpr std::uint8_t untouched_byte = 0x5a;
constexpr std::uint32_t untouched_number = 0xffffffff;

template <typename Value> bool same(const std::vector<Value> &a, const std::vector<Value> &b) {
    return a.size() == b.size() && (a.empty() || std::memcmp(a.data(), b.data(), a.size() * sizeof(Value)) == 0);
}

template <typename Value> std::uint8_t *bytes(std::vector<Value> &values) {
    return reinterpret_cast<std::uint8_t *>(values.data());
}

template <typename Value> const std::uint8_t *bytes(const std::vector<Value> &values) {
    return reinterpret_cast<const std::uint8_t *>(values.data());
}

// So many values with those at their front, the rest untouched. They have room.
template <typename Value, typename Front>
std::vector<Value> filled(const Front &front, std::size_t length, Value untouched) {
    std::vector<Value> values(length, untouched);
    std::copy(front.begin(), front.end(), values.begin());
    return values;
}

inline Bytes room_with(const std::string &text, std::size_t length) { return filled(text, length, untouched_byte); }

inline std::vector<std::uint32_t> row_with(const std::vector<std::uint32_t> &numbers, std::size_t length) {
    return filled(numbers, length, untouched_number);
}

} // namespace lent
