// The yardstick for the run file: written and read by plain C++ with the same checks, for speed.
//
// The layouts and the refusals are those of docs/FORMATS.md. The machine is little-endian, so that heights and records
// are copied as they stand.
#pragma once

#include <cstddef>
#include <cstdint>
#include <cstring>

#include "reference.hpp"

namespace runfile {

using reference::Record;

constexpr std::size_t header_bytes = 24;
constexpr std::uint32_t most_rows = 1024;
constexpr std::size_t most_cells = 1048576;

struct Header {
    std::uint32_t rows;
    std::uint32_t columns;
    std::uint32_t peaks;
    std::uint32_t heights_at;
    std::uint32_t peaks_at;
    std::uint32_t total;
};
static_assert(sizeof(Header) == header_bytes);

inline std::size_t total_bytes(std::size_t cells, std::size_t peaks) {
    return header_bytes + sizeof(std::int32_t) * cells + sizeof(Record) * peaks;
}

// An empty row may lie nowhere, which memcpy does not take.
inline void copy(void *to, const void *from, std::size_t bytes) {
    if (bytes > 0) std::memcpy(to, from, bytes);
}

// Whether a record is sound in a grid, if its cell may not be before `least`.
inline bool is_sound(const std::int32_t *heights, std::size_t cells, std::size_t least, const Record &record) {
    if (record.cell >= cells || record.cell < least) return false;
    if (record.height == reference::blank || heights[record.cell] != record.height) return false;
    if (record.key_height == reference::no_key_height) return record.pass == reference::no_pass;
    if (record.pass == reference::no_pass || record.key_height >= record.height) return false;
    return record.pass < cells && heights[record.pass] == record.key_height;
}

inline bool are_sound(const std::int32_t *heights, std::size_t cells, const Record *records, std::size_t count) {
    std::size_t least = 0;
    for (std::size_t i = 0; i < count; ++i) {
        if (!is_sound(heights, cells, least, records[i])) return false;
        least = std::size_t{records[i].cell} + 1;
    }
    return true;
}

// Answers how many bytes were written, or minus the refusal number.
inline std::int64_t write(std::uint32_t rows, const std::int32_t *heights, std::size_t cells, const Record *records,
                          std::size_t count, std::uint8_t *room, std::size_t room_bytes) {
    if (rows == 0 || rows > most_rows) return -1;
    if (cells % rows != 0) return -2;
    if (cells > most_cells) return -3;
    if (!are_sound(heights, cells, records, count)) return -12;
    const std::size_t total = total_bytes(cells, count);
    if (room_bytes < total) return -13;
    const std::size_t peaks_at = total_bytes(cells, 0);
    const Header header{rows,
                        static_cast<std::uint32_t>(cells / rows),
                        static_cast<std::uint32_t>(count),
                        static_cast<std::uint32_t>(header_bytes),
                        static_cast<std::uint32_t>(peaks_at),
                        static_cast<std::uint32_t>(total)};
    copy(room, &header, header_bytes);
    copy(room + header_bytes, heights, sizeof(std::int32_t) * cells);
    copy(room + peaks_at, records, sizeof(Record) * count);
    return static_cast<std::int64_t>(total);
}

// Answers how many records were read, or minus the refusal number. The file lies where a 32-bit number may lie.
inline std::int64_t read(const std::uint8_t *file, std::size_t file_bytes, std::int32_t *heights, std::size_t room,
                         Record *table, std::size_t table_records) {
    if (file_bytes < header_bytes) return -10;
    Header header;
    std::memcpy(&header, file, header_bytes);
    if (header.rows == 0 || header.rows > most_rows) return -1;
    const std::uint64_t cells = std::uint64_t{header.rows} * header.columns;
    if (cells > most_cells) return -3;
    const std::size_t peaks_at = total_bytes(cells, 0);
    if (header.peaks > cells || header.heights_at != header_bytes || header.peaks_at != peaks_at ||
        header.total != total_bytes(cells, header.peaks)) {
        return -11;
    }
    if (file_bytes != header.total) return -10;
    const auto *stored_heights = reinterpret_cast<const std::int32_t *>(file + header_bytes);
    const auto *stored_records = reinterpret_cast<const Record *>(file + peaks_at);
    if (!are_sound(stored_heights, cells, stored_records, header.peaks)) return -12;
    if (room < cells) return -13;
    if (table_records < header.peaks) return -5;
    copy(heights, stored_heights, sizeof(std::int32_t) * cells);
    copy(table, stored_records, sizeof(Record) * header.peaks);
    return header.peaks;
}

} // namespace runfile
