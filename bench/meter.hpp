// What the library offers to be timed: the calls of the proved crates `meter_runs`, `meter_files` and `meter_accounts`.
// A program is linked with the archive of each crate that it calls.
//
// A slice is lent as a pointer and its length, which counts numbers of 32 bits or bytes. Records are bytes in the
// file's layout. The answer is a number that is not negative, or minus the refusal number.
#pragma once

#include <cstddef>
#include <cstdint>

extern "C" {

// ---- meter_runs

// Offers a column to a run that has not ended. Answers how many records the table got.
std::int64_t meter_column(std::uint32_t rows, std::uint32_t columns_taken, std::uint32_t threshold,
                          const std::int32_t *column, std::size_t column_length, std::int32_t *grid,
                          std::size_t grid_length, std::uint8_t *work, std::size_t work_bytes, std::uint8_t *table,
                          std::size_t table_bytes);

// Outlines an ended run. Answers how many bytes the text has; it stands at the front of its room.
std::int64_t meter_outline(std::uint32_t rows, std::uint32_t columns, std::uint32_t threshold, std::uint32_t levels,
                           const std::int32_t *grid, std::size_t grid_length, std::uint8_t *work,
                           std::size_t work_bytes, std::uint8_t *text, std::size_t text_bytes);

// ---- meter_accounts

// Gives the account of the peak at a cell. Answers the level of its key height, which is 2147483648 above it, or 0 for
// none; path and island stand at the front of their rows.
std::int64_t meter_account(std::uint32_t rows, const std::int32_t *heights, std::size_t heights_length,
                           std::uint32_t cell, std::uint8_t *work, std::size_t work_bytes, std::uint32_t *path,
                           std::size_t path_length, std::uint32_t *island, std::size_t island_length);

// Checks an account of the peak at a cell. Answers 1 for yes, 0 for no.
std::int64_t meter_check(std::uint32_t rows, const std::int32_t *heights, std::size_t heights_length,
                         std::uint32_t cell, std::int32_t key_height, const std::uint32_t *path,
                         std::size_t path_length, const std::uint32_t *island, std::size_t island_length,
                         std::uint8_t *work, std::size_t work_bytes);

// ---- meter_files

// Writes a run file. Answers how many bytes it has.
std::int64_t meter_write(std::uint32_t rows, const std::int32_t *heights, std::size_t heights_length,
                         const std::uint8_t *records, std::size_t records_bytes, std::uint8_t *room,
                         std::size_t room_bytes);

// Reads a run file. Answers how many records the table got.
std::int64_t meter_read(const std::uint8_t *file, std::size_t file_bytes, std::int32_t *heights,
                        std::size_t heights_length, std::uint8_t *table, std::size_t table_bytes);
}
