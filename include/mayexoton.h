/*
 * Mayexoton: the list of peaks of a GCxGC chromatogram, proved.
 *
 * A chromatogram is a grid of heights. A peak is a flat (a connected set of cells of one height) that no higher cell
 * touches; cells touch sidewise and at corners. Its key height is the greatest height at which it is joined to ground
 * that outranks it: a higher cell, or an equally high peak whose cell is earlier. Height less key height is its
 * prominence. Its island is what it reaches above the key height, and its pass cell the earliest cell of the key height
 * that touches the island and from which cells at or above the key height, outside the island, lead to ground that
 * outranks it. docs/RULES.md has the rules word by word, docs/PROMISES.md what is proved.
 *
 * C99 and C++, on x86-64 Linux. `rt lib` in crates/suite writes the archive to link:
 *
 *     g++ -std=c++17 -Iinclude PROGRAM.cpp crates/suite/out/libsuite.a
 *
 * All numbers in lent memory are 32 bits, little-endian, and need no alignment. So on a little-endian machine, as
 * x86-64 is, an array of int32_t is passed as its bytes, without a copy, and the table may be an array of structs:
 *
 *     struct record { uint32_t cell; int32_t height, key_height; uint32_t pass; };
 *     mayexoton_list(rows, (const uint8_t *)heights, 4 * cells, 1, work, 16 * cells, (uint8_t *)table, 16 * cells);
 *
 * So far there is this one call, the list of a whole grid. Growing runs and run files can't be called from C.
 */
#ifndef MAYEXOTON_H
#define MAYEXOTON_H

#include <stddef.h>
#include <stdint.h>

#ifdef __cplusplus
extern "C" {
#endif

/* Limits of a grid. */
#define MAYEXOTON_MAX_ROWS UINT32_C(1024)
#define MAYEXOTON_MAX_CELLS UINT32_C(1048576)

/* What the caller lends: bytes per height, per cell of work area, and per record of the table. */
#define MAYEXOTON_HEIGHT_BYTES 4
#define MAYEXOTON_WORK_BYTES 16
#define MAYEXOTON_RECORD_BYTES 16

/* Where the fields of a record stand: bytes from its start. Heights are signed, cells are unsigned. */
#define MAYEXOTON_RECORD_CELL 0
#define MAYEXOTON_RECORD_HEIGHT 4
#define MAYEXOTON_RECORD_KEY_HEIGHT 8
#define MAYEXOTON_RECORD_PASS 12

/* The blank mark: a cell without a height. It belongs to no path, region or peak. */
#define MAYEXOTON_BLANK INT32_MIN

/* The last two fields of a record without a key height. Both are missing, or neither is. */
#define MAYEXOTON_NO_KEY_HEIGHT INT32_MIN
#define MAYEXOTON_NO_PASS UINT32_MAX

/* The refusals. The call answers minus one of these, and where several apply the first in this order. */
#define MAYEXOTON_BAD_ROWS 1       /* rows are 0 or above MAYEXOTON_MAX_ROWS */
#define MAYEXOTON_BAD_LENGTH 2     /* heights_length is no multiple of 4 x rows */
#define MAYEXOTON_TOO_MANY_CELLS 3 /* more than MAYEXOTON_MAX_CELLS cells */
#define MAYEXOTON_SHORT_WORK 4     /* work_length is below 16 bytes per cell */
#define MAYEXOTON_SHORT_TABLE 5    /* the list has more records than fit whole into table_length bytes */

/*
 * Lists the peaks of a grid whose prominence is at least the threshold, and those without a key height.
 * A threshold of 0 lists what 1 lists.
 *
 *   rows     rows of the grid.
 *   heights  the heights in reading order: column by column, row 0 first. Cell number = column x rows + row.
 *            The columns are as many as the length gives, and may be none. Only read.
 *   work     room to work in. What it holds before does not matter, and what it holds afterwards means nothing.
 *   table    takes the records, in reading order of their cells: cell, height, key height, pass cell. A grid has no
 *            more peaks than cells, so MAYEXOTON_RECORD_BYTES for each cell are always enough.
 *
 * Answers the number of records, or minus the number of a refusal. At MAYEXOTON_SHORT_TABLE it does not tell how many
 * records are needed. On success the bytes of the table behind the counted records are as they were. A refusal leaves
 * the table as it was, and the work area too, except that at MAYEXOTON_SHORT_TABLE the work area has been used.
 *
 * The three areas must not overlap. A null pointer is fine where the length is 0. The call keeps nothing, allocates
 * nothing, and may run in any number of threads at once, each with areas of its own.
 */
int64_t mayexoton_list(uint32_t rows, const uint8_t *heights, size_t heights_length, uint32_t threshold,
                       uint8_t *work, size_t work_length, uint8_t *table, size_t table_length);

#ifdef __cplusplus
}
#endif

#endif
