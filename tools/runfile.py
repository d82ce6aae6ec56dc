#!/usr/bin/env python3
"""Run files from CSV, and CSV and records from run files.

In CSV a grid has a line for each row and a field for each column, separated by commas. A height is a whole number. A
blank cell is an empty field or the word blank. A last column, or a last row, of nothing but empty fields is refused: it
may be a comma or a line too many. If its cells are blank, write the word there. An empty line is refused too, unless
all lines are empty: such a file is a grid of so many rows and no columns.

The run file is that of docs/FORMATS.md. pack stores no records: target/bin/peaks lists a run file. The records that a
file has are checked for soundness, as reading it is defined there; whether they are the right list is not.
"""

import argparse
import csv
import io
import os
import re
import stat
import struct
import sys
from dataclasses import dataclass

MAX_ROWS = 1024
MAX_CELLS = 1048576
BLANK = -2147483648
LOWEST = -2147483647
HIGHEST = 2147483647
NO_PASS = 4294967295

# The most cells that the program peaks takes.
PROGRAM_CELLS = 4096

HEADER = struct.Struct("<6I")
RECORD = struct.Struct("<IiiI")


class Refused(Exception):
    """What was given is no grid or no run file. The number is the refusal's of docs/RULES.md, where it has one."""

    def __init__(self, text, number=None):
        super().__init__(text if number is None else f"{text} (refused {number})")
        self.number = number


@dataclass(frozen=True)
class Record:
    cell: int
    height: int
    key_height: int = BLANK
    pass_cell: int = NO_PASS

    def has_key(self):
        return self.key_height != BLANK


@dataclass(frozen=True)
class Run:
    """A grid, its heights in reading order (column by column), and the records of its peaks."""

    rows: int
    columns: int
    heights: tuple
    records: tuple = ()


# ---- CSV

# What is found in a field where a comma should be: a pattern, and its name.
SEPARATORS = {";": "semicolons", "\t": "tabs", r"[0-9] +[+-]?[0-9]": "spaces"}


def height_of(field, line, place):
    """The height in a field, which is the place-th of its line."""
    text = field.strip()
    if text in ("", "blank"):
        return BLANK
    number = re.fullmatch(r"([+-]?)0*([0-9]{1,10})", text, re.ASCII)
    if number and LOWEST <= int(number[1] + number[2]) <= HIGHEST:
        return int(number[1] + number[2])
    where = f"line {line}, field {place}: '{text[:40]}'"
    for separator, name in SEPARATORS.items():
        if re.search(separator, text):
            raise Refused(f"{where}: fields are separated by commas here, not by {name}")
    raise Refused(f"{where} is no whole number from {LOWEST} to {HIGHEST}; a blank cell is an empty field, or 'blank'")


def lines_of(text):
    """The lines of a CSV text: the number of each, and its fields. A line of nothing but spaces has none."""
    reader = csv.reader(io.StringIO(text, newline=""), strict=True)
    try:
        return [(reader.line_num, [] if len(fields) == 1 and fields[0].isspace() else fields) for fields in reader]
    except csv.Error as error:
        raise Refused(f"not CSV: line {reader.line_num}: {error}") from None


def is_empty(fields):
    return all(field.strip() == "" for field in fields)


def run_of_csv(text):
    """The run of a CSV text, without records."""
    lines = lines_of(text)
    grid = [[height_of(field, line, place) for place, field in enumerate(fields, 1)] for line, fields in lines]
    columns = max(map(len, grid), default=0)
    check_size(len(grid), columns)
    if columns > 0:
        check_lines(lines, columns)
    return Run(len(grid), columns, tuple(height for column in zip(*grid) for height in column))


def check_lines(lines, columns):
    """Refuses lines of which it is not plain that they are rows of so many columns."""
    widest = next(line for line, fields in lines if len(fields) == columns)
    either = "take it out or, if its cells are blank, write 'blank' in each field"
    for line, fields in lines:
        if not fields:
            raise Refused(f"line {line} is empty: {either}")
        if len(fields) != columns:
            raise Refused(f"line {line} has {len(fields)} fields, and line {widest} has {columns}")
    if is_empty(lines[-1][1]):
        raise Refused(f"line {lines[-1][0]}, the last, has only empty fields: {either}")
    if is_empty([fields[-1] for _, fields in lines]):
        raise Refused(f"field {columns}, behind the last comma, is empty in every line: {either}")


def csv_of_run(run):
    """The CSV text of a run. Where an empty field would be refused, a blank cell is the word."""
    fields = ["" if height == BLANK else str(height) for height in run.heights]
    grid = [fields[row :: run.rows] for row in range(run.rows)]
    if run.columns > 0:
        if is_empty(grid[-1]):
            grid[-1] = ["blank"] * run.columns
        if is_empty([line[-1] for line in grid]):
            for line in grid:
                line[-1] = "blank"
    text = io.StringIO()
    csv.writer(text, lineterminator="\n").writerows(grid)
    return text.getvalue()


# ---- run files


def check_size(rows, columns, what="the text has"):
    if not 1 <= rows <= MAX_ROWS:
        raise Refused(f"{what} {rows} rows; a grid has 1 to {MAX_ROWS}", 1)
    if rows * columns > MAX_CELLS:
        raise Refused(f"{what} {rows} rows of {columns} columns, more than {MAX_CELLS} cells", 3)


def is_text(data):
    """Whether bytes are those of a text. No header is: the offset of heights has zero bytes."""
    return len(data) > 0 and all(byte in b"\t\n\r" or byte >= 32 for byte in data[: HEADER.size])


def bytes_of_run(run):
    peaks_at = HEADER.size + 4 * len(run.heights)
    total = peaks_at + RECORD.size * len(run.records)
    header = HEADER.pack(run.rows, run.columns, len(run.records), HEADER.size, peaks_at, total)
    heights = struct.pack(f"<{len(run.heights)}i", *run.heights)
    records = [RECORD.pack(r.cell, r.height, r.key_height, r.pass_cell) for r in run.records]
    return header + heights + b"".join(records)


def unsound(record, before, heights):
    """Why a record is not sound, or None. The cell of the record before it is -1 for the first."""
    if record.cell >= len(heights):
        return f"there is no cell {record.cell}"
    if record.cell <= before:
        return f"cell {record.cell} is not later than cell {before} of the record before it"
    if heights[record.cell] == BLANK:
        return f"cell {record.cell} is blank"
    if heights[record.cell] != record.height:
        return f"its height is {record.height}, and cell {record.cell} holds {heights[record.cell]}"
    if record.has_key() != (record.pass_cell != NO_PASS):
        return "of key height and pass cell only one is missing"
    if not record.has_key():
        return None
    if record.key_height >= record.height:
        return f"its key height {record.key_height} is not below its height {record.height}"
    if record.pass_cell >= len(heights):
        return f"there is no pass cell {record.pass_cell}"
    if heights[record.pass_cell] != record.key_height:
        return f"its key height is {record.key_height}, and pass cell {record.pass_cell} holds another"
    return None


def run_of_bytes(data):
    """The run of a run file. Refuses what docs/RULES.md refuses, in its order, and says so first if it is a text."""
    if is_text(data):
        raise Refused("not a run file: it is text. If it is CSV, pack makes a run file of it")
    if len(data) < HEADER.size:
        raise Refused(f"not a run file: it has {len(data)} bytes, and a header alone has {HEADER.size}", 10)
    rows, columns, count, heights_at, peaks_at, total = HEADER.unpack_from(data)
    check_size(rows, columns, "not a run file: its header says")
    cells = rows * columns
    computed_peaks_at = HEADER.size + 4 * cells
    computed_total = computed_peaks_at + RECORD.size * count
    if count > cells:
        raise Refused(f"not a run file: its header says {count} records, more than the {cells} cells", 11)
    for what, stored, computed in (
        ("the offset of heights", heights_at, HEADER.size),
        ("the offset of peaks", peaks_at, computed_peaks_at),
        ("the total length", total, computed_total),
    ):
        if stored != computed:
            raise Refused(f"not a run file: {what} is {stored}, and should be {computed}", 11)
    if len(data) != total:
        raise Refused(f"the file has {len(data)} bytes, and its header says {total}", 10)

    heights = struct.unpack_from(f"<{cells}i", data, heights_at)
    records = tuple(Record(*fields) for fields in RECORD.iter_unpack(data[peaks_at:]))
    before = -1
    for index, record in enumerate(records):
        why = unsound(record, before, heights)
        if why is not None:
            raise Refused(f"record {index} is not sound: {why}", 12)
        before = record.cell
    return Run(rows, columns, heights, records)


def listing_of_run(run):
    """Rows, columns and how many records; then of each its cell, height, key height, pass cell and prominence."""
    lines = [f"rows {run.rows} columns {run.columns} records {len(run.records)}"]
    for r in run.records:
        key = f"{r.key_height} {r.pass_cell} {r.height - r.key_height}" if r.has_key() else "- - -"
        lines.append(f"{r.cell} {r.height} {key}")
    return "".join(line + "\n" for line in lines)


# ---- commands


def pack(data):
    if b"\0" in data:
        raise Refused("not CSV: it has zero bytes. If it is a run file, unpack and records read it")
    try:
        text = data.decode("utf-8-sig")
    except UnicodeDecodeError:
        raise Refused("not CSV: it is no UTF-8 text") from None
    return bytes_of_run(run_of_csv(text))


def unpack(data):
    return csv_of_run(run_of_bytes(data)).encode()


def records(data):
    return listing_of_run(run_of_bytes(data)).encode()


COMMANDS = {
    "pack": (pack, "CSV to a run file, in which no records are stored"),
    "unpack": (unpack, "a run file to CSV, its records left out"),
    "records": (records, "the records stored in a run file: cell, height, key height, pass cell, prominence"),
}


def note_of(command, result):
    """What is worth saying although nothing was refused, or None."""
    if command == "records" and result.endswith(b" records 0\n"):
        return "no records are stored in this file, and pack stores none; target/bin/peaks < FILE lists its peaks"
    if command == "pack" and len(result) > HEADER.size + 4 * PROGRAM_CELLS:
        cells = (len(result) - HEADER.size) // 4
        return f"target/bin/peaks takes at most {PROGRAM_CELLS} cells and refuses these {cells}; the library lists them"
    return None


def arguments():
    parser = argparse.ArgumentParser(description=__doc__, formatter_class=argparse.RawDescriptionHelpFormatter)
    commands = parser.add_subparsers(dest="command", required=True, metavar="pack | unpack | records")
    for name, (_, what) in COMMANDS.items():
        command = commands.add_parser(name, help=what, description=what)
        command.add_argument("input", nargs="?", default="-", help="file to read; standard input if left out or -")
        command.add_argument("output", nargs="?", default="-", help="file to write; standard output if left out or -")
    return parser.parse_args()


def check_apart(input_file, output):
    """Refuses an output that is the input, by whatever names: the input would be gone."""
    try:
        there = os.fstat(1) if output == "-" else os.stat(output)
    except FileNotFoundError:
        return
    here = os.fstat(input_file.fileno())
    if stat.S_ISREG(here.st_mode) and os.path.samestat(here, there):
        raise Refused("the output is the input, which would be lost; name another file")


def main():
    given = arguments()
    try:
        with open(0 if given.input == "-" else given.input, "rb", closefd=given.input != "-") as file:
            check_apart(file, given.output)
            data = file.read()
        result = COMMANDS[given.command][0](data)
        with open(1 if given.output == "-" else given.output, "wb", closefd=given.output != "-") as file:
            file.write(result)
    except (Refused, OSError) as error:
        print(f"runfile: {error}", file=sys.stderr)
        return 1
    note = note_of(given.command, result)
    if note is not None:
        print(f"runfile: note: {note}", file=sys.stderr)
    return 0


if __name__ == "__main__":
    sys.exit(main())
