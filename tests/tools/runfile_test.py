#!/usr/bin/env python3
"""Tests tools/runfile.py. Prints one line; a check that fails ends it with a traceback and a status that is not 0."""

import importlib.util
import os
import pathlib
import random
import struct
import subprocess
import sys
import tempfile

TOOL = pathlib.Path(__file__).resolve().parents[2] / "tools" / "runfile.py"

spec = importlib.util.spec_from_file_location("runfile", TOOL)
runfile = importlib.util.module_from_spec(spec)
sys.modules["runfile"] = runfile  # a dataclass looks its module up
sys.dont_write_bytecode = True
spec.loader.exec_module(runfile)

checks = 0


def same(found, expected):
    global checks
    assert found == expected, f"found {found!r}, expected {expected!r}"
    checks += 1


def refused(function, given, number, says=""):
    global checks
    try:
        answer = function(given)
    except runfile.Refused as error:
        assert error.number == number, f"refused by {error.number}, expected {number}: {error}"
        assert says in str(error), f"says '{error}', expected '{says}'"
        checks += 1
        return
    raise AssertionError(f"not refused by {number}: {given!r} gives {answer!r}")


def run_tool(*arguments, **given):
    if "stdin" not in given:
        given = {"input": b"", **given}
    if "stdout" not in given:
        given = {"stdout": subprocess.PIPE, **given}
    done = subprocess.run([sys.executable, TOOL, *arguments], stderr=subprocess.PIPE, **given)
    return done.returncode, done.stdout, done.stderr


# ---- the paper's three-row grid, byte by byte

GRID_CSV = b"1,1,1,1,1\n9,2,5,4,7\n1,1,1,1,1\n"

GRID_HEIGHTS = bytes.fromhex(
    "01000000 09000000 01000000"
    "01000000 02000000 01000000"
    "01000000 05000000 01000000"
    "01000000 04000000 01000000"
    "01000000 07000000 01000000"
)
# rows 3, columns 5, n, heights at 24, peaks at 84, total
GRID_ALONE = bytes.fromhex("03000000 05000000 00000000 18000000 54000000 54000000") + GRID_HEIGHTS
GRID_LISTED = (
    bytes.fromhex("03000000 05000000 03000000 18000000 54000000 84000000")
    + GRID_HEIGHTS
    + bytes.fromhex(
        "01000000 09000000 00000080 ffffffff"
        "07000000 05000000 04000000 0a000000"
        "0d000000 07000000 02000000 04000000"
    )
)
GRID_LISTING = b"rows 3 columns 5 records 3\n1 9 - - -\n7 5 4 10 1\n13 7 2 4 5\n"


def test_paper_grid():
    same(runfile.pack(GRID_CSV), GRID_ALONE)
    same(runfile.unpack(GRID_ALONE), GRID_CSV)
    same(runfile.unpack(GRID_LISTED), GRID_CSV)
    same(runfile.records(GRID_LISTED), GRID_LISTING)
    same(runfile.records(GRID_ALONE), b"rows 3 columns 5 records 0\n")
    # a negative height, a blank and both extremes in one row
    same(runfile.pack(b"-2,,2147483647,-2147483647")[24:], bytes.fromhex("feffffff 00000080 ffffff7f 01000080"))
    same(runfile.pack(b"0" * 5000 + b"7")[24:], bytes.fromhex("07000000"))


# ---- round trips


def random_run(rows, columns):
    heights = [
        random.choice((runfile.BLANK, runfile.LOWEST, runfile.HIGHEST, -1, 0, 1, random.randint(-(2**31), 2**31 - 1)))
        for _ in range(rows * columns)
    ]
    records = []
    for cell, height in enumerate(heights):
        lower = [place for place, key in enumerate(heights) if runfile.BLANK != key < height]
        if height == runfile.BLANK or random.random() < 0.5:
            continue
        if lower and random.random() < 0.7:
            at = random.choice(lower)
            records.append(runfile.Record(cell, height, heights[at], at))
        else:
            records.append(runfile.Record(cell, height))
    return runfile.Run(rows, columns, tuple(heights), tuple(records))


def test_round_trips():
    shapes = [(random.randint(1, 9), random.randint(0, 9)) for _ in range(1500)]
    shapes += [(rows, columns) for rows in (1, 2, 1024) for columns in (0, 1)]
    for rows, columns in shapes:
        run = random_run(rows, columns)
        alone = runfile.Run(rows, columns, run.heights)
        data = runfile.bytes_of_run(run)
        same(runfile.run_of_bytes(data), run)
        text = runfile.csv_of_run(run)
        same(text.count("\n"), rows)
        same(runfile.run_of_csv(text), alone)
        same(runfile.run_of_csv(text.replace("\n", "\r\n")), alone)
        for row, line in enumerate(text.splitlines()):  # cell number = column x rows + row
            for column, field in enumerate(line.replace('"', "").split(",") if columns else []):
                height = struct.unpack_from("<i", data, 24 + 4 * (column * rows + row))[0]
                same(runfile.BLANK if field in ("", "blank") else int(field), height)
    largest = runfile.Run(1024, 1024, (7,) * 1024 * 1024)
    same(runfile.run_of_bytes(runfile.bytes_of_run(largest)), largest)
    same(runfile.run_of_csv('1\n""\n2\n').heights, (1, runfile.BLANK, 2))
    same(runfile.run_of_csv("1\nblank\n2\n").heights, (1, runfile.BLANK, 2))
    same(runfile.run_of_csv(",1\n2,\n").heights, (runfile.BLANK, 2, 1, runfile.BLANK))
    same(runfile.run_of_csv("\n\n\n"), runfile.Run(3, 0, ()))
    # The word stands for a blank cell just where an empty field would be refused.
    same(runfile.csv_of_run(runfile.Run(2, 2, (1, runfile.BLANK, 2, 3))), "1,2\n,3\n")
    same(runfile.csv_of_run(runfile.Run(2, 2, (1, 2, runfile.BLANK, 3))), "1,\n2,3\n")
    same(runfile.csv_of_run(runfile.Run(2, 2, (1, 2, runfile.BLANK, runfile.BLANK))), "1,blank\n2,blank\n")
    same(runfile.csv_of_run(runfile.Run(2, 2, (1, runfile.BLANK, 2, runfile.BLANK))), "1,2\nblank,blank\n")
    same(runfile.run_of_csv(" 1 , +02\n").heights, (1, 2))
    same(runfile.pack("\ufeff1,2\n".encode())[24:], struct.pack("<2i", 1, 2))


# ---- what must be refused


def with_word(data, place, number):
    return data[:place] + struct.pack("<I", number & 0xFFFFFFFF) + data[place + 4 :]


def test_damaged_files():
    read = runfile.run_of_bytes
    for length in range(len(GRID_LISTED)):
        refused(read, GRID_LISTED[:length], 10)
    refused(read, GRID_LISTED + b"\0", 10)
    for rows in (0, 1025, 2**32 - 1):
        refused(read, with_word(GRID_LISTED, 0, rows), 1)
    for columns in (1048576 // 3 + 1, 2**32 - 1):
        refused(read, with_word(GRID_LISTED, 4, columns), 3)
    for place, good in ((0, 3), (4, 5), (8, 3), (12, 24), (16, 84), (20, 132)):
        for wrong in (good - 1, good + 1):
            refused(read, with_word(GRID_LISTED, place, wrong), 11)
    refused(read, with_word(GRID_LISTED, 8, 16), 11)
    refused(read, with_word(GRID_LISTED, 8, 2**32 - 1), 11)

    first, second, third = 84, 100, 116
    for place, number in (
        (first, 0),  # the cell holds another height
        (first, 15),  # there is no such cell
        (second, 1),  # not later than the one before
        (third, 7),
        (second + 4, 6),  # not the height of the cell
        (first + 8, 2),  # a key height without a pass cell
        (first + 12, 4),  # a pass cell without a key height
        (second + 8, -(2**31)),
        (second + 12, 2**32 - 1),
        (second + 12, 15),  # there is no such pass cell
        (second + 12, 4),  # the pass cell holds another height
    ):
        refused(read, with_word(GRID_LISTED, place, number), 12)
    level = with_word(with_word(GRID_LISTED, second + 8, 5), second + 12, 7)
    refused(read, level, 12)  # the key height is the height
    refused(read, with_word(GRID_LISTED, 24 + 4 * 1, -(2**31)), 12)  # the cell is not the record's
    blank = with_word(with_word(GRID_LISTED, 24 + 4 * 1, -(2**31)), first + 4, -(2**31))
    refused(read, blank, 12)  # a record of a blank cell


def test_not_a_run_file():
    read = runfile.run_of_bytes
    for text in (b"1", GRID_CSV, b"1,2\r\n" * 9, "\ufeff1,2\n".encode(), b"row\tcolumn\n" * 3):
        refused(read, text, None, "not a run file: it is text")
    refused(read, "1,2,3,4,5,6,7,8,9\n".encode("utf-16"), 1, "not a run file: its header says")
    refused(read, bytes(24), 1, "not a run file: its header says 0 rows")
    refused(read, b"", 10, "not a run file: it has 0 bytes")
    refused(read, with_word(GRID_ALONE, 12, 25), 11, "not a run file: the offset of heights is 25, and should be 24")


def test_bad_csv():
    read = runfile.run_of_csv
    refused(read, "", 1)
    refused(read, "1\n" * 1025, 1)
    refused(read, ("1," * 1024 + "1\n") * 1024, 3)
    for text in ("1,x\n", "1.5\n", "1_0\n", "0x1\n", "- 1\n", "\u0661\n", "nan\n", "Blank\n"):
        refused(read, text, None, "is no whole number")
    for number in ("2147483648", "-2147483648", "9" * 9999):
        refused(read, number, None, "is no whole number")
    refused(read, '1\n"2\n', None, "not CSV: line 2: ")
    refused(runfile.pack, b"1,\xff\n", None, "no UTF-8 text")
    refused(runfile.pack, GRID_ALONE, None, "not CSV: it has zero bytes")

    # line and field
    refused(read, "1,2\n3,four\n", None, "line 2, field 2: 'four'")
    refused(read, '"1\n",2\n3,4\n5, 6 x \n', None, "line 4, field 2: '6 x'")

    # the wrong separator
    refused(read, "1;2;3\n4;5;6\n", None, "line 1, field 1: '1;2;3': fields are separated by commas here, not by semi")
    refused(read, "1\n1,5;2\n", None, "line 2, field 2: '5;2': fields are separated by commas here, not by semicolons")
    refused(read, "time;signal\n", None, "not by semicolons")
    refused(read, "1\t2\n", None, "not by tabs")
    refused(read, "1 -2\n", None, "not by spaces")

    # lines of other lengths
    refused(read, "1,2\n3\n", None, "line 2 has 1 fields, and line 1 has 2")
    refused(read, "1\n2,3\n", None, "line 1 has 1 fields, and line 2 has 2")
    refused(read, "1,2\n3,4,\n", None, "line 1 has 2 fields, and line 2 has 3")

    # a comma too many, a line too many
    refused(read, "1,2,\n3,4,\n", None, "field 3, behind the last comma, is empty in every line")
    refused(read, "1,\n", None, "field 2, behind the last comma, is empty in every line")
    refused(read, "1, \n2,\n", None, "field 2, behind the last comma, is empty in every line")
    refused(read, "1,2\n,\n", None, "line 2, the last, has only empty fields")
    refused(read, ",\n", None, "line 1, the last, has only empty fields")
    refused(read, '1\n""\n', None, "line 2, the last, has only empty fields")
    for text in ("1\n2\n\n", "1,2\n3,4\n\n", "1\n2\n \t\n", "1\n2\n\r\n"):
        refused(read, text, None, "line 3 is empty")
    refused(read, "1\n\n2\n", None, "line 2 is empty")
    refused(read, "\n1,2\n", None, "line 1 is empty")
    for text in ("1,2,blank\n3,4,\n", "1,2\nblank,\n", "blank\n"):
        same(runfile.csv_of_run(read(text)).count("blank") > 0, True)


def test_command_line():
    same(run_tool("pack", input=GRID_CSV), (0, GRID_ALONE, b""))
    same(run_tool("unpack", "-", input=GRID_LISTED), (0, GRID_CSV, b""))
    same(run_tool("records", "-", "-", input=GRID_LISTED), (0, GRID_LISTING, b""))
    status, out, error = run_tool("unpack", input=GRID_LISTED[:-1])
    same((status, out, error), (1, b"", b"runfile: the file has 131 bytes, and its header says 132 (refused 10)\n"))
    status, out, error = run_tool("pack", input=b"1,2\n3,four\n")
    same((status, out, error.startswith(b"runfile: line 2, field 2: 'four'")), (1, b"", True))
    status, out, error = run_tool("unpack", input=GRID_CSV)
    same((status, out, error.startswith(b"runfile: not a run file: it is text")), (1, b"", True))
    status, out, error = run_tool("records", "no such file")
    same((status, out, error.startswith(b"runfile: ")), (1, b"", True))
    status, out, _ = run_tool("--help")
    same((status, b"pack" in out and b"blank" in out), (0, True))
    same(run_tool()[0], 2)

    # pack stores no records, and the program takes fewer cells than the library
    status, out, error = run_tool("records", input=GRID_ALONE)
    same((status, out), (0, b"rows 3 columns 5 records 0\n"))
    same((b"pack stores none" in error, b"target/bin/peaks" in error), (True, True))
    same(run_tool("pack", input=b"1\n" * 1024)[2], b"")
    same(run_tool("pack", input=b"1,2,3,4\n" * 1024)[2], b"")
    status, out, error = run_tool("pack", input=b"1,2,3,4,5\n" * 1024)
    same((status, len(out), b"4096 cells" in error and b"5120" in error), (0, 24 + 4 * 5120, True))


def test_own_input():
    """The input is never written to, by whatever name the output goes."""
    with tempfile.TemporaryDirectory() as folder:
        grid, run = os.path.join(folder, "grid.csv"), os.path.join(folder, "run")
        pathlib.Path(grid).write_bytes(GRID_CSV)
        same(run_tool("pack", grid, run), (0, b"", b""))
        same(pathlib.Path(run).read_bytes(), GRID_ALONE)
        same(run_tool("pack", grid, run), (0, b"", b""))  # another file is written anew
        os.symlink(grid, os.path.join(folder, "symbolic"))
        os.link(grid, os.path.join(folder, "hard"))
        for name in ("grid.csv", "./grid.csv", "symbolic", "hard"):
            status, out, error = run_tool("pack", grid, os.path.join(folder, name))
            same((status, out, b"the output is the input" in error), (1, b"", True))
            with open(grid, "rb") as given:
                same(run_tool("pack", "-", os.path.join(folder, name), stdin=given)[0], 1)
            same(pathlib.Path(grid).read_bytes(), GRID_CSV)
        with open(run, "ab") as out:
            same(run_tool("unpack", run, stdout=out)[0], 1)
        same(pathlib.Path(run).read_bytes(), GRID_ALONE)
        with open(os.devnull, "rb+") as null:  # no regular file: nothing can be lost
            status, _, error = run_tool("unpack", stdin=null, stdout=null)
            same((status, b"0 bytes" in error), (1, True))


random.seed(1)
test_paper_grid()
test_round_trips()
test_damaged_files()
test_not_a_run_file()
test_bad_csv()
test_command_line()
test_own_input()
print(f"runfile: {checks} checks pass")
