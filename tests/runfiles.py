"""Run files, laid out here from document 01, and a program that is tried on them.

What is expected is worked out from the documents. A check that fails ends the test with a traceback and a status that
is not 0.
"""

import struct
import subprocess

BLANK = -2147483648
NO_PASS = 4294967295
LOWEST = -2147483647
HIGHEST = 2147483647

# Rows 0 and 2 all 1, row 1 is 9 2 5 4 7.
THREE_ROWS = [1, 9, 1, 1, 2, 1, 1, 5, 1, 1, 4, 1, 1, 7, 1]


def header(rows, columns, peaks, heights_at, peaks_at, total):
    return struct.pack("<6I", rows, columns, peaks, heights_at, peaks_at, total)


def run(rows, heights, records=(), /, **wrong):
    """The bytes of a run file; a field of the header that is named has the value given instead of its own."""
    fields = {
        "rows": rows,
        "columns": len(heights) // rows,
        "peaks": len(records),
        "heights_at": 24,
        "peaks_at": 24 + 4 * len(heights),
        "total": 24 + 4 * len(heights) + 16 * len(records),
    }
    body = struct.pack(f"<{len(heights)}i", *heights) + b"".join(struct.pack("<IiiI", *record) for record in records)
    return header(**{**fields, **wrong}) + body


# A sound file of exactly 65,536 bytes, the most that a program takes: a flat of height 0.
LONGEST = run(1, [0] * 4094, [(cell, 0, BLANK, NO_PASS) for cell in range(3071)])
assert len(LONGEST) == 65536


class Program:
    """A program that reads a run file on its standard input, and how many files it was tried on."""

    def __init__(self, command):
        self.command = command
        self.checks = 0

    def prints(self, given, *lines):
        done = subprocess.run(self.command, input=given, capture_output=True, check=True, timeout=60)
        expected = "".join(line + "\n" for line in lines).encode()
        assert done.stdout == expected, f"printed {done.stdout!r}, expected {expected!r}"
        assert done.stderr == b"", done.stderr
        self.checks += 1

    def refused(self, given, number):
        self.prints(given, f"refused {number}")

    def refuses_bad_files(self):
        """The refusals of every program that reads a run file: 10, 1, 3, 11, 10, 12."""
        self.refuses_bad_headers()
        self.refuses_unsound_records()
        self.refuses_in_order()

    def refuses_bad_headers(self):
        # 10: under 24 bytes, or not as long as it says.
        self.refused(b"", 10)
        self.refused(b"\0", 10)
        self.refused(run(3, [])[:23], 10)
        self.refused(run(3, THREE_ROWS)[:-1], 10)
        self.refused(run(3, THREE_ROWS) + b"\0", 10)

        # 1
        self.refused(run(3, THREE_ROWS, rows=0), 1)
        self.refused(run(3, THREE_ROWS, rows=1025), 1)
        self.refused(run(3, THREE_ROWS, rows=4294967295), 1)

        # 3: at most 4,096 cells here.
        self.refused(run(1, [0] * 4097), 3)
        self.refused(header(1, 4097, 0, 24, 24 + 4 * 4097, 24 + 4 * 4097), 3)
        self.refused(header(1024, 5, 0, 24, 24 + 4 * 5120, 24 + 4 * 5120), 3)
        self.refused(header(1024, 4194304, 0, 24, 24, 24), 3)
        self.refused(header(1024, 4294967295, 0, 24, 24, 24), 3)
        self.refused(header(65536, 65536, 0, 24, 24, 24), 1)

        # 11
        self.refused(run(1, [5], [(0, 5, BLANK, NO_PASS), (0, 5, BLANK, NO_PASS)]), 11)
        self.refused(header(1, 0, 4294967295, 24, 24, 24), 11)
        self.refused(header(1, 1, 268435456, 24, 28, 28) + bytes(4), 11)
        self.refused(run(3, THREE_ROWS, heights_at=25), 11)
        self.refused(run(3, THREE_ROWS, peaks_at=24), 11)
        self.refused(run(3, THREE_ROWS, total=85), 11)
        self.refused(run(3, THREE_ROWS, total=0), 11)

    def refuses_unsound_records(self):
        # 12
        for record in [
            (15, 1, BLANK, NO_PASS),
            (NO_PASS, 1, BLANK, NO_PASS),
            (1, 8, BLANK, NO_PASS),
            (1, 9, 2, NO_PASS),
            (1, 9, BLANK, 4),
            (1, 9, 9, 1),
            (1, 9, 2, 5),
            (1, 9, 2, 15),
        ]:
            self.refused(run(3, THREE_ROWS, [record]), 12)
        self.refused(run(3, THREE_ROWS, [(1, 9, BLANK, NO_PASS), (1, 9, BLANK, NO_PASS)]), 12)
        self.refused(run(3, THREE_ROWS, [(7, 5, 4, 10), (1, 9, BLANK, NO_PASS)]), 12)
        self.refused(run(1, [5, BLANK], [(1, BLANK, BLANK, NO_PASS)]), 12)

    def refuses_in_order(self):
        # 10 (under 24 bytes), 1, 3, 11, 10 (total), 12.
        self.refused(header(0, 1, 2, 3, 4, 5)[:-1], 10)
        self.refused(header(0, 4294967295, 9, 9, 9, 9), 1)
        self.refused(header(1, 4097, 9, 9, 9, 9), 3)
        self.refused(run(3, THREE_ROWS, heights_at=0) + b"\0", 11)
        self.refused(run(3, THREE_ROWS, [(1, 8, 0, 0)]) + b"\0", 10)

        # Files of more than 65,536 bytes get 10 whatever else is wrong.
        self.refused(bytes(65536), 1)
        self.refused(bytes(65537), 10)
        self.refused(LONGEST + b"\0", 10)
        self.refused(b"\1\0\0\0" + b"\xff" * 200000, 10)
