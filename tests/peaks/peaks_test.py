#!/usr/bin/env python3
"""Tests the program that lists a run file: peaks_test.py COMMAND..., which is run with each file on its input.

The files and the refusals are those of tests/runfiles.py, and what is expected is worked out from document 01. Prints
one line.
"""

import pathlib
import sys

sys.dont_write_bytecode = True
sys.path.insert(0, str(pathlib.Path(__file__).resolve().parents[1]))
from runfiles import BLANK, HIGHEST, LONGEST, LOWEST, NO_PASS, THREE_ROWS, Program, run

peaks = Program(sys.argv[1:])
LISTED = ("rows 3 columns 5 peaks 3", "1 9 - - -", "7 5 4 10 1", "13 7 2 4 5")

# What is listed. Stored records are read for soundness only.
peaks.prints(run(3, THREE_ROWS), *LISTED)
peaks.prints(run(3, THREE_ROWS, [(7, 5, 2, 4)]), *LISTED)
peaks.prints(run(3, THREE_ROWS, [(0, 1, BLANK, NO_PASS), (1, 9, 1, 14)]), *LISTED)
peaks.prints(run(3, []), "rows 3 columns 0 peaks 0")
peaks.prints(run(1024, []), "rows 1024 columns 0 peaks 0")
peaks.prints(run(2, [BLANK] * 4), "rows 2 columns 2 peaks 0")
peaks.prints(run(2, [8, 1, 1, 7]), "rows 2 columns 2 peaks 1", "0 8 - - -")
peaks.prints(run(1, [5, 3, 5]), "rows 1 columns 3 peaks 2", "0 5 - - -", "2 5 3 1 2")
peaks.prints(run(1, [5, BLANK, 6]), "rows 1 columns 3 peaks 2", "0 5 - - -", "2 6 - - -")
peaks.prints(run(1, [4, 6, 4, 9]), "rows 1 columns 4 peaks 2", "1 6 4 2 2", "3 9 - - -")
peaks.prints(run(1, [4, 5, 4, 6, 4, 9]), "rows 1 columns 6 peaks 3", "1 5 4 2 1", "3 6 4 4 2", "5 9 - - -")
peaks.prints(
    run(4, [BLANK, 2, BLANK, BLANK, 1, BLANK, 1, 3, 3, BLANK, BLANK, BLANK]),
    "rows 4 columns 3 peaks 3",
    "1 2 1 4 1",
    "7 3 - - -",
    "8 3 1 4 2",
)
peaks.prints(
    run(1, [HIGHEST, LOWEST, HIGHEST]),
    "rows 1 columns 3 peaks 2",
    "0 2147483647 - - -",
    "2 2147483647 -2147483647 1 4294967294",
)
peaks.prints(run(1024, [-3] * 4096), "rows 1024 columns 4 peaks 1", "0 -3 - - -")
peaks.prints(run(1, [i % 2 for i in range(4096)]), "rows 1 columns 4096 peaks 2048", "1 1 - - -",
             *(f"{i} 1 0 {i - 1} 1" for i in range(3, 4096, 2)))
peaks.prints(LONGEST, "rows 1 columns 4094 peaks 1", "0 0 - - -")

peaks.refuses_bad_files()

print(f"peaks: {peaks.checks} files are answered as document 01 says")
