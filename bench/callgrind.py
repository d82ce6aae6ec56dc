#!/usr/bin/env python3
"""Counts instructions for a cell, library and plain C++, by callgrind.

    callgrind.py list BENCH                  of a list
    callgrind.py accounts ACCOUNTS [SIZE]    of accounts and their checks, with a list of the same grid, at SIZE x SIZE
                                             cells, else 256 x 256

What one list takes is what a program of two lists takes more than a program of one. An account or a check is a function
of the program by itself, and only what is done in it is counted. Where valgrind is missing nothing is counted, and a
line says so.
"""
import re
import shutil
import subprocess
import sys

KINDS = 8


def count(words, *options):
    """The instructions of a program, and what it printed."""
    valgrind = ["valgrind", "--tool=callgrind", "--callgrind-out-file=/dev/null", *options]
    done = subprocess.run([*valgrind, *words], capture_output=True, text=True, check=True)
    return int(re.search(r"Collected : (\d+)", done.stderr).group(1)), done.stdout


def list_per_cell(program, kind, who):
    once, said = count([program, "--one", str(kind), who, "1"])
    twice, _ = count([program, "--one", str(kind), who, "2"])
    name, cells = said.strip().rsplit(", ", 1)
    return name, (twice - once) / int(cells)


def count_lists(program):
    print("x86-64 instructions of a list per cell, counted by callgrind at 256 x 256 cells\n")
    print(f"{'kind':13} | library | reference | library / reference")
    for kind in range(KINDS):
        name, library = list_per_cell(program, kind, "library")
        _, reference = list_per_cell(program, kind, "reference")
        print(f"{name:13} | {library:7.0f} | {reference:9.0f} | {library / reference:.2f}", flush=True)


def count_accounts(program, size="256"):
    cells = int(size) ** 2
    print(f"x86-64 instructions per cell, counted by callgrind at {size} x {size} cells\n")
    print(f"{'kind, peak':20} | {'list':>6} | account / list | plain C++ | check / list | plain C++")
    peaks = subprocess.run([program, "--peaks", size], capture_output=True, text=True, check=True).stdout
    for line in peaks.splitlines():
        kind, cell, name = line.split(" ", 2)

        def per_cell(who):
            function = f"*::run_{who.replace('-', '_')}()"
            return count([program, "--one", kind, size, cell, who], f"--toggle-collect={function}")[0] / cells

        listed, account, check = per_cell("list"), per_cell("account"), per_cell("check")
        print(
            f"{name:20} | {listed:6.1f} | {account:7.1f}  {account / listed:5.2f} | {per_cell('plain-account'):9.1f} |"
            f" {check:6.1f} {check / listed:5.2f} | {per_cell('plain-check'):9.1f}",
            flush=True,
        )


def main(what, *words):
    if shutil.which("valgrind") is None:
        print("instructions: not counted, valgrind is missing")
        return
    {"list": count_lists, "accounts": count_accounts}[what](*words)


if __name__ == "__main__":
    main(*sys.argv[1:])
