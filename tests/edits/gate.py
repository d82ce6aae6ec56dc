#!/usr/bin/env python3
"""The gate: what needs no proof; `rt ci`, and where each must-fail edit is refused; what runs on proved code.

An edit's header has one line `# Refused at FILE: NAME`: the first error of the prover stands in that file of the crate,
in the lemma, answer or definition of that name. Where the prover makes the proof by itself, the file is that of the
code, and the name the function's. `rt ci` says of each edit that it is refused, and where; an edit that is refused
elsewhere, only because a proof file names what the edit took away, or only by a limit of the prover, is refused for
another reason than the one it is there for, and fails the gate. So does one that cannot be applied or read.

The last line is that of `rt ci`, 'N passed, M failed', with the steps counted in, and each such edit as failed.

    gate.py                 all of it; a step that fails ends it
    gate.py edits [NAME..]  the edits alone, of the crates that are named or of all, by `rt must-fail`
"""

import pathlib
import re
import subprocess
import sys

ROOT = pathlib.Path(__file__).resolve().parents[2]
MAKE = ["make", "--no-print-directory"]
# The steps before the proofs, and those after them, which run what was proved.
BEFORE = [[*MAKE, "cpp-tools"], [*MAKE, "-j3", "-Oline", "pages", "tools", "cpp-objects"]]
AFTER = [[*MAKE, "-j3", "-Oline", "cpp-test", "built-peaks", "built-outlines"]]

HEADER = re.compile(r"^# Refused at ((?:src|specs|proofs)/\S+): (\S+)$", re.M)
TRIED = re.compile(r"^(?:rt: )?must-fail (\w+)/(\S+)\.edit: (.*)$")
REFUSED = "refused, as it must be"
# A message that begins with `search` names no lemma.
PLACE = re.compile(
    r": (?:note: )?(?:\./)?((?:src|specs|proofs)/\S+?):(\d+):\d+: (?:error\S*: )?(?:`(?!search`)([^`]+)`)?"
)
FUNCTION = re.compile(r'\s*(?:pub(?:\([^)]*\))? )?(?:const )?(?:unsafe )?(?:extern "C" )?fn (\w+)')


def function_at(path, number):
    """The name of the function that a line of a file of code is in, or that begins with that line, an attribute."""
    lines = path.read_text().splitlines()
    is_head = lines[number - 1].lstrip().startswith("#[")
    near = lines[number:] if is_head else lines[number - 1 :: -1]
    return next((found[1] for line in near if (found := FUNCTION.match(line))), None)


def refused_at(crate, said):
    """Where an edit's first error stands, by what rt says of it: the crate's file, and the name that it is in."""
    found = PLACE.match(said.removeprefix(REFUSED))
    if not found:
        return None
    file, number, name = found.groups()
    return file, name or function_at(ROOT / "crates" / crate / file, int(number))


def misplaced(edit, said):
    """What is wrong with an edit of which rt says that it is refused, or None."""
    header = HEADER.findall(edit.read_text())
    if len(header) != 1:
        return f"its header has {len(header)} lines '# Refused at FILE: NAME', not one"
    for reason in ("only because a proof file names what the edit took away", "only by a limit of the prover"):
        if said.startswith(f"{REFUSED} ({reason}"):
            return f"it is refused {reason}"
    found = refused_at(edit.parts[-3], said)
    if found == header[0]:
        return None
    place = f"at {found[0]}: {found[1]}" if found else "at no error that names a place"
    return f"its header says {header[0][0]}: {header[0][1]}, and it is refused first {place}"


def edits_of(crates):
    """The must-fail edits of some crates, or of all, by crate and name."""
    edits = sorted(ROOT.glob("crates/*/must-fail/*.edit"))
    return {(it.parts[-3], it.stem): it for it in edits if not crates or it.parts[-3] in crates}


def judged(lines, crates=()):
    """What rt's lines say of the edits: a line for each that rt takes for refused and that is wrong, one for each that
    rt counts neither as passed nor as failed, and how many are right."""
    edits, said = edits_of(crates), {}
    for line in lines:
        if found := TRIED.match(line):
            said[found[1], found[2]] = found[3]
    wrong, uncounted, right = [], [], 0
    for key, edit in edits.items():
        told = said.get(key, "NOT TRIED")
        if told.startswith(REFUSED):
            why = misplaced(edit, told)
            wrong += [f"{'/'.join(key)}: {why}"] if why else []
            right += not why
        elif key not in said or told.startswith("BAD EDIT"):
            uncounted.append(f"{'/'.join(key)}: {told}")
    return wrong, uncounted, right


def told_by(*command):
    """Runs a command of rt, shows what it prints as it comes, and gives its lines and its status."""
    lines = []
    how = {"stdin": subprocess.DEVNULL, "stdout": subprocess.PIPE, "stderr": subprocess.STDOUT, "errors": "replace"}
    with subprocess.Popen(command, cwd=ROOT, text=True, **how) as ran:
        for line in ran.stdout:
            print(line, end="", flush=True)
            lines.append(line.rstrip("\n"))
    return lines, ran.returncode


def edits_alone(crates):
    lines, status = told_by("rt", "must-fail", *crates)
    wrong, uncounted, right = judged(lines, crates)
    for line in wrong:
        print("edit", line)
    print(f"{right} passed, {len(edits_of(crates)) - right} failed")
    return status or bool(wrong or uncounted)


def run(steps):
    """Runs steps until one fails, and gives how many passed and how many failed."""
    for passed, step in enumerate(steps):
        sys.stdout.flush()
        if subprocess.run(step, cwd=ROOT, stdin=subprocess.DEVNULL).returncode:
            print("FAILED:", " ".join(step))
            return passed, 1
    return len(steps), 0


def proved():
    """Runs `rt ci`, and holds what it says of the edits to their headers. Gives what passed and what failed."""
    print("gate: proving every crate and trying every must-fail edit, by rt ci", flush=True)
    lines, status = told_by("rt", "ci")
    counts = re.fullmatch(r"(\d+) passed, (\d+) failed", lines[-1] if lines else "")
    if not counts:
        return 0, 1
    passed, failed = int(counts[1]), int(counts[2])
    wrong, uncounted, _ = judged(lines)
    # Of a crate that is not proved no edit is tried.
    uncounted = [] if status else uncounted
    for line in [*wrong, *uncounted]:
        print("edit", line)
    passed, failed = passed - len(wrong), failed + len(wrong) + len(uncounted)
    is_ok = any(line.startswith("rt: ok") and not re.search(r", \d+ bad\b", line) for line in lines)
    return passed, failed or int(status != 0 or not is_ok)


def main():
    if sys.argv[1:2] == ["edits"]:
        return edits_alone(sys.argv[2:])
    if sys.argv[1:]:
        sys.exit(__doc__)
    passed = failed = 0
    for part in (lambda: run(BEFORE), proved, lambda: run(AFTER)):
        more, failed = part()
        passed += more
        if failed:
            break
    print(f"{passed} passed, {failed} failed")
    return bool(failed)


if __name__ == "__main__":
    sys.exit(main())
