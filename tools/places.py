#!/usr/bin/env python3
"""Lists places of src/ that grep can't find: run at the top of a checkout. docs/DESIGN-PASS.md says what they are for.

    places.py functions          every function of crates/*/src/*.rt
    places.py twins [RATIO]      pairs of functions with like bodies, by their tokens; ratio 0.8 if none is given
    places.py params             runs of three or more parameters that three or more functions share
    places.py clauses            facts of a `requires` that three or more functions share
    places.py loops              every while, loop and for, with what steps in its body
    places.py bools              functions with the answer bool that return true or false by a word, without a loop
"""

import collections
import difflib
import itertools
import pathlib
import re
import sys

HEAD = re.compile(r'\s*(?:pub )?(?:extern "C" )?fn (\w+)')
TOKEN = re.compile(r"""b'[^']*'|b?"[^"]*"|\w+|[^\w\s]""")


class Function:
    """A function: its place and name, its signature, its clauses and its body, as text."""

    def __init__(self, place, text, indent):
        at = text.find(f"\n{indent}{{\n")
        head, self.body = (text[:at], text[at + 1 :]) if at >= 0 else (text[: text.find("{")], text[text.find("{") :])
        self.signature, *clauses = re.split(r"\n\s*(?=requires|ensures)", head, maxsplit=1)
        self.clauses = " ".join(" ".join(clauses).split())
        self.place = place

    def parameters(self):
        found = re.search(r"fn \w+(?:<[^>]*>)?\((.*)\)", re.sub(r"\s+", " ", self.signature))
        named = found[1].split(",") if found else []
        return [re.sub(r"&(mut )?", "&", one.strip()) for one in named if one.strip()]

    def facts(self):
        found = re.search(r"requires \{(.*?)\}(?= ensures|$)", self.clauses)
        facts = re.split(r" × (?![^(]*\))", found[1].strip()) if found else []
        return [re.sub(r"\.(old|now|new)\b", "", fact.strip().strip("()")) for fact in facts]

    def tokens(self):
        return TOKEN.findall(re.sub(r"//.*", "", self.body))


def functions():
    for path in sorted(pathlib.Path().glob("crates/*/src/*.rt")):
        lines = path.read_text().split("\n")
        owner, i = "", 0
        while i < len(lines):
            if found := re.match(r"impl (\w+)", lines[i]):
                owner = f"{found[1]}::"
            if found := HEAD.match(lines[i]):
                indent = lines[i][: len(lines[i]) - len(lines[i].lstrip())]
                end = i
                while not lines[i].rstrip().endswith("}") and (end == i or lines[end] != f"{indent}}}"):
                    end += 1
                place = f"{path.parts[1]}/{path.stem}::{owner if indent else ''}{found[1]}"
                yield Function(place, "\n".join(lines[i : end + 1]), indent)
                i = end
            i += 1


def shared(by):
    """What three or more functions share, most shared first."""
    return sorted(((key, places) for key, places in by.items() if len(places) >= 3), key=lambda it: -len(it[1]))


def twins(ratio=".8"):
    least, long = float(ratio), [(it.place, it.tokens()) for it in functions() if len(it.tokens()) >= 12]
    found = []
    for (a, tokens), (b, others) in itertools.combinations(long, 2):
        match = difflib.SequenceMatcher(None, tokens, others, autojunk=False)
        if match.real_quick_ratio() >= least and match.quick_ratio() >= least and match.ratio() >= least:
            found.append((match.ratio(), a, b))
    for share, a, b in sorted(found, reverse=True):
        print(f"{share:.2f} {a} <-> {b}")


def params():
    by = collections.defaultdict(set)
    for it in functions():
        names = it.parameters()
        for size in range(3, len(names) + 1):
            for at in range(len(names) - size + 1):
                by[tuple(names[at : at + size])].add(it.place)
    runs = shared(by)
    for run, places in runs:
        wider = (r for r, p in runs if len(r) > len(run) and places <= p)
        if not any(r[i : i + len(run)] == run for r in wider for i in range(len(r))):
            print(len(places), f"({', '.join(run)})", "|", *sorted(places))


def clauses():
    by = collections.defaultdict(list)
    for it in functions():
        for fact in it.facts():
            by[fact].append(it.place)
    for fact, places in shared(by):
        print(len(places), "|", fact, "|", *places)


def loops():
    for it in functions():
        lines = it.body.split("\n")
        for i, line in enumerate(lines):
            if found := re.match(r"(\s*)(while .*|loop|for .*) \{$", line):
                end = next(j for j in range(i + 1, len(lines)) if lines[j].startswith(f"{found[1]}}}"))
                steps = re.findall(r"\w+ [+\-*/]= [^;]+;", "\n".join(lines[i:end]))
                print(it.place, "|", found[2], "|", *steps)


def bools():
    for it in functions():
        by_word = re.search(r"return (true|false);", it.body)
        if "-> bool" in it.signature and by_word and not re.search(r"\b(for|while|loop)\b", it.body):
            print(it.place)


def names():
    for it in functions():
        print(it.place)


WORDS = {"functions": names, "twins": twins, "params": params, "clauses": clauses, "loops": loops, "bools": bools}

if __name__ == "__main__":
    if len(sys.argv) < 2 or sys.argv[1] not in WORDS:
        sys.exit(__doc__)
    WORDS[sys.argv[1]](*sys.argv[2:])
