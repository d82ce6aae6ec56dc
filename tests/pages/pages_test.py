#!/usr/bin/env python3
"""Holds what the pages show against the files that the gate checks: the example's bytes and lines, the order of
refusals, and the names of crates, definitions, claims, calls and edits. Prints one line; a check that fails ends it
with a traceback and a status that is not 0."""

import pathlib
import re

ROOT = pathlib.Path(__file__).resolve().parents[2]


def page(name):
    return (ROOT / name).read_text()


# The dump of docs/FORMATS.md is the file that the program is run on.
dump = re.findall(r"^    ([0-9a-f]{8})  ((?:[0-9a-f]{2} +)+)\|", page("docs/FORMATS.md"), re.M)
assert [int(at, 16) for at, _ in dump] == list(range(0, 16 * len(dump), 16))
assert bytes.fromhex("".join(line for _, line in dump)) == (ROOT / "crates/peaks/stdin").read_bytes()

# What the README shows as printed is what the programs must print.
for program in ("peaks", "outlines"):
    shown = "".join(f"    {line}\n" for line in page(f"crates/{program}/stdout").splitlines())
    assert shown in page("README.md"), program

# crates.txt reads from the bottom up, and names no crate of the kit. Each crate has its row in the README and in
# CONTRIBUTING.md, each row its crate.
lines = [line.split("#")[0].split(":") for line in page("crates.txt").splitlines()]
below = {}
for kind, needs in lines:
    name = kind.split()[0]
    needs = set(needs.split())
    assert needs <= set(below), kind
    below[name] = needs.union(*(below[need] for need in needs))
for table in ("README.md", "CONTRIBUTING.md"):
    assert list(below) == re.findall(r"^\| `(\w+)` \|", page(table), re.M), table

# The picture of the layers has every crate, and no arrow that crates.txt has not.
pictured = set()
for name, arrows in re.findall(r"(\w+) → (\w+(?:, \w+)*)", page("docs/ARCHITECTURE.md")):
    pictured |= {name, *arrows.split(", ")}
    assert set(arrows.split(", ")) & set(below) <= below.get(name, set(below)), (name, arrows)
assert set(below) <= pictured, set(below) - pictured

# A call has one order of refusals on all pages. What a number in the order of docs/RULES.md is given for is left out.
ORDER = r"\| ([0-9]+(?:, [0-9]+)*) \|$"
orders = dict(re.findall(r"^\| `?([\w:]+)\W.*" + ORDER, page("README.md"), re.M))
ruled = dict(re.findall(r"^\| ([^|]+) " + ORDER, re.sub(r" \([^)]*\)", "", page("docs/RULES.md")), re.M))
for call, rule in (
    ("list::list", "List, and the C entry"),
    ("mayexoton_list", "List, and the C entry"),
    ("run::start", "Start"),
    ("run::column", "Column"),
    ("run::end", "End"),
    ("outline::outline", "Outline"),
    ("account::account", "Account"),
    ("account::check", "Check of an account"),
    ("runfile::write", "Write a file"),
    ("runfile::read", "Read a file"),
):
    assert orders[call] == ruled[rule], call

# What a reader must believe of the definitions is short. No promise cites what stands in Inner.antt.
believed = set(ROOT.glob("crates/relief/specs/*.antt")) - {ROOT / "crates/relief/specs/Inner.antt"}
assert sum(len(specs.read_text().splitlines()) for specs in believed) <= 480

# Each must-fail edit says where it is refused. Each edit, claim and public function that a page names is there.
edits = set()
for edit in ROOT.glob("crates/*/must-fail/*.edit"):
    assert re.search(r"^# Refused at (?:src|specs|proofs)/\S+: \S+$", edit.read_text(), re.M), edit
    edits.add(edit.stem)
specs = {path.parts[-3]: "" for path in ROOT.glob("crates/*/specs/Lib.antt")}
for path in ROOT.glob("crates/*/specs/*.antt"):
    specs[path.parts[-3]] += path.read_text()
code = {name: "".join(path.read_text() for path in ROOT.glob(f"crates/{name}/src/*.rt")) for name in below}
defined = "".join([*specs.values(), *code.values()])
claims = "".join(path.read_text() for path in ROOT.glob("crates/*/specs/Claims.antt"))
for name in ("docs/PROMISES.md", "docs/MAP.md"):
    quoted = set(re.findall(r"`([^`]+)`", page(name)))
    named = {word[: -len(".edit")] for word in quoted if word.endswith(".edit")}
    assert named and named <= edits, named - edits
    # A claim; or, in snake case, a definition or a function.
    named = {word for word in quoted if re.fullmatch(r"[a-z]+(?:[-_][a-z]+)+", word)} - set(below)
    missing = {word for word in named if f"pub {word} :" not in claims}
    missing = {word for word in missing if "-" in word or not re.search(rf"\b(?:pub|fn) {word}\b", defined)}
    assert named and not missing, missing
    named = {tuple(word.split("::")) for word in quoted if re.fullmatch(r"[a-z]+::[a-z_]+", word)}
    missing = {(crate, call) for crate, call in named if not re.search(rf"pub fn {call}[(<]", code[crate])}
    assert named and not missing, missing

# The edit that CONTRIBUTING.md shows is one of them.
shown = page("crates/table/must-fail/peak_at_takes_the_height_for_the_key_height.edit")
assert "".join(f"    {line}\n" for line in shown.splitlines()) in page("CONTRIBUTING.md")

# Each definition that docs/MAP.md names stands in the specs/ of the crate before it.
found = 0
for line in re.findall(r"^\|.*\|$", page("docs/MAP.md"), re.M):
    crate = None
    for word in re.findall(r"`([^`]+)`", line.split("|")[2]):
        if word in below:
            crate = word
            continue
        assert re.search(rf"pub (?:record |data )?{re.escape(word)}\b", specs[crate]), (crate, word)
        found += 1
assert found > 50, found

# Each file that a page links to is there.
for name in ["README.md", "CONTRIBUTING.md", *(f"docs/{path.name}" for path in ROOT.glob("docs/*.md"))]:
    for link in re.findall(r"\]\((?!http)([^)#]+)\)", page(name)):
        assert ((ROOT / name).parent / link).exists(), (name, link)

print("pages: the example, the crates, the definitions, the claims and the edits are as shown")
