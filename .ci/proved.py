#!/usr/bin/env python3
"""Tells where docs/PROVED.md and docs/ARCHITECTURE.md differ from the crates.

In each table of contracts of PROVED.md:

- A name in the first column is a function, type or trait of that crate's src/, or a name that it
  exports by `pub use .. as ..`; `T::f` is a function of T. After "the readers of" or "the conditions
  of" stand modules.
- A name in the second column is that of an `ensures` clause of a function of that row. After `one`,
  `one each` or `law` alone each function of the row has a clause without a name. After "those of"
  stands a trait that each type of the row implements, after ", of" a command.

In ARCHITECTURE.md each crate is in one box, and stands on no crate of a box after it. The crates
stand after those that they stand on, with the last column as crates.txt has it; "Nothing stands on it" and "Only X stands on it" stand exactly where that is so; and
what a crate can reach in the graph is what it can reach in crates.txt. The table of modules has exactly
the files of each crate that it names, but for lib.rt."""

import collections
import pathlib
import re
import sys

TOP = pathlib.Path(__file__).resolve().parent.parent
PROVED = TOP / "docs/PROVED.md"
ARCHITECTURE = TOP / "docs/ARCHITECTURE.md"

CODE = re.compile(r"`([^`\n]+)`")
HEAD = r"^[ \t]*(?:pub(?:\([^)]*\))? )?(?:const |unsafe )*"
TYPE = re.compile(HEAD + r"(?:struct|enum|trait|type) (\w+)", re.M)
FUNCTION = re.compile(HEAD + r"fn (\w+)", re.M)
BLOCK = re.compile(r"^(?:pub )?(?:impl(?:<.*?>+)? (?:[^\n{]* for )?&?(?:'\w+ )?(?:\w+::)*|trait )(\w+)", re.M)
FOR = re.compile(r"^impl(?:<.*?>+)? (?:\w+::)*(\w+)\S* for &?(\w+)", re.M)
EXPORT = re.compile(r"^pub use ([^;]+);", re.M)
RENAMED = re.compile(r"(\w+) as (\w+)")
CLAUSE = re.compile(r"\bensures (?:(\w+) )?\{")
MODULES = re.compile(r"^the \w+ of ")
ALONE = ("one", "one each", "law")


def functions(text):
    """Each function of a text: where it begins, its name, and the names of its clauses ('' for one without)."""
    found = list(FUNCTION.finditer(text))
    ends = [it.start() for it in found[1:]] + [len(text)]
    for it, end in zip(found, ends):
        yield it.start(), it[1], CLAUSE.findall(text[it.start() : end])


class Crate:
    """What a crate's src/ declares."""

    def __init__(self, name):
        self.modules = set()
        self.types = set()
        self.traits = set()
        self.clauses = collections.defaultdict(list)
        exports = []
        folder = TOP / "crates" / name / "src"
        for file in sorted(folder.rglob("*.rt")):
            text = file.read_text(encoding="utf-8")
            self.modules.add("::".join(file.relative_to(folder).with_suffix("").parts))
            self.add(text)
            exports += EXPORT.findall(text)
        for old, new in RENAMED.findall(" ".join(exports)):
            self.clauses[new] = self.clauses[old]

    def add(self, text):
        """Adds what a file declares. A function of a type has its name with the type's, too."""
        self.types.update(TYPE.findall(text))
        self.traits.update(FOR.findall(text))
        blocks = [(it.start(), text.find("\n}", it.start()), it[1]) for it in BLOCK.finditer(text)]
        for at, name, clauses in functions(text):
            self.clauses[name] += clauses
            for start, end, owner in blocks:
                if start < at < end:
                    self.clauses[f"{owner}::{name}"] += clauses

    def clauses_of(self, calls):
        """For each call of a row the names of its clauses. A plain name after `T::f` is one of T where T has it."""
        owner = ""
        for call in calls:
            if "::" in call:
                owner = call.partition("::")[0]
            whole = f"{owner}::{call}"
            yield call, self.clauses.get(whole if whole in self.clauses else call)


def rows(page, title):
    """The rows of the tables under a title: the line's number, its cells, and the title's own match."""
    under = None
    for number, line in enumerate(page.read_text(encoding="utf-8").splitlines(), 1):
        if line.startswith("## "):
            under = re.fullmatch(title, line)
        elif under and line.startswith("| "):
            cells = [cell.strip() for cell in line.strip().strip("|").split("|")]
            if cells[0] not in ("call", "crate"):
                yield number, cells, under


def wrong_calls(crate, cell):
    """What is wrong in the first column of a row."""
    for name in CODE.findall(cell):
        if MODULES.match(cell):
            is_there = name in crate.modules
        else:
            is_there = name in crate.clauses or name in crate.types
        if not is_there:
            yield f"there is no {name}"


def wrong_clauses(crate, calls, cell):
    """What is wrong in the second column of a row with these calls."""
    clauses = dict(crate.clauses_of(calls))
    if cell in ALONE:
        yield from (f"each clause of {call} has a name" for call in calls if "" not in (clauses[call] or ()))
        return
    if cell.startswith("those of "):
        trait = CODE.findall(cell)[0]
        yield from (f"{call} doesn't implement {trait}" for call in calls if (trait, call) not in crate.traits)
        return
    names, of, command = cell.partition(", of ")
    if of and not (TOP / "cases" / command.strip("`")).is_dir():
        yield f"there is no command {command}"
    known = {name for found in clauses.values() for name in found or ()}
    yield from (f"no function of the row has a clause {name}" for name in CODE.findall(names) if name not in known)


def wrong_contracts():
    """What is wrong in the tables of PROVED.md."""
    crates, calls, is_module = {}, [], False
    for number, (call, clauses, *_), title in rows(PROVED, r"## `(loft_\w+)`"):
        if title[1] not in crates:
            crates[title[1]] = Crate(title[1])
        crate = crates[title[1]]
        wrong = list(wrong_calls(crate, call))
        if call:
            calls, is_module = CODE.findall(call), MODULES.match(call)
        if not wrong and is_module:
            known = {name for found in crate.clauses.values() for name in found}
            wrong = [f"no function has a clause {name}" for name in CODE.findall(clauses) if name not in known]
        elif not wrong:
            wrong = wrong_clauses(crate, calls, clauses)
        yield from (f"docs/PROVED.md:{number}: {title[1]}: {it}" for it in wrong)


def reached(edges, crate):
    """All that a crate stands on, by these edges."""
    found, open_ = set(), list(edges.get(crate, ()))
    while open_:
        next_ = open_.pop()
        if next_ not in found:
            found.add(next_)
            open_ += edges.get(next_, ())
    return found


def stands_on():
    """For each crate what crates.txt has it stand on."""
    lines = (TOP / "crates.txt").read_text(encoding="utf-8").splitlines()
    pairs = (line.split(":") for line in lines if line and not line.startswith("#"))
    return {name: on.split() for name, on in pairs}


def wrong_crates(crates):
    """What is wrong in the table of crates."""
    before = set()
    for number, (cell, holds, on), _ in rows(ARCHITECTURE, "## Crates"):
        name = CODE.findall(cell)[0]
        wrong = []
        if name not in crates:
            wrong.append("crates.txt doesn't have it")
        elif CODE.findall(on) != crates[name]:
            wrong.append(f"crates.txt has it stand on {' '.join(crates[name]) or 'none'}")
        wrong += [f"{it} stands after it" for it in crates.get(name, ()) if it.startswith("loft_") and it not in before]
        above = [it for it in crates if name in crates[it]]
        if ("Nothing stands on it" in holds) != (not above):
            wrong.append(f"what stands on it: {' '.join(above) or 'nothing'}")
        only = re.search(r"Only `(\w+)` stands on it", holds)
        if only and above != [only[1]]:
            wrong.append(f"what stands on it: {' '.join(above)}")
        before.add(name)
        yield from (f"docs/ARCHITECTURE.md:{number}: {name}: {it}" for it in wrong)
    yield from (f"docs/ARCHITECTURE.md: the table has no row for {it}" for it in crates if it not in before)


def wrong_boxes(crates):
    """What is wrong in the table of boxes."""
    box = {}
    for place, (number, cells, _) in enumerate(rows(ARCHITECTURE, "## Six boxes")):
        for name in CODE.findall(cells[-1]):
            if name in box:
                yield f"docs/ARCHITECTURE.md:{number}: {name} is in two boxes"
            box[name] = place
    yield from (f"docs/ARCHITECTURE.md: {name} is in no box" for name in crates if name not in box)
    yield from (f"docs/ARCHITECTURE.md: crates.txt has no {name}, which is in a box" for name in box if name not in crates)
    for name, on in crates.items():
        for it in on:
            if box.get(it, 0) > box.get(name, len(box)):
                yield f"docs/ARCHITECTURE.md: {name} stands on {it}, whose box comes later"


def wrong_graph(crates):
    """What is wrong in the graph of crates."""
    text = ARCHITECTURE.read_text(encoding="utf-8")
    edges = {f"loft_{a}": [f"loft_{it}" for it in b.split(" & ")] for a, b in re.findall(r"^ *(\w+) --> (.+)$", text, re.M)}
    ours = {name: [it for it in on if it in crates] for name, on in crates.items()}
    for name in sorted({*edges, *ours}):
        for other in sorted(reached(edges, name) ^ reached(ours, name)):
            what = "leads, and crates.txt doesn't" if other in reached(edges, name) else "doesn't lead, and crates.txt does"
            yield f"docs/ARCHITECTURE.md: the graph {what}, from {name} to {other}"


def wrong_modules():
    """What is wrong in the table of modules."""
    told, name = collections.defaultdict(set), ""
    for _, (cell, modules, _), _ in rows(ARCHITECTURE, "## Modules of the upper crates"):
        name = cell.strip("`") or name
        told[name].update(CODE.findall(modules))
    for name, modules in told.items():
        there = Crate(name).modules - {"lib"}
        yield from (f"docs/ARCHITECTURE.md: {name} has no module {it}" for it in sorted(modules - there))
        yield from (f"docs/ARCHITECTURE.md: the module {it} of {name} has no row" for it in sorted(there - modules))


def main():
    crates = stands_on()
    found = [*wrong_contracts(), *wrong_boxes(crates), *wrong_crates(crates), *wrong_graph(crates), *wrong_modules()]
    print(*found, f"rows of contracts and crates that differ: {len(found)}", sep="\n")
    return 1 if found else 0


if __name__ == "__main__":
    sys.exit(main())
