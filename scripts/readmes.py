#!/usr/bin/env python3
"""Writes a README.md into each crate, from the pages and from the heads of files: what the crate holds, what it stands
on and what stands on it (docs/ARCHITECTURE.md), its modules, definitions and lemmas, and its contracts (docs/PROVED.md).

    scripts/readmes.py           writes them
    scripts/readmes.py --check   says which differ, and ends with 1 if one does"""

import pathlib
import re
import sys

TOP = pathlib.Path(__file__).resolve().parent.parent
ROW = re.compile(r"\| `(loft_\w+)` \| (.*) \| ([^|]*) \|$")
MODULE = re.compile(r"\| (?:`(loft_\w+)`)? ?\| (.*) \| (.*) \|$")
NAME = re.compile(r"`(loft_\w+)`")
FEW = 3  # files of definitions that are to be read first
MANY = 10  # files of lemmas, from which on they are listed


def rows():
    """What each crate holds, and what it stands on, by the table of crates."""
    page = (TOP / "docs/ARCHITECTURE.md").read_text(encoding="utf-8")
    table = page[page.index("\n## Crates\n"):page.index("\n## Modules")]
    return [found.groups() for found in map(ROW.match, table.split("\n")) if found]


def modules():
    """The rows of modules of each crate that has some, by the table of modules."""
    page = (TOP / "docs/ARCHITECTURE.md").read_text(encoding="utf-8")
    table = page[page.index("\n## Modules"):page.index("\n## Contracts\n")]
    found, crate = {}, None
    for row in filter(None, map(MODULE.match, table.split("\n"))):
        crate = row[1] or crate
        if crate:
            found.setdefault(crate, []).append(f"| {row[2]} | {row[3]} |")
    return found


def contracts():
    """The section of each crate in docs/PROVED.md, without its heading."""
    page = (TOP / "docs/PROVED.md").read_text(encoding="utf-8")
    sections = re.split(r"^## (.*)\n", page, flags=re.M)
    return {heading.strip("`"): body.strip() for heading, body in zip(sections[1::2], sections[2::2])}


def linked(folder, files):
    """Links to files of a crate."""
    return ", ".join(f"[{file.relative_to(folder)}]({file.relative_to(folder)})" for file in files)


def told(file):
    """The first sentence of the comment at the head of a file."""
    comment = []
    for line in file.read_text(encoding="utf-8").splitlines():
        if not line.startswith("-- "):
            break
        comment.append(line[3:])
    return re.split(r"\.(?: |$)", " ".join(comment))[0].replace("|", "\\|")


def files_of(folder, kind):
    """The files of definitions or of lemmas of a crate."""
    return [file for file in sorted((folder / kind).glob("*.antt")) if file.name != "Lib.antt"]


def table(folder, heading, files):
    """A section with a row for each file, and what its head says."""
    rows_of = [f"| {linked(folder, [file])} | {told(file)} |" for file in files]
    return ["", f"## {heading}", "", "| file | what it has |", "|---|---|", *rows_of]


def above_of(all_rows):
    """The crates that stand on each crate."""
    above = {}
    for crate, _, below in all_rows:
        for name in NAME.findall(below):
            above.setdefault(name, []).append(f"`{crate}`")
    return above


def readme(crate, holds, below, parts):
    """The README of a crate."""
    folder = TOP / "crates" / crate
    root = [file for file in (folder / "src/lib.rt", folder / "src/main.rt") if file.is_file()]
    definitions, lemmas = files_of(folder, "specs"), files_of(folder, "proofs")
    first = sorted(definitions, key=lambda file: (-file.stat().st_size, file.name))[:FEW]
    above = ", ".join(parts["above"].get(crate, []))
    lines = [f"# {crate}", "", f"It holds {holds.rstrip('.')}.", "", f"It stands on {below}.", ""]
    if above:
        lines[-2] += f" Used by: {above}."
    lines.append(f"Read first: {linked(folder, root)} (what is public).")
    if first:
        lines[-1] += f" Definitions: {linked(folder, first)}."
    if crate in parts["modules"]:
        lines += ["", "## Modules", "", "| module | holds |", "|---|---|", *parts["modules"][crate]]
    if definitions:
        lines += table(folder, "Definitions", definitions)
    if len(lemmas) >= MANY:
        lines += table(folder, "Lemmas", lemmas)
    if crate in parts["contracts"]:
        lines += ["", "## Contracts", "", f"As in [docs/PROVED.md](../../docs/PROVED.md#{crate}).", "", parts["contracts"][crate]]
    return "\n".join(lines) + "\n"


def main():
    all_rows = rows()
    parts = {"above": above_of(all_rows), "modules": modules(), "contracts": contracts()}
    checks, other = "--check" in sys.argv[1:], 0
    for crate, holds, below in all_rows:
        file, text = TOP / "crates" / crate / "README.md", readme(crate, holds, below, parts)
        if file.is_file() and file.read_text(encoding="utf-8") == text:
            continue
        if checks:
            print(f"crates/{crate}/README.md isn't what scripts/readmes.py writes")
            other += 1
        else:
            file.write_text(text, encoding="utf-8")
    if checks:
        print(f"READMEs of crates that differ: {other}")
    return 1 if other else 0


if __name__ == "__main__":
    sys.exit(main())
