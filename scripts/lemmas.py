#!/usr/bin/env python3
"""Says which files of lemmas lead to which law, by the `use` lines of the proofs.

    scripts/lemmas.py NAME     prints it for a crate: each law with its files, and each file with its first comment
    scripts/lemmas.py          writes the tables of docs/PROOFS.md, for crates with FEW files of lemmas or more
    scripts/lemmas.py --check  says whether these differ, and ends with 1 if they do"""

import pathlib
import re
import sys

TOP = pathlib.Path(__file__).resolve().parent.parent
PAGE = TOP / "docs/PROOFS.md"
BEGIN, END = "<!-- begin lemmas -->\n", "<!-- end lemmas -->"
FEW = 10
LAW = re.compile(r"^pub fn (\w+)", re.M)
USE = re.compile(r"^(?:pub )?use Rattle\.(loft_\w+)\.proofs\.([\w.]+?)(?:\.\{.*\}| as \w+)$", re.M)
COMMENT = re.compile(r"^-- (.*)$", re.M)


def laws(crate):
    """The laws of a crate: their modules and names, in the order of the files."""
    for file in sorted((TOP / "crates" / crate / "src").glob("*law*.rt")):
        for name in LAW.findall(file.read_text(encoding="utf-8")):
            yield file.stem, name


def lemma_files(crate):
    """The files of lemmas of a crate, by their names."""
    folder = TOP / "crates" / crate / "proofs"
    return {file.stem: file for file in sorted(folder.glob("*.antt")) if file.stem != "Lib"}


def used(crate, file):
    """The files of lemmas that a file names, as crates and names."""
    for of, path in USE.findall(file.read_text(encoding="utf-8")):
        if path in lemma_files(of):
            yield of, path


def leading(crate, files):
    """The files of lemmas of a crate that these files rest on, those first on which others rest."""
    mine, order, seen = lemma_files(crate), [], set()

    def visit(file):
        for of, name in used(crate, file):
            if of == crate and name not in seen:
                seen.add(name)
                visit(mine[name])
                order.append(name)

    for file in files:
        visit(file)
    return order


def routes(crate):
    """Each law of a crate, with the files that lead to it."""
    for module, law in laws(crate):
        folder = TOP / "crates" / crate / "proofs" / module / law
        yield law, leading(crate, sorted(folder.rglob("*.antt")))


def told(file):
    """The comment at the head of a file, up to its first full stop."""
    found = COMMENT.search(file.read_text(encoding="utf-8"))
    return found[1].split(". ")[0].rstrip(".") if found else ""


def table(crate):
    """What leads to each law of a crate, as a table: the files that lead to no law above it, and how many others."""
    lines = ["| law | files of lemmas |", "|---|---|"]
    listed = set()
    for law, names in routes(crate):
        new = [name for name in names if name not in listed]
        told = ", ".join(new) + (" and " if new else "") + f"{len(names) - len(new)} of those above"
        listed.update(new)
        lines.append(f"| `{law}` | {', '.join(new) if len(new) == len(names) else told} |")
    rest = [name for name in lemma_files(crate) if name not in listed]
    if rest:
        lines.append(f"| none: used by functions | {', '.join(rest)} |")
    return lines


def pages():
    """The tables of the page."""
    parts = []
    for folder in sorted((TOP / "crates").iterdir()):
        if list(laws(folder.name)) and len(lemma_files(folder.name)) >= FEW:
            parts += [f"### `{folder.name}`", "", *table(folder.name), ""]
    return "\n".join(parts)


def show(crate):
    """Prints the laws and the files of lemmas of a crate."""
    for law, names in routes(crate):
        print(f"{law}: {', '.join(names) or 'none'}")
    for name, file in lemma_files(crate).items():
        print(f"{name}: {told(file)}")


def main():
    names = [word for word in sys.argv[1:] if not word.startswith("-")]
    if names:
        for name in names:
            show(name)
        return 0
    page = PAGE.read_text(encoding="utf-8")
    before, rest = page.split(BEGIN)
    written = f"{before}{BEGIN}{pages()}{END}{rest.split(END)[1]}"
    if "--check" in sys.argv[1:]:
        print(f"tables of docs/PROOFS.md that differ: {int(page != written)}")
        return int(page != written)
    PAGE.write_text(written, encoding="utf-8")
    return 0


if __name__ == "__main__":
    sys.exit(main())
