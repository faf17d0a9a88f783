#!/usr/bin/env python3
"""Finds the definitions on which what the program promises rests, and writes them as tables into docs/THEOREM.md.

It begins with the names of each of ROOTS, and goes from each definition to those that its text names, by the `use`
lines of its file: to definitions of `specs/`, and to types and constants of `src/`, with the types of their fields. A
variable that is called like a definition counts as that definition, so a table may have too much. What is defined
together (`mutual`) counts as one definition. What is of std is trusted, and isn't listed.

    scripts/theorem.py           writes the tables
    scripts/theorem.py --check   says whether they differ, and ends with 1 if they do"""

import pathlib
import re
import sys

TOP = pathlib.Path(__file__).resolve().parent.parent
PAGE = TOP / "docs/THEOREM.md"
# A table of the page, with the file and the names at which it begins.
ROOTS = {
    "report": ("loft_commands", "Promise", ["IsReport"]),
    "answers": ("loft_top", "Answer", ["Answers"]),
}
USE = re.compile(r"(?:pub )?use Rattle\.([\w.«»]+?)(?:\.\{(.*)\}| as (\w+))$")
ITEM = re.compile(r" *(?:pub )?(?:abbrev|unfoldable|data|record)(?: pub)? (\S+)")
CONSTRUCTOR = re.compile(r"\s+([A-Z]\w*) :")
FUNCTION = re.compile(r"\s+(?:pub )?([a-z]\w*) :")
WORD = re.compile(r"[^\W\d]\w*(?:\.[^\W\d]\w*)?")
TYPE = re.compile(r"^pub (?:struct|enum|type) (\w+)\b(?:[^;{]*;|.*?\n}\n)", re.S | re.M)


def split_names(names):
    """The names of a `use` line, each with the one that it has here."""
    for name in names.split(","):
        there, _, here = name.strip().partition(" as ")
        yield there, here or there


class Definitions:
    """A file of `specs/`: its definitions, with their lines, and what its `use` lines bring."""

    def __init__(self, crate, name):
        self.path = TOP / "crates" / crate / "specs" / f"{name}.antt"
        self.names, self.folders, self.items, self.owner = {}, {}, {}, {}
        item, together = None, None
        for line in self.path.read_text(encoding="utf-8").splitlines():
            indent = len(line) - len(line.lstrip())
            if not line.strip() or line.lstrip().startswith("--"):
                continue
            if together is not None and indent <= together:
                item, together = None, None
            used, begins = USE.match(line), ITEM.match(line)
            if used or line.lstrip().startswith("module _ "):
                item = None
                if used:
                    self.bring(used)
            elif line.split()[-1] == "mutual":
                item, together = line + str(len(self.items)), indent
            elif begins and together is None:
                item = begins[1]
            if item is not None:
                self.add(item, line, begins, together)

    def add(self, item, line, begins, together):
        """Notes a line of a definition, or of some that are defined together, with the name that it defines."""
        self.items.setdefault(item, []).append(line)
        named = begins or CONSTRUCTOR.match(line) or (together is not None and FUNCTION.match(line))
        if named:
            self.owner.setdefault(named[1], item)

    def bring(self, used):
        """Notes what a `use` line brings."""
        if used[2] is None:
            self.folders[used[3]] = used[1]
        else:
            for there, here in split_names(used[2]):
                self.names[here] = (used[1], there)


class Reached:
    """The definitions and types that are reached from some names."""

    def __init__(self):
        self.files, self.done, self.types = {}, {}, {}

    def file(self, crate, name):
        if (crate, name) not in self.files:
            self.files[crate, name] = Definitions(crate, name)
        return self.files[crate, name]

    def name(self, path, name):
        """Goes to a name of a module of definitions, or to a type."""
        crate, _, rest = path.partition(".specs.")
        if not crate.startswith("loft_"):
            return
        if rest.startswith("declared."):
            module, _, owner = re.sub(r"\.TheVariants$", "", rest[len("declared."):]).rpartition(".")
            if owner == "TheConstants":
                self.types[TOP / "crates" / crate / "src" / f"{module or 'lib'}.rt", name] = 1
            else:
                self.type(crate, owner, module or "lib")
        else:
            self.definition(crate, rest, name)

    def definition(self, crate, file, name):
        """Goes to a definition, and to all that it names."""
        found = self.file(crate, file)
        owner = found.owner.get(name)
        if owner is None:
            if name in found.names:
                self.name(*found.names[name])
            return
        if (crate, file, owner) in self.done:
            return
        lines = found.items[owner]
        self.done[crate, file, owner] = len(lines)
        for word in set(WORD.findall(re.sub(r'"[^"]*"', "", "\n".join(lines)))):
            first, _, second = word.partition(".")
            if second and first in found.folders:
                self.name(found.folders[first], second)
            elif first in found.owner:
                self.definition(crate, file, first)
            elif first in found.names:
                self.name(*found.names[first])

    def type(self, crate, name, module="**/*"):
        """Goes to a type of `src/`, and to those of its fields."""
        for file in sorted((TOP / "crates" / crate / "src").glob(module.replace(".", "/") + ".rt")):
            text = file.read_text(encoding="utf-8")
            found = next((it for it in TYPE.finditer(text) if it[1] == name), None)
            if found is None or (file, name) in self.types:
                continue
            body = [line for line in found[0].strip().splitlines() if line.strip() and not line.strip().startswith("//")]
            self.types[file, name] = len(body)
            for word in set(re.findall(r"\b[A-Z]\w+", "\n".join(body))) - {name}:
                self.type_named(crate, file, text, word)

    def type_named(self, crate, file, text, word):
        """Goes to a type that the text of a file names, if it is one of that file or of a `use` line."""
        brought = re.search(rf"^use (crate|loft_\w+)(?:::\w+)*::(?:\{{[^}}]*\b{word}\b[^}}]*\}}|{word});", text, re.M)
        if brought:
            self.type(crate if brought[1] == "crate" else brought[1], word)
        else:
            self.type(crate, word, file.relative_to(TOP / "crates" / crate / "src").with_suffix("").as_posix())


def table(root):
    """A table of the page."""
    crate, file, names = ROOTS[root]
    reached = Reached()
    for name in names:
        reached.definition(crate, file, name)
    files = {}
    for (of, name, _), count in reached.done.items():
        definitions, lines = files.get((of, name), (0, 0))
        files[of, name] = (definitions + 1, lines + count)
    total = [sum(counts[at] for counts in files.values()) for at in (0, 1)]
    homes = sorted({file.relative_to(TOP / "crates").as_posix() for file, _ in reached.types})
    lines = [f"{total[0]:,} definitions of {total[1]:,} lines, in {len(files)} files of `specs/`, and {len(reached.types)} "
             f"types and constants of {sum(reached.types.values())} lines, in {len(homes)} files of `src/`.", "",
             "| crate | definitions that are reached, with their lines |", "|---|---|"]
    for of in sorted({of for of, _ in files}):
        mine = [(name, counts) for (crate, name), counts in sorted(files.items()) if crate == of]
        lines.append(f"| `{of}` | {', '.join(f'`{name}.antt` {many} ({long})' for name, (many, long) in mine)} |")
    lines += ["", "| crate | types and constants that are reached, by file |", "|---|---|"]
    for of in sorted({home.split("/")[0] for home in homes}):
        told = []
        for home in homes:
            if home.split("/")[0] == of:
                types = sorted(name for file, name in reached.types if file == TOP / "crates" / home)
                told.append(f"`{home.split('/', 1)[1]}` " + ", ".join(types))
        lines.append(f"| `{of}` | {'; '.join(told)} |")
    return "\n".join(lines)


def main():
    page = PAGE.read_text(encoding="utf-8")
    written = page
    for root in ROOTS:
        begin, end = f"<!-- begin {root} -->\n", f"<!-- end {root} -->"
        before, rest = written.split(begin)
        written = f"{before}{begin}{table(root)}\n{end}{rest.split(end)[1]}"
    if "--check" in sys.argv[1:]:
        print(f"tables of docs/THEOREM.md that differ: {int(page != written)}")
        return int(page != written)
    PAGE.write_text(written, encoding="utf-8")
    return 0


if __name__ == "__main__":
    sys.exit(main())
