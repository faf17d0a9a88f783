#!/usr/bin/env python3
"""Prints how many cases show each section of docs/LANGUAGE.md, and what no case shows.

    scripts/sections.py

A row has a section and the number of its cases in cases/check, cases/show and cases/run. A case shows a
section where its answer begins with a fault of that section, where its source has a word or a sign of
it, or where its name has a word that tells so: SEEN has these for each section. Each fault, word and sign
is counted by itself too, over all three folders, and those without a case stand under their section.

What it can't see: whether an answer hangs on the section at all. A source that has the word `await`
counts, whatever it is about, and a name can only tell of one thing. So a number is the most that there
can be, and 0 is what to look for. Sections in UNSEEN aren't told by names, words or answers; they are
listed with the reason. Other commands (cases/compile, cases/exec) aren't counted."""

import collections
import pathlib
import re
import sys

TOP = pathlib.Path(__file__).resolve().parent.parent
PAGE = TOP / "docs/LANGUAGE.md"
FOLDERS = ["check", "show", "run"]
TOKEN = re.compile(r'(?P<comment>//[^\n]*)|"[^"\n]*"|(?P<word>[A-Za-z_]\w*)|\d+|(?P<sign>==|!=|<=|>=|&&|\|\||[;,.(){}=+\-*/%!<>])')


def listed(section):
    """The words or signs in the table of a section of the page, by the first cell of their row."""
    text = PAGE.read_text(encoding="utf-8").partition(f"\n### {section}\n")[2].partition("\n#")[0]
    rows = [line.replace("\\|", "\0").split("|")[1:3] for line in text.splitlines() if line.startswith("| ")]
    return {row[0].strip(): " ".join(re.findall(r"`([^`]+)`", row[1].replace("\0", "|"))) for row in rows}


# For each section the faults that its answers begin with, the words and signs of its sources, and what
# the names of its cases have. `COMMENT` stands for a comment.
COMMENT = "//"
WORDS = listed("Words of the language")
SIGNS = " ".join(listed("Signs").values())
OPERATORS = " ".join(it for it in SIGNS.split() if it not in tuple(";,.(){}="))
TEXTS = ["open text", "long text"]
TOKENS = ["bad byte", "long name", "bad number", *TEXTS]
NAMES = ["unknown name", "name", "kind", "arity", "no scheduler"]
LINKS = ["not here", "unlinked", "branches", "loop", "module"]
Seen = collections.namedtuple("Seen", "faults tokens names", defaults=((), "", "(?!)"))
SEEN = {
    "blanks and comments": Seen([], COMMENT, r"blank|comment|feed|carriage_return"),
    "spelling of names": Seen(["long name"], "", r"name_of_\d|bytes_of_a_name|underscore|touch|names?_that"),
    "words of the language": Seen([], "", r"words?_|as_name"),
    "numbers": Seen(["bad number"], "", r"number|_i64"),
    "texts": Seen(TEXTS, "", r"texts?_|_text"),
    "signs": Seen(["bad byte"], SIGNS, r"signs?_"),
    "what is found": Seen(TOKENS),
    "programs": Seen([], WORDS["items"]),
    "statements": Seen([], WORDS["statements"] + " " + WORDS["parts of statements"]),
    "expressions": Seen([], WORDS["values"] + " " + OPERATORS),
    "nesting and counts": Seen(["too deep", "too many"], "", r"limit_\d"),
    "the fault of a text": Seen(["expected", "too deep", "too many", "too long"]),
    "canonical text": Seen([], "", r"(?!)"),
    "names": Seen(["unknown name", "name"], "", r"named_as|earlier"),
    "kinds": Seen(["kind", "arity"]),
    "the fault of a program's names": Seen(NAMES),
    "places of statements": Seen(["branches", "loop", "module"], "link unlink run"),
    "what a place allows": Seen(["unlinked"]),
    "what a statement needs": Seen(["not here"]),
    "the fault of a program's links": Seen(LINKS),
    "limits": Seen(["too deep", "too many", "too long", "bad number", "long name", "long text"], "", r"limit_\d|limit_of"),
}
UNSEEN = {
    "what a program keeps": "offsets show only in faults, the rest in the canonical text",
    "which program a text is": "each case that isn't refused by its text shows it",
    "parts of a source": "they are lines of listings: cases/exec and cases/compile",
    "numbers of names": "they are the order of declarations and stops in a listing: cases/compile",
}


class Case:
    """A source with its answer: the folder, the name, the tokens of the source, and the fault if it has one."""

    def __init__(self, file):
        self.folder = file.parent.name
        self.name = file.stem
        self.tokens = set()
        for found in TOKEN.finditer(file.read_bytes().decode("latin-1")):
            self.tokens.add(COMMENT if found["comment"] else found["word"] or found["sign"])
        answer = file.with_name(file.name + ".stdout")
        first = answer.read_bytes().split(b"\n", 1)[0].decode() if answer.is_file() else ""
        refused = re.match(r"source: (.*?)(?: at \d| declares|$)", first)
        self.fault = refused[1] if refused else ""

    def shows(self, section):
        """Whether it shows a section."""
        if section == "canonical text":
            return self.folder == "show" and not self.fault
        seen = SEEN[section]
        has_token = not self.tokens.isdisjoint(seen.tokens.split())
        return self.fault in seen.faults or has_token or re.search(seen.names, self.name) is not None


def sections():
    """The sections of the page, but for those that only introduce others."""
    headings = re.findall(r"^###? (.+)$", PAGE.read_text(encoding="utf-8"), re.M)
    return [name for name in headings if name not in ("Tokens", "Grammar", "Links")]


def main():
    cases = [Case(file) for folder in FOLDERS for file in sorted(TOP.glob(f"cases/{folder}/*.loft"))]
    on_page = sections()
    unknown = [name for name in on_page if name.lower() not in {*SEEN, *UNSEEN}]
    gone = [name for name in [*SEEN, *UNSEEN] if name not in map(str.lower, on_page)]
    faults = collections.Counter(case.fault for case in cases)
    tokens = collections.Counter(token for case in cases for token in case.tokens)
    without = []
    print(f"{'section':34}" + "".join(f"{folder:>7}" for folder in FOLDERS))
    for name in on_page:
        key = name.lower()
        if key not in SEEN:
            continue
        counts = [sum(case.folder == folder and case.shows(key) for case in cases) for folder in FOLDERS]
        print(f"{name:34}" + "".join(f"{count:7}" for count in counts))
        lacking = [it for it in SEEN[key].faults if not faults[it]]
        lacking += [it for it in SEEN[key].tokens.split() if not tokens[it]]
        if lacking:
            print(f"    no case has: {', '.join(lacking)}")
        if not any(counts):
            without.append(name)
    print("sections without a case:", ", ".join(without) or "none")
    for key, why in UNSEEN.items():
        print(f"not seen by names, words or answers: {key} ({why})")
    for name in unknown:
        print(f"the section {name} has no row in SEEN")
    for name in gone:
        print(f"{name} is no section of the page")
    return 1 if unknown or gone else 0


if __name__ == "__main__":
    sys.exit(main())
