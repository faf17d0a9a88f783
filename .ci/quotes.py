#!/usr/bin/env python3
"""Tells of sources and answers on the pages that aren't those of the files they are quoted from.

A fenced block is one of these:

- one whose fence has a word of EXEMPT, as `sh` for commands: it isn't compared;
- one after a line `<!-- FILE -->`: its lines stand in that file, in this order;
- one that begins with `$ loft COMMAND SOURCE OPTION ..`: the rest is the stored answer. It lies
  beside the source, or in cases/COMMAND where the source is named without a folder, and its
  options are those of SOURCE.args. For `gen` it is that of the case in cases/gen with these words,
  and for a text with locks, NAME.locks, the source NAME.loft that `expand` prints of it. For `replay` of
  SOURCE and SOURCE.stdout it is `ok`, and with `--only` the block of the scheduler in that report.

In the last two a line `..` stands for lines that are left out; all others follow one another.

A table after a line `<!-- lines of FILE -->` explains lines of that file: each code in its first
column is one of them. After `<!-- all lines of FILE -->` they are all of them, in this order."""

import pathlib
import re
import sys

from stored import block_of

TOP = pathlib.Path(__file__).resolve().parent.parent
PAGES = ["*.md", "docs/*.md", "cases/*.md", "editors/*.md", "examples/*.md", "view/*.md"]
EXEMPT = {"sh", "grammar", "edit", "mermaid"}
FENCE = "```"
MARK = re.compile(r"<!-- ([^ ]+) -->")
LINES_MARK = re.compile(r"<!-- (all )?lines of ([^ ]+) -->")
CODE = re.compile(r"`([^`]+)`")
LEFT_OUT = ".."


class Stale(Exception):
    """Why a quote isn't what its file says."""


def lines_of(name):
    """The lines of a file that is named from the top."""
    file = TOP / name
    if not file.is_file():
        raise Stale(f"there is no {name}")
    return file.read_text(encoding="utf-8").splitlines()


def runs_of(quoted):
    """The runs of lines between the lines that say that some are left out."""
    runs = [[]]
    for line in quoted:
        if line == LEFT_OUT:
            runs.append([])
        else:
            runs[-1].append(line)
    return runs


def find(run, lines, start):
    """The index after the first place at which a run of lines stands, from an index on."""
    for at in range(start, len(lines) - len(run) + 1):
        if lines[at:at + len(run)] == run:
            return at + len(run)
    raise Stale(f"these lines don't stand there in this order, from {run[0]!r} on")


def ask_order(quoted, lines):
    """Whether the quoted lines stand among these, in this order."""
    end = 0
    for run in runs_of(quoted):
        end = find(run, lines, end)


def ask_whole(quoted, lines):
    """Whether the quoted lines are all of these, but for those that are left out."""
    first, last = runs_of(quoted)[0], runs_of(quoted)[-1]
    if LEFT_OUT not in quoted and quoted != lines:
        raise Stale("the answer is another one")
    if lines[:len(first)] != first:
        raise Stale("the answer begins otherwise")
    if last and lines[-len(last):] != last:
        raise Stale("the answer ends otherwise")
    ask_order(quoted, lines)


def ask_answer(command, source, options, quoted):
    """Whether a block is the stored answer of a command."""
    if command == "gen":
        ask_made([source, *options], quoted)
        return
    if command == "expand" and source.endswith(".locks"):
        ask_whole(quoted, lines_of(source[: -len(".locks")] + ".loft"))
        return
    if command == "replay":
        ask_replayed(source, options, quoted)
        return
    name = source if "/" in source else f"cases/{command}/{source}"
    lines_of(name)
    further = TOP / f"{name}.args"
    wanted = further.read_text().split() if further.is_file() else []
    if options != wanted:
        raise Stale(f"the options of {name} are {wanted}, not {options}")
    ask_whole(quoted, lines_of(f"{name}.stdout"))


def ask_replayed(source, words, quoted):
    """Whether a block is what `replay` prints of the stored report of a source."""
    report, *only = words
    if report != f"{source}.stdout" or (only and (len(only) != 2 or only[0] != "--only")):
        raise Stale(f"the words are those of no report of {source}")
    text = "\n".join([*lines_of(report), ""]).encode()
    ask_whole(quoted, block_of(text, only[1].encode()).decode().splitlines() if only else ["ok"])


def ask_made(words, quoted):
    """Whether a block is the stored answer of `gen` with these words."""
    cases = [it for it in sorted(TOP.glob("cases/gen/*.words")) if it.read_text().split() == words]
    if not cases:
        raise Stale(f"there is no case of gen with the words {words}")
    ask_whole(quoted, lines_of(f"cases/gen/{cases[0].name}.stdout"))


def ask_block(word, before, block):
    """Whether a fenced block is what it may be, with the word of its fence and the line before it."""
    mark = MARK.fullmatch(before)
    words = block[0].split() if block else []
    if word in EXEMPT:
        return
    if mark:
        ask_order(block, lines_of(mark[1]))
    elif words[:2] == ["$", "loft"] and len(words) > 3:
        ask_answer(words[2], words[3], words[4:], block[1:])
    else:
        raise Stale("the block doesn't say what it is quoted from")


def ask_table(is_all, name, rows):
    """Whether the codes in the first column of a table are lines of a file."""
    lines = lines_of(name)
    codes = [code for row in rows for code in CODE.findall(row.split("|")[1])]
    for code in codes:
        if code not in lines:
            raise Stale(f"{name} has no line {code!r}")
    if is_all and codes != lines:
        raise Stale(f"the table doesn't have the lines of {name} in order, and no others")


def block_ends(lines, start):
    """The index of the fence that closes the block whose first line has this index."""
    return next((at for at in range(start, len(lines)) if lines[at].startswith(FENCE)), len(lines))


def table_ends(lines, start):
    """The index after the table whose first line has this index."""
    return next((at for at in range(start, len(lines)) if not lines[at].startswith("|")), len(lines))


def quotes(lines):
    """The number of the first line of each quote of a page, and what asks it."""
    at = 0
    while at < len(lines):
        line, mark = lines[at], LINES_MARK.fullmatch(lines[at])
        if line.startswith(FENCE):
            end = block_ends(lines, at + 1)
            before = lines[at - 1] if at else ""
            yield at + 1, ask_block, (line[len(FENCE):].strip(), before, lines[at + 1:end])
            at = end + 1
        elif mark:
            end = table_ends(lines, at + 1)
            yield at + 1, ask_table, (mark[1], mark[2], lines[at + 1:end])
            at = end
        else:
            at += 1


def main():
    count = stale = 0
    for page in sorted(page for pages in PAGES for page in TOP.glob(pages)):
        for number, ask, words in quotes(page.read_text(encoding="utf-8").splitlines()):
            count += 1
            try:
                ask(*words)
            except Stale as why:
                print(f"{page.relative_to(TOP)}:{number}: {why}")
                stale += 1
    print(f"quotes on the pages: {count}, of which stale: {stale}")
    return 1 if stale else 0


if __name__ == "__main__":
    sys.exit(main())
