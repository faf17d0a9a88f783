#!/usr/bin/env python3
"""Runs each case through each of the programs that are named: cases.py PROGRAM ..

A folder in cases/ has the name of its command; the sources in examples/ and docs/tutorial/ are run.
NAME.loft is the source, NAME.loft.args has further words, one a line, where there are any, and
NAME.loft.stdout is all that the command has to print; the status follows from the first word of
that (docs/COMMANDS.md). A case passes where each program gives both exactly. NAME.loft.stdout.rule
stands for a long answer: a line `N x TEXT` is N lines, TEXT with the numbers from 0 to N - 1 in place of
`{}`, and those from K on in place of `{K}`; a line `N x (` is the lines up to the next line `)`, N times;
every other line stands for itself, and all end with a line feed.

Where several actors made entries of a stored report, its history is one of those that a run may have: such a source
passes where the report that the program prints is replayed by the source, which says `ok`. A report whose entries are
all of one scheduler is that of every run, and compared byte for byte.

In the folder `exec` NAME.listing stands for NAME.loft, and in the folder `gen` NAME.words has the words, one a line, in place of a
source. Each source in `run` that has a report is compiled, too, and `exec`
of its listing has to print that report.

In `examples` and `docs/tutorial` NAME.locks is a text with locks, and NAME.loft is what `expand` has to print of it:
a source like the others, which is run.

In the folder `replay` NAME.loft.report (or a rule, NAME.loft.report.rule) is the report that is replayed by
NAME.loft. Where the answer is `ok`, it is replayed without its last choice too, and then the entry in the place of that
isn't allowed. The table `changes.tsv` there has changes of one report: a text, what stands in its place,
the answer, and that for the block of `A`, between tabs; `block` is the block as the report has it. The same report is also
cut at each length, and altered at each of its bytes.

Each report of a run in `run`, `examples` and `docs/tutorial` is replayed by its source, which has to print `ok`; and so
is each block of it, which has to be printed as it stands there.

The folder `words` has a table instead: words, the status, and the first lines of the answer, between
tabs. Its words are written as for a shell, and are those of a program that is run in that folder."""

import concurrent.futures
import contextlib
import os
import pathlib
import re
import shlex
import subprocess
import sys
import tempfile

from stored import block_of, schedulers_of, stored, without_last_choice

TOP = pathlib.Path(__file__).resolve().parent.parent
COMMANDS = ["run", "show", "check", "compile", "bound", "expand", "exec", "gen", "replay"]
ENDINGS = {"exec": ".listing", "gen": ".words"}
WORDS = TOP / "cases/words"
TABLE = WORDS / "words.tsv"
CHANGED = TOP / "cases/replay/two_prints.loft"
CHANGES = CHANGED.with_name("changes.tsv")
STATUSES = {b"source:": 3, b"listing:": 3, b"locks:": 3, b"loft:": 2, b"log:": 4, b"files:": 5}
SECONDS = 300
ESCAPED = re.compile(rb"\\(?:(n)|(\\)|x([0-9a-f]{2}))")
FOLDERS = {**{f"cases/{it}": it for it in COMMANDS}, "examples": "run", "docs/tutorial": "run"}


def ending_of(command):
    """How the names of a command's files end."""
    return ENDINGS.get(command, ".loft")


def stored_answer(source):
    """The stored answer of a source, or None."""
    return stored(source, ".stdout")


def has_report(source):
    """Whether the stored answer of a source is a report."""
    answer = stored_answer(source)
    return answer is not None and status_of(answer) == 0


def unescaped(text):
    """A text of the table of changes, with the bytes for which its escapes stand."""
    return ESCAPED.sub(lambda it: b"\n" if it[1] else b"\\" if it[2] else bytes([int(it[3], 16)]), text)


def status_of(answer):
    """The status that goes with an answer."""
    return STATUSES.get(answer.split(b" ", 1)[0], 0)


def difference(wrote, wanted):
    """What sets one answer apart from another."""
    at = next((i for i, (a, b) in enumerate(zip(wrote, wanted)) if a != b), min(len(wrote), len(wanted)))
    line = wanted[:at].count(b"\n") + 1
    return f"the answer differs at byte {at}, line {line}: {wrote[at:at + 60]!r}, not {wanted[at:at + 60]!r}"


def ended(program, words, folder):
    """How a program ends that is run with these words in a folder."""
    return subprocess.run([program, *words], cwd=folder, stdin=subprocess.DEVNULL, capture_output=True, timeout=SECONDS)


@contextlib.contextmanager
def as_file(text, ending):
    """The name of a file that has this text."""
    with tempfile.NamedTemporaryFile(suffix=ending) as file:
        file.write(text)
        file.flush()
        yield file.name


def replayed(program, source, report, words):
    """How `replay` ends for a source, the text of a report, and further words."""
    with as_file(report, ".report") as name:
        return ended(program, ["replay", str(source), name, *words], TOP)


def choices_of(report):
    """The choices in the head of a report, as lines."""
    lines = report.splitlines(keepends=True)
    at, count = next((at, int(it.split()[1])) for at, it in enumerate(lines) if it.startswith(b"history "))
    return lines[at + 1 : at + 1 + count]


def is_of_one_scheduler(report):
    """Whether every run of the same source has this history: all entries are those of one scheduler."""
    actors = {tuple(choice.replace(b"give", b"take").split()) for choice in choices_of(report)}
    return len(actors) < 2 and all(kind == b"take" for kind, _ in actors)


def why_not_replayed(program, source, report):
    """Why a text isn't the report of a whole run of a source, or None."""
    if status_of(report) != 0:
        return f"the answer is no report: {report[:60]!r}"
    said = replayed(program, source, report, []).stdout
    return None if said == b"ok\n" else f"of its report, replay says {said[:60]!r}"


class Source:
    """A source or a listing with the answer of a command."""

    def __init__(self, source, command):
        self.source = source
        self.command = command
        self.name = str(source.relative_to(TOP))

    def beside(self, ending):
        return self.source.with_name(self.source.name + ending)

    def wanted(self):
        """All that has to be printed, or None where that isn't stored."""
        return stored_answer(self.source)

    def failure(self, program):
        """Why the case fails, or None."""
        wanted = self.wanted()
        if wanted is None:
            return f"there is no {self.source.name}.stdout"
        ran = self.ran(program)
        if ran.returncode != status_of(wanted):
            return f"the status is {ran.returncode}, not {status_of(wanted)}"
        if self.is_run() and status_of(wanted) == 0 and not is_of_one_scheduler(wanted):
            return why_not_replayed(program, self.source, ran.stdout)
        return None if ran.stdout == wanted else difference(ran.stdout, wanted)

    def is_run(self):
        """Whether the source is run, by itself or by its listing."""
        return self.command == "run"

    def further(self):
        """The further words of the command."""
        words = self.beside(".args")
        return words.read_text().split("\n")[:-1] if words.is_file() else []

    def ran(self, program):
        """How the program ends for this case."""
        return ended(program, [self.command, self.name, *self.further()], TOP)


class Made(Source):
    """Words of a command that reads no file."""

    def ran(self, program):
        """How the program ends for these words."""
        return ended(program, [self.command, *self.source.read_text().split("\n")[:-1]], TOP)


class Listed(Source):
    """A source whose listing is run in its place."""

    def __init__(self, source, command):
        super().__init__(source, command)
        self.name = f"{self.name}, by its listing"

    def ran(self, program):
        """How `exec` ends for the listing that `compile` prints."""
        listing = ended(program, ["compile", str(self.source)], TOP).stdout
        with as_file(listing, ".listing") as name:
            return ended(program, ["exec", name, *self.further()], TOP)


class Expanded(Source):
    """A text with locks beside the source that it stands for."""

    def __init__(self, source):
        super().__init__(source, "expand")

    def failure(self, program):
        """Why the case fails, or None."""
        wanted = self.source.with_suffix(".loft")
        if not wanted.is_file():
            return f"there is no {wanted.name}"
        ran = self.ran(program)
        if ran.stdout != wanted.read_bytes():
            return difference(ran.stdout, wanted.read_bytes())
        return None if ran.returncode == 0 else f"the status is {ran.returncode}, not 0"


class Replayed(Source):
    """A source of a run by which its own report is replayed: all of it, or the block of a scheduler."""

    def __init__(self, source, only=None):
        super().__init__(source, "replay")
        self.only = only
        self.name = f"{self.name}, its report" if only is None else f"{self.name}, its block of {only.decode()}"

    def wanted(self):
        """`ok`, or the block as it stands in the report."""
        return b"ok\n" if self.only is None else block_of(stored_answer(self.source), self.only)

    def ran(self, program):
        """How `replay` ends for the stored report."""
        words = [] if self.only is None else ["--only", self.only.decode()]
        return replayed(program, self.source, stored_answer(self.source), words)


class Replay(Source):
    """A source by which the report beside it is replayed."""

    def report(self):
        """The report, or None."""
        return stored(self.source, ".report")

    def failure(self, program):
        """Why the case fails, or None."""
        return super().failure(program) if self.report() is not None else f"there is no {self.source.name}.report"

    def ran(self, program):
        """How `replay` ends."""
        return replayed(program, self.source, self.report(), self.further())


class Unfinished(Replay):
    """The same with a report that lacks its last choice."""

    def __init__(self, source, command):
        super().__init__(source, command)
        self.name = f"{self.name}, without its last choice"
        self.shorter, self.count = without_last_choice(super().report())

    def wanted(self):
        """The entry in the place of that choice isn't allowed."""
        return b"log: entry %d not allowed\n" % self.count

    def report(self):
        """The report that lacks the choice."""
        return self.shorter


class Altered(Replay):
    """The report of two prints, altered: it is replayed whole or for the block of `A`."""

    def __init__(self, name, altered, answer, only):
        super().__init__(CHANGED, "replay")
        self.altered, self.answer = altered, answer
        self.words = ["--only", "A"] if only else []
        self.name = f"{name}{', its block' if only else ''}"

    def wanted(self):
        """The answer that goes with the alteration."""
        return self.answer

    def report(self):
        """The altered report."""
        return self.altered

    def further(self):
        """The option, where it is for the block."""
        return self.words


def change(number, line, only):
    """A row of the table of changes."""
    old, new, *answers = line.split(b"\t")
    changed = stored(CHANGED, ".report").replace(unescaped(old), unescaped(new), 1)
    answer = block_of(changed, b"A") if answers[only] == b"block" else answers[only] + b"\n"
    return Altered(f"{CHANGES.relative_to(TOP)}, line {number}", changed, answer, only)


def cut_and_spoilt(only):
    """The report cut at each length, and with each byte in turn replaced by one that no report has."""
    report = stored(CHANGED, ".report")
    for at in range(len(report)):
        line = report[:at].count(b"\n") + 1
        yield Altered(f"a report cut to {at} bytes", report[:at], b"log: ends at byte %d\n" % at, only)
        spoilt = report[:at] + b"\x07" + report[at + 1 :]
        yield Altered(f"a report with byte {at} spoilt", spoilt, b"log: line %d, byte %d\n" % (line, at), only)


class Row:
    """A row of the table of words."""

    def __init__(self, number, line):
        words, status, *self.lines = line.split("\t")
        self.words = shlex.split(words)
        self.status = int(status)
        self.name = f"words, line {number}"

    def failure(self, program):
        """Why the row fails, or None."""
        ran = ended(program, self.words, WORDS)
        lines = ran.stdout.decode().split("\n")[: len(self.lines)]
        if (ran.returncode, lines) != (self.status, self.lines):
            return f"the status is {ran.returncode} and the answer begins {lines}, not {self.status} and {self.lines}"
        return None


def source_name(file):
    """The name of the source to which a file of a case belongs."""
    if file.suffix == ".locks":
        return file.with_suffix(".loft").name
    return re.sub(r"\.(args|(report|stdout)(\.rule)?)$", "", file.name)


def strays():
    """Files of the cases that belong to no case."""
    folders = [*TOP.glob("cases/*"), TOP / "examples", TOP / "docs/tutorial"]
    for file in sorted(file for folder in folders if folder != WORDS for file in folder.glob("*")):
        name = source_name(file)
        command = FOLDERS.get(str(file.parent.relative_to(TOP)))
        is_source = command is not None and name.endswith(ending_of(command))
        is_known = file == CHANGES or file.name == "README.md" or is_source
        if not is_known or not file.with_name(name).is_file():
            yield f"{file.relative_to(TOP)}: it belongs to no case"
        elif ".report" in file.suffixes and command != "replay":
            yield f"{file.relative_to(TOP)}: no report is read here"
        elif file.suffix == ".rule" and file.with_suffix("").is_file():
            yield f"{file.relative_to(TOP)}: its text is stored too"


def replays():
    """The cases of `replay`: the stored ones, the alterations of a report, and the reports of runs."""
    for source in sorted(TOP.glob("cases/replay/*.loft")):
        if source == CHANGED:
            continue
        yield Replay(source, "replay")
        if stored_answer(source) == b"ok\n" and without_last_choice(stored(source, ".report")):
            yield Unfinished(source, "replay")
    for number, line in enumerate(CHANGES.read_bytes().split(b"\n")[:-1], 1):
        yield from (change(number, line, only) for only in (0, 1))
    yield from (case for only in (0, 1) for case in cut_and_spoilt(only))
    runs = [it for folder, command in FOLDERS.items() if command == "run" for it in sorted(TOP.glob(f"{folder}/*.loft"))]
    for source in filter(has_report, runs):
        yield Replayed(source)
        yield from (Replayed(source, name) for name in schedulers_of(stored_answer(source)))


def failures_of(programs, case):
    """Why a case fails, for each of the programs with which it does."""
    lines = []
    for program in programs:
        try:
            why = case.failure(program)
        except subprocess.TimeoutExpired:
            why = f"it had not ended after {SECONDS} seconds"
        if why:
            lines.append(f"{case.name} ({pathlib.Path(program).name}): {why}")
    return lines


def main(programs):
    programs = [str(pathlib.Path(it).resolve()) for it in programs]
    lacking = [f"{it}: there is no such program" for it in programs if not pathlib.Path(it).is_file()]
    if lacking or not programs:
        print(*lacking, "0 passed, 1 failed", sep="\n")
        return 1
    plain = [(folder, command) for folder, command in FOLDERS.items() if command != "replay"]
    cases = [(Made if command == "gen" else Source)(it, command) for folder, command in plain for it in sorted(TOP.glob(f"{folder}/*{ending_of(command)}"))]
    cases += [Listed(it, "run") for it in sorted(TOP.glob("cases/run/*.loft")) if has_report(it)]
    cases += [Expanded(it) for folder in ("examples", "docs/tutorial") for it in sorted(TOP.glob(f"{folder}/*.locks"))]
    cases += [Row(number, line) for number, line in enumerate(TABLE.read_text().split("\n")[:-1], 1)]
    cases += replays()
    with concurrent.futures.ThreadPoolExecutor(os.cpu_count()) as pool:
        found = list(pool.map(lambda case: failures_of(programs, case), cases))
    others = list(strays())
    failed = sum(map(bool, found)) + len(others)
    lines = [line for lines in found for line in lines] + others
    print(*lines, f"{len(cases) + len(others) - failed} passed, {failed} failed", sep="\n")
    return 1 if failed else 0


if __name__ == "__main__":
    sys.exit(main(sys.argv[1:]))
