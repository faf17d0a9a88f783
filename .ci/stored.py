"""Texts that are stored beside sources, and parts of reports."""

import functools
import re

REPEATED = re.compile(rb"([0-9]+) x (.*)")
NUMBER = re.compile(rb"\{([0-9]*)\}")


def by_rule(rule):
    """The answer for which a rule stands."""
    lines = []
    rest = iter(rule.split(b"\n")[:-1])
    for line in rest:
        repeated = REPEATED.fullmatch(line)
        if not repeated:
            lines.append(line)
        elif repeated[2] == b"(":
            lines += list(iter(lambda: next(rest), b")")) * int(repeated[1])
        else:
            lines += [numbered(repeated[2], at) for at in range(int(repeated[1]))]
    return b"".join(line + b"\n" for line in lines)


def numbered(text, at):
    """A text with numbers in place of those in braces, each larger by this one."""
    return NUMBER.sub(lambda number: b"%d" % (int(number[1] or 0) + at), text)


@functools.cache
def stored(source, ending):
    """What stands beside a source, in a file or by a rule, or None."""
    file = source.with_name(source.name + ending)
    if file.is_file():
        return file.read_bytes()
    rule = file.with_name(file.name + ".rule")
    return by_rule(rule.read_bytes()) if rule.is_file() else None


def block_of(report, name):
    """The block of a scheduler in a report, as it stands there."""
    lines = report.splitlines(keepends=True)
    first = lines.index(b"scheduler %s\n" % name)
    after = next(at for at in range(first + 1, len(lines)) if lines[at].startswith((b"scheduler ", b"left ")))
    return b"".join(lines[first:after])


def schedulers_of(report):
    """The names of the schedulers whose blocks a report has."""
    return [line[10:] for line in report.split(b"\n") if line.startswith(b"scheduler ")]


def without_last_choice(report):
    """A report without its last choice, and the number of that; None where it has none."""
    lines = report.splitlines(keepends=True)
    at = next(at for at, line in enumerate(lines) if line.startswith(b"history "))
    count = int(lines[at].split()[1])
    if count == 0:
        return None
    return b"".join([*lines[:at], b"history %d\n" % (count - 1), *lines[at + 1 : at + count], *lines[at + count + 1 :]]), count
