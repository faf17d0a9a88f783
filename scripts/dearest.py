#!/usr/bin/env python3
"""Prints the functions of a crate that took longest to prove.

    scripts/dearest.py CRATE [COUNT]

It reads what a check from nothing left in crates/CRATE/out/incremental: each module of a proof is
saved as it is checked, so the time between two files is what the later one took. For exact times
remove that folder, and check by `rt check --jobs 1`; where several jobs ran, or other programs
beside it, the order of the functions is right and the seconds are rough.

A row has the seconds of a function, what it left in megabytes, its name, and which kinds of modules
took most of it: Lts are the steps of the code (many exits among live values, drops), Proof is the
search for goals without an answer, Answers and Invariants are what is written in proofs/."""

import collections
import pathlib
import re
import sys

TOP = pathlib.Path(__file__).resolve().parent.parent
PAUSE = 120.0  # seconds: a longer gap lies between two checks
NAME = re.compile(r"Rattle-\w+?[-.](?:specs|proofs|below|checked)?\.?(.*)")
KINDS = {"Code", "Lts", "Goals", "Given", "TheLaws", "TheInside", "TheImpl", "TheLinks", "Mir"}
NUMBERED = re.compile(r"-[\d-]+$")


def modules(folder):
    """The modules that a check saved, in the order of time: seconds since the one before, name, bytes."""
    files = []
    for file in folder.rglob("*.oantt"):
        seen = file.stat()
        files.append((seen.st_mtime_ns / 1e9, file.name[:-len(".oantt")], seen.st_size))
    files.sort()
    for before, (time, name, size) in zip([files[0], *files], files):
        gap = time - before[0]
        yield gap if gap < PAUSE else 0.0, name, size


def function_of(name):
    """The function that a module belongs to, and the kind of the module."""
    found = NAME.fullmatch(re.sub(r"\.decls$", "", name))
    parts = (found[1] if found else name).split(".")
    kind = NUMBERED.sub("", parts[-1])
    rest = parts[:-1]
    while rest and rest[-1] in KINDS:
        kind = rest.pop()
    return ".".join(rest) or "(the crate)", kind


def main():
    if len(sys.argv) not in (2, 3):
        sys.exit(__doc__.split("\n\n")[1].strip())
    folder = TOP / "crates" / sys.argv[1] / "out" / "incremental"
    most = int(sys.argv[2]) if len(sys.argv) == 3 else 20
    if not any(folder.rglob("*.oantt")):
        sys.exit(f"{folder.relative_to(TOP)}: no check has left anything there")
    seconds, sizes, kinds = collections.Counter(), collections.Counter(), {}
    for gap, name, size in modules(folder):
        function, kind = function_of(name)
        seconds[function] += gap
        sizes[function] += size
        kinds.setdefault(function, collections.Counter())[kind] += gap
    print(f"{sum(seconds.values()):8.1f} s {sum(sizes.values()) / 1e6:7.1f} MB all of {sys.argv[1]}")
    for function, time in seconds.most_common(most):
        parts = " ".join(f"{kind}={part:.1f}" for kind, part in kinds[function].most_common(3))
        print(f"{time:8.1f} s {sizes[function] / 1e6:7.1f} MB {function}  {parts}")


if __name__ == "__main__":
    main()
