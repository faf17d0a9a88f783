#!/usr/bin/env python3
"""What a program does with a file that gets shorter while it is read: shrinks.py PROGRAM.

The program is stopped at each call of the system until it has read a part of the file and not all; then the file is cut,
and the program goes on. So no clock decides when it is cut. The answer has to be the one for the bytes that could be read
(docs/COMMANDS.md, "Words"). Each difference is told, and the status is 1 where there is one. Where the system lets nobody
stop a program so, nothing is tried."""

import contextlib
import ctypes
import os
import pathlib
import re
import signal
import subprocess
import sys
import tempfile

TOP = pathlib.Path(__file__).resolve().parent.parent
SOURCE = TOP / "crates/loft_app/data/two_prints.loft"
REPORT = TOP / "crates/loft_app/stdout"
SECONDS = 60
TRACE_ME, NEXT_CALL, LET_GO = 0, 24, 17
LONG = 200_000
PRINTS = 'scheduler A; module m() in A %s end start A.m();' % (f'print "{"x" * 100}"; ' * 2000)
READS_TWICE = "import os, sys; file = os.open(sys.argv[1], os.O_RDONLY); os.read(file, 10); os.read(file, 10)"

libc = ctypes.CDLL(None)
libc.ptrace.argtypes = [ctypes.c_long, ctypes.c_long, ctypes.c_void_p, ctypes.c_void_p]
libc.ptrace.restype = ctypes.c_long


def start(words, output):
    """Starts a program that is stopped where it begins; None where the system refuses that."""
    child = os.fork()
    if child == 0:
        try:
            os.dup2(output, 1)
            signal.alarm(SECONDS)
            if libc.ptrace(TRACE_ME, 0, None, None) == 0:
                os.execv(words[0], words)
        finally:
            os._exit(99)
    _, status = os.waitpid(child, 0)
    return child if os.WIFSTOPPED(status) else None


def position(child, file):
    """How many bytes of the file the program has read; 0 where it isn't open."""
    for number in os.listdir(f"/proc/{child}/fd"):
        with contextlib.suppress(FileNotFoundError):
            if os.readlink(f"/proc/{child}/fd/{number}") == str(file):
                told = pathlib.Path(f"/proc/{child}/fdinfo/{number}").read_text()
                return int(re.search(r"^pos:\s*(\d+)", told, re.MULTILINE)[1])
    return 0


def go_into(child, file):
    """Lets the program go on until it has read a part of the file and not all, and gives how many bytes that are; None
    where it has ended before."""
    size = file.stat().st_size
    while libc.ptrace(NEXT_CALL, child, None, None) == 0:
        _, status = os.waitpid(child, 0)
        if not os.WIFSTOPPED(status):
            return None
        read = position(child, file)
        if 0 < read < size:
            return read
    return None


def cut(words, file, length_of):
    """How a program ends whose file is cut while it is read, to a length that depends on how many bytes were read: the
    status, the answer, and how many bytes could be read. None where it couldn't be stopped in the midst of the file."""
    with tempfile.TemporaryFile() as output:
        child = start(words, output.fileno())
        read = child and go_into(child, file)
        if not read:
            return None
        length = length_of(read)
        os.truncate(file, length)
        libc.ptrace(LET_GO, child, None, None)
        _, status = os.waitpid(child, 0)
        output.seek(0)
        return os.waitstatus_to_exitcode(status), output.read(), max(read, length)


# The lengths to which a file is cut.
LENGTHS = {"to nothing": lambda read: 0, "to what was read": lambda read: read, "to 100 bytes more": lambda read: read + 100}


class Tried:
    """A program, and what it answers of files that are cut."""

    def __init__(self, program, room):
        self.program, self.room, self.failed = program, room, False

    def answer(self, *words):
        """The answer of the program, where no file is cut."""
        return subprocess.run([self.program, *words], stdout=subprocess.PIPE, timeout=SECONDS).stdout

    def tell(self, what):
        print(f"{self.program.name}: {what}")
        self.failed = True

    def wants(self, words, contents, expected):
        """Cuts the file in the place of `FILE` in these words. `expected` gives the status and the answer by what could be
        read of its contents."""
        file = self.room / "cut"
        for name, length_of in LENGTHS.items():
            what = f"{' '.join(words)}, cut {name}".replace(f"{TOP}/", "").replace(f"{self.room}/", "")
            file.write_bytes(contents)
            ended = cut([self.program, *(str(file) if word == "FILE" else word for word in words)], file, length_of)
            if ended is None:
                self.tell(f"{what}: it isn't read in parts")
            elif ended[:2] != expected(contents[: ended[2]]):
                self.tell(f"{what}: the answer is {ended[1][:60]}, with the status {ended[0]}")


def lines_of(text):
    return text.count(b"\n")


def try_all(tried):
    """Cuts the file of each command."""
    source, report = str(SOURCE), str(REPORT)
    prints = tried.room / "prints.loft"
    prints.write_text(PRINTS)
    listing, long_report = tried.answer("compile", str(prints)), tried.answer("run", str(prints))
    # A source with many blanks, and at its end a byte that isn't one of a source.
    long_source = SOURCE.read_bytes().ljust(LONG) + b"#"
    (tried.room / "long").write_bytes(long_source)
    if tried.answer("check", str(tried.room / "long")) != b"source: bad byte at %d\n" % LONG:
        tried.tell("check of a long source")
    for command in ["run", "show", "check", "compile", "bound", "expand"]:
        whole = tried.answer(command, source)
        tried.wants([command, "FILE"], long_source, lambda read: (0, whole))
    tried.wants(["exec", "FILE"], listing, lambda read: (3, b"listing: line %d\n" % (lines_of(read) + 1)))
    tried.wants(["replay", "FILE", report], long_source, lambda read: (0, b"ok\n"))
    for only in [], ["--only", "A"]:
        tried.wants(["replay", str(prints), "FILE", *only], long_report, lambda read: (4, b"log: ends at byte %d\n" % len(read)))


def can_stop(room):
    """Whether the system lets a program be stopped in the midst of a file."""
    file = room / "probe"
    file.write_bytes(bytes(100))
    return cut([sys.executable, "-c", READS_TWICE, str(file)], file, lambda read: read) is not None


def main():
    program = pathlib.Path(sys.argv[1]).resolve()
    with tempfile.TemporaryDirectory() as name:
        room = pathlib.Path(name).resolve()
        if not can_stop(room):
            print(f"{program.name}: files that are cut while they are read: skipped, no program can be stopped here")
            return 0
        tried = Tried(program, room)
        try_all(tried)
    if not tried.failed:
        print(f"{program.name}: files that are cut while they are read are answered as docs/COMMANDS.md says")
    return 1 if tried.failed else 0


if __name__ == "__main__":
    sys.exit(main())
