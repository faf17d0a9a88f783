#!/usr/bin/env python3
"""Runs large sources again and again, and replays each report by its source: soak.py PROGRAM [SECONDS] [SEED]

PROGRAM is crates/loft_app/out/loft_app, which `.ci/run` builds. Each source has 16 schedulers, 16 clients and 1,008 threads
that go from scheduler to scheduler and through the workers, of which there are 16; which way they go, and what the clients
order, is chosen at random by the seed. A run passes where the status is 0 and `replay` says `ok` of its report: it is the
report of the history that its head names, and that history has ended. For 600 seconds, or so many. The last line says what
was done, and the status is 1 where a run failed. It stands outside the gate."""

import random
import subprocess
import sys
import tempfile
import time

MANY = 16
EACH = 63
OPTIONS = ["--instants", "60", "--workers", str(MANY)]


def walk(pick, s):
    """A module whose threads begin and end at a scheduler, and go round others and through workers."""
    body, place = [], s
    for _ in range(pick.randint(2, 5)):
        if pick.random() < 0.4:
            body.append(f"unlink; broadcast e{pick.randrange(MANY)}, k;")
            place = None
        place = pick.choice([it for it in range(MANY) if it != place])
        body.append(f"link S{place};")
        if pick.random() < 0.3:
            body.append("n = n + k; cooperate;")
    if place != s:
        body.append(f"link S{s};")
    lines = "".join(f"    {it}\n" for it in body)
    return f"module walk{s}(int k) in S{s}\n  local int n;\n  repeat ({pick.randint(2, 6)}) do\n{lines}  end\n  x{s} = x{s} + n;\nend\n"


def order(pick):
    """An order of a client."""
    kind, s = pick.randrange(4), pick.randrange(MANY)
    if kind == 0:
        return f"create S{s}.walk{s}({pick.randint(1, 9)});"
    if kind == 1:
        return f"broadcast e{s}, {pick.randint(-9, 9)};"
    return f"{('suspend', 'resume')[kind - 2]} t{pick.randrange(MANY * EACH)} in S{s};"


def source_of(seed):
    """The source of a seed."""
    pick = random.Random(seed)
    parts = [f"scheduler S{s};\n" for s in range(MANY)]
    parts += [f"event e{s} in S{s};\nshared x{s} in S{s} = 0;\n" for s in range(MANY)]
    parts += [walk(pick, s) for s in range(MANY)]
    parts += [f"start S{n % MANY}.walk{n % MANY}({pick.randint(1, 9)}) as t{n};\n" for n in range(MANY * EACH)]
    parts += [f"outside c{c} {{ {' '.join(order(pick) for _ in range(pick.randint(1, 20)))} }}\n" for c in range(MANY)]
    return "".join(parts)


def ended(words):
    """How a program ends."""
    return subprocess.run(words, stdin=subprocess.DEVNULL, capture_output=True)


def choices_of(report):
    """The choices in the head of a report, as lines."""
    lines = report.splitlines(keepends=True)
    at, count = next((at, int(it.split()[1])) for at, it in enumerate(lines) if it.startswith(b"history "))
    return lines[at + 1 : at + 1 + count]


def fault(program, source, report):
    """What is wrong with a report, or None."""
    with tempfile.NamedTemporaryFile(suffix=".report") as file:
        file.write(report)
        file.flush()
        said = ended([program, "replay", source, file.name]).stdout
    return None if said == b"ok\n" else f"replay says {said[:60]!r}"


def main(program, seconds=600, seed=1):
    runs = entries = failed = 0
    histories, longest, taken = set(), 0, 0.0
    first = seed = int(seed)
    end = time.monotonic() + float(seconds)
    while time.monotonic() < end:
        with tempfile.NamedTemporaryFile(suffix=".loft") as file:
            file.write(source_of(seed).encode())
            file.flush()
            for again in range(8):
                begun = time.monotonic()
                ran = ended([program, "run", file.name, *OPTIONS])
                taken += time.monotonic() - begun
                runs += 1
                why = f"the status is {ran.returncode}" if ran.returncode else fault(program, file.name, ran.stdout)
                if why:
                    failed += 1
                    print(f"seed {seed}, run {again}: {why}", flush=True)
                    continue
                choices = choices_of(ran.stdout)
                entries += len(choices)
                longest = max(longest, len(choices))
                histories.add(hash((seed, b"".join(choices))))
        seed += 1
    print(f"{runs} runs of {seed - first} sources in {taken:.0f} seconds: {entries} entries, {longest} at most, {len(histories)} histories, {failed} failed")
    return 1 if failed else 0


if __name__ == "__main__":
    sys.exit(main(*sys.argv[1:]))
