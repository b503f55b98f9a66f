#!/usr/bin/env python3
"""Runs the gate's `rt ci` and writes docs/TIMES.md: the processor seconds that each crate's proof, tests and edits took.

    tools/times.py            runs rt ci, and writes the document if it passes
    tools/times.py NAME..     runs rt ci for these crates and those below them, and prints the rows alone

What a run of this machine passed before is kept by rt and not proved again. So the document is written on a machine that has
proved nothing of the repository yet, or after `rt ci --anew`. It is not written if some crate was not proved.

rt says no times, so this looks every second which checks run, and how much processor time each has used: a check that ends
between two looks loses less than a second. A check of an edit begins with what a check of the crate without it proved; that
one counts as the edits' too. What a test or a program takes to run is not counted.
"""
import os
import re
import subprocess
import sys
import threading
import time
from collections import defaultdict
from pathlib import Path

ROOT = Path(__file__).resolve().parent.parent
DOCUMENT = ROOT / "docs/TIMES.md"
TICKS = os.sysconf("SC_CLK_TCK")
KINDS = ("proof", "tests", "edits")
PASSED = re.compile(r"^\d+ passed, 0 failed", re.M)

HEAD = """# What a proof costs

Processor seconds for each crate in a gate from nothing: its proof, the proof of its tests, and its must-fail edits with the
check that they begin with. [tools/times.py](../tools/times.py) makes this page. After a change, the crates above the changed one are
proved again too: [tools/above.py](../tools/above.py) names them.

`rt ci` took {minutes:.0f} minutes on {processors} processors, and these checks {spent:.0f} minutes of processor time. [checks/run](../checks/run) comes
after it in the gate.

| crate | proof | tests | edits | sum |
|---|---:|---:|---:|---:|
"""


def crates():
    """The names of the crates, lowest layer first."""
    lines = (ROOT / "crates.txt").read_text(encoding="utf-8").splitlines()
    return [line.split(":")[0].split()[0] for line in lines if line.strip() and not line.startswith("#")]


def kind_of(words):
    """Which crate a command checks, and for what. None if it is no check."""
    if "--crate-name" not in words or os.path.basename(words[0]) != "rattle" or words[1] not in ("build", "check"):
        return None
    name = words[words.index("--crate-name") + 1]
    if any("/rt-edits-" in word for word in words):
        return name, "edits"
    return name, "tests" if "--test" in words else "proof"


def stat_of(process):
    """The process that began this one, and the processor seconds that it and those that it has waited for have used."""
    # (the name of the command, in brackets, may have spaces)
    fields = (process / "stat").read_text().rpartition(")")[2].split()
    return int(fields[1]), sum(int(used) for used in fields[11:15]) / TICKS


def look(top, seen):
    """Notes in seen, by process, what each check below the process top does and how many seconds it has used, with those below it."""
    parents, used, checks = {}, {}, {}
    for process in Path("/proc").iterdir():
        if not process.name.isdigit():
            continue
        try:
            parent, seconds = stat_of(process)
            words = (process / "cmdline").read_bytes().decode(errors="replace").split("\0")
        except OSError:
            # (it has ended)
            continue
        number = int(process.name)
        parents[number], used[number] = parent, seconds
        kind = kind_of(words) if len(words) > 1 else None
        if kind:
            checks[number] = kind
    sums = defaultdict(float)
    for number, seconds in used.items():
        # the check that all of this is a part of: the last one on the way to the top
        above, check = number, None
        while above in parents and above != top:
            check = above if above in checks else check
            above = parents[above]
        if above == top and check:
            sums[check] += seconds
    for number, seconds in sums.items():
        # (what a process has used is nobody's between its end and the wait for it)
        before = seen[number][1] if number in seen else 0
        seen[number] = checks[number], max(before, seconds)


def watch(top, seen, is_over):
    """Looks every second until it is over."""
    while not is_over.wait(1):
        look(top, seen)


def run(names):
    """Runs rt ci. Returns what it said, its status, and the seconds by crate and kind."""
    seen, is_over = {}, threading.Event()
    with subprocess.Popen(["rt", "ci", *names], cwd=ROOT, stdout=subprocess.PIPE, text=True) as gate:
        watcher = threading.Thread(target=watch, args=(gate.pid, seen, is_over))
        watcher.start()
        said = []
        for line in gate.stdout:
            print(line, end="", flush=True)
            said.append(line)
        gate.wait()
        is_over.set()
        watcher.join()
    seconds = defaultdict(float)
    for kind, used in seen.values():
        seconds[kind] += used
    return "".join(said), gate.returncode, seconds


def row(name, seconds):
    """The row of a crate."""
    used = [seconds.get((name, kind), 0) for kind in KINDS]
    return "| " + " | ".join([name, *(f"{it:.0f}" if it else "" for it in used), f"{sum(used):.0f}"]) + " |"


def main(names):
    begun = time.monotonic()
    said, status, seconds = run(names)
    rows = [row(name, seconds) for name in crates() if any((name, kind) in seconds for kind in KINDS)]
    if names:
        print("\n".join(rows))
    elif status == 0 and PASSED.search(said) and all((name, "proof") in seconds or (name, "tests") in seconds for name in crates()):
        sums = [sum(used for (_, kind), used in seconds.items() if kind == it) for it in KINDS]
        rows.append("| all | " + " | ".join(f"{it:.0f}" for it in [*sums, sum(sums)]) + " |")
        head = HEAD.format(processors=len(os.sched_getaffinity(0)), minutes=(time.monotonic() - begun) / 60, spent=sum(sums) / 60)
        DOCUMENT.write_text(head + "\n".join(rows) + "\n", encoding="utf-8")
    return status


if __name__ == "__main__":
    sys.exit(main(sys.argv[1:]))
