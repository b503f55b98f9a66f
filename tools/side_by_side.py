#!/usr/bin/env python3
"""Proves and builds programs with the libraries below them, as many crates at once as there are processors and memory for.

    tools/side_by_side.py crates/prestel_play crates/prestel

A library is built once those below it are, and what it leaves in its out/ is what `rt lib` would leave there: the words, the
locks and the checksums are rt's own. A program is built by `rt run` once all below it are, and its out/proved-from then has the
checksum of its sources (tools/sources). What an earlier program stands on goes before what only a later one does; of crates that
are ready, the one with the longest chain of crates above it goes first. If fewer are ready than there are processors, each
gets more than one job.

Standard error has a line for each crate, with how many are left. What rt says of a crate is in out/build.log of its folder;
standard output names this file of each crate that is not proved.
The environment's RT_JOBS is how many processors are used at most. The status is 0, or 1 if a crate is not proved.
"""
import os
import shutil
import subprocess
import sys
from concurrent.futures import FIRST_COMPLETED, ThreadPoolExecutor, wait
from pathlib import Path

RT = shutil.which("rt") or sys.exit("side_by_side.py: rt is not on the path")
sys.path.insert(0, str(Path(RT).resolve().parent))
import rtlib  # noqa: E402

ROOT = Path(__file__).resolve().parent.parent

# The most that a job of a check was seen to take, in bytes.
JOB = 2_500_000_000
# More jobs than these end a crate no sooner.
MOST_JOBS = 4


def jobs_in_memory():
    """How many jobs memory holds."""
    return max(1, 1024 * rtlib.number_in("/proc/meminfo", r"MemAvailable:\s+(\d+)") // JOB)


def processors():
    """How many jobs run at once: as many as there are processors, and as memory holds."""
    wanted = int(os.environ.get("RT_JOBS") or len(os.sched_getaffinity(0)))
    return max(1, min(wanted, jobs_in_memory()))


def log_of(crate):
    """The file that has what rt says of a crate."""
    log = Path(crate.folder) / "out/build.log"
    log.parent.mkdir(exist_ok=True)
    return log


def build_library(crate, jobs):
    """Proves and builds a library. Returns whether it is proved."""
    with log_of(crate).open("w", encoding="utf-8") as crate.out:
        return crate.build_rlib(["--jobs", str(jobs)], anew=False) == 0


def sources_of(program):
    """The checksum of a program's sources."""
    return subprocess.run([ROOT / "tools/sources", program.name], stdout=subprocess.PIPE, text=True, check=True).stdout


def build_program(program, jobs, sources):
    """Proves, builds and runs a program, whose libraries are built. Returns whether it is proved from these sources."""
    with log_of(program).open("w", encoding="utf-8") as log:
        words = [RT, "run", "--jobs", str(jobs), "--", "--version"]
        run = subprocess.run(words, cwd=program.folder, stdin=subprocess.DEVNULL, stdout=log, stderr=log)
        is_proved = run.returncode == 0
        if is_proved and sources_of(program) != sources:
            print("a source changed while the program was proved", file=log)
            is_proved = False
    if is_proved:
        proved_from(program).write_text(sources, encoding="utf-8")
    return is_proved


def proved_from(program):
    """The file that has the checksum of the sources that a program was proved from."""
    return Path(program.folder) / "out/proved-from"


def say(crate, is_proved, left):
    """Says what came of a crate, and how many are left."""
    print(f"{crate.name}: {'proved' if is_proved else 'not proved'}, {left} left", file=sys.stderr, flush=True)
    if not is_proved:
        print(log_of(crate), flush=True)


def ranks_of(programs):
    """The order in which crates that are ready are begun, by crate: those that the first program stands on come first, and of these
    the one with the most lines in the longest chain from it to the program."""
    ranks = {}
    for number, program in enumerate(programs):
        chain = {}
        # (rt lists each after those that it uses)
        for crate in reversed([*program.below(), program]):
            above = [lines for it, lines in chain.items() if crate in it.below()]
            chain[crate] = crate.count(rb"\n") + max(above, default=0)
            ranks.setdefault(crate, (-number, chain[crate]))
    return ranks


class Plan:
    """The crates that are to be built, and those that are being built."""

    def __init__(self, programs):
        self.ranks = ranks_of(programs)
        self.left = [it for it in self.ranks if it in programs or not it.is_built()]
        self.held = {it: rtlib.lock([it]) for it in sorted(self.ranks, key=lambda it: it.folder)}
        self.sources = {it: sources_of(it) for it in programs}
        self.running = {}
        self.processors = self.idle = processors()
        # Memory holds as many jobs over the processors.
        self.spare = max(0, jobs_in_memory() - self.processors)

    def ready(self):
        """The crates of which all below are built, in their order."""
        waited_for = {*self.left, *(crate for crate, *_ in self.running.values())}
        ready = [it for it in self.left if not waited_for & {*it.below()}]
        return sorted(ready, key=self.ranks.get, reverse=True)

    def is_first(self, crate):
        """Whether no crate that is left comes before this one."""
        others = [*self.left, *(it for it, *_ in self.running.values())]
        return self.ranks[crate] == max(map(self.ranks.get, others))

    def begin(self, crate, jobs):
        """Builds a crate. Returns whether it is proved."""
        if crate not in self.sources:
            return build_library(crate, jobs)
        # (rt run keeps others out by itself)
        for it in [*crate.below(), crate]:
            self.release(it)
        return build_program(crate, jobs, self.sources[crate])

    def release(self, crate):
        """Lets others into a crate's folder."""
        for lock in self.held.pop(crate, []):
            os.close(lock)

    def start(self, pool):
        """Starts those that are ready, for as long as processors are idle. Each gets its part of them. The first one says when all is
        done, and those beside it have less to do: it gets as many jobs as there are processors."""
        ready = self.ready()
        for number, crate in enumerate(ready):
            if not self.idle:
                break
            jobs = max(1, min(MOST_JOBS, self.idle // (len(ready) - number)))
            wanted = min(MOST_JOBS, self.processors) if self.is_first(crate) else jobs
            more = min(self.spare, max(0, wanted - jobs))
            self.idle -= jobs
            self.spare -= more
            self.left.remove(crate)
            self.running[pool.submit(self.begin, crate, jobs + more)] = crate, jobs, more

    def finish(self):
        """Waits until one is done, and says so. Returns whether all that are done are proved."""
        are_proved = True
        for done in wait(self.running, return_when=FIRST_COMPLETED).done:
            crate, jobs, more = self.running.pop(done)
            self.idle += jobs
            self.spare += more
            are_proved = are_proved and done.result()
            say(crate, done.result(), len(self.left) + len(self.running))
        return are_proved


def build_all(programs):
    """Builds the programs. Returns whether all are proved; after a crate that is not, none is begun."""
    plan, are_proved = Plan(programs), True
    with ThreadPoolExecutor(plan.idle) as pool:
        while plan.running or (plan.left and are_proved):
            if are_proved:
                plan.start(pool)
            are_proved = plan.finish() and are_proved
    return are_proved


def main(folders):
    # (rt begins its guard, which ends all that was started, before any thread)
    rtlib.guarded()
    known = {}
    programs = [rtlib.Crate(it, rtlib.root_above(it), known) for it in map(os.path.realpath, folders)]
    for it in programs:
        proved_from(it).unlink(missing_ok=True)
    return 0 if build_all(programs) else 1


if __name__ == "__main__":
    if len(sys.argv) < 2:
        sys.exit("usage: tools/side_by_side.py FOLDER..")
    sys.exit(main(sys.argv[1:]))
