"""What the command prestel does while the program is not proved, tried on a stand-in for rt.

A copy of the script stands over crates of one line. The stand-in answers `rt try` with what it finds in files, and counts its
calls, so that each case takes a moment: what is compared is the script's own work.
"""
import os
import shutil
import subprocess
import tempfile
import time
from contextlib import contextmanager
from pathlib import Path

ROOT = Path(__file__).resolve().parent.parent

STAND_IN = """#!/usr/bin/env bash
here="$(dirname "$0")"
echo "$(basename "$PWD"): $*" >> "$here/calls"
cat > "$here/stdin"
cat "$here/stdout"
cat "$here/stderr" >&2
exit "$(< "$here/status")"
"""

# What a build leaves: a program that says its words, and ends with 3.
PROGRAM = """#!/usr/bin/env bash
echo "proved $*"
exit 3
"""

# A build that leaves that for each folder that it is given, and notes which.
BUILD = f"""import pathlib, subprocess, sys
for folder in map(pathlib.Path, sys.argv[1:]):
    program = folder / 'out' / folder.name
    program.write_text({PROGRAM!r})
    program.chmod(0o755)
    sources = subprocess.run(['tools/sources', folder.name], cwd=folder.parent.parent, capture_output=True, check=True).stdout
    (folder / 'out/proved-from').write_bytes(sources)
    (folder.parent.parent / 'builds').open('a').write(folder.name + '\\n')
"""

NOT_PROVED = "this answer comes from the sources alone"


class Place:
    """A repository of two crates, the two programs, with the command and a stand-in for rt."""

    def __init__(self, folder):
        self.root, self.bin = folder / "repository", folder / "bin"
        self.crate = self.root / "crates/prestel"
        self.smaller = self.root / "crates/prestel_play"
        for it in (self.bin, *(crate / part for crate in (self.crate, self.smaller) for part in ("src", "out")), self.root / "tools"):
            it.mkdir(parents=True)
        shutil.copy(ROOT / "prestel", self.root)
        shutil.copy(ROOT / "tools/sources", self.root / "tools")
        (self.root / "crates.txt").write_text("prestel:\nprestel_play:\n")
        for it in (self.crate, self.smaller):
            (it / "src/main.rt").write_text("fn main() {}\n")
        self.write(self.bin / "rt", STAND_IN)
        self.answers()

    @staticmethod
    def write(file, text):
        """Writes a file that can be run."""
        file.write_text(text)
        file.chmod(0o755)

    def answers(self, stdout="", stderr="", status=0, last=None):
        """What the stand-in answers from now on: a program that ends with this status, or another last line."""
        (self.bin / "stdout").write_text(stdout)
        (self.bin / "stderr").write_text(stderr + (last or f"checked: ended status={status}\nrun=ended status={status} runners=1 proved=no\n"))
        (self.bin / "status").write_text(str(status))

    def builds(self, text):
        """What stands for the build from now on: a script in Python."""
        self.write(self.root / "tools/side_by_side.py", "#!/usr/bin/env python3\n" + text)

    def built(self):
        """The programs that were built, in their order."""
        builds = self.root / "builds"
        return builds.read_text().splitlines() if builds.exists() else []

    def prove(self, crate):
        """Leaves a program, and the checksum of the sources that it stands for."""
        self.write(crate / f"out/{crate.name}", PROGRAM)
        sources = subprocess.run([self.root / "tools/sources", crate.name], capture_output=True, check=True).stdout
        (crate / "out/proved-from").write_bytes(sources)

    def start_with(self, words, stdin=subprocess.DEVNULL, stdout=subprocess.DEVNULL, stderr=subprocess.DEVNULL):
        """These words, begun where rt is the stand-in."""
        env = {**os.environ, "PATH": f"{self.bin}:{os.environ['PATH']}"}
        return subprocess.Popen(words, env=env, stdin=stdin, stdout=stdout, stderr=stderr)

    def start(self, *words, stdin=subprocess.PIPE, stdout=subprocess.PIPE):
        """The command, begun with these words."""
        return self.start_with([self.root / "prestel", *words], stdin, stdout, subprocess.PIPE)

    def shell(self, line):
        """The command's status in a line of a shell."""
        return self.start_with(["bash", "-c", f'"{self.root}/prestel" {line}; exit "${{PIPESTATUS[0]}}"']).wait(timeout=60)

    def run(self, *words, script=b"", **streams):
        """What the command writes for these words, what it says, and its status."""
        with self.start(*words, **streams) as command:
            written, said = command.communicate(None if streams.get("stdin") else script, timeout=60)
        return (written or b"").decode(), said.decode(), command.returncode


@contextmanager
def place():
    with tempfile.TemporaryDirectory() as folder:
        yield Place(Path(folder))


def unproved():
    """A line for each thing that an answer without a proof keeps: the output, the status, the words of the program."""
    with place() as at:
        at.answers("OK 0\n", "prestel: line 2: not a valid command\n", 3)
        written, said, status = at.run("play", "1", script=b"seed 1a A\nx\n")
        lines = said.splitlines()
        yield "command: the output and the status are the program's", (written, status) == ("OK 0\n", 3)
        yield "command: a line says that it is not proved", len(lines) == 2 and NOT_PROVED in lines[0] and "--prove" in lines[0]
        yield "command: nothing that rt says of itself is said", lines[1:] == ["prestel: line 2: not a valid command"]
        yield "command: the script is handed on whole", (at.bin / "stdin").read_bytes() == b"seed 1a A\nx\n"
        at.run("gen", "7", script=b"not read")
        yield "command: nothing is read for other words", (at.bin / "stdin").read_bytes() == b""
        at.run("serve", "--help")
        calls = ["prestel_play: try -- play 1", "prestel_play: try -- gen 7", "prestel: try -- serve --help"]
        yield "command: the words are handed on, to the smaller program if it takes them", (at.bin / "calls").read_text().splitlines() == calls
        with open("/dev/full", "wb") as full:
            _, said, status = at.run("gen", "7", stdout=full)
        yield "command: a full device", (said.splitlines()[-1], status) == ("prestel: the output could not be written", 5)
        folder = os.open("/", os.O_RDONLY)
        try:
            _, said, status = at.run("play", "1", stdin=folder)
        finally:
            os.close(folder)
        yield "command: a folder as input", (said.splitlines()[-1], status) == ("prestel: the input could not be read", 4)
        # (more than a pipe holds, so that somebody has to read)
        at.answers("x" * (1 << 20))
        for streams, wanted in (("play 1 <&-", 4), ("gen 7 >&-", 5), ("gen 7 | true", 5), ("gen 7 > /dev/null", 0)):
            yield f"command: the streams of `{streams}`", at.shell(streams) == wanted


def proved():
    """A line for each thing that makes the program proved, or not proved any more."""
    for which in ("crate", "smaller"):
        with place() as at:
            crate = getattr(at, which)
            at.prove(crate)
            yield f"command: the proved program is run ({crate.name})", at.run("play", "1") == ("proved play 1\n", "", 3)
            source = crate / "src/main.rt"
            before = source.read_text()
            source.write_text(before + "// changed\n")
            _, said, _ = at.run("gen", "7")
            yield f"command: a source that changed makes it unproved ({crate.name})", NOT_PROVED in said and ("since a source changed" in said) == (which == "smaller")
            source.write_text(before)
            yield f"command: and proved again once it is as it was ({crate.name})", at.run("gen", "7") == ("proved gen 7\n", "", 3)
            (crate / "src/more.rt").write_text("")
            yield f"command: so does a new source ({crate.name})", NOT_PROVED in at.run("gen", "7")[1]
    with place() as at:
        at.prove(at.smaller)
        yield "command: the smaller program does not do for words on files", NOT_PROVED in at.run("serve", "--help")[1]
        at.prove(at.crate)
        yield "command: --prove has nothing to do once both are", at.run("--prove") == ("", "prestel: the program is proved\n", 0)


def built():
    """A line for each way in which a build may go."""
    with place() as at:
        at.answers(last="checked: no-answer: it took over 60 seconds\nrun=no-answer proved=no\n", status=6)
        at.builds(BUILD)
        written, said, status = at.run("evening", "999")
        yield "command: what takes too long is proved first, and answered", (written, status) == ("proved evening 999\n", 3) and "it took over 60 seconds; the program is proved first" in said
        yield "command: then it is proved", at.run("gen", "7") == ("proved gen 7\n", "", 3)
        yield "command: and the larger program is not built for that", at.built() == ["prestel_play"]
        at.run("--prove")
        yield "command: --prove builds what is left", at.built() == ["prestel_play", "prestel"]
    for words in (("format", "d", "1"), ("serve", "d"), ("web", "8080", "serve", "d")):
        with place() as at:
            at.builds(BUILD)
            yield f"command: the help of {words[0]}, which works on files, is answered at once", NOT_PROVED in at.run(words[0], "--help")[1]
            written, said, status = at.run(*words)
            proved_first = f"{words[0]} works on files; the program is proved first" in said
            yield f"command: {words[0]} itself is proved first", (written, status) == (f"proved {' '.join(words)}\n", 3) and proved_first
    with place() as at:
        at.builds("import sys\nprint('pv_low: not proved, 3 left', file=sys.stderr)\nprint('/a/log')\nsys.exit(1)\n")
        _, said, status = at.run("--prove")
        yield "command: a build that fails says so, and where its log is", (said.splitlines()[-1], status) == ("prestel: the program could not be built; /a/log has what rt said", 70)
        at.answers(last="error: no such name\nrun=none proved=no\n", status=1)
        _, said, status = at.run("gen", "7")
        yield "command: sources that are refused are not built", said.splitlines()[-1].endswith("try.log has what rt said") and status == 70


def waited_for(holds):
    """Whether it holds within ten seconds."""
    for _ in range(100):
        if holds():
            return True
        time.sleep(0.1)
    return False


def alone():
    """A line for two builds at once, and one for a command that is stopped."""
    with place() as at:
        at.builds("import time\ntime.sleep(1)\n" + BUILD)
        both = [at.start("--prove") for _ in range(2)]
        statuses = [command.communicate(timeout=60) and command.returncode for command in both]
        yield "command: of two builds one waits for the other", statuses == [0, 0] and at.built() == ["prestel_play", "prestel"]
    with place() as at:
        at.write(at.bin / "rt", '#!/usr/bin/env bash\necho $$ > "$(dirname "$0")/began"\nexec sleep 60\n')
        with at.start("gen", "7") as command:
            began = at.bin / "began"
            waited_for(lambda: began.exists() and began.read_text())
            command.terminate()
            command.communicate(timeout=60)
        child = Path(f"/proc/{began.read_text().strip()}")
        yield "command: nothing runs on once it is stopped", command.returncode == 143 and waited_for(lambda: not child.exists())
