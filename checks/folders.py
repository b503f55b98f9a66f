"""What the words that work on a folder of real files make of it: `format`, `tape` and `statement`.

The bytes of the files are those that checks/model.py spells apart from the program.
"""
import fcntl
import os
import pty
import struct
import subprocess
import tempfile
from datetime import datetime, timezone
from pathlib import Path

from model import Account, Line, Put, Taken, name_bytes

EXAMPLES = Path(__file__).resolve().parent.parent / "examples/office"

MARK = b"PVJOURN1"
EMPTY = MARK + b"\0"
CALLER = 1_000_000_001
NAMES = ["udc.pv", "irc0.pv", "irc1.pv", "irc2.pv", "irc3.pv"]


def journal(records):
    """The bytes of a journal with these records."""
    blocks = (b"\1" + len(text).to_bytes(2, "big") + text for text in (record.spelling() for record in records))
    return MARK + b"".join(blocks) + b"\0"


class Place:
    """A folder, and the program."""

    def __init__(self, program, folder):
        self.program, self.folder = program, Path(folder)

    def run(self, *words, text=b"", stdout=subprocess.PIPE):
        """What the program writes for these words and this text on standard input, what it says, and its status."""
        run = subprocess.run([self.program, *words], input=text, stdout=stdout, stderr=subprocess.PIPE, cwd=self.folder, timeout=60)
        return (run.stdout or b"").decode(), run.stderr.decode(), run.returncode

    def files(self):
        """The names of the files in its folder net, and what they hold."""
        return {file.name: file.read_bytes() for file in (self.folder / "net").iterdir()}


def formatted(program):
    """A line for each thing that `format` does to a folder."""
    with tempfile.TemporaryDirectory() as folder:
        at = Place(program, folder)
        net = at.folder / "net"
        yield "format: a folder is made, and an empty disk for each node", at.run("format", "net", "2") == ("", "", 0) and at.files() == dict.fromkeys(NAMES[:3], EMPTY)
        yield "format: empty disks are made anew without a word", at.run("format", "net", "2") == ("", "", 0) and at.files() == dict.fromkeys(NAMES[:3], EMPTY)
        held = journal([Account(0, 1, CALLER, "ABCD")])
        (net / "udc.pv").write_bytes(held)
        (net / "irc0.pv").write_bytes(MARK[:5])
        yield "format: what holds a record is kept", at.run("format", "net", "2") == ("", "prestel: net/udc.pv is kept as net/udc.pv.1\n", 0) and at.files() == {**dict.fromkeys(NAMES[:3], EMPTY), "udc.pv.1": held}
        (net / "udc.pv").write_bytes(b"letters")
        written, said, status = at.run("format", "net", "1")
        kept = "".join(f"prestel: net/{name} is kept as net/{name}.{number}\n" for name, number in (("udc.pv", 2), ("irc1.pv", 1)))
        files = at.files()
        yield "format: so are strange files, and those of a centre that is no more", (written, said, status) == ("", kept, 0) and (files["udc.pv.1"], files["udc.pv.2"]) == (held, b"letters")
        yield "format: and the new network has its own files alone", {name for name in files if name.endswith(".pv")} == {"udc.pv", "irc0.pv"}
        (net / "udc.pv").write_bytes(held)
        before = at.files()
        with open(net / "irc0.pv", "rb") as file:
            fcntl.flock(file, fcntl.LOCK_EX)
            used = at.run("format", "net", "1")
        yield "format: a file in use is named, and all stay as they are", used == ("", "prestel: net/irc0.pv: the file is in use\n", 8) and at.files() == before
        yield "format: a folder whose parent is missing", at.run("format", "no/net", "1")[::2] == ("", 8)
        yield "format: a file in the folder's place", at.run("format", "net/udc.pv", "1")[::2] == ("", 8) and at.files() == before
        usage = "prestel: usage: prestel format DIR N; try prestel format --help\n"
        wrong = ([], ["net"], ["net", "0"], ["net", "5"], ["net", "01"], ["net", "1", "x"], ["net", "--help"])
        yield "format: words that are refused", all(at.run("format", *words) == ("", usage, 2) for words in wrong) and at.files() == before


class Drop:
    """The operator drops a frame."""

    def __init__(self, number, name):
        self.number, self.name = number, name

    def spelling(self):
        return struct.pack(">BQI", 2, 0, self.number) + name_bytes(self.name)


# A tape of three edits, and the records that they are.
TAPE = b"TAPE 1 0000000000 0000\nNEW 1a\nROW 2 HELLO\nSTORE\nROW 2 AGAIN\nSTORE\nDROP 1a\n"
LOADED = [Put(0, 1, "1a", "HELLO", 0), Put(0, 2, "1a", "AGAIN", 0), Drop(3, "1a")]

# Tapes that store nothing in an empty folder, what is said of them, and the status.
REFUSED = [
    (b"", "line 1: not a valid line of a tape", 3),
    (TAPE.replace(b"TAPE 1", b"TAPE 0"), "line 1: not a valid line of a tape", 3),
    (TAPE.replace(b"NEW 1a\n", b""), "line 2: not a valid line of a tape", 3),
    (TAPE + b"LIST\n", "line 8: not a valid line of a tape", 3),
    (TAPE + b"NEW 2a\n" + b"".join(b"FIELD 3 %d 1 D\n" % column for column in range(9)), "line 17: not a valid line of a tape", 3),
    (TAPE + b"NEW 2a\nKIND R\nSTORE\n", "line 10: not a valid line of a tape", 3),
    (TAPE + b"\n" * ((1 << 20) + 1 - len(TAPE)), "the tape is longer than 1048576 bytes", 7),
    (TAPE.replace(b" 0000\n", b" 0001\n"), "the tape's account or its password is not known", 13),
    (TAPE.replace(b"TAPE 1", b"TAPE 3"), "line 4: refused with 3: the account's next edit has the number 1", 14),
    (TAPE.replace(b"NEW 1a", b"DROP 1a\nNEW 1a"), "line 2: refused with 4: the name has no frame", 14),
]


def taped(program):
    """A line for each thing that `tape` does to a folder, or says of a tape."""
    with tempfile.TemporaryDirectory() as folder:
        at = Place(program, folder)
        at.run("format", "net", "1")
        file = at.folder / "net/udc.pv"
        for text, said, status in REFUSED:
            yield f"tape: {said}", at.run("tape", "net", text=text) == ("", f"prestel: {said}\n", status) and file.read_bytes() == EMPTY
        cuts = []
        for kept in range(len(LOADED) + 1):
            file.write_bytes(journal(LOADED[:kept]))
            cuts.append(at.run("tape", "net", text=TAPE) == (f"stored {3 - kept} skipped {kept}\n", "", 0) and file.read_bytes() == journal(LOADED))
        yield "tape: a load that was cut after any edit is continued", all(cuts)
        others = journal([Account(0, 1, CALLER, "ABCD")])
        file.write_bytes(others)
        refused = ("", "prestel: line 4: refused with 2: the page belongs to another\n", 14)
        texts = [TAPE.replace(b"TAPE 1 0000000000 0000", f"TAPE {first} {CALLER} ABCD".encode()) for first in (1, 3)]
        yield "tape: another's page", all(at.run("tape", "net", text=text) == refused for text in texts) and file.read_bytes() == others
        file.write_bytes(EMPTY)
        with open("/dev/full", "wb") as full:
            yield "tape: a full device", at.run("tape", "net", text=TAPE, stdout=full) == ("", "prestel: the output could not be written\n", 5) and file.read_bytes() == journal(LOADED)
        usage = "prestel: usage: prestel tape DIR < TAPE; try prestel tape --help\n"
        yield "tape: words that are refused", all(at.run("tape", *words) == ("", usage, 2) for words in ([], ["net", "x"]))
        file.write_bytes(EMPTY)
        example = EXAMPLES / "news.tape"
        yield "tape: the example", at.run("tape", "net", text=example.read_bytes()) == (example.with_suffix(".answer").read_text(), "", 0)
        yield "tape: the example again", at.run("tape", "net", text=example.read_bytes()) == ("stored 0 skipped 3\n", "", 0)
        file.write_bytes(EMPTY)
        yield "tape: the example of five frames", at.run("tape", "net", text=(EXAMPLES / "evening-paper.tape").read_bytes()) == ("stored 5 skipped 0\n", "", 0)


def watched(program):
    """A line for a long tape: a terminal on standard error is shown each 1,000 edits, and a pipe nothing."""
    text = b"TAPE 1 0000000000 0000\nNEW 1a\n" + b"STORE\n" * 2001
    memory = Path("/dev/shm")
    with tempfile.TemporaryDirectory(dir=memory if memory.is_dir() else None) as folder:
        at = Place(program, folder)
        at.run("format", "net", "1")
        ours, theirs = pty.openpty()
        with open(ours, "rb", buffering=0) as terminal:
            run = subprocess.run([program, "tape", "net"], input=text, stdout=subprocess.PIPE, stderr=theirs, cwd=folder, timeout=60)
            os.close(theirs)
            shown = terminal.read(4096).decode()
        lines = "".join(f"prestel: {count} edits are stored\r\n" for count in (1000, 2000))
        yield "tape: how far it is, on a terminal", (run.stdout, run.returncode, shown) == (b"stored 2001 skipped 0\n", 0, lines)
        at.run("format", "net", "1")
        yield "tape: and not on a pipe", at.run("tape", "net", text=text) == ("stored 2001 skipped 0\n", "", 0)


def stated(program):
    """A line for each thing that `statement` writes from a folder, or says of it."""
    bought = [(2, "1980-01-01 00:00:00"), (3, "1980-02-01 00:00:00"), (5, "1980-01-31 23:59:59"), (99, "2099-12-31 23:59:59")]
    lines = [Line(0, number, CALLER, "20a", price, int(datetime.fromisoformat(date).replace(tzinfo=timezone.utc).timestamp())) for number, (price, date) in enumerate(bought)]
    with tempfile.TemporaryDirectory() as folder:
        at = Place(program, folder)
        at.run("format", "net", "1")
        file = at.folder / "net/udc.pv"
        file.write_bytes(journal([Account(0, 1, CALLER, "ABCD"), *(Taken(place, line) for place, line in enumerate(lines))]))
        before = at.files()
        january = f"STATEMENT {CALLER} 1980-01\n1980-01-01 00:00:00 20a 2\n1980-01-31 23:59:59 20a 5\nSUM 7\n"
        yield "statement: the lines of a month, and their sum", at.run("statement", "net", str(CALLER), "1980-01") == (january, "", 0)
        yield "statement: a month without a line", at.run("statement", "net", str(CALLER), "1980-03") == (f"STATEMENT {CALLER} 1980-03\nSUM 0\n", "", 0)
        yield "statement: nobody's account", at.run("statement", "net", "1000000009", "1980-01") == ("", "prestel: no such account\n", 15)
        example = (EXAMPLES / "january.statement").read_text()
        file.write_bytes(journal([Account(0, 1, CALLER, "ABCD"), Taken(0, lines[0])]))
        yield "statement: the example", at.run("statement", "net", str(CALLER), "1980-01") == (example, "", 0)
        file.write_bytes(before["udc.pv"])
        usage = "prestel: usage: prestel statement DIR ACCOUNT YYYY-MM; try prestel statement --help\n"
        wrong = ([], ["net", str(CALLER)], ["net", "1", "1980-01"], ["net", str(CALLER), "1980-13"], ["net", str(CALLER), "1969-12"], ["net", str(CALLER), "1980-1"])
        yield "statement: words that are refused", all(at.run("statement", *words) == ("", usage, 2) for words in wrong)
        with open("/dev/full", "wb") as full:
            yield "statement: a full device", at.run("statement", "net", str(CALLER), "1980-01", stdout=full) == ("", "prestel: the output could not be written\n", 5)
        with open(file, "rb") as other:
            fcntl.flock(other, fcntl.LOCK_EX)
            yield "statement: a file in use", at.run("statement", "net", str(CALLER), "1980-01") == ("", "prestel: net/udc.pv: the file is in use\n", 8)
        yield "statement: it changes nothing", at.files() == before
        file.write_bytes(b"letters")
        yield "statement: a file that is no disk", at.run("statement", "net", str(CALLER), "1980-01") == ("", "prestel: the disk of the Update Centre is not formatted\n", 9)
        file.unlink()
        yield "statement: no file", at.run("statement", "net", str(CALLER), "1980-01")[::2] == ("", 8)


def folders(program):
    """A line for each of these, and for the help of both words."""
    yield from (*formatted(program), *taped(program), *watched(program), *stated(program))
    for word in ("format", "tape", "statement"):
        run = subprocess.run([program, word, "--help"], capture_output=True, timeout=60)
        yield f"{word}: its help", run.stdout.startswith(f"usage: prestel {word} ".encode()) and (run.stderr, run.returncode) == (b"", 0)
