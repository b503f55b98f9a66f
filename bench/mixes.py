"""The scripts that the benchmarks play: what begins one, and the round that it repeats up to a size.

Every round of a mix has the same kinds of lines, whatever the size of its script. What begins it is the same at every
size, so the cost of a round is a script's cost less that of its beginning. No mix meets a limit of a play: at one
megabyte each has made fewer than the 20,000 packets that a play may make.

    bench/mixes.py NAME BYTES     prints the script of a mix
"""

import random
import sys
from collections.abc import Callable
from dataclasses import dataclass

FRAMES = 2000
PAGES = 100
OPERATOR = "edit 0 LOGON 0000000000 0000"
LETTERS = 20


@dataclass
class Mix:
    """What begins a script, the lines of each of its rounds, and whether it views frames that are not there."""

    title: str
    begin: list[str]
    round: Callable[[int, random.Random], list[str]]
    has_misses: bool = False


def text(lines: list[str]) -> bytes:
    """The lines as a script."""
    return ("\n".join(lines) + "\n").encode() if lines else b""


def script(mix: Mix, size: int) -> tuple[bytes, bytes]:
    """The beginning of a script of at most this many bytes, and its whole rounds."""
    begin, chance = text(mix.begin), random.Random(1)
    parts, length, number = [], len(begin), 0
    while True:
        part = text(mix.round(number, chance))
        if length + len(part) > size:
            return begin, b"".join(parts)
        parts.append(part)
        length += len(part)
        number += 1


def full_row(number: int) -> str:
    """A row of forty cells."""
    return f"ROW OF FRAME {number}".ljust(40, ".")


def frame_and_views(number: int, chance: random.Random) -> list[str]:
    """A frame goes down. It is viewed, then an earlier one, and then, in every third round, one that no one has made."""
    page, (earlier, other) = 1 + number % FRAMES, (1 + chance.randrange(max(1, min(number, FRAMES))) for _ in range(2))
    viewed = [page, earlier, other if number % 3 else 9_000_000 + number]
    return [f"seed {page}a {full_row(number)}", "send 0", f"deliver 0 {number}"] + [f"view 0 {page}a" for page in viewed]


def frame_and_misses(number: int, chance: random.Random) -> list[str]:
    """A frame goes down, and three views are of a frame that no one has made: the dearest view there is."""
    return frame_and_views(number, chance)[:3] + [f"view 0 {9_000_000 + number}a"] * 3


def sent_and_acknowledged(number: int, chance: random.Random) -> list[str]:
    """A frame goes down in single steps, and what both nodes then have."""
    page = 1 + number % FRAMES
    way = [f"seed {page}a {full_row(number)}", "send 0", f"deliver 0 {number}", f"back 0 {number}"]
    return way + ["list", "at 0", f"view 0 {page}a"]


def edited_and_carried(number: int, chance: random.Random) -> list[str]:
    """An editor makes a frame of two rows and stores it, and it is carried down."""
    making = [f"NEW {1 + number % FRAMES}a", f"ROW 2 {full_row(number)}", f"ROW 3 {full_row(number)}", f"STORE {1 + number}"]
    return [f"edit 0 {line}" for line in making] + ["carry 0"]


def pages(price: int) -> list[str]:
    """Pages at a centre, with routes from each to the next two. Every other page has the price."""
    lines = []
    for at in range(PAGES):
        routes = [f"ROUTE {step} {1000 + (at + step) % PAGES}" for step in (1, 2)]
        making = [f"NEW {1000 + at}a", f"ROW 2 {full_row(at)}", *routes, f"PRICE {price * (at % 2)}", f"STORE {2 + at}"]
        lines += [f"edit 0 {line}" for line in making]
    return [OPERATOR, "edit 0 ACCOUNT 1 1000000001 ABCD 0 -", *lines, "carry 0"]


def free_call(number: int, chance: random.Random) -> list[str]:
    """A call that fetches pages by number, by routes and back, and keys a command that it cancels."""
    at, keys = f"0 {number % 16}", []
    for _ in range(4):
        keys += [f"*{1000 + chance.randrange(PAGES)}#", "1", "2", "*#", "*12**", "*00"]
    return [f"dial {at}", f"keys {at} 1000000001ABCD"] + [f"keys {at} {key}" for key in keys] + [f"hang {at}"]


def priced_fetches(at: str, chance: random.Random) -> list[str]:
    """Two priced pages, each in the single steps of its fetch, and free ones after it."""
    lines = []
    for _ in range(2):
        priced, *free = [1000 + chance.randrange(0, PAGES, 2) for _ in range(7)]
        lines += [f"press {at} {key}" for key in f"*{priced + 1}#"] + [f"store {at}", f"show {at}"]
        lines += [f"keys {at} *{page}#" for page in free] + [f"keys {at} *00"]
    return lines


def subscriber(number: int, chance: random.Random) -> list[str]:
    """A new subscriber is made, and calls three times. His charge lines go up."""
    account, at = 2_000_000_000 + number, f"0 {number % 16}"
    lines = [f"edit 0 ACCOUNT {2 + PAGES + number} {account} ABCD 0 -", "carry 0"]
    for _ in range(3):
        lines += [f"dial {at}", f"keys {at} {account}ABCD", *priced_fetches(at, chance), f"hang {at}"]
    return lines + ["carry 0"]


def billed_subscriber(number: int, chance: random.Random) -> list[str]:
    """The same, and then his bill, of six lines."""
    return subscriber(number, chance) + [f"bill {2_000_000_000 + number}"]


def mail_frame() -> list[str]:
    """Two accounts, and a frame to write letters of four rows on."""
    accounts = [f"ACCOUNT {at} 100000000{at} ABCD 0 -" for at in (1, 2)]
    fields = ["FIELD 3 0 10 D"] + [f"FIELD {row} 0 40 T" for row in (5, 6, 7, 8)]
    return [OPERATOR] + [f"edit 0 {line}" for line in accounts + ["NEW 8a", "KIND M", *fields, "STORE 3"]] + ["carry 0"]


def letters(number: int, chance: random.Random) -> list[str]:
    """One caller writes letters. Each is carried, and another caller reads and deletes it."""
    lines = [f"dial 0 {port}" for port in (0, 1)] + [f"keys 0 {port} 100000000{1 + port}ABCD" for port in (0, 1)]
    for at in range(LETTERS):
        rows = "".join(f"LETTER {number} {at}, ROW {row}".ljust(40, ".") + "#" for row in (1, 2, 3, 4))
        lines += [f"keys 0 0 {keys}" for keys in ("*8#", "1000000002#", rows, "1")] + ["carry 0", "keys 0 1 *930#", "keys 0 1 1"]
    return lines + ["hang 0 0", "hang 0 1"]


MIXES = {
    "views": Mix("frames go down and are viewed", [], frame_and_views, True),
    "misses": Mix("every view is of a frame that no one made", [], frame_and_misses, True),
    "sent": Mix("frames are sent, delivered and acknowledged", [], sent_and_acknowledged),
    "carried": Mix("an editor's frames are carried", [OPERATOR], edited_and_carried),
    "calls": Mix("calls to free pages", pages(0), free_call),
    "paid": Mix("calls to priced pages", ["limits 2000 20000", *pages(5)], subscriber),
    "billed": Mix("calls to priced pages, and bills", ["limits 2000 20000", *pages(5)], billed_subscriber),
    "mail": Mix("letters", ["limits 2000 20000", *mail_frame()], letters),
}


if __name__ == "__main__":
    sys.stdout.buffer.write(b"".join(script(MIXES[sys.argv[1]], int(sys.argv[2]))))
