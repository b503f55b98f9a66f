"""What a viewdata terminal has of the bytes that it is sent, and what is seen of it: for pictures and for checks."""
import re
from dataclasses import dataclass, field, replace
from functools import cache

ROWS, COLUMNS = 24, 40
BLACK, WHITE = 0, 7
SPACE = 0x20

# The lit squares of a mosaic: the weight of each, and where it stands, in halves and thirds of the cell.
SQUARES = ((1, 0, 0), (2, 1, 0), (4, 0, 1), (8, 1, 1), (16, 0, 2), (64, 1, 2))


# ---- the terminal


@dataclass
class Terminal:
    """The cells that a caller's terminal has, and its cursor."""

    cells: list[list[int]] = field(default_factory=lambda: [[SPACE] * COLUMNS for _ in range(ROWS)])
    row: int = 0
    column: int = 0
    waiting: bool = False

    def take(self, byte: int) -> None:
        """A byte from the line."""
        if self.waiting:
            self.waiting = False
            if 0x40 <= byte <= 0x5F:
                self.write(byte - 0x40)
        elif 0x20 <= byte <= 0x7F:
            self.write(byte)
        elif byte == 0x1B:
            self.waiting = True
        elif byte == 0x0C:
            self.cells = [[SPACE] * COLUMNS for _ in range(ROWS)]
            self.row = self.column = 0
        elif byte == 0x1E:
            self.row = self.column = 0
        elif byte == 0x0D:
            self.column = 0
        elif byte in (0x0A, 0x0B):
            self.row = (self.row + (1 if byte == 0x0A else -1)) % ROWS
        elif byte in (0x08, 0x09):
            self.move(1 if byte == 0x09 else -1)

    def write(self, cell: int) -> None:
        """A cell at the cursor, which goes on."""
        self.cells[self.row][self.column] = cell
        self.move(1)

    def move(self, by: int) -> None:
        """The cursor goes on or back, over the edges too."""
        place = (self.row * COLUMNS + self.column + by) % (ROWS * COLUMNS)
        self.row, self.column = divmod(place, COLUMNS)


def bytes_of(notation: str) -> bytes:
    """The bytes that a notation writes."""
    return re.sub(rb"\\([0-9a-fA-F]{2})", lambda found: bytes([int(found[1], 16)]), notation.encode("ascii"))


# ---- a row of cells, and what is seen of it


@dataclass(frozen=True)
class Style:
    """How the cells of a row look from some place on."""

    colour: int = WHITE
    background: int = BLACK
    mosaics: bool = False
    separated: bool = False
    double: bool = False
    hold: bool = False
    flash: bool = False
    conceal: bool = False


@dataclass(frozen=True)
class Seen:
    """What is seen in a cell: a letter or a mosaic, and how it looks."""

    cell: int
    style: Style

    def is_mosaic(self) -> bool:
        """Bytes 0x40 to 0x5F are letters among mosaics, too."""
        return self.style.mosaics and not 0x40 <= self.cell <= 0x5F


NOTHING = Seen(SPACE, Style())


def set_at(style: Style, attribute: int) -> Style:
    """What an attribute changes in its own cell already."""
    changes = {
        0x09: {"flash": False}, 0x0C: {"double": False}, 0x18: {"conceal": True}, 0x19: {"separated": False}, 0x1A: {"separated": True},
        0x1C: {"background": BLACK}, 0x1D: {"background": style.colour}, 0x1E: {"hold": True},
    }
    return replace(style, **changes.get(attribute, {}))


def set_after(style: Style, attribute: int) -> Style:
    """What it changes from the next cell on. A colour ends what is concealed."""
    if 0x01 <= attribute <= 0x07:
        return replace(style, colour=attribute, mosaics=False, conceal=False)
    if 0x11 <= attribute <= 0x17:
        return replace(style, colour=attribute - 0x10, mosaics=True, conceal=False)
    changes = {0x08: {"flash": True}, 0x0D: {"double": True}, 0x1F: {"hold": False}}
    return replace(style, **changes.get(attribute, {}))


def still(held: Seen, before: Style, after: Style) -> Seen:
    """The mosaic that is held, which is lost where letters or another height begin."""
    return held if (before.mosaics, before.double) == (after.mosaics, after.double) else NOTHING


@cache
def seen_in(row: tuple[int, ...]) -> list[Seen]:
    """What is seen in each cell of a row."""
    style, held, seen = Style(), NOTHING, []
    for cell in row:
        if cell >= SPACE:
            here = Seen(cell, style)
            held = here if here.is_mosaic() else held
        else:
            now = set_at(style, cell)
            held = still(held, style, now)
            is_held = now.hold and now.mosaics
            here = Seen(held.cell, replace(now, separated=held.style.separated)) if is_held else Seen(SPACE, replace(now, mosaics=False))
            style = set_after(now, cell)
            held = still(held, now, style)
        seen.append(here)
    return seen


def rows_in(cells: list[list[int]]) -> list[tuple[int, list[Seen], int]]:
    """The rows of a screen that are seen: the place of each, what is seen in its cells, and how many rows high it is.

    A row with something two rows high covers the row below it. The last row has none below, and is one row high.
    """
    rows, row = [], 0
    while row < ROWS:
        seen = seen_in(tuple(cells[row]))
        height = 2 if any(one.style.double for one in seen) and row + 1 < ROWS else 1
        rows.append((row, seen, height))
        row += height
    return rows


def screens_of(transcript: str) -> list[bytes]:
    """The bytes of each screen of a transcript."""
    lines = (line.partition(" ") for line in transcript.splitlines())
    return [bytes_of(notation) for word, _, notation in lines if word == "screen"]
