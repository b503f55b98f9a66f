#!/usr/bin/env python3
"""Draws the screens of a transcript as a television shows them.

    tools/picture.py examples/colours.transcript docs/colours.png
    tools/picture.py --last examples/short-evening.transcript docs/short-evening.png    draws the last screen alone

Each line `screen BYTES` is read by a terminal, and what it shows is drawn below the one before: 40 columns of 24 rows,
cut after the last row that shows anything. Flashing and concealed cells are drawn as they are when they can be seen.

It needs these packages of Debian: python3-pil fonts-dejavu-core. Run it with /usr/bin/python3 where another Python
comes first.
"""

import pathlib
import sys

from PIL import Image, ImageDraw, ImageFont

from screens import BLACK, COLUMNS, ROWS, SPACE, SQUARES, Seen, Terminal, rows_in, screens_of

WIDTH, HEIGHT = 16, 20  # of a cell, in points
GAP = 6  # between screens, and round them
FONT = "/usr/share/fonts/truetype/dejavu/DejaVuSansMono-Bold.ttf"
FRAME = (96, 96, 96)
COLOURS = ((0, 0, 0), (255, 0, 0), (0, 255, 0), (255, 255, 0), (0, 0, 255), (255, 0, 255), (0, 255, 255), (255, 255, 255))

# Prestel's letters that are not those of ASCII.
LETTERS = {0x23: "£", 0x5B: "←", 0x5C: "½", 0x5D: "→", 0x5E: "↑", 0x5F: "#", 0x60: "―", 0x7B: "¼", 0x7C: "‖", 0x7D: "¾", 0x7E: "÷", 0x7F: "■"}


class Pen:
    """Draws cells, each letter once."""

    def __init__(self) -> None:
        self.font = ImageFont.truetype(FONT, 4 * HEIGHT * 19 // 20)
        self.letters: dict[tuple[int, int], Image.Image] = {}

    def letter(self, cell: int, height: int) -> Image.Image:
        """The mask of a letter, drawn large and made as small as its cell."""
        if (cell, height) not in self.letters:
            advance, baseline = round(self.font.getlength("M")), 4 * HEIGHT * 4 // 5
            mask = Image.new("L", (advance, 4 * HEIGHT))
            ImageDraw.Draw(mask).text((0, baseline), LETTERS.get(cell, chr(cell)), font=self.font, fill=255, anchor="ls")
            self.letters[cell, height] = mask.resize((WIDTH, height), Image.Resampling.LANCZOS)
        return self.letters[cell, height]

    def mosaic(self, cell: int, separated: bool, height: int) -> Image.Image:
        """The mask of a mosaic."""
        mask = Image.new("L", (WIDTH, height))
        draw, apart = ImageDraw.Draw(mask), 2 if separated else 0
        for weight, x, y in SQUARES:
            if (cell - 0x20) & weight:
                left, right = x * WIDTH // 2, (x + 1) * WIDTH // 2
                top, bottom = y * height // 3, (y + 1) * height // 3
                draw.rectangle((left + apart, top + apart, right - 1, bottom - 1), fill=255)
        return mask

    def draw(self, seen: Seen, height: int) -> Image.Image:
        """A cell of this height."""
        style = seen.style
        mask = self.mosaic(seen.cell, style.separated, height) if seen.is_mosaic() else self.letter(seen.cell, height)
        picture = Image.new("RGB", (WIDTH, height), COLOURS[style.background])
        picture.paste(COLOURS[style.colour], mask=mask)
        return picture


def screen_of(cells: list[list[int]], pen: Pen) -> Image.Image:
    """The picture of a screen, behind whose last row that shows anything it is cut."""
    picture, shown = Image.new("RGB", (COLUMNS * WIDTH, ROWS * HEIGHT)), 1
    for row, seen, height in rows_in(cells):
        for column, one in enumerate(seen):
            place = (column * WIDTH, row * HEIGHT)
            if height == 2:
                picture.paste(COLOURS[one.style.background], (*place, place[0] + WIDTH, place[1] + 2 * HEIGHT))
            picture.paste(pen.draw(one, HEIGHT * (height if one.style.double else 1)), place)
        if any(one.cell != SPACE or one.style.background != BLACK for one in seen):
            shown = row + height
    return picture.crop((0, 0, picture.width, shown * HEIGHT))


def stacked(screens: list[Image.Image]) -> Image.Image:
    """Screens one below the other, in a frame."""
    height = sum(screen.height + GAP for screen in screens) + GAP
    whole, top = Image.new("RGB", (screens[0].width + 2 * GAP, height), FRAME), GAP
    for screen in screens:
        whole.paste(screen, (GAP, top))
        top += screen.height + GAP
    return whole


def main() -> None:
    words = sys.argv[1:]
    is_last = words[:1] == ["--last"]
    if len(words) != 2 + is_last:
        sys.exit("picture.py: [--last] TRANSCRIPT PICTURE.png")
    transcript, picture = words[is_last:]
    terminal, pen, screens = Terminal(), Pen(), []
    for screen in screens_of(pathlib.Path(transcript).read_text("ascii")):
        for byte in screen:
            terminal.take(byte)
        screens.append(screen_of(terminal.cells, pen))
    if not screens:
        sys.exit("picture.py: the transcript shows no screen")
    stacked(screens[-1:] if is_last else screens).quantize(64).save(picture, optimize=True)


if __name__ == "__main__":
    main()
