#!/usr/bin/env python3
"""Draws docs/crates.svg from crates.txt, and docs/network.svg.

    tools/pictures.py           writes both
    tools/pictures.py --check   exits with 1 if a file differs from what would be drawn
"""
import re
import sys
from pathlib import Path

ROOT = Path(__file__).resolve().parent.parent
INK, PAPER, LINE, BAND, SOFT = "#1d2b3a", "#ffffff", "#6b7c8f", "#f2f5f8", "#dbe6f1"
FONT = "font-family=\"DejaVu Sans, Verdana, sans-serif\""


def svg(width, height, body):
    """A whole picture on white."""
    head = f'<svg xmlns="http://www.w3.org/2000/svg" viewBox="0 0 {width} {height}" width="{width}" height="{height}" {FONT}>'
    return "\n".join([head, f'<rect width="{width}" height="{height}" fill="{PAPER}"/>', *body, "</svg>"]) + "\n"


def words(x, y, text, size=13, anchor="middle", weight="normal"):
    return f'<text x="{x}" y="{y}" font-size="{size}" text-anchor="{anchor}" font-weight="{weight}" fill="{INK}">{text}</text>'


def box(x, y, width, height, text, below=""):
    """A named box."""
    middle, up = x + width / 2, y + height / 2
    lines = [words(middle, up + 4, text)] if not below else [words(middle, up - 4, text), words(middle, up + 13, below, 11)]
    return [f'<rect x="{x}" y="{y}" width="{width}" height="{height}" rx="5" fill="{SOFT}" stroke="{INK}"/>', *lines]


def line(x1, y1, x2, y2, arrow=""):
    return f'<line x1="{x1}" y1="{y1}" x2="{x2}" y2="{y2}" stroke="{LINE}"{arrow}/>'


# ---- the crates


def layers():
    """Each layer's title with its crates and what each of these stands on, lowest layer first."""
    found = []
    for text in (ROOT / "crates.txt").read_text(encoding="utf-8").splitlines():
        title = re.match(r"# (\d.*)", text)
        if title:
            found.append((title[1], {}))
        elif text.strip() and not text.startswith("#"):
            name, _, below = text.partition(":")
            # (a layer's crate of tests is no part of what stands on it)
            if not name.strip().endswith("_tests"):
                found[-1][1][name.strip()] = below.split()
    return found


def direct(crate, below):
    """What a crate stands on, without what it reaches through another."""
    own = [name for name in below[crate] if name in below]

    def reached(name):
        return {name}.union(*(reached(lower) for lower in below[name] if lower in below))

    return [name for name in own if not any(name != other and name in reached(other) for other in own)]


def crates_picture():
    """Bands from the ground up, a box a crate, and a line from each crate to those right below it."""
    bands = layers()
    below = {name: lower for _, crates in bands for name, lower in crates.items()}
    wide, high, gap, left = 120, 34, 26, 230
    most = max(len(crates) for _, crates in bands)
    width, step = left + most * (wide + gap) + 10, 84
    height = step * len(bands) + 10
    places, back, front, lines = {}, [], [], []
    for level, (title, crates) in enumerate(bands):
        top = height - step * (level + 1)
        back.append(f'<rect x="6" y="{top}" width="{width - 12}" height="{step - 10}" rx="6" fill="{BAND}"/>')
        name, _, note = title.partition(":")
        back.append(words(18, top + 32, name, 13, "start", "bold"))
        back.append(words(18, top + 50, note.strip(), 11, "start"))
        start = left + (most - len(crates)) * (wide + gap) / 2
        for at, crate in enumerate(crates):
            x, y = start + at * (wide + gap), top + 20
            places[crate] = (x, y)
            front += box(x, y, wide, high, crate)
    for crate, (x, y) in places.items():
        for lower in direct(crate, below):
            a, b = places[lower]
            lines.append(line(x + wide / 2, y + high, a + wide / 2, b))
    return svg(width, height, back + lines + front)


# ---- the network


def network_picture():
    """Editors, the Update Centre and centres with their disks, links, callers."""
    marker = (
        f'<defs><marker id="tip" viewBox="0 0 8 8" refX="7" refY="4" markerWidth="7" markerHeight="7" orient="auto-start-reverse">'
        f'<path d="M0 0 L8 4 L0 8 z" fill="{LINE}"/></marker></defs>'
    )
    down, both = ' marker-end="url(#tip)"', ' marker-start="url(#tip)" marker-end="url(#tip)"'
    body = [marker]
    body += box(40, 20, 150, 44, "operator's script", "seed, view, list")
    for at in range(2):
        body += box(250 + at * 150, 20, 120, 44, f"editor {at}", "pages of his own")
        body.append(line(310 + at * 150, 64, 330, 110, arrow=down))
    body.append(line(115, 64, 290, 110, arrow=down))
    body += box(220, 110, 200, 56, "Update Centre", "the one edit list")
    body += box(470, 116, 110, 44, "disk", "its journal")
    body.append(line(420, 138, 470, 138, arrow=both))
    body.append(words(425, 183, "edits go down in numbered packets;", 12, "start"))
    body.append(words(425, 199, "acknowledgements go up", 12, "start"))
    for at in range(3):
        x = 30 + at * 215
        body += box(x, 260, 130, 56, f"centre {at}", "a prefix of the list")
        body.append(line(320, 166, x + 65, 260, arrow=both))
        body += box(x + 145, 268, 52, 40, "disk")
        body.append(line(x + 130, 288, x + 145, 288, arrow=both))
        for caller in range(2):
            body += box(x + caller * 72, 360, 62, 36, "caller")
            body.append(line(x + 65, 316, x + 31 + caller * 72, 360, arrow=both))
    return svg(680, 416, body)


PICTURES = {"docs/crates.svg": crates_picture, "docs/network.svg": network_picture}


def main():
    wrong = 0
    for name, draw in PICTURES.items():
        path, wanted = ROOT / name, draw()
        if sys.argv[1:] != ["--check"]:
            path.write_text(wanted, encoding="utf-8")
            continue
        same = path.exists() and path.read_text(encoding="utf-8") == wanted
        print(f"{name}: {'as it would be drawn' if same else 'differs: run tools/pictures.py'}")
        wrong += not same
    return 1 if wrong else 0


if __name__ == "__main__":
    sys.exit(main())
