#!/usr/bin/env python3
"""Writes docs/EDITS.md, the list of what cannot happen, from crates/*/must-fail.

    tools/edits.py           writes the document
    tools/edits.py --check   exits with 1 if the document differs from what would be written

Each must-fail edit is named for a disaster. It changes one line or a few of the code so that the disaster happens,
and the gate sees that the contracts refuse the changed code.
"""
import re
import sys
from pathlib import Path

ROOT = Path(__file__).resolve().parent.parent
DOCUMENT = ROOT / "docs/EDITS.md"
WIDEST = 100

HEAD = """# What cannot happen

Each row is a wrong version of the code that the contracts refuse: its name says what would happen, the line is the
first that it changes. `rt ci` tries every one and fails if one is still proved. This page is made by
[tools/edits.py](../tools/edits.py) from `crates/*/must-fail`; `checks/run` compares the two.

"""


def crates():
    """The names of the crates, lowest layer first."""
    lines = (ROOT / "crates.txt").read_text(encoding="utf-8").splitlines()
    return [line.split(":")[0].strip() for line in lines if line.strip() and not line.startswith("#")]


def parts(edit):
    """The file that an edit changes, and its first pair of an old and a new text."""
    found = {}
    for line in edit.read_text(encoding="utf-8").splitlines():
        key, _, text = line.partition(": ")
        found.setdefault(key, text.strip())
    return found["file"], found["old"], found["new"]


def code(text):
    """The text as one cell of a table: shortened, and with what a table would read as its own set apart."""
    short = text if len(text) <= WIDEST else text[: WIDEST - 1] + "…"
    fence = "``" if "`" in short else "`"
    return f"{fence}{short}{fence}".replace("|", "\\|") if short else "(nothing)"


def rows(crate):
    """A row for each edit of a crate."""
    for edit in sorted((ROOT / "crates" / crate / "must-fail").glob("*.edit")):
        file, old, new = parts(edit)
        disaster = edit.stem.replace("_", " ")
        link = f"[{disaster}](../crates/{crate}/must-fail/{edit.name})"
        yield f"| {link} | {file.removeprefix('src/')} | {code(old)} | {code(new)} |"


def document():
    """The whole page."""
    text = HEAD
    for crate in crates():
        lines = list(rows(crate))
        if lines:
            text += f"## {crate}\n\n| disaster | file | in place of | stands |\n|---|---|---|---|\n" + "\n".join(lines) + "\n\n"
    return re.sub(r"\n+\Z", "\n", text)


def main():
    wanted = document()
    if sys.argv[1:] == ["--check"]:
        same = DOCUMENT.exists() and DOCUMENT.read_text(encoding="utf-8") == wanted
        print(f"{DOCUMENT.relative_to(ROOT)}: {'as the edits are' if same else 'differs: run tools/edits.py'}")
        return 0 if same else 1
    DOCUMENT.write_text(wanted, encoding="utf-8")
    return 0


if __name__ == "__main__":
    sys.exit(main())
