#!/usr/bin/env python3
"""Writes crates/pv_web/src/page.rt, in which the server has the page of the terminal, from crates/pv_web/page.html.

    tools/page.py            writes it
    tools/page.py --check    fails if it is another
"""
import sys
from pathlib import Path

CRATE = Path(__file__).resolve().parent.parent / "crates/pv_web"
HEAD = """//! The page of the terminal. It is made from page.html by tools/page.py.

/// The page, as it is served.
pub const PAGE: &str = r##"{}"##;
"""


def main(words):
    page = (CRATE / "page.html").read_text(encoding="ascii")
    if '"##' in page:
        sys.exit("the page has the mark that ends the text")
    made, file = HEAD.format(page), CRATE / "src/page.rt"
    if words != ["--check"]:
        file.write_text(made, encoding="ascii")
    elif file.read_text(encoding="utf-8") != made:
        sys.exit("crates/pv_web/src/page.rt is not page.html: run tools/page.py")


if __name__ == "__main__":
    main(sys.argv[1:])
