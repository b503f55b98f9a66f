#!/usr/bin/env python3
"""Which lines of a script are valid commands, decided apart from the program, and lines that are nearly so.

    checks/grammar.py CENTRES < SCRIPT    prints the number of the first line that is not valid

checks/run plays what `few` and `many` make of a line of each form, and compares.
"""
import re
import sys

DIGITS = rb"0|[1-9][0-9]*"
BYTE = rb"[ -\[\]-~]|\\[0-9a-fA-F]{2}"
CELL = rb"[ -\[\]-~]|\\[0-7][0-9a-fA-F]"


def number(first, end):
    """The words that write a number from the first on and below the end."""
    return lambda word: re.fullmatch(DIGITS, word) is not None and first <= int(word) < end


def text(pattern):
    """The words that a pattern describes, whole."""
    return lambda word: re.fullmatch(pattern, word, re.S) is not None


def forms(centres):
    """What follows each word of a line: the parts of which each is one word, and the last, which may have spaces if it is a text."""
    centre, port, editor, packet = number(0, centres), number(0, 16), number(0, 4), number(0, 1 << 64)
    name = text(rb"(?:0|[1-9][0-9]{0,8})[a-z]")
    key, keys, row = text(BYTE), text(rb"(?:%s)+" % BYTE), text(rb"(?:%s){0,40}" % CELL)

    def node(word):
        return word == b"u" or centre(word)

    table = {
        b"limits": [number(1, 20001), number(1, 50001)],
        b"seed": [name, row],
        b"edit": [editor, text(rb".*")],
        b"dial": [centre, port],
        b"press": [centre, port, key],
        b"store": [centre, port],
        b"show": [centre, port],
        b"keys": [centre, port, keys],
        b"hang": [centre, port],
        b"send": [centre],
        b"post": [centre],
        b"deliver": [centre, packet],
        b"back": [centre, packet],
        b"carry": [centre],
        b"crash": [node],
        b"clock": [number(0, 4102444800)],
        b"view": [centre, name],
        b"at": [centre],
        b"list": [],
        b"bill": [text(rb"[0-9]{10}")],
        b"lines": [centre],
    }
    table[b"cut"] = [number(0, 5), number(0, 256), lambda rest: is_stored(rest, table)]
    return table


def is_stored(line, table):
    """Whether the command after `cut D I` is one that stores a record, in full."""
    return line.split(b" ")[0] in (b"seed", b"edit", b"store", b"deliver", b"back") and has_form(line, table)


def has_form(line, table):
    """Whether the first word has this many parts after it, each after one space, and each as it must be."""
    word, *rest = line.split(b" ", 1)
    if word not in table:
        return False
    parts = table[word]
    if not parts or not rest:
        return not parts and not rest
    words = rest[0].split(b" ", len(parts) - 1)
    return len(words) == len(parts) and all(fits(word) for fits, word in zip(parts, words))


def is_valid(line, place, centres):
    """Whether a line is a valid command, at this place of its script, counted from 1."""
    if line == b"" or line.startswith(b";"):
        return True
    return has_form(line, forms(centres)) and (place == 1 or not line.startswith(b"limits "))


def first_wrong(script, centres):
    """The number of the first line of a script that is not valid, or None."""
    lines = script.split(b"\n")
    if lines[-1] == b"":
        lines.pop()
    return next((place for place, line in enumerate(lines, 1) if not is_valid(line, place, centres)), None)


# ---- lines that are tried

# A line of each form in a play of one centre.
SAMPLES = [
    b"limits 7 20", b"seed 1a A", b"edit 0 X", b"dial 0 3", b"press 0 3 A", b"store 0 3", b"show 0 3", b"keys 0 3 A", b"hang 0 3",
    b"send 0", b"post 0", b"deliver 0 7", b"back 0 7", b"carry 0", b"crash u", b"clock 7", b"view 0 1a", b"at 0", b"list",
    b"bill 1000000001", b"lines 0",
    b"cut 1 7 seed 1a A", b"cut 1 7 edit 0 X", b"cut 1 7 store 0 3", b"cut 1 7 deliver 0 7", b"cut 1 7 back 0 7",
]

# A byte of every kind.
KINDS = b"07az Z\t\n\r\0;*#_\\\x7f\x80\xff"

# What is put in the place of each word: numbers at the ends of each range and past them, notation whole and cut short, and other words.
EDGES = [b"", b"0", b"1", b"3", b"4", b"15", b"16", b"255", b"256", b"20000", b"20001", b"50000", b"50001", b"4102444799", b"4102444800"]
EDGES += [b"%d" % ((1 << bits) + by) for bits in (8, 16, 32, 63, 64) for by in (-1, 0)]
EDGES += [b"u", b"U", b"0a", b"999999999z", b"1000000000a", b"01a", b"1A", b"1", b"1ab", b"0000000000", b"123456789", b"12345678901"]
EDGES += [b"\\", b"\\4", b"\\41", b"\\4g", b"\\fF", b"\\7f", b"\\80", b"A\\", b"A\\4", b"X" * 40, b"X" * 41, b"\\41" * 40, b"\\41" * 41]
EDGES += [b"+1", b"-1", b"1.0", b"0x1", b"1e1", b"1_0", b"\xef\xbc\x91", b"list", b"seed"]


def changed(line):
    """What is nearly this line: a word missing, one more, two spaces, a leading zero, other letters; the line cut at every place, or longer."""
    words = line.split(b" ")
    for at, word in enumerate(words):
        before, after = words[:at], words[at + 1 :]
        yield b" ".join(before + after)
        yield b" ".join([*before, word, word, *after])
        yield b" ".join([*before, b"", word, *after])
        yield b" ".join([*before, b"0" + word, *after])
        yield b" ".join([*before, word.swapcase(), *after])
    for end in range(len(line)):
        yield line[:end]
    yield from (line + more for more in (b" ", b" 0", b"\r", b"\n", b" ;"))
    yield b" " + line


def with_edges(line):
    """The line with each of the edges in the place of each word but the first."""
    words = line.split(b" ")
    for at in range(1, len(words)):
        for edge in EDGES:
            yield b" ".join([*words[:at], edge, *words[at + 1 :]])


def with_kinds(line):
    """The line with a byte of every kind in the place of each of its bytes, before each, and after the last."""
    for at in range(len(line) + 1):
        for kind in KINDS:
            yield line[:at] + bytes([kind]) + line[at + 1 :]
            yield line[:at] + bytes([kind]) + line[at:]


def few():
    """The samples, and what is nearly each of them."""
    return list(dict.fromkeys(made for line in SAMPLES for made in (line, *changed(line))))


def many():
    """The samples with edges and bytes of every kind."""
    return list(dict.fromkeys(made for line in SAMPLES for made in (*with_edges(line), *with_kinds(line))))


if __name__ == "__main__":
    print(first_wrong(sys.stdin.buffer.read(), int(sys.argv[1])))
