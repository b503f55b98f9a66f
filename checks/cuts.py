#!/usr/bin/env python3
"""Scripts of cuts, and what they are answered, computed apart from the program (checks/model.py).

    checks/cuts.py           writes examples/cuts
    checks/cuts.py --check   ends with status 1 if it would write something else

Each of the five commands that store a record has a script for each count of calls of the disk that pass. In it the node is
lost sixteen times, each time opened from another image; the lines between show what stands. checks/run compares the scripts
with the files, and plays them. It also plays a thousand cuts one after another (`Thousand`).
"""
import sys
from collections import Counter
from pathlib import Path

from generated import outputs
from model import Applied, Network, Taken

FOLDER = Path(__file__).resolve().parent.parent / "examples/cuts"
OPERATOR = "LOGON 0000000000 0000"
CALLER, EDITOR = 1000000001, 2000000001


# ---- scripts


class Play:
    """A script, and beside each of its lines the lines that it is answered."""

    def __init__(self):
        self.network, self.lines = Network(), []

    def say(self, *lines):
        for line in lines:
            self.lines.append((line, [] if line.startswith(";") else self.network.answer(line)))
        return self.lines[-1][1][-1:]

    def cut(self, calls, image, command):
        """A cut, of which the image's number may follow from the place of the gate that is opened in it."""
        return self.say(f"cut {calls} {image(self.network.node_of(command).gate)} {command}") == ["kept"]

    def script(self):
        return "".join(f"{line}\n" for line, _ in self.lines)

    def transcript(self):
        return "".join(f"{answer}\n" for _, answers in self.lines for answer in answers)


def numbered(image):
    return lambda gate: image


def opening(byte):
    """The image in which the gate's byte becomes this one, if it was written and not synced: 31 * 223 is 1 modulo 256."""
    return lambda gate: (byte - 17 * gate) * 223 % 256


IMAGES = [numbered(0), numbered(1), numbered(2), opening(1), numbered(255), opening(0), opening(2), numbered(128)]
IMAGES += [opening(255), opening(97), numbered(0), opening(129), numbered(7), opening(33), numbered(1), opening(1)]
# What had passed of the disk's calls, by their count.
PASSED = ["before any call of its disk", "after the write of the body", "after the sync of the body", "after the write of the gate"]
PASSED.append("after all four calls")
PRICED = [f"edit 0 {OPERATOR}", f"edit 0 ACCOUNT 1 {CALLER} ABCD 0 -", "edit 0 NEW 1a", "edit 0 PRICE 99", "edit 0 STORE 2", "carry 0"]
DIALLED = ["dial 0 0", f"keys 0 0 {CALLER}ABCD*1"]


def seeds(play, calls):
    for image in IMAGES:
        play.cut(calls, image, "seed 1a X")
        play.say("list")
    play.say(f"edit 0 {OPERATOR}", "edit 0 LAST", "carry 0", "at 0")


def edits(play, calls):
    wanted = 1
    for image in IMAGES:
        play.say(f"edit 0 {OPERATOR}", "edit 0 NEW 1a")
        wanted += play.cut(calls, image, f"edit 0 STORE {wanted}")
        play.say(f"edit 0 {OPERATOR}", "edit 0 LAST")
    # The last number again is the edit that was kept; without one it is the first.
    play.say("edit 0 NEW 1a", f"edit 0 STORE {max(wanted - 1, 1)}", "list")


def stores(play, calls):
    """Charges and log-ons by turns."""
    play.say(*PRICED)
    for turn, image in enumerate(IMAGES):
        if turn % 2:
            play.say("dial 0 0", f"keys 0 0 {CALLER}ABC", "press 0 0 D")
        else:
            play.say(*DIALLED, "press 0 0 #")
        play.cut(calls, image, "store 0 0")
        play.say("show 0 0", "lines 0")
    play.say("crash 0", "carry 0", f"bill {CALLER}")


def deliveries(play, calls):
    play.say("seed 1a X", "send 0")
    packet = 0
    for image in IMAGES:
        kept = play.cut(calls, image, f"deliver 0 {packet}")
        play.say("at 0")
        if kept:
            # It is old now, and its acknowledgement is the first that is made of it.
            heard = len(play.network.up)
            play.say(f"deliver 0 {packet}", f"back 0 {heard}", "seed 1a X", "send 0")
            packet += 1
    play.say("carry 0", "at 0")


def returns(play, calls):
    play.say(*PRICED, *DIALLED, "keys 0 0 #", "post 0")
    packet = len(play.network.up) - 1
    for image in IMAGES:
        kept = play.cut(calls, image, f"back 0 {packet}")
        play.say("list")
        if kept:
            heard = len(play.network.down)
            play.say(f"back 0 {packet}", f"deliver 0 {heard}", "keys 0 0 *1#", "post 0")
            packet = len(play.network.up) - 1
    play.say("carry 0", f"bill {CALLER}")


COMMANDS = {
    "seed": (seeds, "The Update Centre is lost within a seed"),
    "edit": (edits, "The Update Centre is lost within an editor's request"),
    "store": (stores, "A centre is lost within the store of a charge, and of a log-on"),
    "deliver": (deliveries, "A centre is lost as a record is delivered to it"),
    "back": (returns, "The Update Centre is lost as a charge line comes up"),
}


def plays():
    """Each script of examples/cuts by its name."""
    for word, (lines, says) in COMMANDS.items():
        for calls, passed in enumerate(PASSED):
            play = Play()
            play.say(f"; {says}, {passed}, sixteen times.")
            lines(play, calls)
            yield f"{word}-{calls}", play


# ---- a thousand cuts


class Thousand(Play):
    """A thousand cuts one after another, of mixed commands, over a network that goes on between them."""

    def __init__(self):
        super().__init__()
        self.choices = outputs(1000)
        self.say("limits 100 1000", *PRICED[:-1], f"edit 0 ACCOUNT 3 {EDITOR} NEWS 0 -", f"edit 0 LEASE 4 2 {EDITOR}", "carry 0")
        self.call(0, "*1#")
        self.say("carry 0")
        prepared = [self.seed, self.edit, self.store, self.deliver, self.back]
        for _ in range(1000):
            command = prepared[self.choose(5)]()
            self.cut(self.choose(5), numbered(self.choose(256)), command)
        self.repeat()
        self.say("carry 0", "list", "at 0", f"edit 1 LOGON {EDITOR} NEWS", "edit 1 LAST", "lines 0", f"bill {CALLER}")

    def choose(self, count):
        return next(self.choices) % count

    def seed(self):
        return f"seed {3 + self.choose(7)}a X"

    def edit(self):
        """The editor's next edit, or sometimes the one after it, once he had a reply to the next."""
        self.repeat()
        number = len(self.network.edits_of(EDITOR)) + 1
        if self.choose(4):
            return f"edit 1 STORE {number}"
        self.say(f"edit 1 STORE {number}")
        return f"edit 1 STORE {number + 1}"

    def repeat(self):
        """His last number again, whether he had a reply to the edit or not."""
        self.say(f"edit 1 LOGON {EDITOR} NEWS", "edit 1 NEW 2a", f"edit 1 STORE {max(len(self.network.edits_of(EDITOR)), 1)}")

    def store(self):
        """A call owes a charge. Sometimes another was shown a frame, and then another one or has its line in hand."""
        if self.choose(4) == 0:
            self.call(0, "*1#*1")
            self.say("press 0 0 #", "store 0 0", *["show 0 0"] * self.choose(2))
        self.call(1, "*1")
        self.say("press 0 1 #")
        return f"store 0 {1 if self.choose(8) else 0}"

    def call(self, port, keys):
        self.say(f"hang 0 {port}", f"dial 0 {port}", f"keys 0 {port} {CALLER}ABCD{keys}")

    def deliver(self):
        """The record that the centre lacks: an old one says which, by its acknowledgement."""
        down, up, applied = self.network.down, self.network.up, self.network.centre.count(Applied)
        self.say(*["seed 9a Y"] * (applied == len(self.network.update.records)), "deliver 0 0", f"back 0 {len(up)}", "send 0")
        return f"deliver 0 {self.lacking(down, applied)}"

    def back(self):
        """The same of an item."""
        down, up, taken = self.network.down, self.network.up, self.network.update.count(Taken)
        if taken == len(self.network.items()):
            self.call(0, "*1#")
        first = next(index for index, packet in enumerate(up) if packet[1] is not None)
        self.say(f"back 0 {first}", f"deliver 0 {len(down)}", "post 0")
        return f"back 0 {self.lacking(up, taken)}"

    def lacking(self, packets, number):
        """The index of the packet of this number, if there is one; or sometimes of any of the last three."""
        found = [index for index, packet in enumerate(packets) if packet[0] == number and packet[1] is not None]
        return found[-1] if found and self.choose(4) else len(packets) - 1 - self.choose(3)

    def places(self):
        """The replies that were given to each number of the editor's, by the transcript alone."""
        places = {}
        for line, answers in self.lines:
            if line.startswith("edit 1 STORE ") and answers[0].startswith("OK "):
                places.setdefault(line.split()[-1], set()).add(answers[0])
        return places

    def lines_in_hand(self):
        """How many charge lines each call has beside those of the frames that it was shown, by the transcript alone."""
        shown, serials, log_ons = Counter(), {}, 0
        for line, answers in self.lines:
            port = line.split()[2] if line.startswith(("keys", "show")) else None
            for answer in answers if port else ():
                if answer.endswith("WELCOME"):
                    serials[port], log_ons = log_ons, log_ons + 1
                elif "99p" in answer:
                    shown[serials[port]] += 1
        *stored, _ = next(answers for line, answers in reversed(self.lines) if line == "lines 0")
        more = Counter(int(answer.split()[2]) for answer in stored)
        more.subtract(shown)
        return more


def files():
    """Each file of examples/cuts by its path, and what is in it."""
    for name, play in plays():
        yield FOLDER / f"{name}.script", play.script()
        yield FOLDER / f"{name}.transcript", play.transcript()


def main():
    wanted = dict(files())
    if sys.argv[1:] == ["--check"]:
        there = {path: path.read_text() for path in FOLDER.iterdir()}
        return int(there != wanted)
    FOLDER.mkdir(exist_ok=True)
    for path, text in wanted.items():
        path.write_text(text)
    return 0


if __name__ == "__main__":
    sys.exit(main())
