"""The Update Centre and one centre, by the rules in words: what each line of a script is answered, computed apart from the program.

What a node has after a cut follows from the bytes of its disk: each record is spelled, and stands after a gate in a journal.
Scripts may have the lines that checks/cuts.py writes: edits of blank frames, calls that log on and fetch pages by number.
"""
import hashlib
import re
import struct
from collections import defaultdict
from typing import NamedTuple


# ---- records, and their bytes


class Line(NamedTuple):
    """A charge line."""
    serial: int
    number: int
    account: int
    name: str
    price: int
    moment: int = 0

    def spelling(self):
        return struct.pack(">QIQ", self.serial, self.number, self.account) + name_bytes(self.name) + struct.pack(">HI", self.price, self.moment)

    def text(self):
        return f"line 0 {self.serial} {self.number} {self.name} {self.price} {self.moment}"


class Put(NamedTuple):
    editor: int
    number: int
    name: str
    row: str
    price: int

    def spelling(self):
        cells = " " * 24 + f"{self.row:880}"
        frame = b"\1" + cells.encode() + b"\0" + b"\xff" * 40 + struct.pack(">BHB", self.price, 0, 0)
        return struct.pack(">BQI", 1, self.editor, self.number) + name_bytes(self.name) + frame


class Account(NamedTuple):
    editor: int
    number: int
    account: int
    password: str

    def spelling(self):
        digest = hashlib.sha256(f"{self.account:010}{self.password}".encode()).digest()
        return struct.pack(">BQIQ", 3, self.editor, self.number, self.account) + digest + b"\0\0"


class Lease(NamedTuple):
    editor: int
    number: int
    root: int
    account: int

    def spelling(self):
        return struct.pack(">BQIIQ", 4, self.editor, self.number, self.root, self.account)


class Taken(NamedTuple):
    """An item of centre 0 that was taken up: a charge line."""
    place: int
    line: Line

    def spelling(self):
        return struct.pack(">BBQB", 5, 0, self.place, 1) + self.line.spelling()


class Applied(NamedTuple):
    """A centre's record of one of the edit list, of which a charge comes down as a blank."""
    place: int
    record: tuple

    def spelling(self):
        return struct.pack(">BQ", 1, self.place) + (b"\6" if isinstance(self.record, Taken) else self.record.spelling())


class LogOn(NamedTuple):
    account: int

    def spelling(self):
        return struct.pack(">BQ", 2, self.account)


class Kept(NamedTuple):
    """A centre's record of an item: a charge line."""
    line: Line

    def spelling(self):
        return b"\3\1" + self.line.spelling()


def name_bytes(name):
    return struct.pack(">IB", int(name[:-1]), ord(name[-1]))


# ---- disks and nodes


class Disk:
    """A disk in memory. `left` is how many further calls pass, or None if all do; a call that fails changes nothing."""

    def __init__(self, text):
        self.text, self.left = bytearray(text), None
        self.sync()

    def passes(self):
        if self.left is not None:
            self.left -= 1
        return self.left is None or self.left >= 0

    def write(self, at, data):
        if not self.passes():
            return False
        self.unsynced.append((at, bytes(self.text[at : at + len(data)]), len(data)))
        self.text[at : at + len(data)] = data
        return True

    def sync(self):
        if not self.passes():
            return False
        self.unsynced, self.end = [], len(self.text)
        return True

    def crash(self, image):
        """The image of this number: 0 is as at the last sync, 1 as the disk reads, others have a pattern where it was written."""
        for at, before, length in reversed(self.unsynced):
            if image == 0:
                self.text[at : at + len(before)] = before
            elif image > 1:
                self.text[at : at + length] = bytes((31 * image + 17 * place) % 256 for place in range(at, at + length))
        if image == 0:
            del self.text[self.end :]
        self.left = None
        self.sync()


class Node:
    """A node's records, and the journal of them on its disk: a gate, a length and a body for each, and a closed gate."""

    def __init__(self):
        self.disk, self.records, self.gate = Disk(b"PVJOURN1\0"), [], 8
        # The records by their kind, the places of each editor's, and of what was applied the newest of each name and account.
        self.kinds, self.edits, self.newest = defaultdict(list), defaultdict(list), {}

    def append(self, record):
        """Writes the body after the closed gate, and then opens the gate, each with its sync."""
        body = record.spelling()
        block = struct.pack(">H", len(body)) + body + b"\0"
        at = self.gate
        if self.disk.write(at + 1, block) and self.disk.sync() and self.disk.write(at, b"\1") and self.disk.sync():
            self.take(record)

    def take(self, record):
        self.kinds[type(record)].append(record)
        self.edits[getattr(record, "editor", None)].append(len(self.records))
        self.records.append(record)
        applied = getattr(record, "record", None)
        self.newest[type(applied), getattr(applied, "name", getattr(applied, "account", None))] = applied
        self.gate += 3 + len(record.spelling())

    def cut(self, record, calls, image):
        """Loses the node in the append of a record after this many calls. Says whether the opened node has the record."""
        gate, body = self.gate, record.spelling()
        self.disk.left = calls
        self.append(record)
        self.disk.crash(image)
        is_open = self.disk.text[gate] == 1
        if is_open:
            assert self.disk.text[gate + 1 : gate + 3 + len(body)] == struct.pack(">H", len(body)) + body
        if is_open and self.gate == gate:
            self.take(record)
        assert is_open == (self.gate > gate) and self.disk.text[self.gate] != 1
        return is_open

    def count(self, kind):
        return len(self.kinds[kind])


class End:
    """A sending end: what was acknowledged to it, and the number that it gives next."""

    def __init__(self):
        self.acknowledged = self.next = 0

    def peek(self, front):
        if self.acknowledged >= front:
            return None
        return self.next if self.acknowledged <= self.next < front else self.acknowledged

    def give(self, front):
        number = self.peek(front)
        self.next = number + 1
        return number

    def hear(self, count, front):
        if self.acknowledged < count <= front:
            self.acknowledged = count


# ---- seats


def alone(words):
    return "screen \\0c" + "\\0d\\0a" * 23 + words


def message(words):
    return f"screen \\1e\\0b{words:40}"


def picture(frame):
    """The screen of a frame: its name and price in row 1, its row in row 2."""
    price = f"{frame.price}p" if frame.price else ""
    top = f"{'':25}{frame.name:11}{price:>4}"
    ends = "" if price else "\\0d\\0a"
    return "screen \\0c" + top.rstrip() + ends + frame.row.rstrip() + "\\0d\\0a" * 22


class Seat:
    """An editor's seat."""

    def __init__(self):
        self.account, self.frame = None, None


class Call:
    """A caller's seat. What is owed is a record of his centre; `reply` is there once it is stored and not shown yet."""

    def __init__(self):
        self.keyed, self.account, self.serial, self.lines, self.owed, self.reply, self.aside = "", None, None, 0, None, None, None

    def press(self, key, centre):
        """What a key shows: his account's ten digits, his password's four characters, or `*`, a page and `#`."""
        self.keyed += key
        if self.account is None:
            if len(self.keyed) < 10:
                return "quiet"
            self.account, self.keyed = int(self.keyed), ""
            return message("KEY YOUR PASSWORD")
        if self.serial is None:
            if len(self.keyed) < 4:
                return "quiet"
            assert centre.newest[Account, self.account].password == self.keyed
            self.keyed, self.owed = "", LogOn(self.account)
            return "owes"
        return self.fetch(re.fullmatch(r"\*(\d+)#", self.keyed), centre)

    def fetch(self, command, centre):
        if command is None:
            return "quiet"
        name, self.keyed = f"{command[1]}a", ""
        frame = centre.newest.get((Put, name))
        if frame is None:
            return message("PAGE NOT AVAILABLE")
        if not frame.price:
            return picture(frame)
        self.aside, self.owed = frame, Kept(Line(self.serial, self.lines, self.account, name, frame.price))
        return "owes"

    def show(self):
        owed, reply, self.owed, self.reply = self.owed, self.reply, None, None
        if isinstance(owed, LogOn):
            self.serial = reply
            return alone("WELCOME")
        self.lines += 1
        return picture(self.aside)


# ---- the network


class Network:
    """The Update Centre and one centre, by the rules in words: what each line of a script is answered."""

    def __init__(self):
        self.update, self.centre, self.down, self.up = Node(), Node(), [], []
        self.lose(self.update)
        self.lose(self.centre)

    def lose(self, node):
        """What a node has in memory alone is new."""
        if node is self.update:
            self.seats, self.sending = [Seat() for _ in range(4)], End()
        else:
            self.calls, self.posting = {}, End()

    def answer(self, line):
        """The lines that are written for a line of a script."""
        word, _, tail = line.partition(" ")
        answer = getattr(self, f"on_{word}")(tail)
        return [answer] if isinstance(answer, str) else answer

    def node_of(self, command):
        return self.centre if command.split(" ")[0] in ("store", "deliver") else self.update

    def on_cut(self, tail):
        calls, image, command = tail.split(" ", 2)
        word, _, tail = command.partition(" ")
        node, record = self.node_of(command), getattr(self, f"stored_by_{word}")(tail)
        kept = record is not None and node.cut(record, int(calls), int(image))
        self.lose(node)
        return "none" if record is None else "kept" if kept else "lost"

    def on_crash(self, tail):
        node = self.update if tail == "u" else self.centre
        self.lose(node)
        return f"crashed {len(node.records)}"

    def on_limits(self, tail):
        return f"limits {tail}"

    # editors

    def edits_of(self, editor):
        return self.update.edits[editor]

    def stored_by_seed(self, tail):
        name, _, row = tail.partition(" ")
        return Put(0, len(self.edits_of(0)) + 1, name, row, 0)

    def on_seed(self, tail):
        self.update.append(self.stored_by_seed(tail))
        return f"OK {len(self.update.records) - 1}"

    def said(self, tail):
        """The step of an editor's line: a record that is to be stored, or a reply."""
        port, _, line = tail.partition(" ")
        seat, (word, *parts) = self.seats[int(port)], line.split(" ")
        if word == "LOGON":
            seat.account, seat.frame = int(parts[0]), None
        elif seat.account is None:
            return "NO 1 LOG ON FIRST"
        elif word == "LAST":
            return f"OK {len(self.edits_of(seat.account))}"
        elif word == "NEW":
            seat.frame = Put(seat.account, 0, parts[0], "", 0)
        elif seat.frame is None and word in ("PRICE", "STORE"):
            return "NO 12 NOTHING OPEN"
        elif word == "PRICE":
            seat.frame = seat.frame._replace(price=int(parts[0]))
        else:
            return self.judged(seat, word, int(parts[0]), parts[1:])
        return "OK"

    def judged(self, seat, word, number, parts):
        edits = self.edits_of(seat.account)
        if edits and number == len(edits):
            return f"OK {edits[-1]}"
        if number != len(edits) + 1:
            return f"NO 3 NUMBER {len(edits) + 1} WANTED"
        if word == "STORE":
            return seat.frame._replace(number=number)
        if word == "ACCOUNT":
            return Account(seat.account, number, int(parts[0]), parts[1])
        return Lease(seat.account, number, int(parts[0]), int(parts[1]))

    def stored_by_edit(self, tail):
        said = self.said(tail)
        return None if isinstance(said, str) else said

    def on_edit(self, tail):
        said = self.said(tail)
        if isinstance(said, str):
            return said
        self.update.append(said)
        return f"OK {len(self.update.records) - 1}"

    def on_list(self, tail):
        return f"records {len(self.update.records)}"

    # callers

    def items(self):
        return self.centre.kinds[Kept]

    def on_dial(self, tail):
        if tail in self.calls:
            return "busy"
        self.calls[tail] = Call()
        return alone("KEY YOUR ACCOUNT NUMBER")

    def on_hang(self, tail):
        return "no call" if self.calls.pop(tail, None) is None else "hung"

    def on_press(self, tail):
        at, key = tail[:-2], tail[-1]
        if at not in self.calls:
            return "no call"
        return "owing" if self.calls[at].owed else self.calls[at].press(key, self.centre)

    def stored_by_store(self, tail):
        call = self.calls.get(tail)
        return None if call is None or call.reply is not None else call.owed

    def on_store(self, tail):
        record = self.stored_by_store(tail)
        if record is None:
            return "nothing" if tail in self.calls else "no call"
        self.calls[tail].reply = self.centre.count(LogOn)
        self.centre.append(record)
        return "stored"

    def on_show(self, tail):
        if tail not in self.calls:
            return "no call"
        return "nothing" if self.calls[tail].reply is None else self.calls[tail].show()

    def on_keys(self, tail):
        centre, port, keys = tail.split(" ", 2)
        at, answers = f"{centre} {port}", []
        for key in keys:
            answer = self.on_press(f"{at} {key}")
            if answer in ("no call", "owing"):
                return answer
            if answer == "owes":
                self.on_store(at)
                answer = self.on_show(at)
            answers += [answer] if answer != "quiet" else []
        return answers or "quiet"

    def on_lines(self, tail):
        return bill([kept.line for kept in self.items()])

    def on_bill(self, tail):
        return bill([taken.line for taken in self.update.kinds[Taken] if taken.line.account == int(tail)])

    # packets

    def on_at(self, tail):
        return f"applied {self.centre.count(Applied)}"

    def on_send(self, tail):
        front = len(self.update.records)
        if self.sending.peek(front) is None:
            return "idle"
        number = self.sending.give(front)
        self.down.append((number, self.update.records[number]))
        return f"sent {len(self.down) - 1} record {number}"

    def on_post(self, tail):
        items = self.items()
        if self.posting.peek(len(items)) is None:
            return "idle"
        number = self.posting.give(len(items))
        self.up.append((number, items[number].line))
        return f"sent {len(self.up) - 1} item {number}"

    def stored_by_deliver(self, tail):
        number, record = packet_in(self.down, tail)
        return Applied(number, record) if record and number == self.centre.count(Applied) else None

    def stored_by_back(self, tail):
        number, line = packet_in(self.up, tail)
        return Taken(number, line) if line and number == self.update.count(Taken) else None

    def on_deliver(self, tail):
        number, record = packet_in(self.down, tail)
        if record is None and number is not None:
            self.posting.hear(number, len(self.items()))
        return self.arrive(self.centre, Applied, self.stored_by_deliver(tail), number, record, self.up)

    def on_back(self, tail):
        number, line = packet_in(self.up, tail)
        if line is None and number is not None:
            self.sending.hear(number, len(self.update.records))
        return self.arrive(self.update, Taken, self.stored_by_back(tail), number, line, self.down)

    def arrive(self, node, kind, stored, number, load, answers):
        """A packet arrives at a node: what comes next is taken, and what was taken, is old or is early is acknowledged."""
        if number is None:
            return "no packet"
        if load is None:
            return f"heard {number}"
        word = "taken" if stored else "old" if number < node.count(kind) else "early"
        if stored:
            node.append(stored)
        answers.append((node.count(kind), None))
        return f"{word} {number} ack {len(answers) - 1}"

    def on_carry(self, tail):
        records, items = self.centre.count(Applied), self.update.count(Taken)
        while True:
            if self.sending.peek(len(self.update.records)) is not None:
                self.on_send("0")
                self.on_deliver(f"0 {len(self.down) - 1}")
                self.on_back(f"0 {len(self.up) - 1}")
            elif self.posting.peek(len(self.items())) is not None:
                while self.posting.peek(len(self.items())) is not None:
                    self.on_post("0")
                    self.on_back(f"0 {len(self.up) - 1}")
                    self.on_deliver(f"0 {len(self.down) - 1}")
            else:
                return f"carried {self.centre.count(Applied) - records} {self.update.count(Taken) - items}"


def packet_in(packets, tail):
    """The number and the load of a packet; no load is an acknowledgement, and no number no packet."""
    index = int(tail.split(" ")[1])
    return packets[index] if index < len(packets) else (None, None)


def bill(lines):
    return [line.text() for line in lines] + [f"sum {sum(line.price for line in lines)}"]
