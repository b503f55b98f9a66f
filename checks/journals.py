"""What the files of a folder hold, read apart from the program: the edit list, and the records of each centre."""
import struct
from typing import NamedTuple

MARK = b"PVJOURN1"
PUT, TAKEN = 1, 5
APPLIED, LOG_ON, KEPT = 1, 2, 3
CHARGE = 1


class Put(NamedTuple):
    """An edit that puts a frame: whose and under which number, and what the frame is called and titled."""

    editor: int
    number: int
    name: str
    title: str


class Charge(NamedTuple):
    """A charge line."""

    serial: int
    number: int
    account: int
    name: str
    price: int


def bodies(path):
    """The bodies of a journal, in order: each stands after an open gate and its length, and a closed gate ends them."""
    text = path.read_bytes()
    if not text.startswith(MARK):
        raise ValueError(f"{path} is no journal")
    at = len(MARK)
    while text[at] == 1:
        begin = at + 3
        at = begin + int.from_bytes(text[at + 1 : begin], "big")
        yield text[begin:at]


def name_of(text):
    """A frame's name, from its bytes."""
    page, letter = struct.unpack(">IB", text)
    return f"{page}{chr(letter)}"


def put_of(body):
    """The edit of a body that puts a frame."""
    editor, number = struct.unpack_from(">QI", body, 1)
    return Put(editor, number, name_of(body[13:18]), body[19:43].decode().rstrip())


def charge_of(text):
    """The charge line of these bytes."""
    serial, number, account = struct.unpack_from(">QIQ", text)
    return Charge(serial, number, account, name_of(text[20:25]), int.from_bytes(text[25:27], "big"))


class UpdateCentre:
    """What the Update Centre's file holds: how many records, the frames that were put, and the charges that came from each centre."""

    def __init__(self, path):
        self.count, self.puts, self.charges = 0, [], {}
        for body in bodies(path):
            self.count += 1
            if body[0] == PUT:
                self.puts.append(put_of(body))
            elif body[0] == TAKEN and body[10] == CHARGE:
                self.charges.setdefault(body[1], []).append(charge_of(body[11:]))


class Centre:
    """What a centre's file holds: the places of the records that it has applied, the frames among them, and its charges."""

    def __init__(self, path):
        self.places, self.puts, self.charges, self.log_ons = [], [], [], 0
        for body in bodies(path):
            if body[0] == APPLIED:
                self.places.append(int.from_bytes(body[1:9], "big"))
                if body[9] == PUT:
                    self.puts.append(put_of(body[9:]))
            elif body[0] == KEPT and body[1] == CHARGE:
                self.charges.append(charge_of(body[2:]))
            elif body[0] == LOG_ON:
                self.log_ons += 1
