"""The other ends of a server's lines: a caller with his terminal, and an editor.

What a frame's screen is, is said here apart from the program: the title, the name and the price in row 1, the body below.
"""
import re
import socket
import time
from typing import NamedTuple

ROWS, COLUMNS = 24, 40
PATIENCE = 20
DIAL = b"KEY YOUR ACCOUNT NUMBER"
NOT_AVAILABLE = b"PAGE NOT AVAILABLE"


class Terminal:
    """What a caller's terminal shows of the bytes that it is sent. An attribute shows as a space."""

    def __init__(self):
        self.cells, self.place, self.is_attribute = [" "] * (ROWS * COLUMNS), 0, False

    def take(self, data):
        """Takes bytes from the line."""
        for byte in data:
            if self.is_attribute or 0x20 <= byte < 0x7F:
                self.cells[self.place] = " " if self.is_attribute else chr(byte)
                self.move(1)
                self.is_attribute = False
            elif byte == 0x1B:
                self.is_attribute = True
            elif byte == 0x0C:
                self.__init__()
            elif byte == 0x1E:
                self.place = 0
            elif byte == 0x0D:
                self.place -= self.place % COLUMNS
            elif byte in (0x0A, 0x0B):
                self.move(COLUMNS if byte == 0x0A else -COLUMNS)

    def move(self, by):
        """The cursor goes on or back, over the edges too."""
        self.place = (self.place + by) % (ROWS * COLUMNS)

    def rows(self):
        """Its rows, as texts."""
        text = "".join(self.cells)
        return [text[at : at + COLUMNS] for at in range(0, ROWS * COLUMNS, COLUMNS)]


class Page(NamedTuple):
    """A page of one frame, whose versions an editor stores one after another. Each row but the last shows which it is."""

    number: int
    price: int = 0

    def name(self):
        return f"{self.number}a"

    def title(self, version):
        return f"PAGE {self.number} VERSION {version}"

    def row(self, at, version):
        return f"ROW {at} OF VERSION {version}"

    def end(self):
        """What the last row of its body shows, in each version."""
        return f"END OF PAGE {self.number}"

    def lines(self, number, version):
        """The lines of an editor that store a version under this number."""
        rows = [f"ROW {at} {self.row(at, version)}" for at in range(2, ROWS - 1)]
        return [f"NEW {self.name()}", f"TITLE {self.title(version)}", *rows, f"ROW {ROWS - 1} {self.end()}", f"PRICE {self.price}", f"STORE {number}"]

    def screen(self, version):
        """The rows of a screen that shows a version."""
        price = f"{self.price}p" if self.price else ""
        first = f"{self.title(version):25}{self.name():11}{price:>4}"
        return [f"{row:{COLUMNS}}" for row in (first, *(self.row(at, version) for at in range(2, ROWS - 1)), self.end(), "")]

    def version_on(self, rows):
        """The version that these rows show, whole. None if they show none."""
        found = re.match(rf"PAGE {self.number} VERSION ([1-9]\d*) ", rows[0])
        return int(found[1]) if found and rows == self.screen(int(found[1])) else None


class Line:
    """A connection to the server, and what it was sent and did not wait for yet."""

    def __init__(self, port):
        for _ in range(400):
            try:
                self.socket = socket.create_connection(("127.0.0.1", port), PATIENCE)
                break
            except ConnectionRefusedError:
                time.sleep(0.02)
        self.socket.settimeout(PATIENCE)
        self.socket.setsockopt(socket.IPPROTO_TCP, socket.TCP_NODELAY, 1)
        self.sent, self.screens = b"", 0

    def take(self):
        """What it is sent next, and nothing once it has ended. A screen begins with a form feed, or with a move to the first cell."""
        part = self.socket.recv(4096)
        self.screens += part.count(b"\f") + part.count(b"\x1e")
        return part

    def key(self, keys):
        """Sends these bytes at once."""
        self.socket.sendall(keys)

    def key_one_by_one(self, keys):
        """Sends each of these bytes by itself."""
        for key in keys:
            self.socket.sendall(bytes([key]))
            time.sleep(0.002)

    def until(self, *texts):
        """Waits until it was sent one of these; returns all that came up to the end of that."""
        while not any(text in self.sent for text in texts):
            part = self.take()
            if not part:
                raise EOFError(f"the line ended before {texts}; it had {self.sent[-200:]!r}")
            self.sent += part
        end = min(self.sent.index(text) + len(text) for text in texts if text in self.sent)
        seen, self.sent = self.sent[:end], self.sent[end:]
        return seen

    def rest(self):
        """All that it is sent until it ends."""
        while part := self.take():
            self.sent += part
        return self.sent

    def hang_up(self):
        """Ends the line, and waits until the server has."""
        self.socket.shutdown(socket.SHUT_WR)
        self.rest()
        self.socket.close()


class Caller(Line):
    """A caller who has dialled."""

    def __init__(self, port):
        super().__init__(port)
        self.terminal = Terminal()
        self.until(DIAL)

    def log_on(self, account, password="ABCD"):
        """Logs on. A new account may be on its way to his centre, so that he may try three times."""
        for pause in (0, 0.5, 2):
            time.sleep(pause)
            self.key(f"{account:010}{password}".encode())
            if self.until(b"WELCOME", b"NOT KNOWN. " + DIAL).endswith(b"WELCOME"):
                return
        raise EOFError(f"the account {account} is not known")

    def asks(self, number, end):
        """Asks for a page, and waits until its last words were shown. Whether there is such a page."""
        self.key(f"*{number}#".encode())
        seen = self.until(end, NOT_AVAILABLE)
        self.terminal.take(seen)
        return not seen.endswith(NOT_AVAILABLE)

    def version_of(self, page):
        """The version of a page that he is shown when he asks for it: 0 if there is no such page, None if he is shown anything else."""
        return page.version_on(self.terminal.rows()) if self.asks(page.number, page.end().encode()) else 0

    def waits_for(self, page, version, pause=0.02):
        """Asks for a page until he is shown this version of it, for some seconds. All that he was shown when he asked."""
        shown, begun = [], time.monotonic()
        while shown[-1:] != [version] and time.monotonic() - begun < PATIENCE:
            time.sleep(pause if shown else 0)
            shown.append(self.version_of(page))
        return shown

    def ends(self):
        """Whether he is told that his call has ended, and then the line ends."""
        self.key(b"*90#")
        return self.rest().rstrip().endswith(b"CALL ENDED")


class Editor(Line):
    """An editor who has logged on: the operator, unless it is said who."""

    def __init__(self, port, account=0, password="0000"):
        super().__init__(port)
        if self.says(f"LOGON {account:010} {password}") != ["OK"]:
            raise EOFError(f"the editor {account} is not known")

    def says(self, *lines):
        """The replies to these lines, which are sent at once."""
        self.key("".join(line + "\n" for line in lines).encode())
        return [self.until(b"\n").decode().strip() for _ in lines]

    def store(self, number, page, version):
        """Stores a version of a page under this number, and returns the reply."""
        *others, last = self.says(*page.lines(number, version))
        return last if set(others) == {"OK"} else str(others)

    def quits(self):
        """Whether his session ends, and then the line."""
        return self.says("QUIT") == ["BYE"] and self.rest() == b""
