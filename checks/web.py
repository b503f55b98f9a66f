"""What `prestel web` answers to browsers, and to what is none, over plain sockets."""
import base64
import hashlib
import os
import socket
import time
from pathlib import Path

from serving import Place
from viewdata import DIAL, PATIENCE, Caller, Page

CALLER = 1_000_000_001
PAGE = Path(__file__).resolve().parent.parent / "crates/pv_web/page.html"
# How long a browser may take to say what it asks for, in seconds, how long a head may be, and how long a message.
LIMIT, MAX_HEAD, MAX_MESSAGE = 10, 8192, 512
MANY = 20
PINGS = 20_000
# What a server may take more for all of this, in bytes.
ROOM = 16 << 20
BINARY, TEXT, CLOSE, PING, PONG = 2, 1, 8, 9, 10


class Browser:
    """A connection to the web's port."""

    def __init__(self, server):
        self.port = server.web
        for _ in range(400):
            try:
                self.socket = socket.create_connection(("127.0.0.1", self.port), PATIENCE)
                break
            except ConnectionRefusedError:
                time.sleep(0.02)
        self.socket.settimeout(2 * PATIENCE)
        self.came = b""

    def rest(self):
        """All that it is sent until the end. Nothing, if the server has broken the connection."""
        try:
            while part := self.socket.recv(65_536):
                self.came += part
        except ConnectionResetError:
            pass
        return self.came

    def asks(self, target="/", method="GET", host=None, origin=None, more=()):
        """The status of the answer, its fields and its body."""
        self.sends(self.head(target, method, host, origin, more))
        head, _, body = self.rest().partition(b"\r\n\r\n")
        first, *fields = head.decode().split("\r\n")
        return int((first.split() or ["", "0"])[1]), {field.partition(": ")[0].lower(): field.partition(": ")[2] for field in fields}, body

    def head(self, target="/", method="GET", host=None, origin=None, more=()):
        """The head of a request."""
        fields = [f"Host: {host or f'127.0.0.1:{self.port}'}", *([f"Origin: {origin}"] if origin else []), *more]
        return "\r\n".join([f"{method} {target} HTTP/1.1", *fields, "", ""]).encode()

    def sends(self, data):
        """Sends these bytes, of which a server that refuses may not take all."""
        try:
            self.socket.sendall(data)
        except (BrokenPipeError, ConnectionResetError):
            pass

    def until(self, data):
        """All that it is sent up to the end of this."""
        while data not in self.came:
            part = self.socket.recv(65_536)
            if not part:
                raise EOFError(f"the connection ended before {data}")
            self.came += part
        seen, _, self.came = self.came.partition(data)
        return seen + data


class WebCaller(Browser):
    """A caller at a browser."""

    def __init__(self, server, origin=None):
        super().__init__(server)
        key = base64.b64encode(os.urandom(16)).decode()
        more = ["Connection: keep-alive, Upgrade", "Upgrade: websocket", "Sec-WebSocket-Version: 13", f"Sec-WebSocket-Key: {key}"]
        self.socket.sendall(self.head("/call", origin=origin, more=more))
        answer = base64.b64encode(hashlib.sha1(f"{key}258EAFA5-E914-47DA-95CA-C5AB0DC85B11".encode()).digest())
        head = self.until(b"\r\n\r\n")
        self.is_accepted = head.startswith(b"HTTP/1.1 101 ") and answer in head
        self.shown = b""

    def send(self, payload, kind=BINARY, is_masked=True, is_last=True):
        """Sends a frame."""
        mask = os.urandom(4) if is_masked else b""
        size = bytes([len(payload)]) if len(payload) < 126 else b"\x7e" + len(payload).to_bytes(2, "big")
        size = bytes([size[0] | (0x80 if is_masked else 0)]) + size[1:]
        body = bytes(byte ^ mask[at % 4] for at, byte in enumerate(payload)) if is_masked else payload
        self.sends(bytes([kind | (0x80 if is_last else 0)]) + size + mask + body)

    def needs(self, count):
        """The next bytes that it is sent, so many."""
        while len(self.came) < count:
            part = self.socket.recv(65_536)
            if not part:
                raise EOFError("the connection ended")
            self.came += part
        taken, self.came = self.came[:count], self.came[count:]
        return taken

    def message(self):
        """The kind of the next frame, and its payload."""
        first, size = self.needs(2)
        size = int.from_bytes(self.needs(2), "big") if size == 126 else size
        return first & 15, self.needs(size)

    def until_shown(self, *texts):
        """What it is shown up to the end of one of these."""
        while not any(text in self.shown for text in texts):
            kind, payload = self.message()
            if kind != BINARY:
                raise EOFError(f"a frame of kind {kind}")
            self.shown += payload
        end = min(self.shown.index(text) + len(text) for text in texts if text in self.shown)
        seen, self.shown = self.shown[:end], self.shown[end:]
        return seen

    def end(self):
        """The frames that it is sent until the end."""
        frames = []
        try:
            while True:
                frames.append(self.message())
        except (EOFError, ConnectionResetError):
            return frames


def answers(program):
    """The page, and nothing else, goes to who reaches the server under its own names."""
    with Place(program) as place:
        server = place.server(is_web=True)
        status, fields, body = Browser(server).asks()
        yield "web: the page is served as it is kept", (status, body) == (200, PAGE.read_bytes())
        yield "web: as a page, after which the connection ends", fields["content-type"] == "text/html; charset=utf-8" and fields["connection"] == "close"
        own = f"http://localhost:{server.web}"
        yield "web: under the other name too", Browser(server).asks(host=own[7:], origin=own)[0] == 200
        yield "web: nothing else is there", [Browser(server).asks(target)[0] for target in ("/x", "//", "/?x", "*")] == [404] * 4
        yield "web: and nothing is taken", [Browser(server).asks(method=method)[0] for method in ("HEAD", "POST", "PUT", "DELETE")] == [404] * 4
        yield "web: another host's page is refused", [Browser(server).asks(target, origin="http://example.org")[0] for target in ("/", "/call")] == [403] * 2
        yield "web: and so is another host's name", [Browser(server).asks(target, host="example.org")[0] for target in ("/", "/call")] == [403] * 2
        yield "web: a call is a websocket", Browser(server).asks("/call")[0] == 426
        server.caller().hang_up()
        server.editor().hang_up()
        yield "web: all of that was no call", server.end() == ("", "", 0)


def misuse(program):
    """What is no request, and browsers that say nothing, hold no port."""
    with Place(program) as place:
        server = place.server(is_web=True)
        long = "/" + "x" * (2 * MAX_HEAD)
        yield "web: a line that is too long", Browser(server).asks(long)[0] == 414
        yield "web: a head that never ends", Browser(server).asks(more=["X: " + "x" * (2 * MAX_HEAD)])[0] == 431
        yield "web: too many fields", Browser(server).asks(more=["X: 1"] * 100)[0] == 431
        rubbish = Browser(server)
        rubbish.sends(bytes(range(256)))
        yield "web: what is no request", rubbish.rest().startswith(b"HTTP/1.1 400 ")
        silent, begun = [Browser(server) for _ in range(MANY)], time.monotonic()
        half = Browser(server)
        half.sends(b"GET / HTTP/1.1\r\nHo")
        yield "web: beside many that say nothing a page is served at once", Browser(server).asks()[0] == 200 and time.monotonic() - begun < 2
        ended = [each.rest() for each in [*silent, half]]
        yield "web: and they are dropped", set(ended) == {b""} and time.monotonic() - begun < LIMIT + 3
        server.caller().hang_up()
        yield "web: after all of that a call is answered", True
        server.editor().hang_up()
        yield "web: and the server ends as it should", server.end() == ("", "", 0)


def calls(program):
    """A call from a browser is a call: what it is shown is what a plain socket is sent."""
    page = Page(1, 2)
    with Place(program) as place:
        server = place.server(calls=4, is_web=True)
        editor = server.editor()
        replies = [*editor.says(f"ACCOUNT 1 {CALLER} ABCD 0 -"), editor.store(2, page, 1)]
        plain = server.caller()
        plain.log_on(CALLER)
        shown = plain.waits_for(page, 1)
        plain.ends()
        keys = f"{CALLER:010}ABCD*1#*90#".encode()
        seen = []
        for origin in (None, f"http://127.0.0.1:{server.web}"):
            caller = WebCaller(server, origin)
            yield "web: a call is accepted", caller.is_accepted and caller.until_shown(DIAL).endswith(DIAL)
            for part in (keys[:3], keys[3:20], keys[20:]):
                caller.send(b"", PING)
                caller.send(part)
            frames = caller.end()
            seen.append(caller.shown + b"".join(payload for kind, payload in frames if kind == BINARY))
            yield "web: its pings are answered and are no keys", [payload for kind, payload in frames if kind == PONG] == [b""] * 3
            yield "web: and it ends with a close", frames[-1][0] == CLOSE
        other = Caller(server.first)
        other.key(keys)
        yield "web: two browsers are shown what a plain caller is sent", seen == [other.rest()] * 2
        editor.hang_up()
        for _ in range(3):
            server.editor().hang_up()
        yield "web: the server ends as it should", replies == ["OK 0", "OK 1"] and server.end() == ("", "", 0)
        count = shown.count(1) + 3
        yield "web: each priced frame is on the statement once", place.bill(CALLER) == ([("1a", 2)] * count, 2 * count)


def faults(program):
    """A browser that breaks the rules of a websocket loses its call, and no port is lost."""
    with Place(program) as place:
        server = place.server(calls=7, is_web=True)
        editor = server.editor()
        editor.says(f"ACCOUNT 1 {CALLER} ABCD 0 -")
        editor.hang_up()
        for name, breaks in (
            ("a message that is too long", lambda caller: caller.send(b"1" * (MAX_MESSAGE + 1))),
            ("a message without a mask", lambda caller: caller.send(b"1", is_masked=False)),
            ("a text", lambda caller: caller.send(b"1", TEXT)),
            ("a frame of no kind", lambda caller: caller.send(b"1", 7)),
            ("a close", lambda caller: caller.send(b"", CLOSE)),
        ):
            caller = WebCaller(server)
            caller.until_shown(DIAL)
            breaks(caller)
            caller.end()
            yield f"web: {name} ends the call", True
        status = Path(f"/proc/{server.process.pid}/status")
        peak = lambda: next(1024 * int(line.split()[1]) for line in status.read_text().splitlines() if line.startswith("VmHWM:"))
        before, caller = peak(), WebCaller(server)
        caller.until_shown(DIAL)
        for _ in range(PINGS):
            caller.send(b"ping", PING)
        pongs = [caller.message() for _ in range(PINGS)]
        yield "web: each of many pings is answered", pongs == [(PONG, b"ping")] * PINGS
        caller.send(f"{CALLER:010}AB".encode(), is_last=False)
        caller.send(b"CD*90#", kind=0)
        frames = caller.end()
        yield "web: and a message in two frames is keys", b"CALL ENDED" in b"".join(payload for kind, payload in frames if kind == BINARY)
        yield "web: none of that takes much memory", peak() - before < ROOM
        server.caller().hang_up()
        yield "web: after all of that a call is answered", True
        for _ in range(6):
            server.editor().hang_up()
        yield "web: and the server ends as it should", server.end() == ("", "", 0)


def words(program):
    """Words that ask for no server with a page are refused, and the help is there."""
    with Place(program) as place:
        rest = ["serve", "net", "--centres", "1", "--ports", "1", "--editors", "1", "--calls", "1", "--port", "7000", "--editor-port", "7001"]
        wrong = [["web"], ["web", "8080"], ["web", *rest], *(["web", port, *rest] for port in ("0", "7000", "7001", "65536", "08080", "x")), ["web", "8080", *rest[:-1]]]
        refused = ("", "prestel: bad command line; try prestel web --help\n", 2)
        yield "web: words that do not read", [place.run(*each) for each in wrong] == [refused] * len(wrong)
        out, said, status = place.run("web", "--help")
        yield "web: the help", out.startswith("usage: prestel web W serve DIR ") and (said, status) == ("", 0)
        with socket.socket() as taken:
            taken.bind(("127.0.0.1", 0))
            taken.listen()
            port = taken.getsockname()[1]
            out, said, status = place.run("web", str(port), *rest)
            yield "web: a port that is taken", (out, status) == ("", 10) and said.startswith(f"prestel: port {port}: ") and said.count("\n") == 1


def browsers(program):
    """A line for each thing that the web's port is asked."""
    for part in (words, answers, misuse, calls, faults):
        yield from part(program)
