"""What the program does as a server: callers and editors over sockets, and the records in files."""
import os
import pty
import re
import time
from pathlib import Path

from busy import CENTRES, EDITORS, PORTS, an_evening
from outside import failures
from serving import MEMORY, Place
from stops import stops
from viewdata import Line, Page
from web import browsers

EXAMPLES = Path(__file__).resolve().parent.parent / "examples/server"
CALLER = 1_000_000_001


def first_call(program):
    """An editor stores a page, and a caller is shown it."""
    page = Page(1, 2)
    with Place(program) as place:
        server = place.server()
        editor = server.editor()
        replies = [*editor.says(f"ACCOUNT 1 {CALLER} ABCD 0 -"), editor.store(2, page, 1)]
        yield "serve: an editor's edits are acknowledged", replies == ["OK 0", "OK 1"]
        caller = server.caller()
        caller.log_on(CALLER)
        shown = caller.waits_for(page, 1) + [caller.version_of(page)]
        yield "serve: a caller is shown the page, whole", set(shown) <= {0, 1} and shown[-1] == 1
        yield "serve: a call ends, and its line", caller.ends()
        yield "serve: so does a session", editor.quits()
        yield "serve: with the last line the server ends", server.end() == ("", "", 0)
        yield "serve: each priced frame that he was shown is on his statement once", place.bill(CALLER) == ([("1a", 2)] * shown.count(1), 2 * shown.count(1))


def example(program):
    """The example of an editor's session has its replies, and a caller is shown what it stores."""
    with Place(program) as place:
        server = place.server()
        editor = Line(server.editor_port)
        editor.key((EXAMPLES / "first-page.lines").read_bytes())
        yield "serve: the example of an editor's session", editor.rest() == (EXAMPLES / "first-page.replies").read_bytes()
        caller = server.caller()
        caller.log_on(CALLER)
        shown = any(caller.asks(1, b"SOCKET.") or time.sleep(0.02) for _ in range(200))
        rows = [row.split() for row in caller.terminal.rows()]
        yield "serve: and its page", shown and (rows[0], rows[2], rows[4]) == (["EVENING", "NEWS", "1a"], "ALL TRAINS RUN TODAY.".split(), "THIS PAGE CAME OVER A SOCKET.".split()) and caller.ends()


def in_pieces(program):
    """What comes byte by byte and what comes in one segment is answered alike, over a plain socket."""
    keys = f"{CALLER}ABCD*1#*2#*#*00*1_*90#".encode()
    lines = b"LAST\nLOGON 0000000000 0001\nLOGON 0000000000 0000\r\nLAST\nOPEN 1a\nROW 2 X\nLIST\nQUIT\n"
    with Place(program) as place:
        server = place.server()
        editor, pages = server.editor(), (Page(1), Page(2, 3))
        editor.says(f"ACCOUNT 1 {CALLER} ABCD 0 -")
        stored = [editor.store(number, page, 7) for number, page in enumerate(pages, 2)]
        server.caller().hang_up()
        yield "serve: pages for a caller by a plain socket", stored == ["OK 1", "OK 2"] and editor.quits() and server.end() == ("", "", 0)
        server = place.server(calls=2)
        sent = []
        for send in (Line.key_one_by_one, Line.key):
            line = Line(server.first)
            send(line, keys)
            sent.append(line.rest())
        screens = sent[0].split(b"\f")
        yield "serve: keys byte by byte and in one segment", sent[0] == sent[1] and sent[0].rstrip().endswith(b"CALL ENDED")
        yield "serve: each of them was read as a key", [b"VERSION 7" in screen for screen in screens] == [False] * 3 + [True] * 5
        replies = []
        for send in (Line.key_one_by_one, Line.key):
            line = Line(server.editor_port)
            send(line, lines)
            replies.append(line.rest().decode().splitlines())
        wanted = ["NO 1 LOG ON FIRST", "NO 13 NOT KNOWN", "OK", "OK 3", "OK", "OK", "NO 11 BAD LINE", "BYE"]
        yield "serve: an editor's lines byte by byte and in one segment", replies == [wanted, wanted] and server.end() == ("", "", 0)


def at_once(program):
    """Callers and editors are served side by side."""
    with Place(program, 2) as place:
        server = place.server(centres=2, ports=2, editors=2)
        callers = [server.caller(centre) for centre in (0, 1, 0, 1)]
        editors = [server.editor(), server.editor()]
        yield "serve: as many lines as there are ports are served at once", True
        yield "serve: two editors edit at once", [editors[0].store(1, Page(1), 1), editors[1].says("LAST")[0]] == ["OK 0", "OK 1"]
        for line in callers + editors:
            line.hang_up()
        yield "serve: a line that hangs up ends its call", server.end() == ("", "", 0)


def seen_soon(program):
    """Each edit that was acknowledged is seen by a caller, within the time that he waits for anything (bench/serve has how soon)."""
    page = Page(1)
    with Place(program, within=MEMORY) as place:
        server = place.server()
        editor = server.editor()
        editor.says(f"ACCOUNT 1 {CALLER} ABCD 0 -")
        caller = server.caller()
        caller.log_on(CALLER)
        seen = []
        for version in range(1, 42):
            editor.store(version + 1, page, version)
            seen.append(caller.waits_for(page, version, 0)[-1:])
            time.sleep(0.06)
        yield "serve: each edit that was acknowledged is seen", seen == [[version] for version in range(1, 42)]


def stopped(program):
    """A server that is killed loses nothing that it has acknowledged, and no charge of a frame that was shown."""
    page = Page(1, 1)
    with Place(program) as place:
        server = place.server(calls=100)
        editor = server.editor()
        editor.says(f"ACCOUNT 1 {CALLER} ABCD 0 -")
        caller = server.caller()
        caller.log_on(CALLER)
        replies, shown = [], []
        for version in range(1, 39):
            replies.append(editor.store(version + 1, page, version))
            shown.append(caller.version_of(page))
        server.kill()
        again = place.server()
        editor = again.editor()
        yield "serve: after a kill each acknowledged edit is there", replies[-1].startswith("OK ") and editor.says("LAST") == ["OK 39"]
        caller = again.caller()
        caller.log_on(CALLER)
        shown += caller.waits_for(page, 38)
        yield "serve: and a caller is shown the last of them", shown[-1] == 38
        yield "serve: what the kill has left is brought", caller.ends() and editor.quits() and again.end() == ("", "", 0)
        count = sum(bool(version) for version in shown)
        yield "serve: each charge of a frame that was shown is there once", None not in shown and place.bill(CALLER) == ([("1a", 1)] * count, count)


def refused(program):
    """What a server refuses, each in one line."""
    with Place(program) as place, Place(program) as other:
        server = place.server(calls=100)
        editor = server.editor()
        in_use = ("", "prestel: net/udc.pv: the file is in use\n", 8)
        yield "serve: a second server on the folder is refused", place.server().end() == in_use
        words = (("format", "net", "1"), ("tape", "net"), ("statement", "net", f"{CALLER}", "2026-11"))
        yield "serve: so are the other words that work on it", all(place.run(*each) == in_use for each in words)
        out, said, status = other.server(first=server.first).end()
        yield "serve: and a server on its port", (out, status) == ("", 10) and said.startswith(f"prestel: port {server.first}: ") and said.count("\n") == 1
        yield "serve: the first one goes on", editor.store(1, Page(1), 1) == "OK 0"
        server.kill()
        many = place.server(centres=2).end()
        yield "serve: a folder of fewer centres", many == ("", "prestel: net/irc1.pv is not there: the folder was not formatted for 2 centres; try prestel format --help\n", 9)
        other.file("irc1.pv").write_bytes(b"")
        fewer = other.server().end()
        yield "serve: a folder of more centres", fewer == ("", "prestel: net/irc1.pv is there: the folder was not formatted for 1 centres; try prestel format --help\n", 9)
        place.file("irc0.pv").write_bytes(b"letters")
        yield "serve: a disk that is not formatted", place.server().end() == ("", "prestel: node 1: its disk is not formatted\n", 9)
        yield "serve: words that are refused", place.run("serve", "net") == ("", "prestel: bad command line; try prestel serve --help\n", 2)
        out, said, status = place.run("serve", "--help")
        yield "serve: help", out.startswith("usage: prestel serve DIR") and (said, status) == ("", 0)


def announced(program):
    """A terminal on standard error is told where callers and editors are waited for."""
    with Place(program, 2) as place:
        ours, theirs = pty.openpty()
        server = place.server(centres=2, ports=3, stderr=theirs)
        with open(ours, "rb", buffering=0) as terminal:
            server.caller().hang_up()
            os.close(theirs)
            said = terminal.read(4096).decode()
        waited = [(f"centre {at}", server.first + at, 3) for at in range(2)] + [("editors", server.editor_port, 1)]
        yield "serve: a terminal is told the ports", said == "".join(f"prestel: {who}: 127.0.0.1:{port}, {count} ports\r\n" for who, port, count in waited)


def opened(program):
    """A terminal on standard error is told how far a long file is read, and nothing else is."""
    with Place(program, within=MEMORY) as place:
        tape = ["TAPE 1 0000000000 0000", *("NEW 1a", f"ROW 2 {'X' * 38}", "STORE") * 8000]
        loaded = place.run("tape", "net", given="\n".join(tape).encode())
        server = place.server()
        server.caller().hang_up()
        server.editor().hang_up()
        sizes = {}
        yield "serve: a long file is read without a word", (loaded[2], server.end()) == (0, ("", "", 0))
        for name in ("udc.pv", "irc0.pv"):
            sizes[name] = place.file(name).stat().st_size >> 20
        ours, theirs = pty.openpty()
        server = place.server(stderr=theirs)
        os.close(theirs)
        with open(ours, "rb", buffering=0) as terminal:
            server.caller().hang_up()
            server.editor().hang_up()
            said = terminal.read(4096).decode().splitlines()
        wanted = [f"prestel: {name}: {at} of {size} MiB are read" for name, size in sizes.items() for at in range(4, size + 1, 4)]
        yield f"serve: a terminal is told how far it is ({sizes})", len(wanted) >= 2 and said[2:] == wanted


def now():
    """This moment, as a log says it."""
    return time.strftime("%Y-%m-%dT%H:%M:%SZ", time.gmtime())


LOGGED = re.compile(r"prestel: (\d{4}-\d\d-\d\dT\d\d:\d\d:\d\dZ) (.*)")


def logged(program):
    """If a log is asked for, it has a line when each call and session begins, and one when it ends."""
    page = Page(1, 2)
    with Place(program) as place:
        begun = now()
        server = place.server(calls=3, is_logged=True)
        editor = server.editor()
        count = len(editor.says(f"ACCOUNT 1 {CALLER} ABCD 0 -")) + len(page.lines(2, 1)) + 2
        editor.store(2, page, 1)
        caller = server.caller()
        caller.log_on(CALLER)
        shown = caller.waits_for(page, 1) + [caller.version_of(page)]
        ended = [caller.ends(), editor.quits()]
        refused = server.caller()
        refused.key(f"{CALLER}WXYZ".encode() * 3)
        refused.rest()
        gone = server.caller()
        gone.hang_up()
        Line(server.editor_port).hang_up()
        server.editor(CALLER, "ABCD").hang_up()
        out, said, status = server.end()
        lines = [LOGGED.fullmatch(line) for line in said.splitlines()]
        yield "serve: each line of a log has its moment", ended == [True, True] and (out, status) == ("", 0) and all(line and begun <= line[1] <= now() for line in lines)
        told = {who: [line[2][len(who) :] for line in lines if line and line[2].startswith(who)] for who in ("centre 0 port 0 ", "editors port 0 ")}
        calls = [
            f"account {CALLER}, finished, screens {caller.screens}, pence {2 * shown.count(1)}",
            f"no account, refused, screens {refused.screens}, pence 0",
            "no account, hung up, screens 1, pence 0",
        ]
        sessions = [f"account 0000000000, finished, lines {count}", "no account, hung up, lines 0", f"account {CALLER}, hung up, lines 1"]
        wanted = [[text for end in ends for text in ("begins", f"ends: {end}")] for ends in (calls, sessions)]
        yield "serve: it says who called, how that ended, and what it cost", list(told.values()) == wanted and len(lines) == 12
        yield "serve: no password and no key is in it", not re.search("ABCD|WXYZ|0000 |\\*", said)


def idle(program):
    """A server without work takes no processor time that can be measured: in five seconds at most the least that is counted, a
    hundredth of a second, for each centre."""
    for centres in (1, CENTRES):
        with Place(program, centres) as place:
            server = place.server(centres=centres, ports=PORTS, editors=EDITORS)
            lines = [server.caller(), server.editor()]
            time.sleep(1)
            before = server.spent()
            time.sleep(5)
            spent = server.spent() - before
            yield f"serve: an idle server of {centres} centres with {len(lines)} lines takes no time ({spent} hundredths)", spent <= centres


def served(program):
    """A line for each thing that the server does. A part that breaks off is a line too."""
    for part in (first_call, example, in_pieces, at_once, seen_soon, stopped, refused, announced, opened, logged, failures, browsers, idle, stops, an_evening):
        try:
            yield from part(program)
        except Exception as error:
            yield f"serve: {part.__name__} breaks off: {error!r}", False
