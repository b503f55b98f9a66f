"""What becomes of a server when the outside fails: its disk, its files, its rights, and its peers, and what they send."""
import os
import shutil
import socket
import struct
import subprocess
from pathlib import Path

from journals import MARK, UpdateCentre
from serving import Place
from viewdata import Line, Page

CALLER = 1_000_000_001
NOBODY = 65_534
# How large the device is that gets full, in bytes.
SMALL = 64 << 10


def with_account(place):
    """A server over this place, and the operator, who has made an account."""
    server = place.server(calls=2)
    operator = server.editor()
    operator.says(f"ACCOUNT 1 {CALLER} ABCD 0 -")
    return server, operator


def full_device(program):
    """A device is full: the editor reads it, the server ends with its line, and nothing that was acknowledged is lost."""
    with Place(program) as place:
        device = Path(place.folder) / "net"
        shutil.rmtree(device)
        device.mkdir()
        if subprocess.run(["mount", "-t", "tmpfs", "-o", f"size={SMALL}", "none", device], capture_output=True).returncode:
            yield "outside: a full device (not tried: this user may mount nothing)", True
            return
        try:
            place.run("format", "net", "1")
            server = place.server()
            editor, replies = server.editor(), []
            for number in range(1, 1000):
                replies.append(editor.store(number, Page(1), number))
                if not replies[-1].startswith("OK "):
                    break
            yield "outside: an editor reads that the disk has failed", replies[-1] == "NO 15 DISK" and len(replies) > 10
            server.caller().hang_up()
            out, said, status = server.end()
            yield "outside: the server ends with the system's words", (out, status) == ("", 8) and said.startswith("prestel: ") and "No space" in said and said.count("\n") == 1
            subprocess.run(["mount", "-o", f"remount,size={64 * SMALL}", device], check=True)
            server = place.server()
            last = server.editor()
            yield "outside: with room again each acknowledged edit is there", last.says("LAST")[0] in (f"OK {len(replies) - 1}", f"OK {len(replies)}")
            yield "outside: and the next one is stored", last.store(len(replies) + 1, Page(2), 1).startswith("OK ") or last.store(len(replies), Page(2), 1).startswith("OK ")
            last.hang_up()
            server.caller().hang_up()
            yield "outside: and the server ends as it should", server.end() == ("", "", 0)
        finally:
            subprocess.run(["umount", "-l", device], capture_output=True)


def no_rights(program):
    """A user without rights on the folder is refused in one line."""
    with Place(program) as place:
        copied = Path(place.folder) / "prestel"
        shutil.copy(program, copied)
        os.chmod(place.folder, 0o755)
        os.chmod(Path(place.folder) / "net", 0o700)
        lower = (lambda: os.setuid(NOBODY)) if os.getuid() == 0 else None
        if lower is None:
            os.chmod(place.file("udc.pv"), 0o000)
        words = ["serve", "net", "--centres", "1", "--ports", "1", "--editors", "1", "--calls", "1", "--port", "20000", "--editor-port", "20001"]
        run = subprocess.run([copied, *words], cwd=place.folder, preexec_fn=lower, stdin=subprocess.DEVNULL, capture_output=True, timeout=60)
        said = run.stderr.decode()
        yield "outside: a folder without rights", run.returncode == 8 and said.startswith("prestel: net/udc.pv: the file could not be opened: ") and said.count("\n") == 1


def damaged(program):
    """A file that was cut or changed is no disk of the network, and which byte or record shows it is said in one line; with what it had
    before, all is there again."""
    with Place(program) as place:
        server, operator = with_account(place)
        operator.store(2, Page(1), 1)
        operator.hang_up()
        server.editor().hang_up()
        for _ in range(2):
            server.caller().hang_up()
        server.end()
        file = place.file("udc.pv")
        whole = file.read_bytes()
        first = len(MARK)
        second = first + 3 + int.from_bytes(whole[first + 1 : first + 3], "big")

        def changed(at, byte):
            return whole[:at] + bytes([byte]) + whole[at + 1 :]

        cases = {
            "cut within its mark": (whole[:5], "its disk is not formatted"),
            "with another mark": (changed(0, 0x51), "its disk is not formatted"),
            "cut within a length": (whole[: first + 2], f"byte {first} of its disk is damaged"),
            "cut within a record": (whole[: second + 10], f"byte {second} of its disk is damaged"),
            "cut after a record": (whole[:second], f"byte {second} of its disk is damaged"),
            "with another length": (changed(first + 2, whole[first + 2] - 1), "record 0 is invalid"),
            "with another record": (changed(first + 3, 0xFF), "record 0 is invalid"),
            "of another node": (place.file("irc0.pv").read_bytes(), "record 0 is invalid"),
        }
        for what, (text, wanted) in cases.items():
            file.write_bytes(text)
            yield f"outside: a file {what} is no disk", place.server().end() == ("", f"prestel: node 0: {wanted}\n", 9)
        # A gate that is not open is closed: the list ends there, and no status says so.
        file.write_bytes(changed(second, 2))
        server = place.server()
        yield "outside: a file with another gate has the records before it", server.editor().says("LAST") == ["OK 1"]
        server.kill()
        file.write_bytes(whole)
        server = place.server()
        yield "outside: with its bytes again all is there", server.editor().says("LAST") == ["OK 2"] and UpdateCentre(file).count >= 2


def peers(program):
    """A peer that resets in the middle of a screen ends his own call, and one that never reads holds his own port alone."""
    with Place(program) as place:
        server = place.server(ports=2, calls=3)
        editor = server.editor()
        editor.says(f"ACCOUNT 1 {CALLER} ABCD 0 -")
        editor.store(2, Page(1), 1)
        caller = server.caller()
        caller.log_on(CALLER)
        caller.waits_for(Page(1), 1)
        for _ in range(2):
            reset = Line(server.first)
            reset.key(f"{CALLER}ABCD".encode() + b"*1#" * 200)
            reset.socket.setsockopt(socket.SOL_SOCKET, socket.SO_LINGER, struct.pack("ii", 1, 0))
            reset.socket.close()
        deaf = Line(server.first)
        deaf.socket.setsockopt(socket.SOL_SOCKET, socket.SO_RCVBUF, 4096)
        deaf.socket.settimeout(0.5)
        try:
            deaf.key(f"{CALLER}ABCD".encode() + b"*1#" * 4000)
        except TimeoutError:
            pass
        yield "outside: beside a peer that never reads another one is served", caller.version_of(Page(1)) == 1 and caller.ends()
        deaf.socket.close()
        later = server.caller()
        later.log_on(CALLER)
        yield "outside: after a reset and a peer that never reads the port serves the next one", later.version_of(Page(1)) == 1 and later.ends()
        server.caller().hang_up()
        editor.hang_up()
        for _ in range(2):
            server.editor().hang_up()
        yield "outside: and the server ends as it should", server.end() == ("", "", 0)


def bad_input(program):
    """Lines that are too long, bytes that are no keys and in no line, a million bytes, and half a line: each is refused by its name or
    ignored, and changes nothing."""
    with Place(program) as place:
        server = place.server(calls=2)
        editor = server.editor()
        editor.says(f"ACCOUNT 1 {CALLER} ABCD 0 -")
        lines = [b"A" * 513, bytes(range(128, 256)), bytes(byte for byte in range(32) if byte != 10)]
        editor.key(b"".join(line + b"\n" for line in lines))
        yield "outside: a line that is too long or has other bytes is a bad line", [editor.until(b"\n") for _ in lines] == [b"NO 11 BAD LINE\n"] * len(lines)
        yield "outside: and the session goes on", editor.store(2, Page(1), 1).startswith("OK ")
        editor.key(b"DROP 3 1a")
        editor.hang_up()
        yield "outside: half a line and then the end is no line", editor.sent == b""
        caller = server.caller()
        caller.key(bytes(byte for byte in range(256) if not 0x20 <= byte < 0x7F))
        caller.log_on(CALLER)
        yield "outside: bytes that cannot be printed are no keys", caller.waits_for(Page(1), 1)[-1] == 1 and caller.ends()
        other = server.caller()
        other.key(b"\0" * 1_000_001)
        yield "outside: a million bytes and one more end a call", other.rest().rstrip().endswith(b"CALL ENDED")
        last = server.editor()
        yield "outside: after all of that each edit is there once", last.says("LAST") == ["OK 2"]
        last.hang_up()
        yield "outside: and the server ends as it should", server.end() == ("", "", 0)


def failures(program):
    """A line for each failure of the outside."""
    for part in (full_device, no_rights, damaged, peers, bad_input):
        yield from part(program)
