"""A server of real files and sockets, over a network in a folder of its own."""
import os
import socket
import subprocess
import tempfile
import time
from pathlib import Path

from viewdata import Caller, Editor

# Where a sync takes no time, if there is such a place.
MEMORY = "/dev/shm" if Path("/dev/shm").is_dir() else None


def free_ports(count):
    """The first of so many ports in a row that nobody has."""
    for first in range(20_000, 60_000, 37):
        taken = []
        try:
            for port in range(first, first + count):
                one = socket.socket()
                taken.append(one)
                one.bind(("127.0.0.1", port))
            return first
        except OSError:
            continue
        finally:
            for one in taken:
                one.close()
    raise OSError("no free ports")


class Server:
    """A server over the folder net, for so many calls of each port, and of the page if it is said. It is killed if it still runs when its
    place goes."""

    def __init__(self, program, folder, centres=1, ports=1, editors=1, calls=1, first=None, stderr=subprocess.PIPE, is_logged=False, is_web=False):
        self.first = first or free_ports(2 * centres + 1)
        options = {"centres": centres, "ports": ports, "editors": editors, "calls": calls, "port": self.first, "editor-port": self.first + centres}
        self.editor_port, self.web = self.first + centres, self.first + centres + 1
        self.page = f"http://127.0.0.1:{self.web}/"
        page_words = ["web", str(self.web)] if is_web else []
        words = [word for name, number in options.items() for word in (f"--{name}", str(number))]
        environment = {name: value for name, value in os.environ.items() if name != "PRESTEL_LOG"} | ({"PRESTEL_LOG": ""} if is_logged else {})
        self.process = subprocess.Popen(
            [program, *page_words, "serve", "net", *words], cwd=folder, env=environment, stdin=subprocess.DEVNULL, stdout=subprocess.PIPE, stderr=stderr
        )

    def caller(self, centre=0):
        """A caller who has dialled this centre."""
        return Caller(self.first + centre)

    def editor(self, *account):
        """An editor who has logged on."""
        return Editor(self.editor_port, *account)

    def end(self):
        """What it writes and says until it ends, and its status."""
        out, said = self.process.communicate(timeout=120)
        return out.decode(), said.decode(), self.process.returncode

    def kill(self):
        """Ends it at once, if it has not ended."""
        self.process.kill()
        self.process.wait()

    def spent(self):
        """How much processor time it has taken, in hundredths of a second."""
        fields = Path(f"/proc/{self.process.pid}/stat").read_text().rpartition(")")[2].split()
        return int(fields[11]) + int(fields[12])


class Place:
    """A network of so many centres in the folder net of a folder of its own, and the program."""

    def __init__(self, program, centres=1, within=None):
        self.program, self.centres, self.servers = program, centres, []
        self.temporary = tempfile.TemporaryDirectory(dir=within)
        self.folder, self.begun = self.temporary.name, time.gmtime()

    def __enter__(self):
        self.run("format", "net", str(self.centres))
        return self

    def __exit__(self, *_):
        for server in self.servers:
            server.kill()
        self.temporary.cleanup()

    def run(self, *words, given=b""):
        """What the program writes for these words and this input, what it says, and its status."""
        run = subprocess.run([self.program, *words], cwd=self.folder, input=given, capture_output=True, timeout=60)
        return run.stdout.decode(), run.stderr.decode(), run.returncode

    def server(self, **options):
        """A server over it."""
        self.servers.append(Server(self.program, self.folder, **options))
        return self.servers[-1]

    def file(self, name):
        """One of its files."""
        return Path(self.folder) / "net" / name

    def bill(self, account):
        """The names and prices on an account's statements of the months since this place was made, and their sums."""
        months = sorted({time.strftime("%Y-%m", moment) for moment in (self.begun, time.gmtime())})
        lines = [line.split() for month in months for line in self.run("statement", "net", f"{account:010}", month)[0].splitlines()]
        return [(line[2], int(line[3])) for line in lines if len(line) == 4], sum(int(line[1]) for line in lines if line[0] == "SUM")
