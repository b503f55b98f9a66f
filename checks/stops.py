"""A server that is killed again and again while callers and editors are at work, and is started again on the same folder.

What they were told is compared with what the files hold in the end, which checks/journals.py reads apart from the program.
"""
import random
import time
from concurrent.futures import ThreadPoolExecutor

from journals import Centre, UpdateCentre, bodies
from people import account_at, editor_at, prepare
from serving import MEMORY, Place
from viewdata import Page

KILLS = 25
CENTRES, PORTS, EDITORS = 2, 2, 2
# A server runs for so many seconds before it is killed, at least and at most.
SHORTEST, LONGEST = 0.15, 0.75
# How long a caller or an editor waits before he asks for more, so that no node gets full.
PAUSE = 0.003
PAGES = [Page(10 * at, at) for at in range(1, EDITORS + 1)]


class Told:
    """What callers and editors were told while servers were killed: the priced frames that each account was shown, the edits that each
    editor was acknowledged, and what was amiss."""

    def __init__(self):
        self.shown = {account_at(centre, port): 0 for centre in range(CENTRES) for port in range(PORTS)}
        self.acknowledged = {editor_at(at): {1} for at in range(EDITORS)}
        self.amiss = []

    def calls(self, server, centre, port):
        """A caller asks for priced pages until his line ends."""
        account, last, chance = account_at(centre, port), {}, random.Random()
        try:
            caller = server.caller(centre)
            caller.log_on(account)
            while True:
                page = chance.choice(PAGES)
                version = caller.version_of(page)
                if not version or version < last.get(page, 0):
                    self.amiss.append((account, page, version))
                last[page] = version
                self.shown[account] += 1
                time.sleep(PAUSE)
        except (OSError, EOFError):
            pass

    def edits(self, server, at):
        """An editor stores version after version of his page until his line ends. He begins after the last that is there."""
        account = editor_at(at)
        try:
            editor = server.editor(account, "NEWS")
            number = int(editor.says("LAST")[0].split()[1])
            if number < max(self.acknowledged[account]):
                self.amiss.append((account, number))
            while True:
                number += 1
                if editor.store(number, PAGES[at], number).startswith("OK "):
                    self.acknowledged[account].add(number)
                time.sleep(PAUSE)
        except (OSError, EOFError):
            pass


def counts(place):
    """How many records each file has."""
    return [sum(1 for _ in bodies(place.file(name))) for name in ("udc.pv", *(f"irc{at}.pv" for at in range(CENTRES)))]


def killed(place, told):
    """Kills a server after a moment's work, and returns how many records each file has then."""
    server = place.server(centres=CENTRES, ports=PORTS, editors=EDITORS, calls=1000)
    with ThreadPoolExecutor(EDITORS + CENTRES * PORTS) as pool:
        for at in range(EDITORS):
            pool.submit(told.edits, server, at)
        for centre in range(CENTRES):
            for port in range(PORTS):
                pool.submit(told.calls, server, centre, port)
        time.sleep(random.uniform(SHORTEST, LONGEST))
        server.kill()
    return counts(place)


def is_brought(place):
    """Whether a server that serves a line of each port ends as it should."""
    server = place.server(centres=CENTRES)
    server.editor().hang_up()
    for centre in range(CENTRES):
        server.caller(centre).hang_up()
    return server.end() == ("", "", 0)


def stops(program):
    """A server that is killed at any moment loses nothing that it has acknowledged, and charges nothing twice."""
    with Place(program, CENTRES, MEMORY) as place:
        yield "stops: accounts and pages are at every centre", prepare(place, PORTS, [[page] for page in PAGES])
        told, records = Told(), [counts(place)]
        for _ in range(KILLS):
            records.append(killed(place, told))
        steps = list(zip(records, records[1:]))
        yield f"stops: after {KILLS} kills the folder opens, and its nodes are brought what they lack", is_brought(place)
        yield f"stops: no file has lost a record ({records[0]} to {records[-1]})", all(old <= new for before, after in steps for old, new in zip(before, after))
        yield "stops: what each caller was shown is a version of its frame, and none older than before", not told.amiss
        update, centres = UpdateCentre(place.file("udc.pv")), [Centre(place.file(f"irc{at}.pv")) for at in range(CENTRES)]
        numbers = {account: [put.number for put in update.puts if put.editor == account] for account in told.acknowledged}
        total = sum(map(len, told.acknowledged.values()))
        there = all(told.acknowledged[account] <= set(own) and own == [*range(1, len(own) + 1)] for account, own in numbers.items())
        yield f"stops: each of {total} acknowledged edits is there, once and in order", there and total > KILLS
        more = sum(map(len, numbers.values())) - total
        yield f"stops: beside them at most one of an editor for each kill ({more})", 0 <= more <= EDITORS * KILLS
        yield "stops: each centre has the whole list", all(centre.puts == update.puts and centre.places == [*range(update.count)] for centre in centres)
        lines = [(at, line) for at, centre in enumerate(centres) for line in centre.charges]
        yield "stops: no charge is there twice, and each came up once", len({(at, line.serial, line.number) for at, line in lines}) == len(lines) and all(
            update.charges.get(at, []) == centre.charges for at, centre in enumerate(centres)
        )
        charged = {account: sum(line.account == account for _, line in lines) for account in told.shown}
        unseen = [charged[account] - shown for account, shown in told.shown.items()]
        yield f"stops: each of {sum(told.shown.values())} priced frames that were shown has its line", min(unseen) >= 0 < min(told.shown.values())
        yield f"stops: beside them a caller has at most one line for each kill ({sum(unseen)})", max(unseen) <= KILLS
