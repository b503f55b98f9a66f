"""All ports of a server at work: sixteen callers at each of four centres and four editors, all at once, for a minute.

What callers are shown is compared with the screens that checks/viewdata.py makes of what the editors here have stored, and what the
files hold in the end with what callers and editors were told; checks/journals.py reads it. Both are written apart from the program.
"""
import random
import threading
import time
from collections import Counter
from concurrent.futures import ThreadPoolExecutor

from journals import Centre, UpdateCentre
from people import account_at, editor_at, prepare
from serving import MEMORY, Place
from viewdata import Page

CENTRES, PORTS, EDITORS = 4, 16, 4
# How long callers and editors are at work, all at once, and how many calls or sessions each has in that time.
SECONDS, TURNS = 60, 6
# A free page and a page with a price of each editor.
PAGES = [(Page(10 * at), Page(10 * at + 1, at)) for at in range(1, EDITORS + 1)]


def number_of(at, version):
    """The number of the edit by which an editor stores this version of his page `at`: he stores his two pages by turns."""
    return 2 * version - 1 + at


class Evening:
    """What an evening's callers and editors do and see until it ends: of each page the last version that was sent to be stored, and the
    last that was acknowledged; of each account the priced frames that were shown; and what was shown amiss."""

    def __init__(self, server):
        self.server, self.begins = server, time.monotonic()
        self.lock = threading.Lock()
        self.sent = {page: 1 for pages in PAGES for page in pages}
        self.acknowledged = dict(self.sent)
        self.shown, self.amiss, self.screens = {}, Counter(), 0

    def ends(self):
        """When each call and session is to end, one after another."""
        return [self.begins + SECONDS * turn / TURNS for turn in range(1, TURNS + 1)]

    def edits(self, at):
        """An editor stores version after version of his pages, in one session after another. Whether all ended as they should."""
        return all([self.session(at, end) for end in self.ends()])

    def session(self, at, end):
        editor = self.server.editor(editor_at(at), "NEWS")
        while time.monotonic() < end:
            for which, page in enumerate(PAGES[at]):
                version = self.sent[page] = self.sent[page] + 1
                if editor.store(number_of(which, version), page, version).startswith("OK "):
                    self.acknowledged[page] = version
                time.sleep(0.1)
        return editor.quits()

    def calls(self, centre, port):
        """A caller looks at pages, in one call after another. Whether all ended as they should."""
        account = account_at(centre, port)
        seen = Sights(account)
        ended = all([self.call(centre, seen, end) for end in self.ends()])
        with self.lock:
            self.shown[account], self.amiss, self.screens = seen.paid, self.amiss + seen.amiss, self.screens + seen.screens
        return ended

    def call(self, centre, seen, end):
        caller = self.server.caller(centre)
        caller.log_on(seen.account)
        while time.monotonic() < end:
            page = seen.chance.choice(PAGES)[seen.chance.random() < 0.25]
            seen.take(page, caller.version_of(page), self.sent[page])
            time.sleep(seen.chance.uniform(0.05, 0.35))
        return caller.ends()


class Sights:
    """What one caller was shown."""

    def __init__(self, account):
        self.account, self.chance = account, random.Random(account)
        self.last, self.paid, self.amiss, self.screens = Counter(), [], Counter(), 0

    def take(self, page, version, latest):
        """Takes the version of a page that he was shown, if it was one, when this was the latest."""
        self.screens += 1
        if not version or version > latest:
            self.amiss["no version of its frame"] += 1
        elif version < self.last[page]:
            self.amiss["an older version"] += 1
        else:
            self.last[page] = version
        if page.price and version != 0:
            self.paid.append((page.name(), page.price))


def edits_of(evening):
    """The edits that an evening's editors were acknowledged: the name and the title by the editor and his number."""
    return {
        (editor_at(at), number_of(which, version)): (page.name(), page.title(version))
        for at, pages in enumerate(PAGES)
        for which, page in enumerate(pages)
        for version in range(1, evening.acknowledged[page] + 1)
    }


def kept_once(place, evening):
    """A line for each thing that the files of all nodes hold after an evening."""
    update, centres = UpdateCentre(place.file("udc.pv")), [Centre(place.file(f"irc{at}.pv")) for at in range(CENTRES)]
    wanted, puts = edits_of(evening), update.puts
    found = {(put.editor, put.number): (put.name, put.title) for put in puts}
    yield f"an evening: each of {len(wanted)} acknowledged edits is in the list once", found == wanted and len(puts) == len(wanted) > 100
    numbers = [[put.number for put in puts if put.editor == editor_at(at)] for at in range(EDITORS)]
    yield "an evening: those of an editor are in order", all(own == [*range(1, len(own) + 1)] for own in numbers)
    applied = all(centre.places == [*range(update.count)] and centre.puts == puts for centre in centres)
    yield "an evening: each centre has the whole list, in order", applied
    taken = all(update.charges.get(at, []) == centre.charges for at, centre in enumerate(centres))
    yield "an evening: the charges of each centre came up once, in order", taken
    lines = [(at, line) for at, centre in enumerate(centres) for line in centre.charges]
    shown = sum(map(len, evening.shown.values()))
    once = len({(at, line.serial, line.number) for at, line in lines}) == len(lines)
    yield f"an evening: there are as many lines as priced frames that were shown, {shown}", once and len(lines) == shown > 0
    own = {account: [(line.name, line.price) for _, line in lines if line.account == account] for account in evening.shown}
    yield "an evening: those of a caller are of the frames that he was shown, in order", own == evening.shown
    some = [account_at(centre, centre) for centre in range(CENTRES)]
    yield "an evening: the statements say the same", all(place.bill(account) == (own[account], sum(price for _, price in own[account])) for account in some)


def an_evening(program):
    """Sixteen callers at each of four centres and four editors, all at once, for a minute."""
    with Place(program, CENTRES, MEMORY) as place:
        yield "an evening: accounts and first versions are at every centre", prepare(place, PORTS, PAGES)
        evening = Evening(place.server(centres=CENTRES, ports=PORTS, editors=EDITORS, calls=TURNS))
        with ThreadPoolExecutor(EDITORS + CENTRES * PORTS) as pool:
            jobs = [pool.submit(evening.edits, at) for at in range(EDITORS)]
            jobs += [pool.submit(evening.calls, centre, port) for centre in range(CENTRES) for port in range(PORTS)]
            ended = all([job.result() for job in jobs])
        yield "an evening: all calls and sessions end, and then the server", ended and evening.server.end() == ("", "", 0)
        yield f"an evening: each of {evening.screens} screens is a version of its frame, whole", evening.amiss["no version of its frame"] == 0 < evening.screens
        yield "an evening: no caller is shown an older version than before", evening.amiss["an older version"] == 0
        yield from kept_once(place, evening)
