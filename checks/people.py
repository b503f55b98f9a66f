"""The callers and editors of a network that is put to work: their accounts, and the pages that each editor has."""


def account_at(centre, port):
    return 1_000_000_001 + 100 * centre + port


def editor_at(at):
    return 2_000_000_001 + at


def prepare(place, ports, pages):
    """Makes an account for each caller, as many at each centre as it has ports, and for each editor, with the first version of each of
    his pages. Whether all of it was acknowledged: a server that has ended has it at every centre."""
    server = place.server(centres=place.centres)
    operator = server.editor()
    callers = [f"{account_at(centre, port)} ABCD {centre} -" for centre in range(place.centres) for port in range(ports)]
    accounts = [*callers, *(f"{editor_at(at)} NEWS 0 -" for at in range(len(pages)))]
    replies = operator.says(*(f"ACCOUNT {number} {account}" for number, account in enumerate(accounts, 1)))
    for at, own in enumerate(pages):
        for page in own:
            replies += operator.says(f"LEASE {len(replies) + 1} {page.number} {editor_at(at)}")
    for at, own in enumerate(pages):
        operator.says(f"LOGON {editor_at(at)} NEWS")
        replies += [operator.store(number, page, 1) for number, page in enumerate(own, 1)]
    for centre in range(place.centres):
        server.caller(centre).hang_up()
    return replies == [f"OK {at}" for at in range(len(replies))] and operator.quits() and server.end() == ("", "", 0)
