"""How a host begins and ends, and what ends a connection alone.

A halt by another hand, before a connection's first byte and between two requests, can't be brought about from outside but
by a full journal, which ends the host.
"""

import concurrent.futures
import re
import socket
import time

from .clients import FORM, Client, asked, cookie, masked, page, request
from .hosts import COUNT, FAILS, SITE, USAGE, WITHOUT, Host, free_port, sockets, wait_until
from .patience import large

A3B = page(b"A3B")
# Words of `serve` that say no command.
WRONG = [
    "",
    "--requests 0",
    "--requests 100001",
    "--requests 01",
    "--requests -1",
    "--requests 5 --requests 5",
    "--requests 5 --port 0",
    "--requests 5 --port 65536",
    "--requests 5 --workers 0",
    "--requests 5 --workers 17",
    "--requests 5 --journal",
    "--requests",
]
# Pages that count their runs: at once, after a while, and with a long answer.
ADD = f'{WITHOUT}<% Application("n") = Application("n") + 1 %>'
RUNS = {
    "/runs.asp": f'{ADD}<%= Application("n") %>',
    "/slow.asp": f"{ADD}<% For i = 1 To 200000 : Next %>",
    "/long.asp": f'{ADD}<% s = String(1000000, "x") : Response.Write s : Response.Write s %>',
}
POSTED = request("/runs.asp", FORM, method="POST", body=b"a=1")
# Where a connection is broken off: what was sent, and how many runs had begun.
BREAKS = {
    "in a head": (request("/runs.asp")[:20], 0),
    "in a body": (POSTED[:-2], 0),
    "behind a request": (POSTED, 1),
    "in a head behind a request": (POSTED + request("/runs.asp")[:20], 1),
    "while a page runs": (request("/slow.asp"), 1),
    "in the middle of an answer": (request("/long.asp"), 1),
}
# A page that calls the Application object 30 times, so that a journal is soon full.
CALLS = {"/calls.asp": f'{WITHOUT}<% For i = 1 To 30 : x = Application("n") : Next %>A3B'}


def words(check):
    """Words that say no command are told so."""
    site = check.site(SITE)
    for line in WRONG:
        check.same(line, check.ran("serve", site, *line.split()), (2, "", USAGE))


def never_begins(check):
    """No site, no folder, an application that fails as it begins: the port is never opened."""
    for what, site, wanted in (
        ("a refused page", check.site({"/b.asp": '<% s = "%>"'}), (3, "", "/b.asp:1: OpenString\n")),
        ("no folder", check.site({}) / "none", (4, "", "read fault\n")),
        ("Application_OnStart", check.site(FAILS), (8, "", "Application_OnStart failed: error 11, line 3\n")),
    ):
        port = free_port()
        host = Host([*check.program, "serve", site, "--requests", "5", "--port", str(port)], port)
        try:
            check.holds(f"{what}: the port was opened", not host.begins())
            check.same(what, host.told(), wanted)
        finally:
            host.kill()


def taken(check):
    """A port at which somebody listens."""
    with socket.create_server(("127.0.0.1", free_port())) as other:
        port = other.getsockname()[1]
        site = check.site(SITE)
        check.same("the end", check.ran("serve", site, "--requests", "5", "--port", str(port)), (9, "", "accept fault\n"))


def order_of_options(check):
    """Options in another order, and no workers said: the host serves."""
    port = free_port()
    host = Host([*check.program, "serve", check.site(SITE), "--port", str(port), "--requests", "1"], port)
    try:
        check.holds("the host began", host.begins())
        check.same("an answer", masked(asked(port, request("/p.asp"))), A3B)
        check.same("the end", host.ends(), (0, "", ""))
    finally:
        host.kill()


def one_more(check):
    """A worker that waits for a connection as the host stops goes on waiting for one, which it closes unanswered."""
    with check.host(SITE, 1, workers=2) as host:
        with Client(host.port) as client:
            # by now the other worker waits for a connection
            time.sleep(0.5)
            client.send(request("/p.asp"))
            client.end()
            check.same("an answer", masked(client.rest()), A3B)
        time.sleep(1)
        check.holds("the host ended without a further connection", host.runs())
        check.same("what comes on that", asked(host.port, request("/p.asp")), b"")
        check.holds("the host did not end by it", wait_until(lambda: not host.runs(), 30))


def to_the_end_of_a_connection(check):
    """One worker serves a connection to its end, also past the requests after which it stops."""
    with check.host(SITE, 2, workers=1) as host:
        check.same("all", masked(asked(host.port, request("/p.asp") * 5)), A3B * 5)
        check.holds("the host did not end by itself", wait_until(lambda: not host.runs(), 30))


def stopped_between(check):
    """A connection that waits for its first byte as the host stops, or between two requests, gets nothing more."""
    with check.host(SITE, 2, workers=3) as host, Client(host.port) as new, Client(host.port) as kept:
        kept.send(request("/p.asp"))
        check.same("the first answer", masked(kept.answer()), A3B)
        check.same("another's answer", masked(asked(host.port, request("/p.asp"))), A3B)
        time.sleep(0.3)
        for what, client in (("before the first byte", new), ("between two requests", kept)):
            client.send(request("/p.asp"))
            check.same(what, client.rest(), b"")


def broken_off(check):
    """A connection that its client breaks off, at any place, ends alone."""
    with check.host(large(check), 100) as host:
        for sent in (b"", b"GET /p", request("/p.asp"), request("/large.txt"), request("/p.asp") * 3 + b"GET"):
            for pause in (0, 0.05):
                client = Client(host.port)
                client.send(sent)
                time.sleep(pause)
                client.reset()
        check.same("an answer", masked(asked(host.port, request("/p.asp"))), A3B)


def resets(check):
    """One worker serves the next connection once one was broken off, at each place; each run that had begun has ended."""
    with check.host(RUNS, 1000, workers=1) as host:
        runs = 0
        for what, (sent, begun) in BREAKS.items():
            client = Client(host.port, room=4096)
            here = client.link.getsockname()[1]
            client.send(sent)
            # what was not read is lost with a reset
            wait_until(lambda: all(it[3] == 0 for it in sockets(host.port) if it[0] == here), 10)
            if what == "in the middle of an answer":
                client.more()
            time.sleep(0.05)
            client.reset()
            runs += begun + 1
            came = masked(asked(host.port, request("/runs.asp", "Connection: close")))
            check.same(f"behind a reset {what}", came, page(b"%d" % runs, close=True))


def same_port(check):
    """The next host listens at the port of one that has just ended, though its closed connections linger there."""
    port = free_port()
    for _ in range(2):
        with check.host(SITE, 20, workers=1, port=port) as host:
            for _ in range(20):
                with Client(host.port) as client:
                    client.send(request("/p.asp", "Connection: close"))
                    check.same("an answer", masked(client.rest()), page(b"A3B", close=True))


def counted(check):
    """Requests of one session on many connections at once: each is counted once."""
    count = check.many(2000)
    with check.host(COUNT, count + 50) as host:
        mine = cookie(asked(host.port, request("/count.asp")))
        sent = request("/count.asp", mine) * 10
        with concurrent.futures.ThreadPoolExecutor(16) as threads:
            came = threads.map(lambda _: asked(host.port, sent), range(count // 10))
            counts = [int(text) for texts in came for text in re.findall(rb"\r\n\r\n(\d+)", texts)]
        check.same("the counts", sorted(counts), list(range(2, 2 + count // 10 * 10)))
        total = page(b"%d" % (1 + count // 10 * 10))
        check.same("the total", masked(asked(host.port, request("/total.asp"))), total)


def full_journal(check):
    """A host whose journal is full ends, and says so."""
    if check.part > 1:
        return
    port = free_port()
    host = Host([*check.program, "serve", check.site(CALLS), "--requests", "100000", "--port", str(port)], port)

    def fill(_):
        while host.runs():
            try:
                asked(port, request("/calls.asp") * 1000)
            except OSError:
                time.sleep(0.05)

    try:
        check.holds("the host began", host.begins())
        with concurrent.futures.ThreadPoolExecutor(4) as threads:
            list(threads.map(fill, range(4)))
        status, output, said = host.told()
        check.same("the status and the output", (status, output), (7, ""))
        found = re.fullmatch(r"journal full: (\d+) entries, (\d+) bytes\n", said)
        check.holds(f"what was said: {said!r}", found and (int(found[1]) > 1000000 or int(found[2]) > 268435456))
    finally:
        host.kill()


CHECKS = {
    "words that say no command": words,
    "hosts that never begin": never_begins,
    "a port that is taken": taken,
    "options in another order": order_of_options,
    "a worker that waits as the host stops": one_more,
    "a connection past the last request": to_the_end_of_a_connection,
    "a stop between two requests": stopped_between,
    "connections that are broken off": broken_off,
    "resets that one worker meets": resets,
    "the next host at the same port": same_port,
    "one session on many connections": counted,
    "a full journal": full_journal,
}
