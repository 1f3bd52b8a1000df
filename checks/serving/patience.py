"""How long the host waits for a client: the table of what is waited for, with others served meanwhile.

The times are those of the connections themselves. That the host tells a slow client as a fault of its connection can't be
seen from outside.
"""

import collections
import os
import select
import threading
import time

from .clients import FORM, Client, asked, masked, page, request
from .hosts import EXAMPLES, IS_OPEN, SITE, sockets

# The waits of the host, in seconds, and how many bytes earn a second more.
FIRST_BYTE, NEXT_REQUEST, TRANSFER, BYTES_A_SECOND = 3, 1, 20, 4096
# How much later than by the table a connection may be seen to end, on a machine that does other work too.
LATER = 4
LARGEST = 4194304
A3B = page(b"A3B")
SHOP = ["/", "/default.asp", "/find.asp", "/found.asp?thing=lamp&pieces=3", "/broken.asp", "/style.css"]


def large(check):
    """Returns a site with the largest file that there may be, or a smaller one for a program that is slow."""
    return {**SITE, "/large.txt": b"a" * max(600000, check.many(LARGEST))}


def until_end(client, wait=TRANSFER * 4):
    """Returns how long a connection still lasts, and what comes on it."""
    begun = time.monotonic()
    client.link.settimeout(wait)
    came = client.rest()
    return time.monotonic() - begun, came


def dribbled(client, text):
    """Sends a byte a second. Returns how long the connection lasted, and what came on it."""
    begun = time.monotonic()
    for byte in text:
        client.send(bytes([byte]))
        if select.select([client.link], [], [], 1)[0]:
            break
    return time.monotonic() - begun, client.rest()


def silent(host):
    with Client(host.port) as client:
        return FIRST_BYTE, *until_end(client)


def silent_behind_an_answer(host):
    with Client(host.port) as client:
        client.send(request("/p.asp"))
        client.answer()
        return NEXT_REQUEST, *until_end(client)


def silent_in_a_head(host):
    with Client(host.port) as client:
        client.send(b"GET /p.asp HT")
        return TRANSFER, *until_end(client)


def slow_head(host):
    with Client(host.port) as client:
        return TRANSFER, *dribbled(client, request("/p.asp"))


def slow_body(host):
    head = request("/form.asp", FORM, method="POST", body=b"a" * 60)[:-60]
    with Client(host.port) as client:
        client.send(head)
        return TRANSFER, *dribbled(client, b"a" * 60)


def earned(host):
    """Two seconds more are earned by 8,192 bytes of what isn't whole."""
    with Client(host.port) as client:
        client.send(request("/form.asp", FORM, method="POST", body=b"a" * 100000)[: 2 * BYTES_A_SECOND])
        return TRANSFER + 2, *until_end(client)


def unread(host):
    """A client that never reads. The bytes that went are those that wait at either end; its segments and its room are
    small, so that they are few. A segment on its way may be seen at both ends, so what was seen most often counts. That the
    connection ended is seen by its state."""
    with Client(host.port, segment=536, room=4096) as client:
        here = client.link.getsockname()[1]
        begun = time.monotonic()
        client.send(request("/large.txt"))
        select.select([client.link], [], [])
        seen = collections.Counter()
        while True:
            found = [it for it in sockets(host.port) if it[0] == here]
            if not found or found[0][1] != IS_OPEN:
                break
            waiting = sum(it[3] for it in sockets(here) if it[0] == host.port)
            seen[found[0][2] + waiting] += 1
            if time.monotonic() - begun > TRANSFER * 20:
                break
            time.sleep(0.1)
        lasted = time.monotonic() - begun
        went = max(seen, key=seen.get, default=0)
        return TRANSFER + went // BYTES_A_SECOND, lasted, b""


SLOW = [silent, silent_behind_an_answer, silent_in_a_head, slow_head, slow_body, earned, unread]


def serves_others(check, host, ended):
    """Asks as long as there are slow ones. Each answer comes at once, since a worker is free."""
    while not ended.is_set():
        begun = time.monotonic()
        check.same("an answer meanwhile", masked(asked(host.port, request("/p.asp"))), A3B)
        check.holds("an answer meanwhile took more than 2 seconds", time.monotonic() - begun < 2 * min(check.part, 5))
        time.sleep(0.2)


def slow_clients(check):
    """Each slow or silent client is let go by the table, while others are served."""
    with check.host(large(check), 600, workers=len(SLOW) + 1) as host:

        def wait(slow):
            longest, lasted, came = slow(host)
            check.same(f"what came: {slow.__name__}", came, b"")
            fits = longest - 0.2 < lasted < longest + LATER
            check.holds(f"{slow.__name__} lasted {lasted:.1f} seconds, and not {longest}", fits)

        ended = threading.Event()
        others = threading.Thread(target=serves_others, args=(check, host, ended))
        threads = [threading.Thread(target=wait, args=(slow,)) for slow in SLOW]
        for thread in [others, *threads]:
            thread.start()
        for thread in threads:
            thread.join()
        ended.set()
        others.join()


def browser(check):
    """Six connections of one browser, of which it closes none, to a host of four workers: all pages within five seconds."""
    with check.host(EXAMPLES / "shop", 100) as host:
        begun = time.monotonic()
        clients = [Client(host.port) for _ in SHOP]
        for client, path in zip(clients, SHOP):
            client.send(request(path))
        came = [client.answer() for client in clients]
        took = time.monotonic() - begun
        for client in clients:
            client.link.close()
        for path, text in zip(SHOP, came):
            status = b"500" if path == "/broken.asp" else b"200"
            check.same(f"the status of {path}", text[9:12], status)
        check.holds(f"all pages took {took:.1f} seconds", took < 5)


def processor_time(process):
    """Returns the processor time of a process, in seconds."""
    with open(f"/proc/{process.pid}/stat", encoding="ascii") as line:
        words = line.read().rpartition(")")[2].split()
    return (int(words[11]) + int(words[12])) / os.sysconf("SC_CLK_TCK")


def idle(check):
    """A host without clients, and one with 100 connections of which most wait to be taken, uses no processor."""
    with check.host(SITE, 10) as host:
        for what, count in (("no connection", 0), ("100 connections", 100)):
            clients = [Client(host.port) for _ in range(count)]
            time.sleep(0.2)
            begun = processor_time(host.process)
            time.sleep(2)
            used = processor_time(host.process) - begun
            check.holds(f"with {what} {used} seconds of the processor in 2", used < 0.1)
            for client in clients:
                client.link.close()


CHECKS = {
    "slow and silent clients": slow_clients,
    "six connections of a browser": browser,
    "an idle host": idle,
}
