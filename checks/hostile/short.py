"""A host that serves while memory is short: growths that are refused while four workers serve, and an address space in which
the pages that are asked for don't fit."""

import concurrent.futures
import random
import re
import resource
import subprocess
import time

from serving.clients import PLAIN, answer, asked, page, request
from serving.hosts import free_port, listens, wait_until

from .growths import DRAWN, SEED, SITE, WITHOUT

FULL = answer("503 Service Unavailable", PLAIN, body=b"Out of memory\n")
WORKERS, HUNDRED, ROUNDS = 4, 100, 6
# A page with nearly 16 MiB of data and a body of 4 MiB, which it keeps for a while.
EATS = (
    f'{WITHOUT}<% s = String(1048568, "x") : t = s : u = s : v = String(1040000, "x")\n'
    "For i = 1 To 4 : Response.Write s : Next\nFor i = 1 To 50000 : Next %>"
)
# The C library gives back large pieces of memory at once, so that what a host takes is what its pages hold.
GIVES_BACK = {"MALLOC_MMAP_THRESHOLD_": "131072", "MALLOC_ARENA_MAX": "1"}
EATEN = page(b"x" * (4 * 1048568), close=True)
SMALL = page(b"hi")


class Host:
    """A host of the built program, whose calls may fail, for the time of a `with`."""

    def __init__(self, program, folder, requests, failing=None, workers=WORKERS):
        self.port = free_port()
        words = ["serve", folder, "--requests", requests, "--workers", workers, "--port", self.port]
        ends = {"stdin": subprocess.DEVNULL, "stdout": subprocess.PIPE, "stderr": subprocess.PIPE}
        self.process = subprocess.Popen([program.path, *map(str, words)], env=failing or {}, **ends)

    def __enter__(self):
        wait_until(lambda: listens(self.port) or not self.runs(), 60)
        return self

    def __exit__(self, *_):
        self.process.kill()
        self.process.communicate()

    def runs(self):
        return self.process.poll() is None

    def ends(self):
        """Makes connections until the host has ended. Returns its status, what it wrote and what it said."""
        end = time.monotonic() + 120
        while self.runs() and time.monotonic() < end:
            try:
                asked(self.port, request("/none") * 5)
            except OSError:
                time.sleep(0.01)
        if self.runs():
            return None, b"", b""
        return self.process.returncode, *self.process.communicate()


def dated(text):
    """Returns answers without their dates and without the letters of keys."""
    text = re.sub(rb"(?<=\r\nDate: )[^\r]*", b"*", text)
    return re.sub(rb"(?<=PROFILE=)[A-Z*]*", b"", text)


def are_right(text, wanted):
    """Whether a text is answers, each the one that is wanted or that memory ran out; the last may be cut off."""
    for right in wanted:
        found = next((it for it in (*right, FULL) if text.startswith(it)), None)
        if not found:
            return any(it.startswith(text) for it in (*right, FULL))
        text = text[len(found) :]
    return not text


def visit(port):
    """Asks for three things on one connection. Returns what comes of it."""
    try:
        came = asked(port, request("/p.asp"), request("/s.asp"), request("/a.css", "Connection: close"))
        return dated(came.removesuffix(b"<reset>"))
    except OSError:
        return b""


CSS = answer("200 OK", "Content-Type: text/css", body=b"p {}", close=True)
SHUT = answer("503 Service Unavailable", PLAIN, body=b"Out of memory\n", close=True)
VISIT = [
    (page(b"Aa1"), page(b"Aa0")),
    tuple(dated(page(body, key=1)) for body in (b"T1", b"1")),
    (CSS, SHUT),
]


def serve_refused(program, tally):
    """Growths that are drawn are refused to a host of four workers."""
    folder = program.folder(SITE)
    count_file = program.room / "count"
    with Host(program, folder, 12, program.failing("growth", count=count_file)) as host:
        with concurrent.futures.ThreadPoolExecutor(WORKERS) as threads:
            list(threads.map(visit, [host.port] * WORKERS))
        host.ends()
    count = int(count_file.read_text())
    ended = {}
    for at in random.Random(SEED).sample(range(1, count + 1), min(DRAWN, count)):
        with Host(program, folder, 12, program.failing("growth", at)) as host:
            with concurrent.futures.ThreadPoolExecutor(WORKERS) as threads:
                came = list(threads.map(visit, [host.port] * WORKERS))
            status, output, said = host.ends()
        right = [text for text in came if not are_right(text, VISIT)]
        well = status == 0 and not said or status == 1 and said in (b"out of memory\n", b"")
        tally.holds(f"serve, growth {at} refused", well and not output and not right, (status, said, right))
        ended[status] = ended.get(status, 0) + 1
    told = ", ".join(f"{status} {times} times" for status, times in sorted(ended.items(), key=str))
    return f"{count} growths, of which {min(DRAWN, count)} were drawn by seed {SEED} and refused alone: status {told}"


def space_of(host):
    """Returns the address space of a host, in bytes."""
    with open(f"/proc/{host.process.pid}/statm", encoding="ascii") as line:
        return int(line.read().split()[0]) * resource.getpagesize()


def ask_at_once(host, count=WORKERS):
    """Asks for the page on some connections at once. Returns how many answers were right, how many told that memory ran out,
    and how many neither; and how much address space the host took more than before, at most."""
    before, most = space_of(host), 0
    with concurrent.futures.ThreadPoolExecutor(count) as threads:
        asking = [threads.submit(asked, host.port, request("/eats.asp", "Connection: close")) for _ in range(count)]
        while not all(it.done() for it in asking):
            most = max(most, space_of(host))
            time.sleep(0.001)
    came = [dated(it.result()) for it in asking]
    right, full = came.count(EATEN), came.count(SHUT)
    return right, full, len(came) - right - full, most - before


def eaters(program, tally):
    """Four workers are asked at once for pages of which two fit into the address space that is left, and four don't."""
    folder = program.folder({"/eats.asp": EATS, "/p.asp": f"{WITHOUT}hi"})
    with Host(program, folder, 100000, GIVES_BACK) as host:
        # by then each thread is there
        tally.holds("all fit", ask_at_once(host)[0] == WORKERS)
        one = max(ask_at_once(host, 1)[3] for _ in range(WORKERS))
        room = space_of(host) + one * 2
        resource.prlimit(host.process.pid, resource.RLIMIT_AS, (room, room))
        # how far the four are in step is the system's
        rounds = [ask_at_once(host)]
        while len(rounds) < ROUNDS and not all(map(sum, list(zip(*rounds))[:2])):
            rounds.append(ask_at_once(host))
        right, full, neither, _ = map(sum, zip(*rounds))
        tally.holds("each answer is right or tells that memory ran out", not neither, rounds)
        tally.holds("some are right, and some tell that memory ran out", right and full, rounds)
        after = dated(asked(host.port, request("/p.asp") * HUNDRED))
        tally.holds("the next hundred are right", after == SMALL * HUNDRED, after[:300])
    return f"a page takes {one} bytes of address space; {right} answers were right, {full} told that memory ran out"


# What a host of as many workers as there may be is to stay below, with all at its limit at once, in bytes.
MOST_MEMORY, MOST_WORKERS, MOST_SESSIONS, PUTS = 4 << 30, 16, 4096, 58
FULL_SITE = {
    "/eats.asp": EATS,
    "/session.asp": '<% Session("s") = String(65519, "x") %>x',
    "/all.asp": f'{WITHOUT}<% For i = 1 To 3 : Application("a" & i) = String(1048576, "x") : Next : '
    'Application("a4") = String(1048504, "x") %>x',
    "/put.asp": f'{WITHOUT}<% Application("a1") = String(1048576, "x") %>x',
}


def peak_of(host):
    """Returns how much memory a host has taken at most, in bytes."""
    with open(f"/proc/{host.process.pid}/status", encoding="ascii") as lines:
        return next(int(line.split()[1]) * 1024 for line in lines if line.startswith("VmHWM:"))


def together(program, tally):
    """Sessions, the application, the journal's weight and a page of each worker are near their limits at once."""
    # one more than are asked for below, so that it does not end before
    requests = MOST_SESSIONS + PUTS + MOST_WORKERS + 3
    with Host(program, program.folder(FULL_SITE), requests, workers=MOST_WORKERS) as host:
        # answers that are asked for in one piece share the time of one
        came = [asked(host.port, request("/session.asp") * 64) for _ in range(MOST_SESSIONS // 64)]
        count = b"".join(came).count(b"\r\n\r\nx")
        tally.holds("all sessions are full", count == MOST_SESSIONS, count)
        refused = asked(host.port, request("/session.asp"))
        tally.holds("there are no more sessions", refused.endswith(b"Too many sessions\n"), refused[-100:])
        filled = [asked(host.port, request(path, "Connection: close")) for path in ["/all.asp", *["/put.asp"] * PUTS]]
        tally.holds("the application and the journal", all(text.endswith(b"\r\n\r\nx") for text in filled), filled[-1][-200:])
        with concurrent.futures.ThreadPoolExecutor(MOST_WORKERS) as threads:
            asking = [threads.submit(asked, host.port, request("/eats.asp", "Connection: close")) for _ in range(MOST_WORKERS)]
        right = [dated(it.result()) for it in asking].count(EATEN)
        tally.holds("a page of each worker", right == MOST_WORKERS, right)
        most = peak_of(host)
        tally.holds("it took less than 4 GiB", most < MOST_MEMORY, most)
        tally.holds("the host ends well", host.ends()[0] == 0)
    return f"it took {most >> 20:,} MiB"


TRIALS = {"serve on four workers": serve_refused, "pages that don't fit together": eaters, "all limits together": together}
# Those that do without calls that fail.
ALONE = {"pages that don't fit together", "all limits together"}
