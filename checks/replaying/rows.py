"""Replays of pages of their own, on several lanes."""

import itertools
import re

from .application import is_kept_out
from .lines import read_line
from .recordings import SEED, WITHOUT, Item, Site, request
from .runs import LANES
from .sites import COUNTS, HI, LOCKS, of_session, says, visits

ONE_ANSWER = (
    b"answer 2 141\nHTTP/1.1 200 OK\r\nDate: Thu, 01 Jan 1970 00:00:00 GMT\r\n"
    b"Content-Type: text/html; Charset=utf-8\r\nCache-control: private\r\nContent-Length: 2\r\n\r\nhi\n"
)
ONE_JOURNAL = (
    b"Q 0 1 start\nB 0 1 0\nE 0 1 done 0 0 0 0\nA 0 2 0 0\nB 0 2 0\nE 0 2 done 200 2 0 0\nS 0\nQ 0 3 stop\nB 0 3 0\n"
    b"E 0 3 done 0 0 0 0\n"
)
# The entries of one request that `gen` makes, without their lanes.
MADE_ONE = """Q 1 start|B 1 0|E 1 done 0 0 0 0|A 2 1 0|B 2 1|P 2 lock done|P 2 get s6e e|P 2 put s6e i1 done
P 2 unlock done|E 2 done 200 1 0 0|S|Q 3 end 1|Q 4 stop|B 3 1|E 3 done 0 0 0 0|B 4 0|E 4 done 0 0 0 0"""


def between_locks(lines, strict=False):
    """Returns the calls of other runs between a run's lock and its unlock or end that the lock's rule keeps out."""
    holder, found = None, []
    for line in lines:
        word = line.word.split(" ")[0]
        if line.kind == "P" and holder not in (None, line.run) and is_kept_out(word, strict):
            found.append(line)
        if line.kind == "P" and word == "lock":
            holder = line.run
        elif line.run == holder and (line.kind == "E" or word == "unlock"):
            holder = None
    return found


def counted_under_the_lock(check):
    """Two clients count 100 times each, under the lock and in their sessions."""
    items = [request("/count.asp", 1 + at % 2) for at in range(200)]
    for lanes, strict in check.under_both_rules():
        account, output = check.replayed(COUNTS, items, lanes, strict)
        if not account:
            return
        for client in (1, 2):
            asked = sorted((it for it in output.answers if it.run % 2 == client - 1), key=lambda it: it.run)
            check.same(f"client {client}", [it.body for it in asked], [b"%d" % (n + 1) for n in range(100)])
        puts = [it for it in output.lines if it.kind == "P" and it.word.startswith("put s6e ")]
        check.same("the last put", (len(puts), puts[-1].word, puts[-1].reply), (200, "put s6e i200", "done"))
        check.same("calls beside a lock", between_locks(output.lines, strict), [])


def lock_to_the_last_tick(check):
    """A page loops under its lock, and another page stores what the first has stored."""
    items = [request("/l.asp", 1), request("/w.asp", 2)]
    for lanes, strict in check.under_both_rules((2, 4)):
        account, output = check.replayed(LOCKS, items, lanes, strict)
        if not account:
            return
        order = [(it.kind, it.run, it.word) for it in output.lines]
        put, lock, end = (order.index(it) for it in [("P", 3, "put s78 i2"), ("P", 2, "lock"), ("E", 2, "done")])
        check.holds(f"the second page stored at {put}, and the lock stood from {lock} to {end}", not lock < put < end)


def one_request(check):
    site, recording = check.site(HI.files), b"ASPREC 1\nseed %s\nrequest 0 0 32\n" % SEED.encode()
    recording += b"GET /n.asp HTTP/1.1\r\nHost: x\r\n\r\n\nend\n"
    for lanes, words in itertools.product((1, 2, 16), ([], ["--strict-lock"])):
        end = check.ran("replay", site, "--workers", lanes, *words, recording=recording)
        check.same(f"{lanes} lanes", end, (0, ONE_ANSWER + b"done 1\n", ""))
        end = check.ran("replay", site, "--workers", lanes, "--journal", *words, recording=recording)
        bare = re.sub(rb"(?m)^([A-Z]) \d+", rb"\1 0", end.output) if lanes > 1 else end.output
        check.same(f"{lanes} lanes, with its journal", bare, ONE_ANSWER + ONE_JOURNAL + b"done 1\n")


def many_at_one_moment(check):
    """5,000 requests at one moment: all are answered, and never more than 1,024 wait."""
    count = 5000
    for site, path in ((HI, "/n.asp"), (COUNTS, "/count.asp")):
        for lanes in LANES:
            account, output = check.replayed(site, [request(path, 1 + at % 50) for at in range(count)], lanes)
            if not account:
                return
            check.same("answers", len(output.answers), count)
            waiting = most = 0
            for line in output.lines:
                waiting += (line.kind == "A") - (line.kind == "B" and 1 < line.run <= count + 1)
                most = max(most, waiting)
            check.holds(f"{most} wait on {lanes} lanes", most == 1024 if lanes == 1 else most <= 1024)


BUSY = f"{WITHOUT}<% For i = 1 To 30000 : Next %>busy"
SESSIONS = Site(
    {
        "/s.asp": '<% Session("n") = Session("n") + 1 %><%= Session.SessionID %>:<%= Session("n") %>',
        "/busy.asp": BUSY,
    },
    {"/s.asp": visits, "/busy.asp": says("busy")},
)


def session_ends_behind_busy_pages(check):
    """A session ends by a tick while pages are in work: its end is queued behind all that was before."""
    items = [request("/s.asp", 1), *[request("/busy.asp", 0, 1199)] * 8, Item(1200), request("/s.asp", 1, 1200)]
    for lanes in check.often((1, 4, 16)):
        account, output = check.replayed(SESSIONS, items, lanes)
        if not account:
            return
        at = [(it.kind, it.word) for it in output.lines].index(("Q", "end"))
        before = sorted(it.run for it in output.lines[:at] if it.kind == "E")
        check.same("runs that ended before", before, list(range(1, 11)))
        check.same("the answers of client 1", [it.body for it in output.answers if it.run in (2, 12)], [b"1:1", b"2:1"])


def starting(lines):
    return '<script language="vbscript" runat="server">\nSub Application_OnStart\n%s\nEnd Sub\n</script>' % lines


def begins_long(run):
    yield "put s78 i1"


def tells_x(run):
    return 200, (yield "get s78")[1:].encode()


LONG_START = Site(
    {
        "/global.asa": starting('For i = 1 To 999990 : Next\nApplication("x") = 1'),
        "/x.asp": f'{WITHOUT}<%= Application("x") %>',
        "/s.asp": '<% Session("c") = Session("c") + 1 %><%= Session("c") %>',
    },
    {
        "begin": begins_long,
        "/x.asp": tells_x,
        "/s.asp": lambda run: (200, str(of_session(run, "c")).encode()),
    },
)


def long_start(check):
    """No page begins before the application has begun, however long that takes."""
    items = [request(path, client) for client in range(1, 9) for path in ("/x.asp", "/s.asp")]
    for lanes in LANES:
        account, output = check.replayed(LONG_START, items, lanes)
        if not account:
            return
        first = [(it.kind, it.run) for it in output.lines[:4]]
        check.same("what comes first", first, [("Q", 1), ("B", 1), ("P", 1), ("E", 1)])
        check.same("x", {it.body for it in output.answers if it.run % 2 == 0}, {b"1"})


def failing_start(check):
    """Where the application does not begin nothing is written."""
    fails = {"/global.asa": starting("For i = 1 To 1000 : Next\nx = 1 \\ 0"), **HI.files}
    loops = {"/global.asa": starting("Do : Loop"), **HI.files}
    for files, why in ((fails, "error 11, line 4"), (loops, "limit Ticks, line 3")):
        site = check.site(files)
        recording = b"ASPREC 1\nseed %s\n%send\n" % (SEED.encode(), b"request 1 0 18\nGET / HTTP/1.0\r\n\r\n\n" * 20)
        for lanes in check.often((1, 4, 16)):
            end = check.ran("replay", site, "--journal", "--workers", lanes, recording=recording)
            check.same(f"{lanes} lanes", end, (8, b"", f"Application_OnStart failed: {why}\n"))


def generated(check):
    """The requests that `gen` makes, on its four lanes."""
    for count in (1, 100, 10000):
        end = check.ran("gen", count)
        wanted = f"requests {count}\nanswers {count}\nsessions {min(count, 7)}\ntotal {count}\n".encode()
        check.same(f"gen {count}", end, (0, wanted, ""))
    for _ in range(check.many(20)):
        end = check.ran("gen", 1, "--journal")
        bare = re.sub(rb"(?m)^([A-Z]) \d+", rb"\1", end.output)
        wanted = MADE_ONE.replace("|", "\n").encode() + b"\nrequests 1\nanswers 1\nsessions 1\ntotal 1\n"
        check.same("gen 1 --journal", (end.status, bare, end.said), (0, wanted, ""))
        lanes = {read_line(it).lane for it in end.output.decode().split("\n")[:17]}
        check.holds(f"lanes {lanes}", max(lanes) < 4)


CHECKS = {
    "counts under the lock, on 1 to 16 lanes": counted_under_the_lock,
    "a lock that is held to the last tick": lock_to_the_last_tick,
    "one request on 1, 2 and 16 lanes": one_request,
    "5,000 requests at one moment": many_at_one_moment,
    "a session that ends while pages are in work": session_ends_behind_busy_pages,
    "an application that takes long to begin": long_start,
    "an application that does not begin": failing_start,
    "requests that are made, on four lanes": generated,
}
