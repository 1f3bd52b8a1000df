"""Replays under a strict lock, which keeps readers out too, beside those under a plain one."""

import sys

from .recorded import cases
from .recordings import SEED, WITHOUT, Item, Recording, Site, request, written
from .rows import between_locks, starting
from .sites import name, number

X, Y = name("x"), name("y")
# How often a reader is looked for beside a lock that lets readers in.
TRIES = 20


def begins(run):
    yield f"put {X} i0"


def fills_anew(run):
    yield "lock"
    yield f"remove {X}"
    yield f"put {X} i1"
    yield "unlock"
    return 200, b"filled"


def reads(run):
    value = yield f"get {X}"
    return 200, b"" if value == "e" else b"%d" % number(value)


READS = f'{WITHOUT}<%= Application("x") %>'
LIST = Site(
    {
        "/global.asa": starting('Application("x") = 0'),
        "/w.asp": f'{WITHOUT}<% Application.Lock : Application.Contents.Remove("x") : For i = 1 To 200000 : Next : '
        'Application("x") = 1 : Application.Unlock %>filled',
        "/r.asp": READS,
    },
    {"begin": begins, "/w.asp": fills_anew, "/r.asp": reads},
    shares=True,
)


def readers(count):
    """Returns requests of pages that fill the list anew, each with one that reads it."""
    return [request(path, 0) for _ in range(count) for path in ("/w.asp", "/r.asp")]


def no_reader_beside_a_strict_lock(check):
    """Pages fill a list anew under the lock, and others read it: none finds it empty."""
    account, output = check.replayed(LIST, readers(check.many(200)), 4, strict=True)
    if account:
        check.same("calls beside a lock", between_locks(output.lines, strict=True), [])
        check.same("empty bodies", [it.run for it in output.answers if it.body == b""], [])


def rule_of_word_and_recording(check):
    """The rule is strict where the word or the recording says so. Under the plain one a reader may come in between."""
    site, items = check.site(LIST.files), readers(20)
    ways = ((None, True, True), ("strict", False, True), ("plain", True, True), ("strict", True, True))
    for rule, word, strict in ways:
        words = ["replay", site, "--journal", "--workers", 4, *["--strict-lock"] * word]
        end = check.ran(*words, recording=written(items, rule=rule))
        account, output = check.right(LIST, Recording(SEED, items, strict), 4, end)
        if account:
            check.same(f"calls beside a lock, {rule}, {word}", between_locks(output.lines, strict), [])
    for rule in (None, "plain"):
        for _ in range(TRIES):
            end = check.ran("replay", site, "--journal", "--workers", 4, recording=written(items, rule=rule))
            account, output = check.right(LIST, Recording(SEED, items), 4, end)
            if not account or between_locks(output.lines, strict=True):
                break
        else:
            print(f"under a plain lock no reader came in between in {TRIES} replays, {rule}", file=sys.stderr)


def one_lane_under_both_rules(check):
    """On one lane no run is ever kept out: each recording gives the same bytes under both rules, its journal too."""
    folder, found = cases()
    for case in found:
        plain = case.ran(check, folder, "--journal", "--workers", "1")
        strict = case.ran(check, folder, "--journal", "--workers", "1", "--strict-lock")
        check.same(case.name, tuple(strict), tuple(plain))


def readers_behind_a_long_lock(check):
    """A page loops under its lock to its last tick: what others read stands behind its end."""
    files = {
        "/l.asp": '<% Application.Lock : Application("x") = 1 : Do : Loop %>',
        "/r.asp": READS,
    }

    def loops(run):
        yield "lock"
        yield f"put {X} i1"
        return 500, b"Active Server Pages limit 'Ticks'\n/l.asp, line 1\n"

    site = Site(files, {"/l.asp": loops, "/r.asp": reads}, shares=True)
    items = [request("/l.asp", 1), Item(1), *[request("/l.asp", 1, 1)], *[request("/r.asp", 0, 1)] * 3]
    for lanes in check.often((4,)):
        account, output = check.replayed(site, items, lanes, strict=True)
        if not account:
            return
        order = [(it.kind, it.run, it.word) for it in output.lines]
        begin, end = order.index(("P", 3, "lock")), order.index(("E", 3, "done"))
        read = [at for at, it in enumerate(order) if it[0] == "P" and it[2] == f"get {X}"]
        check.holds(f"reads at {read}, the lock from {begin} to {end}", all(not begin < at < end for at in read))


def pair_under_the_lock(check):
    """A page that reads a pair under a lock of its own reads both halves of one filling, under either rule."""
    files = {
        "/global.asa": starting('Application("x") = 0 : Application("y") = 0'),
        "/w2.asp": f'{WITHOUT}<% Application.Lock : n = Application("x") + 1 : Application("x") = n : '
        'Application("y") = n : Application.Unlock %>',
        "/p.asp": f'{WITHOUT}<% Application.Lock : a = Application("x") : b = Application("y") : '
        "Application.Unlock %><%= a %>,<%= b %>",
    }

    def begins_both(run):
        yield f"put {X} i0"
        yield f"put {Y} i0"

    def fills_both(run):
        yield "lock"
        more = number((yield f"get {X}")) + 1
        yield f"put {X} i{more}"
        yield f"put {Y} i{more}"
        yield "unlock"
        return 200, b""

    def reads_both(run):
        yield "lock"
        one, other = (yield f"get {X}"), (yield f"get {Y}")
        yield "unlock"
        return 200, b"%d,%d" % (number(one), number(other))

    site = Site(files, {"begin": begins_both, "/w2.asp": fills_both, "/p.asp": reads_both}, shares=True)
    items = [request(path, 0) for _ in range(60) for path in ("/w2.asp", "/p.asp")]
    for lanes, strict in check.under_both_rules((4, 16)):
        account, output = check.replayed(site, items, lanes, strict)
        if not account:
            return
        halves = [it.body.split(b",") for it in output.answers if it.body]
        check.same("pairs", [it for it in halves if it[0] != it[1]], [])


def pair_without_lock(check):
    """A page that reads a pair without a lock of its own may read one half before another's lock and the other behind it, also
    where readers wait."""
    files = {
        "/global.asa": starting('Application("x") = 0 : Application("y") = 0'),
        "/w2.asp": f'{WITHOUT}<% Application.Lock : Application("x") = 1 : Application("y") = 1 : Application.Unlock %>',
        "/r2.asp": f'{WITHOUT}<% a = Application("x") : For i = 1 To 100000 : Next : b = Application("y") %><%= a %>,<%= b %>',
    }

    def begins_both(run):
        yield f"put {X} i0"
        yield f"put {Y} i0"

    def fills_both(run):
        yield "lock"
        yield f"put {X} i1"
        yield f"put {Y} i1"
        yield "unlock"
        return 200, b""

    def reads_both(run):
        one, other = (yield f"get {X}"), (yield f"get {Y}")
        return 200, b"%d,%d" % (number(one), number(other))

    site = Site(files, {"begin": begins_both, "/w2.asp": fills_both, "/r2.asp": reads_both}, shares=True)
    for _ in range(TRIES):
        account, output = check.replayed(site, [request("/r2.asp", 0), request("/w2.asp", 0)], 4, strict=True)
        if not account or [it.body for it in output.answers if it.run == 2] == [b"0,1"]:
            return
    print(f"under a strict lock no pair was read on both sides of it in {TRIES} replays", file=sys.stderr)


CHECKS = {
    "a strict lock, and no reader beside it": no_reader_beside_a_strict_lock,
    "the rule of the word and of the recording": rule_of_word_and_recording,
    "recordings on one lane under both rules": one_lane_under_both_rules,
    "readers behind a lock to the last tick": readers_behind_a_long_lock,
    "pairs that are read under the lock": pair_under_the_lock,
    "a pair that is read on both sides of a strict lock": pair_without_lock,
}
