"""Growths that are refused: the nth call for memory of a command fails, or all from the nth on.

A command that is refused memory ends by itself within a second of the processor: with status 0 and what the rules of the
program say where memory ran out for the runs that its journal names, or with status 1, `out of memory` or nothing on
standard error, and a beginning of such an output.
"""

import concurrent.futures
import os
import random
import re

from .account import FULL, Account, Page
from .running import recording

SEED = 14
DRAWN = 100
# How much processor time a command may use, and how long it may take on a machine that does other work too, in seconds.
SECONDS, LONGEST = 1, 30
WITHOUT = "<%@ ENABLESESSIONSTATE=False %>"
SITE = {
    "/global.asa": '<script runat="server">\nSub Application_OnStart\nApplication("t") = "T"\nEnd Sub\n</script>',
    "/part.inc": "<% Class C\nPublic n\nEnd Class %>",
    "/p.asp": f'{WITHOUT}<!-- #include file="part.inc" --><% Set o = New C : o.n = Array(1, "a") : Set d = CreateObject('
    f'"Scripting.Dictionary") : d.Add "k", o.n %>A<%= d("k")(1) & Len(Application("t")) %>',
    "/s.asp": '<% Session("n") = Session("n") + 1 %><%= Application("t") & Session("n") %>',
    "/f.asp": f'{WITHOUT}<%= Request.Form("a") %>',
    "/a.css": "p {}",
}
FORM = "POST /f.asp HTTP/1.1\r\nHost: x\r\nContent-Type: application/x-www-form-urlencoded\r\nContent-Length: 3\r\n\r\na=1"
GETS = "GET {} HTTP/1.1\r\nHost: x\r\n\r\n"
# The letters of the first key of a host whose seed is 32 zero bytes.
LETTERS = {1: "AAAAAAABGESLLICFYZVAKHHO"}
REQUESTS = [(1, "/s.asp"), (1, "/s.asp"), (0, "/f.asp"), (0, "/a.css"), (0, "/p.asp")]


def of_title(account):
    """Returns the call by which a page reads the title, and what it reads."""
    title = account.values.get("t", "")
    return [(f"get s74 {'s54' if title else 'e'}", {})], title


def session_page(account, session):
    made, title = of_title(account)
    session["n"] = session.get("n", 0) + 1
    return made, f"{title}{session['n']}"


def plain_page(account, _):
    made, title = of_title(account)
    return made, f"Aa{len(title)}"


def count_page(account, session):
    """The page of `gen`."""
    before = account.values.get("n")
    after = (before or 0) + 1
    session["c"] = session.get("c", 0) + 1
    read = f"get s6e {'e' if before is None else f'i{before}'}"
    put = (f"put s6e i{after} done", {"n": after})
    return [("lock done", {}), (read, {}), put, ("unlock done", {})], str(session["c"])


PAGES = {
    "/s.asp": Page(True, session_page),
    "/p.asp": Page(False, plain_page, objects=2),
    "/f.asp": Page(False, lambda account, session: ([], "1")),
    "/a.css": Page(False, lambda account, session: ([], "p {}"), ("Content-Type: text/css",)),
}
COUNT = Page(True, count_page)


def replayed(failed):
    """Returns what the replay writes where memory ran out for these runs."""
    start = [("put s74 s54 done", {"t": "T"})]
    account = Account(failed, start).whole([(client, PAGES[path]) for client, path in REQUESTS], LETTERS)
    return "".join(account.answers) + "".join(f"{line}\n" for line in account.lines) + f"done {len(REQUESTS)}\n"


def generated(failed):
    """Returns what `gen 10 --journal` writes where memory ran out for these runs."""
    account = Account(failed).whole([(number % 7 + 1, COUNT) for number in range(10)], {})
    done = sum(" done 200 " in line for line in account.lines)
    serials = {line.split()[3] for line in account.lines if line.startswith("B ")} - {"0"}
    total = account.values.get("n", 0)
    summary = f"requests 10\nanswers {done}\nsessions {len(serials)}\ntotal {total}\n"
    return "".join(f"{line}\n" for line in account.lines) + summary


def failed_in(text, was_written):
    """Returns the runs of an output for which memory ran out, each with how many calls of it came before. Of a run whose
    end was not written there may be more."""
    failed = {}
    for run in re.findall(r"^answer (\d+) \d+\nHTTP/1\.1 503 ", text, re.MULTILINE):
        failed[int(run)] = None
    failed.update({int(run): None for run in re.findall(r"^E 0 (\d+) memory ", text, re.MULTILINE)})
    for run in failed:
        has_end = was_written or re.search(rf"^E 0 {run} memory .*\n", text, re.MULTILINE)
        failed[run] = len(re.findall(rf"^P 0 {run} .*\n", text, re.MULTILINE)) if has_end else 99
    return failed


def is_defined(text, wanted, is_whole):
    """Whether a text is an output by these rules, or the beginning of one. How many objects a run had made for which
    memory ran out is not told."""
    full = wanted(failed_in(text, is_whole))
    text = re.sub(r"^(E 0 \d+ memory \d+ \d+) \d+ \d+$", r"\1 * *", text, flags=re.MULTILINE)
    if is_whole:
        return text == full
    lines, end, last = text.rpartition("\n")
    rest = full.removeprefix(lines + end)
    return full.startswith(lines + end) and (rest.startswith(last) or last.startswith("E ") and " memory " in last)


def fixed(*outputs):
    """Returns whether a text is one of these, or the beginning of one."""
    return lambda text, is_whole: text in outputs if is_whole else any(it.startswith(text) for it in outputs)


def has_end(word):
    """Returns whether a text may be an output of several workers, whose order is left open: a whole one ends with a count."""
    last = re.compile(rf"(?:.*\n)?{word} \d+\n", re.DOTALL)
    return lambda text, is_whole: last.fullmatch(text) if is_whole else not last.fullmatch(text) or text.endswith("\n")


def commands(folder):
    """Returns the commands, each with its words, its standard input, and which outputs are defined."""
    told = [(client, 0, (FORM if path == "/f.asp" else GETS.format(path)).encode()) for client, path in REQUESTS]
    asked = recording(*told)
    replay = ["replay", folder, "--journal"]
    return {
        "get": (["get", folder, "/p.asp"], None, fixed("Aa1", "Aa0", FULL)),
        "check": (["check", folder], None, fixed("accepted 3 pages, 1 files\n")),
        "replay": ([*replay, "--workers", "1"], asked, lambda text, is_whole: is_defined(text, replayed, is_whole)),
        "gen 10": (["gen", "10", "--journal"], None, has_end("total")),
        "replay on four workers": (
            [*replay, "--workers", "4"],
            asked,
            has_end("done"),
        ),
    }


def ends_well(end, holds):
    """Whether a run that was refused memory ended as it may."""
    if end.status not in (0, 1):
        return False
    if end.said not in ((b"",) if end.status == 0 else (b"out of memory\n", b"")):
        return False
    return holds(end.output.decode("ascii", "replace"), end.status == 0)


class Refused:
    """What refusals of a command came to."""

    def __init__(self, program, tally, name, command):
        self.program, self.tally, self.name = program, tally, name
        self.words, self.source, self.holds = command
        self.ended = {0: 0, 1: 0}
        self.told = {"a page": 0, "an event": 0, "an answer's bytes": 0}

    def once(self, at, on):
        failing = self.program.failing("growth", at, on, seconds=SECONDS)
        return at, on, self.program.run(*self.words, source=self.source, failing=failing, seconds=LONGEST)

    def look(self, at, on, end):
        """Counts how a run ended."""
        what = f"{self.name}, {'all growths from' if on else 'growth'} {at} refused"
        if self.tally.holds(what, ends_well(end, self.holds), end):
            self.ended[end.status] += 1
            text = end.output.decode()
            self.told["a page"] += " memory 503 " in text
            self.told["an event"] += " memory 0 " in text
            self.told["an answer's bytes"] += end.status == 1 and "answer " in text and "Q 0 1" not in text

    def all(self, numbers):
        """Refuses these growths, each alone, and once all behind it too."""
        with concurrent.futures.ThreadPoolExecutor(os.cpu_count()) as threads:
            for on in (False, True):
                for came in threads.map(lambda at: self.once(at, on), numbers):
                    self.look(*came)


def refuse(name):
    """Returns the trial of a command."""

    def work(program, tally):
        command = commands(program.folder(SITE))[name]
        count, end = program.calls("growth", *command[0], source=command[1])
        whole = end.status == 0 and command[2](end.output.decode(), True)
        tally.holds(f"{name}, nothing refused", whole and not end.said, end)
        numbers = range(1, count + 1)
        drawn = ""
        if "workers" in name:
            drawn = f" of which {DRAWN} were drawn by seed {SEED}"
            numbers = random.Random(SEED).sample(numbers, min(DRAWN, count))
        refused = Refused(program, tally, name, command)
        refused.all(numbers)
        told = refused.told
        if "replay" in name and not drawn:
            for what in told:
                tally.holds(f"{name}: memory never ran out for {what}", told[what])
        runs = ", ".join(f"{what} {count}" for what, count in told.items() if count)
        return (
            f"{count} growths{drawn}, each refused alone and with all behind it: status 0 {refused.ended[0]} times, "
            f"1 {refused.ended[1]} times" + (f"; memory ran out for {runs}" if runs else "")
        )

    return work


TRIALS = {name: refuse(name) for name in ("get", "check", "replay", "gen 10", "replay on four workers")}
