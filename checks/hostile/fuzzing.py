"""Pages, recordings and requests that are spoilt at random, by a seed. Each run ends by itself, with a status that it may have
and what the guide says of it; what was made of one seed is the same each time."""

import concurrent.futures
import os
import pathlib
import random
import re
import threading
import time

from serving.answers import KEPT, recordings
from serving.clients import FORM, request
from serving.mutations import spoilt

from . import guide
from .growths import WITHOUT
from .running import TOP, write_site

# How long each kind is tried, in seconds, and how long a run may take.
EACH, LONGEST = 20, 60
ADDRESS = "GET {} HTTP/1.1\r\nHost: x\r\n\r\n"
# What stands in scripts, so that it comes to other places too.
WORDS = """
If Then Else ElseIf End Do Loop While Until Wend For Each In Next To Step Select Case With Sub Function Class Property Get Let
Set Dim ReDim Preserve Erase Const Public Private ByVal ByRef Exit Call On Error Resume GoTo 0 1 2147483647 -1 &HFFFF& "x" ""
Nothing Null Empty True New Me Not And Or Xor Eqv Imp Mod Is = <> < > <= >= & + - * \\ ( ) , . : _ ' Rem [a] x a(1) Err
Array(1,2) Response.Write Response.End Session("a") Application("a") Request("a") Option Explicit %> <%= <% </script>
""".split()
WORDS += ['<script runat="server">', '<!--#include file="b.inc"-->', "<%@ LANGUAGE=VBScript %>"]
WORDS += ['Server.CreateObject("Scripting.Dictionary")']


def scripts():
    """Returns pages to spoil: those of the examples, and the scripts of the cases."""
    found = [file.read_text(encoding="utf-8") for file in sorted((TOP / "examples").rglob("*.asp"))]
    for file in sorted((TOP / "crates" / "run_cases" / "data").glob("*.txt")):
        for line in file.read_text(encoding="utf-8").splitlines():
            if " => " in line and not line.startswith(("#", "text ", "topic ")) and "~" not in line:
                script = line.partition(" => ")[0].partition(" ## ")[0].replace("|", "\n")
                found.append(f"<% {script} %>")
    return found


def spoilt_page(draw, pages):
    """Returns a page with one to three places spoilt: by words, by pieces of others, by characters, by what is left out."""
    text = draw.choice(pages)
    for _ in range(draw.choice((1, 1, 1, 2, 3))):
        at = draw.randrange(len(text) + 1)
        to = min(len(text), at + draw.choice((0, 0, 1, 3, 20)))
        kind = draw.randrange(6)
        put = f" {draw.choice(WORDS)} "
        if kind == 0:
            other = draw.choice(pages)
            begin = draw.randrange(len(other) + 1)
            put = other[begin : begin + draw.randrange(80)]
        elif kind == 1:
            put = chr(draw.choice((0, 9, 10, 13, 34, 37, 60, 62, 0xE9, 0x20AC, 0x1F600, draw.randrange(32, 127))))
        elif kind == 2:
            put = ""
        elif kind == 3:
            put = f" {draw.choice(WORDS)} " * draw.choice((2, 50, 300))
        text = text[:at] + put + text[to:]
    data = text.encode()
    if draw.randrange(40) == 0:
        data = data[: draw.randrange(len(data) + 1)] + bytes([draw.randrange(128, 256)]) + data
    return data


class Kind:
    """A kind of input: how one is drawn, and whether a run of it ended as it may."""

    def __init__(self, name, make, run, holds):
        self.name, self.make, self.run, self.holds = name, make, run, holds

    def once(self, seed):
        """Makes the input of a seed, twice where the seed says so, and tells what differs."""
        made = self.make(random.Random(seed))
        end = self.run(made)
        why = self.holds(made, end)
        if not why and seed % 16 == 0 and self.run(made)[:3] != end[:3]:
            why = "it ends otherwise the second time"
        return why, made, end

    def all(self, tally, seed, seconds):
        """Tries inputs for some seconds. Returns how many, and how often each status came."""
        end = time.monotonic() + seconds
        statuses, count = {}, 0
        with concurrent.futures.ThreadPoolExecutor(os.cpu_count()) as threads:
            while time.monotonic() < end:
                numbers = range(seed * 1000000 + count, seed * 1000000 + count + 200)
                for number, (why, made, ran) in zip(numbers, threads.map(self.once, numbers)):
                    tally.holds(f"{self.name}, seed {number}: {why}", not why, f"{made!r:.1500} gives {ran!r:.300}")
                    statuses[ran.status] = statuses.get(ran.status, 0) + 1
                count += len(numbers)
        told = ", ".join(f"{status} {times} times" for status, times in sorted(statuses.items(), key=str))
        return f"{count} by seed {seed}: status {told}"


# What stands beside a page that is spoilt.
BESIDE = {"/b.inc": "<% Sub inc(x) : x = x + 1 : End Sub %>b", "/n.asp": "n"}


def in_folders(program):
    """Returns a run of a site's page, each thread's in a folder of its own."""
    folders = {}

    def run(page):
        number = threading.get_ident()
        folder = folders.setdefault(number, program.folder(BESIDE))
        write_site(folder, {"/p.asp": page})
        return program.run("get", folder, "/p.asp?a=1&b=%C3%A9", seconds=LONGEST)

    return run


def page_holds(statuses, kinds):
    """Returns what tells why a page's run did not end as it may."""
    place = re.compile(r"(/p\.asp|/b\.inc):(\d+): (\w+)\n")

    def holds(page, end):
        said = end.said.decode("utf-8", "replace")
        if end.status not in (0, 3):
            return f"status {end.status}"
        if not statuses[end.status].fullmatch(said):
            return f"it says {said!r:.100}"
        if end.status == 0:
            return None
        found = place.fullmatch(said)
        lines = len(re.split(rb"\r\n|\r|\n", page)) if found and found[1] == "/p.asp" else 2
        if not found or found[3] not in kinds or int(found[2]) > lines or end.output:
            return f"it is refused by {said!r:.100}"
        return None

    return holds


def pages(program, seed):
    originals = scripts()
    holds = page_holds(guide.statuses(), guide.kinds())
    return Kind("a page", lambda draw: spoilt_page(draw, originals), in_folders(program), holds)


def known_requests():
    """Returns requests that a recording may have."""
    found = [sent for sent, _, _ in KEPT] + [sent for _, sent, _ in recordings()]
    found += [ADDRESS.format(path).encode() for path in ("/s.asp", "/p.asp", "/none")]
    return [*found, request("/form.asp?a=1", FORM, method="POST", body=b"a=%C3%A9+%26&a=2")]


def recorded(draw, requests):
    """Returns a recording of some requests and moments."""
    moment, lines = 0, [b"ASPREC 1\n", b"seed %s\n" % bytes(draw.choice(b"0123456789abcdef") for _ in range(64))]
    for _ in range(draw.randint(0, 5)):
        moment += draw.choice((0, 0, 1, 1200))
        if draw.randrange(4):
            sent = draw.choice(requests)
            lines.append(b"request %d %d %d\n%s\n" % (draw.randrange(3), moment, len(sent), sent))
        else:
            lines.append(b"tick %d\n" % moment)
    return b"".join([*lines, b"end\n"])


NUMBER = rb"(0|[1-9]\d*)"
ITEM = re.compile(rb"request %s %s %s\n|tick %s\n" % (NUMBER, NUMBER, NUMBER, NUMBER))
LATEST = 253402300799


def places(text, known):
    """Returns where a recording may be refused, or None for that it isn't: whether bytes that are none of the known requests
    are one is not told."""
    if not text.startswith(b"ASPREC 1\n"):
        return {0}
    if not re.match(rb"seed [0-9a-f]{64}\n", text[9:]):
        return {9}
    at, before, may = 79, 0, set()
    while True:
        if text[at:] == b"end\n":
            return may | {None}
        if text.startswith(b"end\n", at):
            return may | {at + 4}
        found = ITEM.match(text, at)
        if not found:
            return may | {at}
        moment = int(found[2] or found[4])
        if not before <= moment <= LATEST or int(found[1] or 0) >= 2**32:
            return may | {at}
        before, begin = moment, found.end()
        if found[3]:
            end = begin + int(found[3])
            if text[end : end + 1] != b"\n":
                return may | {at}
            if text[begin:end] not in known:
                may.add(at)
            begin = end + 1
        at = begin


def replay_holds(known):
    """Returns what tells why a replay did not end as it may."""

    def holds(text, end):
        may = places(text, known)
        if end.status == 6:
            found = re.fullmatch(rb"recording refused at byte (\d+)\n", end.said)
            if not found or int(found[1]) not in may or end.output:
                return f"it says {end.said!r:.100}, and not one of {sorted(map(str, may))}"
            return None
        if end.status != 0 or end.said or None not in may:
            return f"status {end.status}, and not a refusal at one of {sorted(map(str, may))}"
        return None if are_answers(end.output) else "its output is none"

    return holds


def are_answers(output):
    """Whether an output is records of answers, and then how many there were."""
    count = 0
    while found := re.match(rb"answer \d+ (\d+)\nHTTP/1\.1 \d{3} ", output):
        end = output.index(b"\n") + 1 + int(found[1])
        if output[end : end + 1] != b"\n":
            return False
        output = output[end + 1 :]
        count += 1
    return output == b"done %d\n" % count


SITE = {
    "/p.asp": f"{WITHOUT}A<%= 1+2 %>B",
    "/s.asp": '<% Session("n") = Session("n") + 1 %><%= Session("n") %>',
    "/form.asp": f'{WITHOUT}<%= Request.Form("a") %>',
    "/a.css": "p {}",
}


def of_recordings(program, _):
    requests, folder = known_requests(), program.folder(SITE)
    known = set(requests)
    run = lambda text: program.run("replay", folder, "--workers", "1", source=text, seconds=LONGEST)
    return Kind("a recording", lambda draw: spoilt(draw, recorded(draw, requests)), run, replay_holds(known))


def of_requests(program, _):
    requests, folder = known_requests(), program.folder(SITE)

    def make(draw):
        sent = spoilt(draw, draw.choice(requests))
        return b"ASPREC 1\nseed %064d\nrequest 0 0 %d\n%s\nend\n" % (0, len(sent), sent)

    run = lambda text: program.run("replay", folder, "--workers", "1", source=text, seconds=LONGEST)
    return Kind("a request", make, run, replay_holds(set(requests)))


def commit_seed():
    """Returns the seed that the commit draws."""
    head = pathlib.Path(TOP / ".git" / "HEAD")
    text = head.read_text(encoding="ascii").strip() if head.is_file() else ""
    file = TOP / ".git" / text.removeprefix("ref: ")
    text = file.read_text(encoding="ascii") if text.startswith("ref: ") and file.is_file() else text
    found = re.match(r"[0-9a-f]{6}", text)
    return int(found[0], 16) if found else 1


def trial(kind, seed):
    """Returns the trial of a kind of input."""
    return lambda program, tally: kind(program, seed).all(tally, seed, EACH)


def trials(seed):
    seed = commit_seed() if seed is None else seed
    return {"pages": trial(pages, seed), "recordings": trial(of_recordings, seed), "requests": trial(of_requests, seed)}
