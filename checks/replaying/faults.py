"""Replays that come to no good end: a sink that fails, and a journal that is full."""

import os
import re
import subprocess

from .lines import NUMBER, read_records
from .recordings import WITHOUT, request, written
from .runs import LANES, LONGEST
from .sites import COUNTS

# What is said of a journal that is full.
FULL = re.compile(rf"journal full: {NUMBER} entries, {NUMBER} bytes\n")
MOST_ENTRIES, MOST_BYTES = 1_000_000, 268_435_456


def on_full_device(check):
    site, recording = check.site(COUNTS.files), written([request("/count.asp", 1 + at % 9) for at in range(300)])
    for lanes in check.often((1, 4, 16)):
        for words in (["replay", site, "--workers", str(lanes)], ["gen", "50"]):
            with open("/dev/full", "wb") as full:
                words = [*check.program, *map(str, words)]
                ends = {"stdout": full, "stderr": subprocess.PIPE, "timeout": LONGEST, "check": False}
                ran = subprocess.run(words, input=recording, **ends)
            said = [it for it in ran.stderr.decode().splitlines() if not it.startswith("asp: ")]
            check.same(f"{lanes} lanes, a full device", (ran.returncode, said), (5, ["write fault"]))


def on_closed_pipe(check):
    """The reader goes after the first answer: what it got is the beginning of an output, and the replay ends in good time."""
    site = check.site(COUNTS.files)
    with open(f"{check.folder}/pipe.rec", "wb") as file:
        file.write(written([request("/count.asp", 1 + at % 9) for at in range(4000)]))
    for lanes in check.often((1, 4, 16)):
        words = [*check.program, "replay", str(site), "--workers", str(lanes)]
        with open(file.name, "rb") as recording:
            ends = {"stdin": recording, "stdout": subprocess.PIPE, "stderr": subprocess.PIPE}
            ran = subprocess.Popen(words, **ends)
        begun = os.read(ran.stdout.fileno(), 64)
        ran.stdout.close()
        said = [it for it in ran.stderr.read().decode().splitlines() if not it.startswith("asp: ")]
        ran.stderr.close()
        check.same(f"{lanes} lanes, a closed pipe", (ran.wait(LONGEST), said), (5, ["write fault"]))
        check.holds(f"{begun!r}", re.match(rb"answer \d+ \d+\nHTTP/1.1 200 OK\r\n", begun))


# A page of which nine store more than a journal holds, and one that is in work beside them.
FILLS = {
    "/p.asp": f"{WITHOUT}A<%= 1+2 %>B",
    "/fill.asp": f'{WITHOUT}<% s = String(1000000, "x") : For i = 1 To 8 : Application("s") = s : Next %>stored',
    "/loop.asp": f"{WITHOUT}<% For i = 1 To 999990 : Next %>looped",
}


def too_much(entries, size):
    return entries > MOST_ENTRIES or size > MOST_BYTES


def full_journal(check):
    """Pages fill the journal while another is in work: the replay ends with the numbers that the journal would have come to,
    and what is written are records of answers, that of the moment before first. A page that the full journal ended may have its
    answer written too, where lane 0 hands it out before it knows that another lane's entry didn't fit."""
    paths = ["/loop.asp", *["/fill.asp"] * 12, *["/p.asp"] * 20]
    site, recording = check.site(FILLS), written([request("/p.asp"), *[request(path, 0, 1) for path in paths]])
    for lanes in LANES:
        end = check.ran("replay", site, "--journal", "--workers", str(lanes), recording=recording)
        found = FULL.fullmatch(end.said)
        check.same(f"{lanes} lanes: the status", end.status, 7)
        check.holds(f"{lanes} lanes: {end.said}", found and too_much(*map(int, found.groups())))
        answers, rest = read_records(end.output)
        numbers = [it.run for it in answers]
        bodies = [it.body for it in answers]
        check.same(f"{lanes} lanes: what is behind the answers", rest, b"")
        check.holds(f"{lanes} lanes: {numbers}", numbers[:1] == [2] and len(set(numbers)) == len(numbers))
        ended = {b"A3B", b"looped", b"stored", b"Journal full\n"}
        check.holds(f"{lanes} lanes: {bodies}", {*bodies} <= ended and bodies.count(b"stored") <= 8)


CHECKS = {
    "a full device": on_full_device,
    "a pipe that is closed": on_closed_pipe,
    "a journal that is full": full_journal,
}
