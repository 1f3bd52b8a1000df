"""Recordings, the keys of sessions, and sites with what their pages mean."""

import functools
import re
import struct
from typing import NamedTuple

from .lines import Unfit

SEED = "0" * 64
COOKIE = "ASPSESSIONIDPROFILE="
TAKEN = {"page": ("GET", "HEAD", "POST"), "static": ("GET", "HEAD")}
WITHOUT = "<%@ ENABLESESSIONSTATE=False %>"


class Item(NamedTuple):
    """A request, or a tick, which has no text."""

    moment: int
    client: int = 0
    text: bytes = b""

    @property
    def verb(self):
        return self.text.split(b" ", 1)[0].decode()

    @property
    def path(self):
        """The path that is asked for, with the file's name where it is a folder's."""
        path = self.text.split(b" ", 2)[1].decode().partition("?")[0].lower()
        return path + "default.asp" if path.endswith("/") else path

    @property
    def cookie(self):
        """The letters of the session's cookie, or None."""
        head = self.text.partition(b"\r\n\r\n")[0].decode()
        for pieces in re.findall(r"\r\ncookie:([^\r]*)", head, re.IGNORECASE):
            for piece in pieces.split(";"):
                if piece.strip(" \t").startswith(COOKIE):
                    return piece.strip(" \t").removeprefix(COOKIE)
        return None


class Recording(NamedTuple):
    seed: str
    items: list
    strict: bool = False  # whether a lock keeps readers out


def request(path, client=1, moment=0, *fields):
    """Returns an item that asks for a path."""
    return Item(moment, client, "\r\n".join([f"GET {path} HTTP/1.1", "Host: x", *fields, "", ""]).encode())


def written(items, seed=SEED, rule=None):
    """Returns the bytes of a recording: of the second version where the rule of its lock is told, else of the first."""
    parts = [b"ASPREC %d\nseed %s\n" % (2 if rule else 1, seed.encode())]
    if rule:
        parts.append(b"lock %s\n" % rule.encode())
    for item in items:
        if item.text:
            parts.append(b"request %d %d %d\n%s\n" % (item.client, item.moment, len(item.text), item.text))
        else:
            parts.append(b"tick %d\n" % item.moment)
    return b"".join([*parts, b"end\n"])


def read_recording(text):
    """Reads the bytes of a recording."""
    head = re.match(rb"ASPREC (?:1\nseed ([0-9a-f]{64})|2\nseed ([0-9a-f]{64})\nlock (plain|strict))\n", text)
    at, items = head.end(), []
    while not text.startswith(b"end\n", at):
        line = re.compile(rb"(?:request (\d+) (\d+) (\d+)|tick (\d+))\n").match(text, at)
        if not line:
            raise Unfit("no recording")
        at = line.end()
        if line[4]:
            items.append(Item(int(line[4])))
        else:
            last = at + int(line[3])
            items.append(Item(int(line[2]), int(line[1]), text[at:last]))
            at = last + 1
    return Recording((head[1] or head[2]).decode(), items, head[3] == b"strict")


def turned(word, by):
    return (word << by | word >> 32 - by) & 0xFFFFFFFF


def chacha20(seed, block):
    """Returns the words of a block of ChaCha20, of stream 0."""
    start = [0x61707865, 0x3320646E, 0x79622D32, 0x6B206574, *struct.unpack("<8I", bytes.fromhex(seed))]
    start += [block & 0xFFFFFFFF, block >> 32, 0, 0]
    words = list(start)
    columns = [(i, i + 4, i + 8, i + 12) for i in range(4)]
    slants = [(i, (i + 1) % 4 + 4, (i + 2) % 4 + 8, (i + 3) % 4 + 12) for i in range(4)]
    for a, b, c, d in (columns + slants) * 10:
        for one, other, third, by in ((a, b, d, 16), (c, d, b, 12), (a, b, d, 8), (c, d, b, 7)):
            words[one] = (words[one] + words[other]) & 0xFFFFFFFF
            words[third] = turned(words[third] ^ words[one], by)
    return [(word + first) & 0xFFFFFFFF for word, first in zip(words, start)]


@functools.cache
def letters(seed, key):
    """Returns the letters of the cookie of a key: its number, and 16 that nobody guesses."""
    number = [key // 26**i % 26 for i in reversed(range(8))]
    return "".join(chr(65 + it) for it in [*number, *(word % 26 for word in chacha20(seed, key - 1))])


class Site:
    """The files of a site, and what its pages and events do, by their paths and names. A page or an event is a function of
    its run, which yields the calls of the Application object that it makes, is given the replies, and returns the status
    and the body, or None for a body of which nothing is said here."""

    def __init__(self, files, meanings=None, shares=False):
        self.files = {path.lower(): text for path, text in files.items()}
        self.meanings = meanings or {}
        self.shares = shares  # whether an answer may depend on what other runs have done

    def kind(self, path):
        """Whether a page, a static file or nothing stands at a path."""
        if path not in self.files or path.endswith((".asa", ".inc")):
            return None
        return "page" if path.endswith(".asp") else "static"

    def is_keyed(self, item):
        is_page = self.kind(item.path) == "page" and item.verb in TAKEN["page"]
        return is_page and "enablesessionstate=false" not in self.files[item.path].lower()

    def acts(self, run, name):
        """Does what a page or an event does."""
        work = self.meanings.get(name)
        done = work(run) if work else None
        return (yield from done) if hasattr(done, "send") else done

    def means(self, run):
        """Does what a run does, and returns its answer: the status and the body."""
        if run.word != "page":
            if run.word != "end" or run.session is not None:
                yield from self.acts(run, {"start": "begin", "end": "close", "stop": "finish"}[run.word])
            return 0, b""
        kind = self.kind(run.item.path)
        if kind is None:
            return 404, b"Not Found\n"
        if run.item.verb not in TAKEN[kind]:
            return 405, b"Method Not Allowed\n"
        if kind == "static":
            return 200, self.files[run.item.path].encode()
        if run.is_new:
            yield from self.acts(run, "open")
        answer = yield from self.acts(run, run.item.path)
        if run.has_abandoned:
            yield from self.acts(run, "close")
            run.session = None
        return (200, None) if answer is None else answer
