"""What `replay` writes: records of answers, the lines of a journal, and how many answers there were."""

import re
from typing import NamedTuple

NUMBER = r"(0|[1-9]\d*)"
NAME = r"(s(?:[0-9a-f]{2})*)"
SIGNED = r"-?(?:0|[1-9]\d*)"
SINGLE = re.compile(rf"[entf]|[ilc]{SIGNED}|s(?:[0-9a-f]{{2}})*")
BOUNDS = re.compile(rf"(?:{SIGNED}(?:,{SIGNED})*)?\|")
CALLS = [
    (rf"get {NAME} ", "value"),
    (rf"put {NAME} (\S+) ", "done|full"),
    (rf"remove {NAME} ", "done"),
    (r"removeall ", "done"),
    (r"count ", rf"number {NUMBER}"),
    (rf"keyat ({SIGNED}) ", rf"noname|name {NAME}"),
    (r"names ", rf"names(?: {NAME}(?:,{NAME})*)?"),
    (r"lock ", "done"),
    (r"unlock ", "done"),
]
LINES = {
    "Q": re.compile(rf"Q {NUMBER} {NUMBER} (start|stop|end {NUMBER})"),
    "A": re.compile(rf"A {NUMBER} {NUMBER} {NUMBER} {NUMBER}"),
    "X": re.compile(rf"X {NUMBER} {NUMBER} {NUMBER}"),
    "T": re.compile(rf"T {NUMBER} {NUMBER}"),
    "S": re.compile(rf"S {NUMBER}"),
    "B": re.compile(rf"B {NUMBER} {NUMBER} {NUMBER}"),
    "P": re.compile(rf"P {NUMBER} {NUMBER} (.+)"),
    "E": re.compile(rf"E {NUMBER} {NUMBER} (done|memory|journal) {NUMBER} {NUMBER} {NUMBER} {NUMBER}"),
}


class Unfit(Exception):
    """What is no output of a replay, or no legal journal of one, and why."""


class Answer(NamedTuple):
    run: int
    text: bytes

    @property
    def head(self):
        return self.text.partition(b"\r\n\r\n")[0].decode()

    @property
    def body(self):
        return self.text.partition(b"\r\n\r\n")[2]

    @property
    def status(self):
        return int(self.head.split(" ", 2)[1])

    def field(self, name):
        """Returns what a field of the head says, or None."""
        found = re.search(rf"\r\n{name}: ([^\r]*)", self.head)
        return found and found[1]


class Line(NamedTuple):
    """A line: its letter and its lane, and for each letter what it has besides."""

    kind: str
    lane: int
    run: int = 0
    number: int = 0  # a moment, or of B a serial
    key: int = 0
    word: str = ""  # of Q start, end or stop; of P the call; of E the kind
    reply: str = ""
    ended: tuple = ()  # of E the status, the length, and the objects that were made and that ended


class Output(NamedTuple):
    answers: list
    lines: list
    count: int


def value_end(text, at):
    """Returns where the value ends that begins at this place."""
    found = SINGLE.match(text, at)
    if found:
        return found.end()
    at += text.startswith("!", at)
    bounds = BOUNDS.match(text, at + 1)
    if not text.startswith("[", at) or not bounds:
        raise Unfit(f"no value: {text[at:at + 60]}")
    at = bounds.end()
    while not text.startswith("]", at):
        at = value_end(text, at)
        at += text.startswith(",", at) and not text.startswith(",]", at)
    return at + 1


def split_call(said):
    """Returns the call of an App line, and the reply to it."""
    for call, reply in CALLS:
        found = re.match(call, said)
        if found:
            rest = said[found.end() :]
            for value in [found[2]] if call.startswith("put") else [rest] if reply == "value" else []:
                if value_end(value, 0) != len(value):
                    raise Unfit(f"no value: {value[:60]}")
            if reply != "value" and not re.fullmatch(reply, rest):
                break
            return said[: found.end() - 1], rest
    raise Unfit(f"no call with its reply: {said[:80]}")


def read_line(text):
    """Reads a line of a journal."""
    pattern = LINES.get(text[:1])
    found = pattern and pattern.fullmatch(text)
    if not found:
        raise Unfit(f"no line of a journal: {text[:100]}")
    kind, fields = text[0], found.groups()
    lane, run = int(fields[0]), int(fields[1]) if kind not in "TS" else 0
    if kind == "Q":
        return Line(kind, lane, run, word=fields[2].split(" ")[0], key=int(fields[3] or 0))
    if kind == "A":
        return Line(kind, lane, run, key=int(fields[2]), number=int(fields[3]))
    if kind == "P":
        return Line(kind, lane, run, 0, 0, *split_call(fields[2]))
    if kind == "E":
        return Line(kind, lane, run, word=fields[2], ended=tuple(map(int, fields[3:])))
    return Line(kind, lane, run, number=int(fields[-1]) if kind in "XTB" else 0)


def read_records(text):
    """Returns the records of answers at the front of a text, and what is behind them."""
    answers, at = [], 0
    while text.startswith(b"answer ", at):
        end = text.find(b"\n", at)
        found = re.fullmatch(rf"answer {NUMBER} {NUMBER}", text[at : max(end, at)].decode(errors="replace"))
        last = end + 1 + int(found[2]) if found else 0
        if not found or text[last : last + 1] != b"\n":
            break
        answers.append(Answer(int(found[1]), text[end + 1 : last]))
        at = last + 1
    return answers, text[at:]


def read_output(text):
    """Reads the whole output of a replay that ended well."""
    answers, rest = read_records(text)
    *lines, last, end = rest.decode(errors="replace").split("\n") if b"\n" in rest else ("", "")
    found = re.fullmatch(rf"done {NUMBER}", last)
    if not found or end:
        raise Unfit(f"the output ends otherwise than with the number of answers: {rest[-100:]!r}")
    return Output(answers, [read_line(it) for it in lines], int(found[1]))
