"""What a host of one lane does by the rules of its journal, and what it writes, where memory runs out for some of its runs.

A page is told as its calls of the Application object and its answer, over the Application's values and its own session.
"""

from typing import Callable, NamedTuple

FULL = "Out of memory\n"


class Page(NamedTuple):
    """A page: whether it has a session, and what a run of it does: the calls that it makes, each with its line, and the
    body of its answer. `work` is given the account and the values of the session, which it may change. All objects that it
    makes end with it."""

    is_keyed: bool
    work: Callable
    fields: tuple = ("Content-Type: text/html; Charset=utf-8", "Cache-control: private")
    status: str = "200 OK"
    objects: int = 0


class Account:
    """The journal of a host, line by line, and the answers. `failed` says for which runs memory ran out, each with how
    many calls of it came before."""

    def __init__(self, failed, start=None):
        self.failed = failed
        self.start = start
        self.lines = []
        self.answers = []
        self.values = {}
        self.sessions = {}
        self.serials = 0
        self.runs = 0

    def queue(self, line):
        self.runs += 1
        self.lines.append(line.replace("RUN", str(self.runs)))
        return self.runs

    def calls(self, run, made):
        """Adds the calls of a run, up to the one at which memory ran out. Tells how the run ended."""
        most = self.failed.get(run)
        for call, change in made if most is None else made[:most]:
            self.lines.append(f"P 0 {run} {call}")
            self.values.update(change)
        return "done" if most is None else "memory"

    def event(self, run, serial=0, made=()):
        self.lines.append(f"B 0 {run} {serial}")
        how = self.calls(run, list(made))
        self.lines.append(f"E 0 {run} {how} 0 0 " + ("0 0" if how == "done" else "* *"))

    def page(self, run, page, key, is_new):
        """Runs a page, whose key is one that was made for it or not, or 0."""
        serial, kept = self.sessions.get(key, (0, {}))
        if key and not serial:
            self.serials += 1
            serial = self.serials
        self.lines.append(f"B 0 {run} {serial}")
        session = dict(kept)
        made, body = page.work(self, session)
        if self.calls(run, made) == "memory":
            self.lines.append(f"E 0 {run} memory 503 {len(FULL)} * *")
            self.answer(run, "503 Service Unavailable", FULL, "Content-Type: text/plain")
            return
        if key:
            self.sessions[key] = (serial, session)
        self.lines.append(f"E 0 {run} done {page.status[:3]} {len(body)} {page.objects} {page.objects}")
        fields = list(page.fields)
        if is_new:
            fields.insert(1, f"Set-Cookie: ASPSESSIONIDPROFILE={is_new}; path=/")
        self.answer(run, page.status, body, *fields)

    def answer(self, run, status, body, *fields):
        head = [f"HTTP/1.1 {status}", "Date: Thu, 01 Jan 1970 00:00:00 GMT", *fields, f"Content-Length: {len(body)}", "", body]
        text = "\r\n".join(head)
        self.answers.append(f"answer {run} {len(text)}\n{text}\n")

    def whole(self, asked, letters):
        """Runs the application's begin, each that is asked at moment 0, in its order, and the end. Each is a client, 0
        for one without a session, and a page; the letters of each client's key are given."""
        self.event(self.queue("Q 0 RUN start"), made=self.start or ())
        runs, seen = [], set()
        for client, page in asked:
            key = client if page.is_keyed else 0
            runs.append((self.queue(f"A 0 RUN {key} 0"), page, key, letters.get(key) if key not in seen else None))
            seen.add(key)
        for run in runs:
            self.page(*run)
        self.lines.append("S 0")
        ends = [(self.queue(f"Q 0 RUN end {key}"), self.sessions[key][0]) for key in sorted(self.sessions)]
        for run, serial in [*ends, (self.queue("Q 0 RUN stop"), 0)]:
            self.event(run, serial)
        return self
