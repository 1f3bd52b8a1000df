"""An account of a journal: whether its lines may stand where they stand, over a site and a recording, on so many lanes.

It keeps what a journal tells: which runs wait and which are on their way, whose key has which session, and what the
Application object holds. Each line has to be one that may come next. The calls of a run are those that its page makes, given
the replies that stand in the journal, and its answer is what the page then writes.
"""

from .application import Application
from .lines import Unfit
from .recordings import letters

MOST_WAITING, MOST_UNFINISHED, MOST_KEYS = 1024, 32, 4096
TIMEOUT = 20 * 60
BUSY = b"Too many sessions\n"


class Run:
    """A run, from the line that gives it its number to its end."""

    def __init__(self, number, word, key=0, item=None, fresh=False):
        self.number, self.word, self.key, self.item, self.fresh = number, word, key, item, fresh
        self.lane = self.session = self.serial = self.work = self.wants = self.answer = None
        self.is_new = self.has_abandoned = False
        self.status, self.length = 503, len(BUSY)

    def goes(self, reply=None):
        """Goes on to the next call, or to the answer."""
        try:
            self.wants = self.work.send(reply)
        except StopIteration as end:
            self.wants, self.answer = None, end.value


class Key:
    def __init__(self, number, cookie):
        self.number, self.cookie = number, cookie
        self.session = None
        self.last = 0  # the moment of its last request
        self.waiting = []
        self.unfinished = None
        self.has_end = False  # a run for the end of its session was queued

    def is_live(self):
        return self.session is not None or bool(self.waiting) or self.unfinished is not None

    def is_due(self, moment):
        quiet = not self.waiting and self.unfinished is None
        return quiet and self.session is not None and moment - self.last >= TIMEOUT


class Account:
    def __init__(self, site, recording, lanes):
        self.site, self.recording, self.lanes = site, recording, lanes
        self.application = Application(recording.strict)
        self.moment = self.place = self.made = self.opened = self.pages_waiting = 0
        self.count = 0  # of runs
        self.keys = {}  # those that live, in their order
        self.clients = {}  # the key of the last keyed request of each client
        self.waiting, self.unfinished, self.busy = {}, {}, {}
        self.answers = []  # the page runs in the order in which they ended or were refused
        self.owed = [("start", 0)]
        self.is_stopped = self.has_abandoned = False
        self.begun = False  # the first run has ended

    def wants(self, fact, why):
        if not fact:
            raise Unfit(why)

    def reads(self, line):
        """Goes on by a line of the journal."""
        self.wants(line.lane < self.lanes, "a lane that there is none of")
        self.wants(line.kind == "Q" or not self.owed, f"runs are to be queued first: {self.owed[:3]}")
        self.wants(self.begun or line.kind in "QBPE", "the first run has not ended")
        self.wants(line.kind not in "QAXTS" or line.lane == 0, "another lane than the first has fed")
        {
            "Q": self.queue,
            "A": self.admit,
            "X": self.admit,
            "T": self.tick,
            "S": self.stop,
            "B": self.begin,
            "P": self.call,
            "E": self.end,
        }[line.kind](line)

    def new_run(self, line, *what):
        self.count += 1
        self.wants(line.run == self.count, f"run {self.count} comes next")
        return Run(self.count, *what)

    def put_waiting(self, run):
        self.waiting[run.number] = run
        self.pages_waiting += run.word == "page"
        if run.key:
            self.keys[run.key].waiting.append(run.number)

    def queue(self, line):
        self.wants(self.owed and self.owed.pop(0) == (line.word, line.key), "nobody owes this run")
        if line.key:
            self.keys[line.key].has_end = True
        self.put_waiting(self.new_run(line, line.word, line.key))

    def is_calm(self):
        return not self.waiting and not self.unfinished

    def next_item(self):
        """Returns what comes next of the recording, or None: a tick to a moment that is not greater does nothing."""
        items = self.recording.items
        while self.place < len(items) and not items[self.place].text and items[self.place].moment <= self.moment:
            self.place += 1
        return items[self.place] if self.place < len(items) else None

    def tick(self, line):
        item = self.next_item()
        self.wants(item and item.moment == line.number > self.moment, "no such moment comes next")
        self.wants(self.is_calm(), "time goes on while a run waits or is unfinished")
        self.moment = line.number
        if not self.is_stopped:
            self.owed = [("end", it.number) for it in self.keys.values() if it.is_due(self.moment)]

    def stop(self, line):
        self.wants(not self.is_stopped and self.next_item() is None, "the stop comes once, behind all items")
        self.wants(self.is_calm(), "a run waits or is unfinished at the stop")
        self.is_stopped = True
        self.owed = [*(("end", it) for it in self.keys), ("stop", 0)]

    def asked(self, item):
        """Returns the key that a request asks for, where it may be asked for."""
        if item.client == 0:
            found = [it for it in self.keys.values() if it.cookie == item.cookie]
            key = found[0] if found else None
        else:
            key = self.keys.get(self.clients.get(item.client))
        return key if key and not key.has_end else None

    def admit(self, line):
        item = self.next_item()
        self.wants(item and item.text and item.moment == self.moment == line.number, "no such request comes next")
        self.wants(not self.is_stopped, "a request behind the stop")
        self.wants(self.pages_waiting < MOST_WAITING, f"{MOST_WAITING} pages wait")
        self.place += 1
        keyed = self.site.is_keyed(item)
        key = self.asked(item) if keyed else None
        fresh = keyed and not key
        is_refused = fresh and len(self.keys) == MOST_KEYS
        self.wants((line.kind == "X") == is_refused, f"{len(self.keys)} keys live")
        run = self.new_run(line, "page", 0, item, fresh)
        if is_refused:
            run.answer = 503, BUSY
            self.answers.append(run)
            return
        if fresh:
            self.made += 1
            key = self.keys[self.made] = Key(self.made, letters(self.recording.seed, self.made))
        if key:
            key.last = self.moment
            self.clients[item.client] = run.key = key.number
        self.wants(line.key == run.key, f"its key is {run.key}")
        self.put_waiting(run)

    def may_begin(self, run):
        if run.word == "stop":
            return len(self.waiting) == 1 and not self.unfinished
        if not self.begun:
            return run.number == 1
        key = self.keys.get(run.key)
        return not key or (key.unfinished is None and key.waiting[0] == run.number)

    def begin(self, line):
        run = next(filter(self.may_begin, self.waiting.values()), None)
        self.wants(run and run.number == line.run, f"run {run and run.number} is the next that may begin")
        self.wants(len(self.unfinished) < MOST_UNFINISHED, f"{MOST_UNFINISHED} runs are unfinished")
        self.wants(line.lane not in self.busy, f"lane {line.lane} has run {self.busy.get(line.lane)}")
        del self.waiting[run.number]
        self.pages_waiting -= run.word == "page"
        self.unfinished[run.number], self.busy[line.lane], run.lane = run, run.number, line.lane
        run.serial = 0
        if run.key:
            key = self.keys[run.key]
            key.unfinished = key.waiting.pop(0)
            run.is_new = run.word == "page" and key.session is None
            self.opened += run.is_new
            run.session = {"serial": self.opened} if run.is_new else key.session and dict(key.session)
            run.serial = run.session["serial"] if run.session else 0
        self.wants(run.serial == line.number, f"its serial is {run.serial}")
        run.work = self.site.means(run)
        run.goes()

    def of_lane(self, line):
        run = self.unfinished.get(line.run)
        self.wants(run and run.lane == line.lane, "the run is not on its way on this lane")
        return run

    def call(self, line):
        run = self.of_lane(line)
        self.wants(run.wants == line.word, f"the run wants {run.wants}")
        reply = self.application.called(run.number, line.word)
        self.wants(reply == line.reply, f"the reply is {reply[:80]}")
        run.goes(reply)

    def end(self, line):
        run = self.of_lane(line)
        status, length, made, ended = line.ended
        run.status, run.length = status, length
        if line.word == "done":
            self.wants(run.wants is None, f"the run wants {run.wants}")
            body = run.answer[1]
            self.wants(status == run.answer[0], f"its status is {run.answer[0]}")
            self.wants(body is None or length == len(body), f"its length is {body is not None and len(body)}")
            self.wants(made == ended, "not each object has ended")
        else:
            self.wants(made == ended == 0 and status == (503 if run.word == "page" else 0), "it has no answer of its own")
            run.answer = 503, None
        del self.unfinished[run.number], self.busy[run.lane]
        self.application.ended(run.number)
        self.begun = True
        self.has_abandoned |= run.has_abandoned
        if run.word == "page":
            self.answers.append(run)
        if run.key:
            self.leave(run, line.word == "done")

    def leave(self, run, is_done):
        """A run leaves its key its session, or none; a key without session and without runs is forgotten."""
        key = self.keys[run.key]
        key.unfinished = None
        if is_done:
            key.session = None if run.word == "end" else run.session
        if not key.is_live():
            del self.keys[run.key]


def judged(site, recording, lanes, output):
    """Refuses an output whose journal is no legal one of the recording over the site, or whose answers are not the journal's.
    Returns the account."""
    account = Account(site, recording, lanes)
    for place, line in enumerate(output.lines):
        try:
            account.reads(line)
        except Unfit as why:
            raise Unfit(f"line {place + 1}, {line}: {why}") from None
    if not (account.is_stopped and account.is_calm() and not account.owed):
        raise Unfit("the journal has no end")
    runs = [it.run for it in output.answers]
    if runs != [it.number for it in account.answers] or output.count != len(runs):
        raise Unfit("the answers are not those of the runs in the order in which they ended")
    for answer, run in zip(output.answers, account.answers):
        answered(recording, answer, run)
    return account


def answered(recording, answer, run):
    """Refuses an answer that is not the run's."""
    status, body = run.answer
    told = answer.field("Content-Length")
    cookie = [f"ASPSESSIONIDPROFILE={letters(recording.seed, run.key)}; path=/"] if run.fresh and run.key else []
    cookies = [it for it in answer.head.split("\r\n") if it.startswith("Set-Cookie: ASPSESSIONID")]
    wanted = b"" if run.item.verb == "HEAD" else body
    if answer.status != status or told != str(run.length) or cookies != [f"Set-Cookie: {it}" for it in cookie]:
        raise Unfit(f"the head of the answer of run {run.number}: {answer.head[:300]}")
    if body is not None and answer.body != wanted:
        raise Unfit(f"the answer of run {run.number}: {answer.body[:200]}, wanted {body[:200]}")
