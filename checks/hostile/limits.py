"""Each limit of docs/GUIDE.md at its number, and one more, over the built program."""

import contextlib
import re
import resource

from serving.clients import Client, page, request

from . import files, guide, scripts, state
from .growths import GETS
from .rows import Accepted, Refused
from .running import recording
from .short import Host, dated

# KiB of stack in which each deep page is to run: what a process and its threads have where nothing else is set.
STACK = 8192
# A page with one more may use this many times as much processor time as the one before it, and so many seconds besides.
TIMES, BESIDE = 2, 0.5
WORKERS = 4


def body_of(output):
    """Returns the body of the only answer that a replay wrote."""
    head = re.match(rb"answer 2 (\d+)\n", output)
    if not head:
        return output[:300]
    answer = output[head.end() : head.end() + int(head[1])]
    return answer.partition(b"\r\n\r\n")[2]


def run_row(program, tally, row):
    """Tries a page: by `get`, and a deep one with a set stack too, and by a replay for workers. Returns how much time of the
    processor `get` used."""
    folder = program.folder(row.files)
    wanted = row.wanted.encode()
    end = program.run("get", folder, "/p.asp")
    tally.ends(row.what, end, 0, b"", wanted)
    if row.is_deep:
        tally.ends(f"{row.what}, {STACK} KiB of stack", program.run("get", folder, "/p.asp", stack=STACK), 0, b"", wanted)
        asked = recording((0, 0, GETS.format("/p.asp").encode()))
        replay = program.run("replay", folder, "--workers", WORKERS, source=asked, stack=STACK)
        came = (replay.status, body_of(replay.output))
        tally.holds(f"{row.what}, by workers", came == (0, wanted), (*replay[:2], came[1][:200]))
    return end.used


def run_rows(program, tally, rows):
    """Tries pages and sites, each of which is followed by that with one more."""
    before = None
    for row in rows:
        if isinstance(row, Refused):
            end = program.run("check", program.folder(row.files), stack=STACK)
            tally.ends(row.what, end, 3, row.said.encode() + b"\n")
        elif isinstance(row, Accepted):
            said = f"accepted {row.pages} pages, {row.statics} files\n".encode()
            tally.ends(row.what, program.run("check", program.folder(row.files)), 0, b"", said)
        else:
            used = run_row(program, tally, row)
            if row.is_more:
                fits = used <= TIMES * before + BESIDE
                tally.holds(f"{row.what}: it used {used:.1f} seconds, and {before:.1f} without", fits)
            before = used


@contextlib.contextmanager
def set_stack():
    """Has runs begin with that stack, for the main thread and for others."""
    before = resource.getrlimit(resource.RLIMIT_STACK)
    resource.setrlimit(resource.RLIMIT_STACK, (STACK * 1024, before[1]))
    try:
        yield
    finally:
        resource.setrlimit(resource.RLIMIT_STACK, before)


def on_threads(program, tally, numbers):
    """Each deep page is asked for on four connections at once, each of which has a worker, three of them helper threads."""
    pages, wanted = {}, []
    for name, makers in scripts.TRIALS.items():
        for row in (row for make in makers for row in make(numbers[name][0]) if getattr(row, "is_deep", False)):
            path = f"/{len(wanted)}.asp"
            pages[path] = row.files["/p.asp"]
            told = row.wanted.replace("/p.asp", path).encode()
            status = "500 Internal Server Error" if "/p.asp" in row.wanted else "200 OK"
            wanted.append((path, page(told, status=status)))
    with set_stack(), Host(program, program.folder(pages), 100000, workers=WORKERS) as host:
        links = [Client(host.port) for _ in range(WORKERS)]
        for path, right in wanted:
            for link in links:
                link.send(request(path))
            for link in links:
                came = without_key(dated(link.answer()))
                tally.holds(f"{path} on a thread", came == right, (came[:300], right[:300]))
        for link in links:
            link.link.close()
        tally.holds("the host goes on", host.process.poll() is None)
    return len(wanted)


def least_stack(program, row):
    """Returns with how many KiB of stack a page still gives what it is to, to within 64."""
    folder, little, enough = program.folder(row.files), 0, 65536
    while enough - little > 64:
        middle = (enough + little) // 2
        end = program.run("get", folder, "/p.asp", stack=middle)
        if end[:3] == (0, b"", row.wanted.encode()):
            enough = middle
        else:
            little = middle
    return enough


def stacks(program, tally, numbers):
    """How much stack the deepest pages take: of calls, of a script's grammar, and of values."""
    told = []
    for what, name, makers in (
        ("a page", "statements, operators, paths and calls open at once", [scripts.levels, scripts.levels_of_terminator]),
        ("a script", "blocks and parentheses open at one place", [scripts.syntax]),
        ("a value", "arrays in arrays", [scripts.nest]),
    ):
        rows = [row for make in makers for row in make(numbers[name][0]) if getattr(row, "is_deep", False)]
        most = max(least_stack(program, row) for row in rows)
        tally.holds(f"the deepest of {what} takes {most} KiB of stack", most <= STACK)
        told.append(f"{what} {most:,} KiB")
    return "the deepest took of " + ", of ".join(told)


def without_key(text):
    """Returns an answer without the line of its session's key."""
    return re.sub(rb"Set-Cookie: ASPSESSIONIDPROFILE=[^\r]*\r\n", b"", text)


def all_limits():
    """Returns the trials of each limit, by its name."""
    return {**scripts.TRIALS, **files.TRIALS, **state.TRIALS}


def try_limit(name, number):
    """Returns the trial of a limit."""

    def work(program, tally):
        begun = tally.passed
        for make in all_limits()[name]:
            if name in state.TRIALS:
                make(program, tally, number)
            else:
                run_rows(program, tally, make(number))
        return f"{tally.passed - begun} checks at {number:,}"

    return work


def held_to_lists(program, tally):
    """The guide's lists and the trials name the same limits, with the same numbers; its statuses and kinds of faults are those
    that the program has."""
    listed = guide.limits()
    tried = {*all_limits(), *state.ELSEWHERE}
    for name in tried - set(listed):
        tally.holds(f"a trial of {name}, which docs/GUIDE.md does not list", False)
    for name in set(listed) - tried:
        tally.holds(f"docs/GUIDE.md lists {name}, of which there is no trial", False)
    for name in sorted(state.ELSEWHERE.keys() & listed):
        tally.holds(f"{name}: its trial is not in {state.ELSEWHERE[name][0]}", state.stands(name, listed[name][0]))
    defined = guide.definitions()
    differs = sorted(set(defined) ^ set(listed))
    tally.holds("docs/LIMITS.md has the limits of docs/GUIDE.md", not differs, differs)
    for name, (word, text) in defined.items():
        tally.holds(f"{name}: {word} is defined there", re.search(rf"^(?:\S+ )*(?:pub )?{word}\b", text, re.MULTILINE))
    known, told = guide.kinds_of_program(), guide.kinds()
    tally.holds("the kinds of faults in docs/GUIDE.md are those of the program", known == told, sorted(known ^ told))
    held_statuses(program, tally)
    return f"{len(listed)} limits, {len(told)} kinds of faults, {len(guide.statuses())} statuses"


def held_statuses(program, tally):
    """Each status of the guide ends some run, and says what the guide says."""
    hello = program.folder({"/p.asp": "A"})
    full = open("/dev/full", "wb")
    runs = {
        0: (["get", hello, "/p.asp"], {}),
        2: (["get"], {}),
        3: (["check", program.folder({"/b.asp": "<% x = %>"})], {}),
        4: (["check", hello / "nowhere"], {}),
        5: (["get", hello, "/p.asp"], {"output": full}),
        6: (["replay", hello], {"source": b"ASPREC 1"}),
        8: (["get", program.folder(state.FAILS), "/p.asp"], {}),
    }
    listed = guide.statuses()
    elsewhere = {1, 7, 9}
    tally.holds("the statuses in docs/GUIDE.md are 0 to 9", set(listed) == set(runs) | elsewhere, sorted(listed))
    for status, (words, how) in runs.items():
        end = program.run(*words, **how)
        fits = end.status == status and status in listed and listed[status].fullmatch(end.said.decode())
        tally.holds(f"status {status}", fits, end[:2])
    full.close()


def trials():
    """Returns all trials by their names."""
    numbers = guide.limits()
    found = {"the lists of docs/GUIDE.md": held_to_lists}
    for name in all_limits():
        if name in numbers:
            found[name] = try_limit(name, numbers[name][0])
    found["the least stack"] = lambda program, tally: stacks(program, tally, numbers)
    found["deep pages on four threads"] = lambda program, tally: f"{on_threads(program, tally, numbers)} pages"
    return found
