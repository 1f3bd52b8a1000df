"""The sites that are replayed, and what their pages do, each as a function of its run."""

import pathlib

from .recordings import WITHOUT, Site

COUNT = (
    '<% Application.Lock : Application("n") = Application("n") + 1 : Session("c") = Session("c") + 1 : '
    'Application.Unlock %><%= Session("c") %>'
)


def name(text):
    return "s" + text.encode().hex()


def number(value):
    """Returns the number that a value is, of those that pages here keep."""
    return 0 if value == "e" else int(value[1:])


def text(value):
    """Returns a value as a page writes it."""
    if value == "e":
        return ""
    return bytes.fromhex(value[1:]).decode() if value[:1] == "s" else str(number(value))


def one_more(key):
    """Counts one more under the lock."""
    yield "lock"
    yield f"put {key} i{number((yield f'get {key}')) + 1}"
    yield "unlock"


def says(said):
    """A page that writes this and does nothing else."""
    return lambda run: (200, said.encode())


def ends_with(status):
    """A page whose answer has this status, and of whose body nothing is said."""
    return lambda run: (status, None)


def of_session(run, key):
    """Counts one more in the session, and returns how many there are."""
    run.session[key] = run.session.get(key, 0) + 1
    return run.session[key]


def count(run):
    yield from one_more(name("n"))
    return 200, str(of_session(run, "c")).encode()


def counter_begins(run):
    yield f"put {name('visits')} i0"
    yield f"put {name('title')} {name('Counter')}"


def counter(run):
    seen = of_session(run, "seen")
    title = yield f"get {name('title')}"
    visits = yield f"get {name('visits')}"
    serial = run.session["serial"]
    said = f"{text(title)}: visitor {text(visits)}, page {seen} of session {serial}.\n"
    return 200, said.encode()


def leaves(run):
    run.has_abandoned = True
    return 200, str(run.session["serial"]).encode()


def leaves_in_silence(run):
    run.has_abandoned = True
    return 200, b""


def visits(run):
    seen = of_session(run, "n")
    return 200, f"{run.session['serial']}:{seen}".encode()


def ends_below(run):
    yield f"put {name('m')} {name('/x')}"


def tells_the_end(run):
    return 200, text((yield f"get {name('m')}")).encode()


def read(folder):
    """Returns the files of a folder by their paths."""
    files = [it for it in pathlib.Path(folder).rglob("*") if it.is_file()]
    return {f"/{it.relative_to(folder)}": it.read_text() for it in files}


# What the pages do that the recordings ask for, by the names of the sites' folders.
MEANINGS = {
    "site": {"/p.asp": says("A3B")},
    "one": {"/n.asp": says("hi")},
    "answers": {"/p.asp": says("A3B"), "/away.asp": ends_with(302), "/errs.asp": ends_with(500)},
    "counter": {"begin": counter_begins, "open": lambda run: one_more(name("visits")), "/default.asp": counter},
    "sessions": {"/a.asp": leaves, "/s.asp": visits},
    "ends": {"/d/ab.asp": leaves_in_silence, "close": ends_below, "/m.asp": tells_the_end},
}
# Where an answer may depend on what other runs have done.
SHARED = {"counter", "ends"}


def site_in(folder):
    """Returns the site of a folder."""
    known = pathlib.Path(folder).name
    return Site(read(folder), MEANINGS.get(known), known in SHARED)


def lock_and_loop(run):
    yield "lock"
    yield f"put {name('x')} i1"
    return 500, b"Active Server Pages limit 'Ticks'\n/l.asp, line 1\n"


def put_two(run):
    yield f"put {name('x')} i2"
    return 200, b"ok"


HI = Site({"/n.asp": f"{WITHOUT}hi"}, {"/n.asp": says("hi")})
COUNTS = Site({"/count.asp": COUNT}, {"/count.asp": count}, shares=True)
LOCKS = Site(
    {
        "/l.asp": '<% Application.Lock : Application("x") = 1 : Do : Loop %>',
        "/w.asp": '<% Application("x") = 2 %>ok',
    },
    {"/l.asp": lock_and_loop, "/w.asp": put_two},
    shares=True,
)
