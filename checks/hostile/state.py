"""Recordings and journals at their limits, the numbers of a command line, and where the other limits are tried."""

from .growths import GETS, WITHOUT
from .running import TOP, recording
from .rows import site

PAGE = GETS.format("/p.asp").encode()
FILE = GETS.format("/a.css").encode()
# What an entry weighs by itself, and a name or a value.
ENTRY, VALUE, CHARACTER = 64, 32, 4
# What the request of that file weighs: the characters of its path and of its field's name, and the field's value.
ASKED = CHARACTER * len("/a.css" + "Host") + 1
# The entries of a replay of requests that call nothing: three for each, and those of the begin and the end.
AROUND, EACH = 7, 3


def ends(tally, what, end, status, said, output):
    tally.holds(what, (end.status, end.said) == (status, said) and output(end.output), (end[:2], end.output[-200:]))


def done(count):
    return lambda output: output.endswith(f"done {count}\n".encode())


def entries(program, tally, most):
    """As many requests as a journal has room for, and one more, with which the host's end doesn't fit."""
    folder = program.folder({"/a.css": ""})
    count = (most - AROUND) // EACH
    words = ["replay", folder, "--workers", "4"]
    ends(tally, "entries", program.run(*words, source=recording(*[(0, 0, FILE)] * count)), 0, b"", done(count))
    # the first run's three entries, each request's, and then the stop's two
    total = AROUND - 2 + EACH * (count + 1)
    said = f"journal full: {total} entries, {ENTRY * total + ASKED * (count + 1)} bytes\n".encode()
    full = program.run(*words, source=recording(*[(0, 0, FILE)] * (count + 1)))
    ends(tally, "entries, one more", full, 7, said, lambda output: output.count(b"HTTP/1.1 200") == count + 1)


def put(name, count=0):
    """Returns what the entry of a call weighs that puts or gets a text of so many characters by a name of so many."""
    return ENTRY + VALUE + CHARACTER * name + VALUE + CHARACTER * count


TEXT, QUERY = 1048576, 4000
FIRST = 'Application("a") = s : '
# The last calls of a page, each with what one character more weighs, and how many calls they are.
LAST = {
    "a value": (FIRST + 'Application("b") = String({}, "x")', 4, 2),
    "a name": (FIRST + 'Application(String({}, "n")) = 1', 4, 2),
    "a name that is read": (FIRST + 'x = Application(String({}, "n"))', 4, 2),
    "a reply": ('Application("c") = 1 : Application("b") = String({}, "x") : x = Application("b")', 8, 3),
    "a query": (FIRST + 'Application("b") = String({}, "x")', 1, 2),
}


def weights(program, tally, most):
    """Requests for a page that puts a text, and one whose last calls leave as much as the end of the host weighs. One more,
    and that doesn't fit."""
    own = ENTRY * EACH + CHARACTER * len("/f.asp" + "Host") + len("host")
    around = ENTRY * AROUND + own
    times = (most - around) // (own + put(1, TEXT)) - 1
    room = most - around - times * (own + put(1, TEXT))
    counts = {
        "a value": (room - put(1, TEXT) - put(1)) // 4,
        "a name": (room - put(1, TEXT) - put(0)) // 4,
        "a name that is read": (room - put(1, TEXT) - put(0)) // 4,
        "a reply": (room - 3 * put(1)) // 8,
        "a query": (room - put(1, TEXT) - put(1) - QUERY) // 4,
    }
    fill = f'{WITHOUT}<% Application("a") = String({TEXT}, "x") %>'
    for what, (calls, step, made) in LAST.items():
        by_query = what == "a query"
        for more in (0, 1):
            script = calls.format(counts[what] + (0 if by_query else more))
            folder = program.folder({"/f.asp": fill, "/l.asp": f'{WITHOUT}<% s = String({TEXT}, "x") : {script} %>x'})
            target = "/l.asp?" + "q" * (QUERY + more) if by_query else "/l.asp"
            asked = [f"GET {path} HTTP/1.1\r\nHost: host\r\n\r\n".encode() for path in [*["/f.asp"] * times, target]]
            end = program.run("replay", folder, source=recording(*((0, 0, it) for it in asked)))
            if more:
                entries = AROUND + EACH * (times + 1) + times + made
                said = f"journal full: {entries} entries, {most + step} bytes\n".encode()
                right = lambda output: output.count(b"HTTP/1.1 200") == times + 1
                ends(tally, f"weight by {what}, one more", end, 7, said, right)
            else:
                ends(tally, f"weight by {what}", end, 0, b"", done(times + 1))


def recordings(program, tally, most):
    """A recording of so many bytes, most of them bodies, and one of one more."""
    folder = program.folder(site(f"{WITHOUT}x"))
    line = "POST /p.asp HTTP/1.1\r\nHost: x\r\nContent-Length: {:06}\r\n\r\n"
    body = 990000
    asked = [(0, 0, line.format(body).encode() + b"a" * body)] * (most // (body + 1000))
    for size in (most, most + 1):
        # a last body makes up what is left; its item's line is as long as with any of its size
        last = size - len(recording(*asked, (0, 0, line.format(100000).encode() + b"a" * 100000))) + 100000
        made = recording(*asked, (0, 0, line.format(last).encode() + b"a" * last))
        tally.holds(f"a recording of {size} bytes was made", len(made) == size, (len(made), last))
        end = program.run("replay", folder, source=made)
        if size == most:
            ends(tally, "a recording", end, 0, b"", done(len(asked) + 1))
        else:
            said = f"recording refused at byte {most}\n".encode()
            ends(tally, "a recording, one more", end, 6, said, lambda output: not output)


# A site whose application fails to begin, so that what is taken of the command line is seen before a port is opened.
FAILS = {"/global.asa": '<script runat="server">\nSub Application_OnStart\nx = 1 \\ 0\nEnd Sub\n</script>'}
USAGE = b"usage: get SITE PATH, check SITE, replay SITE, serve SITE --requests N, gen N\n"
FAILED = b"Application_OnStart failed: error 11, line 3\n"


def option(name, command="serve"):
    """Returns the trial of a number of the command line, whose least is 1."""

    def work(program, tally, most):
        folder = program.folder(FAILS)
        options = {"requests": 1, "workers": 1, "port": 8080} if command == "serve" else {"workers": 1}
        for number, status in ((0, 2), (1, 8), (most, 8), (most + 1, 2)):
            words = [part for key, value in {**options, name: number}.items() for part in (f"--{key}", value)]
            end = program.run(command, folder, *words, source=recording())
            tally.ends(f"{command} --{name} {number}", end, status, USAGE if status == 2 else FAILED)

    return work


def generated(program, tally, most):
    for count in (1, most):
        said = f"requests {count}\nanswers {count}\nsessions {min(count, 7)}\ntotal {count}\n"
        tally.ends(f"gen {count}", program.run("gen", count), 0, b"", said.encode())
    for count in (0, most + 1):
        tally.ends(f"gen {count}", program.run("gen", count), 2, USAGE)


TRIALS = {
    "entries of a journal": [entries],
    "weight of a journal": [weights],
    "bytes of a recording": [recordings],
    "requests that `serve` takes": [option("requests")],
    "workers": [option("workers"), option("workers", "replay")],
    "a port": [option("port")],
    "requests that `gen` makes": [generated],
}

# Where the other limits are tried, and by what words, which the number tells.
ELSEWHERE = {
    "bytes of a page's own lines in a head": ("checks/sites/members.txt", lambda most: f'"X", String({most + 1 - 5}, "x")'),
    "minutes of Session.Timeout": ("checks/sites/sites.txt", lambda most: f"Session.Timeout = {most + 1} "),
    "bytes of a request's head": ("checks/serving/answers.py", lambda most: f'"a head of {most + 1:,} bytes"'),
    "fields of a request": ("checks/serving/answers.py", lambda most: f'"{most + 1} fields"'),
    "bytes of a request's body": ("checks/serving/answers.py", lambda most: f'"a body of {most + 1:,} bytes"'),
    "requests of a connection": ("checks/serving/answers.py", lambda most: f'"{most + 1:,} requests in one piece"'),
    "sessions at once": ("checks/serving/answers.py", lambda most: f'"{most + 1:,} clients without a cookie"'),
}


def stands(name, most):
    """Whether a limit that is tried elsewhere is tried there with one more."""
    file, words = ELSEWHERE[name]
    return words(most) in (TOP / file).read_text(encoding="utf-8")
