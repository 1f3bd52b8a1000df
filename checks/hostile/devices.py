"""Devices that fail: a folder, standard input and standard output whose nth call fails, those of the system that do, and the
port and connections of a host."""

import os
import resource
import socket
import struct
import subprocess
import time

from replaying.lines import read_records
from replaying.sites import COUNT
from serving.clients import Client, page, request
from serving.hosts import IS_OPEN, sockets, wait_until

from .growths import GETS, WITHOUT
from .running import recording
from .short import Host, dated

READ, WRITE = b"read fault\n", b"write fault\n"
SITE = {"/a/b.inc": "B", "/n.asp": f"{WITHOUT}hi", "/s.css": "p {}"}
FAILS = {"/global.asa": '<script runat="server">\nSub Application_OnStart\nx = 1 \\ 0\nEnd Sub\n</script>'}
REFUSED = {"/b.asp": "<% x = %>"}
FAILED = b"Application_OnStart failed: error 11, line 3\n"
ONE = recording((0, 0, GETS.format("/n.asp").encode()))
# What a replay of that recording writes, with its journal.
WHOLE = (
    b"answer 2 141\nHTTP/1.1 200 OK\r\nDate: Thu, 01 Jan 1970 00:00:00 GMT\r\nContent-Type: text/html; Charset=utf-8\r\n"
    b"Cache-control: private\r\nContent-Length: 2\r\n\r\nhi\nQ 0 1 start\nB 0 1 0\nE 0 1 done 0 0 0 0\nA 0 2 0 0\nB 0 2 0\n"
    b"E 0 2 done 200 2 0 0\nS 0\nQ 0 3 stop\nB 0 3 0\nE 0 3 done 0 0 0 0\ndone 1\n"
)
WAYS = {"": ("--workers", "1")}


def folders(program, tally):
    """Each call on a folder fails once: nothing is written."""
    site = program.folder(SITE)
    tried = 0
    for words in (["get", site, "/n.asp"], ["check", site], ["replay", site], ["replay", site, "--workers", "4"]):
        for what in ("open", "look", "list", "file"):
            count, _ = program.calls(what, *words, source=ONE)
            tally.holds(f"{words[0]} makes no call of the kind {what}", count)
            for at in range(1, count + 1):
                end = program.run(*words, source=ONE, failing=program.failing(what, at))
                tally.ends(f"{words[0]}, {what} {at} fails", end, 4, READ)
            tried += count
    return f"{tried} calls"


def sources(program, tally):
    """Each read of a recording fails once: nothing is written."""
    site = program.folder(SITE)
    tried = 0
    for name, further in WAYS.items():
        for most in (0, 10, 1):
            words = ["replay", site, "--journal", *further]
            count = program.room / "count"
            end = program.run(*words, source=ONE, failing=program.failing("source", most=most, count=count))
            tally.ends(f"{most or 'all'} bytes a read{name}", end, 0, b"", WHOLE)
            for at in range(1, int(count.read_text()) + 1):
                end = program.run(*words, source=ONE, failing=program.failing("source", at, most=most))
                tally.ends(f"read {at} of {most or 'all'} bytes fails{name}", end, 4, READ)
                tried += 1
    return f"{tried} reads"


def sinks(program, tally):
    """Each write fails once: a beginning of the output was written."""
    site = program.folder(SITE)
    commands = [(["replay", site, "--journal", *further], WHOLE, name) for name, further in WAYS.items()]
    commands += [(["get", site, "/n.asp"], b"hi", ""), (["check", site], b"accepted 1 pages, 1 files\n", "")]
    commands += [(["gen", "1"], b"requests 1\nanswers 1\nsessions 1\ntotal 1\n", "")]
    tried = 0
    for words, whole, name in commands:
        for most in (0, 10, 1):
            count = program.room / "count"
            end = program.run(*words, source=ONE, failing=program.failing("sink", most=most, count=count))
            tally.ends(f"{words[0]}{name}, {most or 'all'} bytes a write", end, 0, b"", whole)
            for at in range(1, int(count.read_text()) + 1):
                end = program.run(*words, source=ONE, failing=program.failing("sink", at, most=most))
                held = end.output
                fits = whole.startswith(held) and len(held) < len(whole) and (most != 1 or len(held) == at - 1)
                what = f"{words[0]}{name}, write {at} of {most or 'all'} bytes fails"
                tally.holds(what, end[:2] == (5, WRITE) and fits, end)
                tried += 1
    end = program.run("replay", site, "--workers", "4", source=ONE, failing=program.failing("sink", 3, most=10))
    tally.ends("write 3 of ten bytes fails", end, 5, WRITE, b"answer 2 141\nHTTP/1.")
    return f"{tried} writes"


def are_counted(answers):
    """Returns whether these answers of two clients, who ask in turn from run 2 on, are each client's first, in their order."""
    of_clients = [[it for it in answers if it.run % 2 == client] for client in (0, 1)]
    return all(
        (it.run // 2, it.body) == (at, b"%d" % at) for asked in of_clients for at, it in enumerate(asked, start=1)
    )


def sinks_of_workers(program, tally):
    """Each write of a replay by four workers fails once: the answers before it were written, each client's in their order."""
    words, count = ["replay", program.folder({"/count.asp": COUNT}), "--workers", "4"], 6
    source = recording(*((1 + at % 2, 0, GETS.format("/count.asp").encode()) for at in range(count)))
    for at in range(1, count + 3):
        end = program.run(*words, source=source, failing=program.failing("sink", at))
        answers, rest = read_records(end.output)
        told = (end.status, end.said, len(answers), rest)
        wanted = (5, WRITE, at - 1, b"") if at <= count + 1 else (0, b"", count, b"done %d\n" % count)
        tally.holds(f"write {at} of four workers fails", told == wanted and are_counted(answers), end)
    return f"{count + 1} writes"


def two_at_once(program, tally):
    """Of two devices that fail the earlier in the order of refusals is told: words, site, recording, start, run."""
    site, fails, refused = (program.folder(files) for files in (SITE, FAILS, REFUSED))
    nowhere = site / "nowhere"
    bad, none = b"ASPREC 0\n", recording()
    usage = b"usage: get SITE PATH, check SITE, replay SITE, serve SITE --requests N, gen N\n"
    rows = [
        ("words, and all others", ["replay", nowhere, "--fast"], None, 2, usage),
        ("the folder and the source", ["replay", nowhere], None, 4, READ),
        ("a fault of the site and the source", ["replay", refused], None, 3, b"/b.asp:1: Unexpected\n"),
        ("the source and the sink", ["replay", site], None, 4, READ),
        ("the start and the source", ["replay", fails], None, 4, READ),
        ("the start and the recording", ["replay", fails], bad, 6, b"recording refused at byte 0\n"),
        ("the recording and the sink", ["replay", site], bad, 6, b"recording refused at byte 0\n"),
        ("the start and the sink", ["replay", fails], none, 8, FAILED),
        ("the folder and the sink", ["get", nowhere, "/n.asp"], none, 4, READ),
        ("a fault of the site and the sink", ["check", refused], none, 3, b"/b.asp:1: Unexpected\n"),
    ]
    with open("/dev/full", "wb") as full, open("/proc/self/mem", "rb") as broken:
        for name, words, source, status, said in rows:
            tally.ends(name, program.run(*words, source=source or broken, output=full), status, said)
    count, end = program.calls("source", "replay", nowhere, source=ONE)
    tally.ends("a folder that isn't there", end, 4, READ)
    tally.holds("nothing is read where there is no folder", not count, count)
    count, end = program.calls("source", "replay", refused, source=ONE)
    tally.holds("nothing is read where there is no site", not count and end.status == 3, count)
    tally.ends("no random bytes", program.run("serve", site, "--requests", 1, failing=program.failing("random", 1)), 4, READ)
    return f"{len(rows) + 3} pairs"


def outputs(program, tally):
    """Standard output that is closed, or a full device, for each command; and closed behind the first answer."""
    site = program.folder({**SITE, "/l.asp": f'{WITHOUT}<%= String(1000000, "x") %>'})
    words = [["get", site, "/n.asp"], ["check", site], ["replay", site], ["replay", site, "--journal"], ["gen", "1"]]
    words += [["gen", "1", "--journal"], ["--help"], ["--version"], ["replay", site, "--workers", "4"]]
    for line in words:
        name = " ".join(map(str, line)).replace(str(site), "site")
        with open("/dev/full", "wb") as full:
            tally.ends(f"{name} to a full device", program.run(*line, source=ONE, output=full), 5, WRITE)
        closing = ["sh", "-c", 'exec "$@" >&-', "sh", program.path, *map(str, line)]
        ran = subprocess.run(closing, input=ONE, stderr=subprocess.PIPE, check=False)
        tally.holds(f"{name} to a closed output", (ran.returncode, ran.stderr) == (5, WRITE), ran)
    asked_for = recording(*((0, 0, GETS.format(path).encode()) for path in ("/n.asp", "/l.asp")))
    for name, further in WAYS.items():
        how = {"stdin": subprocess.PIPE, "stdout": subprocess.PIPE, "stderr": subprocess.PIPE}
        with subprocess.Popen([program.path, "replay", site, *further], **how) as replay:
            replay.stdin.write(asked_for)
            replay.stdin.close()
            first = replay.stdout.read(155)
            replay.stdout.close()
            said = replay.stderr.read()
        tally.holds(f"output that is closed behind the first answer{name}", (replay.returncode, said) == (5, WRITE), said)
        tally.holds(f"the first answer{name}", first == WHOLE[:155], first)
    return f"{2 * len(words) + 2} commands"


def inputs(program, tally):
    """Standard input that is closed, a folder, or a connection that breaks."""
    site = program.folder(SITE)
    closing = ["sh", "-c", 'exec "$@" <&-', "sh", program.path, "replay", str(site)]
    ran = subprocess.run(closing, capture_output=True, check=False)
    tally.holds("a closed input", (ran.returncode, ran.stdout, ran.stderr) == (4, b"", READ), ran)
    folder = os.open(site, os.O_RDONLY)
    tally.ends("a folder as input", program.run("replay", site, source=folder), 4, READ)
    os.close(folder)
    for sent in (b"", ONE[:100], ONE):
        with socket.create_server(("127.0.0.1", 0)) as server:
            there = socket.create_connection(server.getsockname())
            here, _ = server.accept()
        how = {"stdin": here, "stdout": subprocess.PIPE, "stderr": subprocess.PIPE}
        with here, subprocess.Popen([program.path, "replay", site], **how) as replay:
            there.sendall(sent)
            time.sleep(0.1)
            there.setsockopt(socket.SOL_SOCKET, socket.SO_LINGER, struct.pack("ii", 1, 0))
            there.close()
            came = replay.communicate()
        tally.holds(f"a reset behind {len(sent)} bytes", (replay.returncode, *came) == (4, b"", READ), came)
    return "5 inputs"


def sent(host, pieces):
    """Sends pieces on a connection, and returns what comes of it."""
    with Client(host.port) as client:
        try:
            for piece in pieces:
                client.send(piece)
                time.sleep(0.01)
            came = client.rest()
        except OSError:
            came = client.came
    return dated(came.removesuffix(b"<reset>"))


def ports(program, tally):
    """A host whose accept fails: at once, and while two pages run."""
    site = program.folder({"/slow.asp": f"{WITHOUT}<% For i = 1 To 300000 : x = x + 1 : Next %>done", **SITE})
    with Host(program, site, 1, program.failing("accept", 1)) as host:
        tally.holds("accept 1 fails", host.ends() == (9, b"", b"accept fault\n"))
    with Host(program, site, 100, program.failing("accept", 3)) as host, Client(host.port) as one, Client(host.port) as two:
        for link in (one, two):
            link.send(request("/slow.asp", "Connection: close"))
        # both pages run a moment after the requests were read
        wait_until(lambda: [it[1:] for it in sockets(host.port)].count((IS_OPEN, 0, 0)) == 2, 30)
        time.sleep(0.1)
        tally.holds("the connection that is lost", not sent(host, [request("/n.asp")]))
        came = [dated(link.rest()) for link in (one, two)]
        tally.holds("both answers", came == [page(b"done", close=True)] * 2, came)
        tally.holds("accept 3 fails while two pages run", host.ends() == (9, b"", b"accept fault\n"))
    return "accept 1, and accept 3"


def descriptors(program, tally):
    """A host that may open no more files takes connections again once it may, and gives up after ten seconds."""
    site = program.folder(SITE)
    for what, pause, status in (("for a second", 1, None), ("for longer", 15, 9)):
        with Host(program, site, 100) as host:
            hard = resource.getrlimit(resource.RLIMIT_NOFILE)[1]
            taken = max(map(int, os.listdir(f"/proc/{host.process.pid}/fd"))) + 1
            resource.prlimit(host.process.pid, resource.RLIMIT_NOFILE, (taken, hard))
            # the accept that waits has its descriptor already
            tally.holds("the connection before", sent(host, [request("/n.asp", "Connection: close")]))
            with Client(host.port) as client:
                client.send(request("/n.asp", "Connection: close"))
                tally.holds(f"nothing comes {what}", client.heard(pause) == b"")
                resource.prlimit(host.process.pid, resource.RLIMIT_NOFILE, (hard, hard))
                if status is None:
                    tally.holds("then the answer", dated(client.rest()) == page(b"hi", close=True))
            if status:
                end = host.ends()
                tally.holds(f"no descriptor {what}", end == (status, b"", b"accept fault\n"), end)
    return "for one second, and for ten"


COUNTS = {
    "/count.asp": f'{WITHOUT}<% Application("n") = Application("n") + 1 %><%= Application("n") %>',
    "/large.asp": f'{WITHOUT}<% Application("n") = Application("n") + 1 %><%= String(1000000, "x") %>',
}
POST = b"POST /count.asp HTTP/1.1\r\nHost: x\r\nContent-Length: 9\r\n\r\n12345"


LARGE = request("/large.asp", "Connection: close")
# The pieces of two requests on one connection, and what a client gets for both.
PIECES = [POST[:20], POST[20:-2], POST[-2:] + b"6789", LARGE]
NEXT = [request("/count.asp", "Connection: close")]
BOTH = page(b"1") + page(b"x" * 1000000, close=True)


def links(program, tally):
    """Each read and each write of a connection fails once, of one worker: that connection ends, each run that has begun has
    ended, and the next connection is served."""
    site = program.folder(COUNTS)
    cut = 0
    for what in ("receive", "send"):
        for at in range(1, 12):
            with Host(program, site, 100, program.failing(what, at), workers=1) as host:
                came = sent(host, PIECES)
                tally.holds(f"{what} {at} fails: a part of the answers", BOTH.startswith(came), came[:200])
                cut += came != BOTH
                # a call of the next connection may be the one that fails
                after = sent(host, NEXT) or sent(host, NEXT)
                runs = came.count(b"HTTP/1.1 200 OK")
                fits = after in [page(b"%d" % (ended + 1), close=True) for ended in range(runs, runs + 2)]
                tally.holds(f"{what} {at} fails: the next connection", fits, (came[:100], after))
                tally.holds(f"{what} {at} fails: the host goes on", host.process.poll() is None)
    return f"22 calls, by which {cut} connections were cut off"


TRIALS = {
    "folders": folders,
    "standard input, read by read": sources,
    "standard output, write by write": sinks,
    "standard output of four workers, write by write": sinks_of_workers,
    "two devices at once": two_at_once,
    "outputs that fail": outputs,
    "inputs that fail": inputs,
    "ports": ports,
    "no descriptors": descriptors,
    "connections": links,
}
# Those that do without a library that has calls fail.
ALONE = {"outputs that fail", "inputs that fail", "no descriptors"}
