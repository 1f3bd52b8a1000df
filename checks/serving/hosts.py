"""The program as it serves a site, and a check over it."""

import os
import pathlib
import random
import signal
import socket
import subprocess
import tempfile
import time
import traceback

from .clients import asked, request

TOP = pathlib.Path(__file__).resolve().parent.parent.parent
EXAMPLES = TOP / "examples"
USAGE = "usage: get SITE PATH, check SITE, replay SITE, serve SITE --requests N, gen N\n"
# Where no port is drawn for a client.
PORTS = range(20000, 32000)
# How long a host may take to begin or to end, in seconds.
LONGEST = 600
LISTENS, IS_OPEN = "0A", "01"

WITHOUT = "<%@ ENABLESESSIONSTATE=False %>"
# A site with a page for each thing that an answer may be.
SITE = {
    "/s.asp": '<% Session("n") = Session("n") + 1 %><%= Session("n") %>',
    "/id.asp": "<%= Session.SessionID %>",
    "/leave.asp": "<% Session.Abandon %>left",
    "/p.asp": f"{WITHOUT}A<%= 1+2 %>B",
    "/form.asp": f'{WITHOUT}<%= Request.Form("a") %>;<%= Request.Form("a").Count %>;<%= Request.TotalBytes %>',
    "/errs.asp": f"{WITHOUT}\n<% x = 1 \\ 0 %>",
    "/away.asp": f'{WITHOUT}<% Response.Redirect "/p.asp?b=1&c" : Response.Write "x" %>',
    "/none.asp": f'{WITHOUT}<% Response.Status = "204 x" %>lost',
    "/hi.asp": f"{WITHOUT}hi",
    "/inc/part.inc": "part",
    "/global.asa": '<script runat="server">\nSub Application_OnStart\nApplication("n") = 0\nEnd Sub\n</script>',
    "/a.css": "p {}",
}
# A page that counts its visits, each under the lock, and one that tells the count.
COUNT = {
    "/count.asp": '<% Application.Lock : Application("n") = Application("n") + 1 : Session("c") = Session("c") + 1 : '
    'Application.Unlock %><%= Session("c") %>',
    "/total.asp": f'{WITHOUT}<%= Application("n") %>',
}
# A page that fails as the application begins.
FAILS = {"/global.asa": '<script runat="server">\nSub Application_OnStart\nx = 1 \\ 0\nEnd Sub\n</script>'}


def sockets(port):
    """Returns the sockets of this machine at this port: the port at the other end, the state, what waits to go and what
    waits to be read."""
    found = []
    with open("/proc/net/tcp", encoding="ascii") as lines:
        for line in list(lines)[1:]:
            _, here, there, state, queues = line.split()[:5]
            if int(here[-4:], 16) == port:
                going, waiting = (int(queue, 16) for queue in queues.split(":"))
                found.append((int(there[-4:], 16), state, going, waiting))
    return found


def listens(port):
    return any(state == LISTENS for _, state, _, _ in sockets(port))


def free_port():
    """Returns a port at which nobody listens."""
    for port in random.sample(PORTS, 100):
        with socket.socket() as tried:
            try:
                tried.bind(("127.0.0.1", port))
                return port
            except OSError:
                pass
    raise OSError("no port is free")


def wait_until(holds, seconds=LONGEST):
    """Waits until something holds. Tells whether it came."""
    end = time.monotonic() + seconds
    while not holds():
        if time.monotonic() > end:
            return False
        time.sleep(0.01)
    return True


class Host:
    """A run of the program. Its output and what it said stand in files, so that it never waits for a reader."""

    def __init__(self, words, port, requests=1000):
        self.port = port
        self.at_once = min(requests, 1000)
        self.output = tempfile.TemporaryFile()
        self.errors = tempfile.TemporaryFile()
        ends = {"stdin": subprocess.DEVNULL, "stdout": self.output, "stderr": self.errors}
        self.process = subprocess.Popen(words, start_new_session=True, **ends)

    def runs(self):
        return self.process.poll() is None

    def begins(self):
        """Waits until the host takes connections. Tells whether it does."""
        wait_until(lambda: listens(self.port) or not self.runs())
        return self.runs()

    def told(self):
        """Returns how the run ended: its status, its output, and what it said, without the lines of the launcher."""
        try:
            status = self.process.wait(LONGEST)
        except subprocess.TimeoutExpired:
            status = None
        texts = []
        for file in (self.output, self.errors):
            file.seek(0)
            texts.append(file.read().decode(errors="replace"))
        said = [line for line in texts[1].splitlines(keepends=True) if not line.startswith("asp: ")]
        return status, texts[0], "".join(said)

    def ends(self):
        """Asks for what isn't there until the host has had its requests. Returns how it ended."""
        nothing = request("/nothing")
        end = time.monotonic() + LONGEST
        while self.runs() and time.monotonic() < end:
            try:
                asked(self.port, nothing * self.at_once)
            except OSError:
                time.sleep(0.05)
        return self.told()

    def kill(self):
        if self.runs():
            os.killpg(self.process.pid, signal.SIGKILL)
            self.process.wait()
        self.output.close()
        self.errors.close()


class Check:
    """One check, with what differed in it."""

    def __init__(self, name, program, part):
        self.name = name
        self.program = program
        self.part = part
        self.differences = []
        self.folder = None

    def same(self, what, came, wanted):
        """Puts down what came where it isn't what was wanted."""
        if came != wanted:
            self.differences.append(f"{what}: {came!r:.600}, wanted {wanted!r:.600}")

    def holds(self, what, fact):
        if not fact:
            self.differences.append(what)

    def many(self, count):
        """Returns how many requests stand for this many: fewer for a program that is slow."""
        return max(1, count // self.part)

    def site(self, files):
        """Writes a site, and returns its folder."""
        folder = pathlib.Path(tempfile.mkdtemp(dir=self.folder))
        for path, text in files.items():
            file = folder / path.removeprefix("/")
            file.parent.mkdir(parents=True, exist_ok=True)
            file.write_bytes(text if isinstance(text, bytes) else text.encode())
        return folder

    def ran(self, *words):
        """Runs the program, and returns how it ended."""
        host = Host([*self.program, *words], 0)
        try:
            return host.told()
        finally:
            host.kill()

    def host(self, site, requests, workers=4, port=None):
        """Returns a host of a site, which may be given as its files, for so many requests."""
        folder = self.site(site) if isinstance(site, dict) else site
        port = port or free_port()
        words = ["serve", folder, "--requests", str(requests), "--workers", str(workers), "--port", str(port)]
        return Serving(self, Host([*self.program, *words], port, requests))

    def run(self, work):
        """Runs the check, and tells whether nothing differed."""
        with tempfile.TemporaryDirectory(prefix="checks-serve-") as self.folder:
            try:
                work(self)
            except Exception:
                self.differences.append(traceback.format_exc())
        return not self.differences


class Serving:
    """A host for the time of a `with`, at whose end it is to have ended well and in silence."""

    def __init__(self, check, host):
        self.check = check
        self.host = host

    def __enter__(self):
        if not self.host.begins():
            self.check.same("the host began", self.host.told(), "a host")
            self.host.kill()
            raise RuntimeError("there is no host")
        return self.host

    def __exit__(self, kind, *_):
        if kind is None and self.host.runs():
            self.host.ends()
        if kind is None:
            self.check.same("the host's end", self.host.told(), (0, "", ""))
        self.host.kill()
