"""Runs of the built program: over sites, with little stack, and with calls that fail."""

import argparse
import os
import pathlib
import resource
import shutil
import subprocess
import tempfile
import time
import traceback
from typing import NamedTuple

TOP = pathlib.Path(__file__).resolve().parent.parent.parent
PROGRAM = TOP / "crates" / "classic_asp" / "out" / "classic_asp"
SOURCE = pathlib.Path(__file__).with_name("failing.c")
COMPILERS = ["cc", "gcc", "clang"]
# How long a run may take that does much, in seconds: none is to hang.
LONGEST = 300


class End(NamedTuple):
    """How a run ended: its status, or less than 0 by a signal, or None where it did not end by itself; what it said and
    wrote; and how much processor time went by with it, in seconds."""

    status: int | None
    said: bytes
    output: bytes
    used: float


def used():
    """Returns the processor time of all runs that have ended, in seconds."""
    found = resource.getrusage(resource.RUSAGE_CHILDREN)
    return found.ru_utime + found.ru_stime


def write_site(folder, files):
    """Writes a site into a folder, and returns the folder."""
    for path, text in files.items():
        file = folder / path.removeprefix("/")
        file.parent.mkdir(parents=True, exist_ok=True)
        file.write_bytes(text if isinstance(text, bytes) else text.encode())
    return folder


def recording(*items, seed="0" * 64):
    """Returns a recording: of each item the client, the moment and the bytes of a request."""
    lines = [b"request %d %d %d\n%s\n" % (client, moment, len(text), text) for client, moment, text in items]
    return f"ASPREC 1\nseed {seed}\n".encode() + b"".join(lines) + b"end\n"


class Program:
    """The built program, and a library that has its calls fail, where there is a C compiler."""

    def __init__(self, path, room):
        self.path = str(path)
        self.room = pathlib.Path(room)
        self.compiler = next(filter(shutil.which, COMPILERS), None)
        self.library = None
        if self.compiler:
            self.library = str(self.room / "failing.so")
            words = [self.compiler, "-shared", "-fPIC", "-O2", "-o", self.library, str(SOURCE), "-ldl"]
            subprocess.run(words, check=True)

    def folder(self, files):
        """Returns a folder of its own with these files."""
        return write_site(pathlib.Path(tempfile.mkdtemp(dir=self.room)), files)

    def failing(self, what, at=0, on=False, most=0, count=None, seconds=0):
        """Returns the variables by which calls of a run fail, and which bound its processor time."""
        found = {"LD_PRELOAD": self.library, "FAILING_WHAT": what, "FAILING_AT": str(at), "FAILING_MOST": str(most)}
        if on:
            found["FAILING_ON"] = "1"
        if seconds:
            found["FAILING_SECONDS"] = str(seconds)
        if count:
            found["FAILING_COUNT"] = str(count)
        return found

    def run(self, *words, source=None, failing=None, stack=None, seconds=LONGEST, output=subprocess.PIPE):
        """Runs the program, whose standard input has these bytes, or is a file; with so many KiB of stack."""

        def bound():
            resource.setrlimit(resource.RLIMIT_STACK, (stack * 1024, resource.RLIM_INFINITY))

        how = {"stdout": output, "stderr": subprocess.PIPE, "preexec_fn": bound if stack else None}
        if isinstance(source, bytes):
            how["input"] = source
        else:
            how["stdin"] = source or subprocess.DEVNULL
        begun = used()
        try:
            ran = subprocess.run([self.path, *map(str, words)], env=failing or {}, timeout=seconds, **how)
        except subprocess.TimeoutExpired as stopped:
            return End(None, stopped.stderr or b"", stopped.stdout or b"", used() - begun)
        return End(ran.returncode, ran.stderr, ran.stdout or b"", used() - begun)

    def calls(self, what, *words, **how):
        """Returns how many calls of a kind a run makes of which none fails, and how it ends."""
        count = self.room / "count"
        count.unlink(missing_ok=True)
        end = self.run(*words, failing=self.failing(what, count=count), **how)
        return int(count.read_text()) if count.exists() else 0, end


class Tally:
    """How many checks passed, and what differed."""

    def __init__(self):
        self.passed = 0
        self.failed = 0

    def holds(self, what, fact, came=""):
        """Counts a check, and says what it was where it does not hold."""
        if fact:
            self.passed += 1
            return True
        self.failed += 1
        if self.failed <= 10:
            print(f"differs: {what}", *([f"  {came!s:.900}"] if came != "" else []), sep="\n", flush=True)
        return False

    def ends(self, name, end, status, said=b"", output=b""):
        """Counts a run that is to end so."""
        wanted = (status, said, output)
        return self.holds(name, end[:3] == wanted, f"{end!r:.400}, wanted {wanted!r:.400}")


def skipped(name, tool, count):
    """Tells which tool is missing, and how many checks that skips."""
    line = f"{name}: there is no {tool}, so {count} checks were skipped"
    print(line)
    with open(os.environ.get("SKIPPED", os.devnull), "a", encoding="utf-8") as file:
        print(line, file=file)


def arguments(description):
    """Reads the words of a check: another program than the built one, and the parts to try."""
    parser = argparse.ArgumentParser(description=description, formatter_class=argparse.RawDescriptionHelpFormatter)
    parser.add_argument("--program", help="another program than the built one")
    parser.add_argument("--seed", type=int, help="the seed of what is drawn")
    parser.add_argument("parts", nargs="*", help="parts of the names of those to try")
    found = parser.parse_args()
    if not found.program:
        if subprocess.run([TOP / "asp", "build"], check=False).returncode:
            raise SystemExit(1)
        found.program = PROGRAM
    found.program = os.path.abspath(found.program)
    return found


def try_all(name, trials, found, alone=None):
    """Runs the trials of which a part of the name is asked for, each over the program, and returns the exit status. Where
    there is no C compiler, only those run that do without calls that fail, if these are said."""
    tally = Tally()
    chosen = {it: work for it, work in trials.items() if any(part in it for part in found.parts or [""])}
    with tempfile.TemporaryDirectory(prefix=f"checks-{name}-") as room:
        program = Program(found.program, room)
        if alone is not None and not program.library:
            kept = {it: work for it, work in chosen.items() if it in alone}
            skipped(f"checks/{name}", "C compiler", len(chosen) - len(kept))
            chosen = kept
        for it, work in chosen.items():
            begun = time.monotonic()
            try:
                said = work(program, tally)
            except Exception:
                said = "failed"
                tally.holds(it, False, traceback.format_exc())
            print(f"checks/{name}: {it}: {said or 'done'}, in {time.monotonic() - begun:.1f} seconds", flush=True)
    print(f"checks/{name}: {tally.passed} passed, {tally.failed} failed")
    return 1 if tally.failed else 0
