"""The recordings of checks/replays, on several lanes."""

import atexit
import functools
import os
import pathlib
import shutil
import subprocess
import tempfile
from typing import NamedTuple

from serving.hosts import TOP

from .lines import read_records
from .recordings import read_recording
from .runs import LANES
from .sites import site_in


class Case(NamedTuple):
    name: str
    words: list
    recording: pathlib.Path
    status: int
    output: bytes  # or None, where it isn't told
    said: str

    def ran(self, check, folder, *more):
        """Runs the program over the recording, with these words in place of those on lanes and the journal."""
        kept = [it for it in self.words if more == () or it not in ("--journal", "--workers", "1", "16")]
        source = os.open(self.recording, os.O_RDONLY)
        try:
            return check.ran(*kept, *more, recording=source, folder=folder)
        finally:
            os.close(source)

    def site(self, folder):
        return site_in(folder / self.words[1])


@functools.cache
def cases():
    """Puts the replays of checks/replays down, once, and returns the folder of their sites, and them."""
    folder = pathlib.Path(tempfile.mkdtemp(prefix="checks-workers-"))
    atexit.register(shutil.rmtree, folder)
    subprocess.run([TOP / "checks" / "recorded", folder], check=True)
    found = []
    for at in sorted((folder / "cases").iterdir()):
        parts = {it.name: it for it in at.iterdir()}
        told = {name: parts[name].read_text() for name in ("name", "status", "errors") if name in parts}
        words = parts["words"].read_text().splitlines()
        output = parts["output"].read_bytes() if "output" in parts else None
        said = told.get("errors", "")
        name = told.get("name") or "a replay of " + pathlib.Path(words[1]).name
        status = int(told.get("status") or 0)
        found.append(Case(name, words, parts["recording"], status, output, said and said + "\n"))
    return folder / "sites", found


def on_one_lane(check):
    """On one lane the bytes are those that are wanted."""
    folder, found = cases()
    for case in found:
        more = ["--journal"] if "--journal" in case.words else []
        end = case.ran(check, folder, *more, "--workers", "1")
        wanted = (case.status, end.output if case.output is None else case.output, case.said)
        check.same(case.name, tuple(end), wanted)


def refused_on_any(check):
    """What is refused on one lane is refused alike on any."""
    folder, found = cases()
    for case in found:
        for lanes in LANES[1:] if case.status else ():
            end = case.ran(check, folder, "--journal", "--workers", str(lanes))
            check.same(f"{case.name}, on {lanes} lanes", tuple(end), (case.status, case.output, case.said))


def on_many_lanes(check):
    """Each recording that is replayed, on 1 to 16 lanes, often: the journal is a legal one, with its answers. Where pages share
    no state, and none abandons its session before the client's next request has come, the answers are those that are wanted,
    in another order perhaps."""
    folder, found = cases()
    tried = set()
    for case in found:
        bytes_of = case.recording.read_bytes() if case.status == 0 else b""
        if case.status or (case.words[1], bytes_of) in tried:
            continue
        tried.add((case.words[1], bytes_of))
        site, recording = case.site(folder), read_recording(bytes_of)
        wanted = case.output and sorted(read_records(case.output)[0])
        for lanes in check.often():
            end = case.ran(check, folder, "--journal", "--workers", str(lanes))
            account, output = check.right(site, recording, lanes, end)
            if account and wanted and not site.shares and not account.has_abandoned:
                check.same(f"{case.name}, on {lanes} lanes", sorted(output.answers), wanted)
            if check.differences:
                check.differences.append(f"that was {case.name}")
                return


CHECKS = {
    "recordings on one lane": on_one_lane,
    "recordings that are refused": refused_on_any,
    "recordings on 1 to 16 lanes": on_many_lanes,
}
