"""A check over replays by the program: runs of it, and recordings on so many lanes."""

import subprocess
import tempfile
from typing import NamedTuple

from serving.hosts import Check

from .account import judged
from .lines import Unfit, read_output
from .recordings import SEED, Recording, written

LANES = (1, 2, 4, 16)
# How often a recording is replayed on so many lanes.
TIMES = 20
# How long a run may take, in seconds.
LONGEST = 600


class End(NamedTuple):
    status: int
    output: bytes
    said: str


class Replays(Check):
    """A check, with what differed in it."""

    def ran(self, *words, recording=b"", folder=None):
        """Runs the program over a recording, its bytes or a file, in a folder. Returns how it ended."""
        with tempfile.TemporaryFile() as given:
            if isinstance(recording, bytes):
                given.write(recording)
                given.seek(0)
            source = given if isinstance(recording, bytes) else recording
            words = [*self.program, *map(str, words)]
            ran = subprocess.run(words, stdin=source, capture_output=True, cwd=folder, timeout=LONGEST, check=False)
        said = [line for line in ran.stderr.decode(errors="replace").splitlines(True) if not line.startswith("asp: ")]
        return End(ran.returncode, ran.stdout, "".join(said))

    def replayed(self, site, items, lanes, strict=False):
        """Replays items over a site on so many lanes, with a strict lock perhaps. Returns the account of the journal and the
        output, or None where they are not right."""
        words = ["replay", self.site(site.files), "--journal", "--workers", lanes, *["--strict-lock"] * strict]
        end = self.ran(*words, recording=written(items))
        return self.right(site, Recording(SEED, items, strict), lanes, end)

    def right(self, site, recording, lanes, end):
        """Returns the account of what a replay has written, and its output, where both are right."""
        self.same(f"the end on {lanes} lanes", (end.status, end.said), (0, ""))
        try:
            output = read_output(end.output)
            return judged(site, recording, lanes, output), output
        except Unfit as why:
            self.differences.append(f"on {lanes} lanes: {why}"[:900])
            return None, None

    def often(self, lanes=LANES):
        """Goes over numbers of lanes, each as often as a recording is replayed."""
        for count in lanes:
            for _ in range(self.many(TIMES)):
                yield count

    def under_both_rules(self, lanes=LANES):
        """Goes over numbers of lanes, each as often as a recording is replayed, half of the times with a strict lock."""
        for at, count in enumerate(self.often(lanes)):
            yield count, at % 2 == 1
