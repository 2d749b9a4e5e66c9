"""Programs whose calls for memory are refused, one or all from one on."""

import os
import pathlib
import subprocess
import tempfile
import time
from dataclasses import dataclass, field

# A run that has not ended by then is made again, with more time: the machine may have been busy.
SECONDS = 2
PATIENCE = 30
HERE = pathlib.Path(__file__).resolve().parent


@dataclass(frozen=True)
class Ran:
    """What a program came to. The status is None where it had not ended in time, below 0 where a signal ended it."""

    status: int
    output: bytes
    line: bytes
    calls: int
    seconds: float


class Refuser:
    """Makes what refuses, in a folder of its own, and runs programs behind it."""

    def __init__(self):
        self.folder = tempfile.TemporaryDirectory(prefix="fsw-damage-")
        self.library = f"{self.folder.name}/refuse.so"
        self.count = f"{self.folder.name}/count"
        pathlib.Path(self.count).write_bytes(bytes(8))
        compiler = os.environ.get("CC", "cc")
        subprocess.run([compiler, "-O2", "-shared", "-fPIC", "-o", self.library, HERE / "refuse.c"], check=True)

    def surroundings(self, at, goes_on=False):
        """The environment of a program whose calls from this one on are refused, or this one alone; with 0 none is."""
        further = {"REFUSE_ON": "1"} if goes_on else {}
        return {"LD_PRELOAD": self.library, "REFUSE_COUNT": self.count, "REFUSE_AT": str(at)} | further

    def calls(self):
        """How many calls the last program made."""
        return int.from_bytes(pathlib.Path(self.count).read_bytes(), "little")

    def run(self, words, given=b"", at=0, goes_on=False):
        ran = self.ran(words, given, at, goes_on, SECONDS)
        return ran if ran.status is not None else self.ran(words, given, at, goes_on, PATIENCE)

    def ran(self, words, given, at, goes_on, seconds):
        begun = time.monotonic()
        how = {"env": self.surroundings(at, goes_on), "input": given, "capture_output": True, "timeout": seconds}
        try:
            ran = subprocess.run(words, check=False, **how)
        except subprocess.TimeoutExpired as cut:
            return Ran(None, cut.stdout or b"", cut.stderr or b"", self.calls(), seconds)
        return Ran(ran.returncode, ran.stdout, ran.stderr, self.calls(), time.monotonic() - begun)


@dataclass
class Tally:
    """How many runs of a row there were, how they ended, and what was wrong with some of them."""

    name: str
    ends: dict = field(default_factory=dict)
    slowest: float = 0.0
    wrong: list = field(default_factory=list)

    def add(self, how, end, fault, seconds):
        """A run of which calls were refused, its end in a few words, and what is wrong with it, if anything is."""
        self.slowest = max(self.slowest, seconds)
        if fault:
            self.wrong.append(f"{how}: {fault}")
        self.ends[end] = self.ends.get(end, 0) + 1

    def line(self):
        word = "FAILED" if self.wrong else "ok"
        ends = ", ".join(f"{count} {end}" for end, count in self.ends.items())
        told = f"{word} {self.name}: {sum(self.ends.values())} runs, {ends}; slowest {self.slowest:.2f} s"
        return "\n".join([told, *(f"  {fault}" for fault in self.wrong[:20])])
