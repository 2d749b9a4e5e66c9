"""Documents and inputs that are damaged. The program `plays` answers many in one process, and `fsw` itself some."""

import contextlib
import os
import random
import re
import resource
import subprocess
import tempfile
import time
from collections import Counter
from dataclasses import dataclass

from mutate import damaged
from told import is_told

BATCH = 2_000

# After so many seconds a process is ended.
PATIENCE = 300

# Cases that take more seconds of the processor together are looked at in halves, and one that does so alone is kept.
SLOW = 1.0

# Of so many cases one is tried on the program itself.
ALONE = 1_000

# A link in memory takes so many bytes; where more are written, the program itself is asked.
ROOM = 1_000_000
WRITE_FAULT = 5

# No file is absent here, no link fails and there is memory, so these statuses are right.
MAY_END = (0, 2, 3, 8, 9, 10)


@dataclass(frozen=True)
class Case:
    """The words of a command line behind FILE's bytes, with what stands on standard input."""

    words: tuple
    document: bytes
    given: bytes

    def size(self):
        return len(self.document) + len(self.given)


class Chooser:
    """Makes the case of each number, always the same one."""

    def __init__(self, seed, plays):
        self.seed = seed
        self.plays = plays

    def case(self, number):
        chance = random.Random(f"{self.seed} {number}")
        play, other = chance.choice(self.plays), chance.choice(self.plays)
        kind = chance.random()
        if kind < 0.4:
            return Case(("check", "f"), damaged(chance, play.document, other.document), b"")
        if kind < 0.55:
            words = ("hunt", "f", *self.hunted(chance, play.document))
            return Case(words, damaged(chance, play.document, other.document), b"")
        given = damaged(chance, play.given, other.given)
        document = damaged(chance, play.document, other.document) if kind > 0.9 else play.document
        return Case(("play", "f"), document, given)

    def hunted(self, chance, document):
        """A context and a number that the document may have."""
        contexts = re.findall(rb"<context name=.([\w-]+)", document) or [b"default"]
        numbers = re.findall(rb"\^?([\w*-]+)\$?['\"]", document) or [b"1000"]
        number, context = chance.choice(numbers), chance.choice(contexts)
        if chance.random() < 0.3:
            number = word_of(damaged(chance, number, number))
        return context, number


def word_of(data):
    """What of it is a word for the desk, too: it takes words that are not UTF-8, and none that are empty."""
    return data.decode(errors="ignore").replace("\0", "").encode() or b"1"


ODD = re.compile(rb"[^!-$&-~]")


def escaped(data):
    """As a line of cases has it."""
    return ODD.sub(lambda found: b"%%%02X" % found[0][0], data)


def lines_of(case):
    words = b" ".join(escaped(word if isinstance(word, bytes) else word.encode()) for word in case.words)
    return b"file " + escaped(case.document) + b"\ninput " + escaped(case.given) + b"\nmeasure " + words + b"\n"


@dataclass(frozen=True)
class Answer:
    """How many bytes there are on standard output, the line on the error output, and the status."""

    length: int
    line: bytes
    status: int

    def told(self):
        return is_told(self.status, self.line)


def answers_of(program, cases):
    """The answers to these cases, fewer where the process ended before; and its seconds of the processor."""
    with tempfile.TemporaryFile() as given, tempfile.TemporaryFile() as answered:
        given.writelines(map(lines_of, cases))
        given.seek(0)
        begun = processor_seconds()
        with subprocess.Popen([program], stdin=given, stdout=answered, stderr=subprocess.DEVNULL) as process:
            with contextlib.suppress(subprocess.TimeoutExpired):
                process.wait(PATIENCE)
            process.kill()
        answered.seek(0)
        return list(read_answers(answered)), processor_seconds() - begun


def read_answers(answered):
    told = []
    for line in answered:
        if not line.startswith(b"  "):
            told = []
        elif line.startswith(b"  status "):
            yield Answer(int(told[0].split()[0]), b"".join(told[1:]), int(line.split()[1]))
        else:
            told.append(line[2:])


def alone(program, case):
    """What the program itself answers."""
    with tempfile.TemporaryDirectory() as folder:
        with open(f"{folder}/f", "wb") as file:
            file.write(case.document)
        ran = subprocess.run([program, *case.words], input=case.given, capture_output=True, cwd=folder, check=False)
        return Answer(len(ran.stdout), ran.stderr, ran.returncode)


def processor_seconds():
    used = resource.getrusage(resource.RUSAGE_CHILDREN)
    return used.ru_utime + used.ru_stime


class Trial:
    """Tries cases, and keeps those that fail or are slow in a folder."""

    def __init__(self, programs, chooser, folder):
        self.programs = programs
        self.chooser = chooser
        self.folder = folder
        self.statuses = Counter()
        self.lines = Counter()
        self.kept = 0
        self.longest = 0.0

    def keep(self, number, case, why):
        self.kept += 1
        os.makedirs(self.folder, exist_ok=True)
        for ending, data in (("xml", case.document), ("input", case.given), ("why", why.encode() + b"\n")):
            with open(f"{self.folder}/{number}.{ending}", "wb") as file:
                file.write(data)
        print(f"  case {number} {case.words}: {why}", flush=True)

    def batch(self, numbers):
        cases = [self.chooser.case(number) for number in numbers]
        answers, seconds = answers_of(self.programs.plays, cases)
        for number, case, answer in zip(numbers, cases, answers):
            self.judge(number, case, answer)
        if seconds > SLOW:
            self.look_at(numbers, cases, seconds)
        if len(answers) < len(cases):
            self.keep(numbers[len(answers)], cases[len(answers)], "no answer")
            self.batch(numbers[len(answers) + 1 :])

    def judge(self, number, case, answer):
        if answer.status == WRITE_FAULT and answer.length > ROOM // 2:
            answer = alone(self.programs.program, case)
        self.statuses[case.words[0], answer.status] += 1
        self.lines[answer.line.split(b" at ")[0].split(b" in ")[0]] += 1
        if answer.status not in MAY_END or not answer.told():
            self.keep(number, case, f"status {answer.status} with {answer.line!r}")
        if number % ALONE == 0:
            self.compare(number, case, answer)

    def look_at(self, numbers, cases, seconds):
        """Finds those that are slow by themselves."""
        if len(cases) == 1:
            return self.keep(numbers[0], cases[0], f"{seconds:.1f} seconds of the processor")
        for half in (slice(len(cases) // 2), slice(len(cases) // 2, None)):
            _, seconds = answers_of(self.programs.plays, cases[half])
            self.longest = max(self.longest, seconds if len(cases[half]) == 1 else 0)
            if seconds > SLOW:
                self.look_at(numbers[half], cases[half], seconds)

    def compare(self, number, case, answer):
        again = alone(self.programs.program, case)
        if again != answer:
            self.keep(number, case, f"{again} of the program, {answer} of the cases")


def mutations(programs, chooser, folder, numbers):
    """Tries the cases of these numbers, and says how many were kept."""
    trial, begun = Trial(programs, chooser, folder), time.monotonic()
    for begin in range(numbers.start, numbers.stop, BATCH):
        trial.batch(range(begin, min(begin + BATCH, numbers.stop)))
        done = min(begin + BATCH, numbers.stop) - numbers.start
        if begin // BATCH % 25 == 0:
            print(f"  {done} cases, {done / (time.monotonic() - begun):.0f} a second", flush=True)
    for (word, status), count in sorted(trial.statuses.items()):
        print(f"  {word}: {count} ended with status {status}")
    for line, count in trial.lines.most_common(30):
        print(f"  {count} with {line.decode('latin-1').strip()!r}")
    word = "FAILED" if trial.kept else "ok"
    print(f"{word} mutations: {len(numbers)} cases, {trial.kept} kept in {folder}", flush=True)
    return trial.kept
