#!/usr/bin/env python3
"""Random runs of entries, worked out by the model and compared with what a program of cases answers.

    python3 tests/model/runs.py --program "COMMAND" FIRST LAST

makes a case of each seed from FIRST to LAST: a line with a document, and a line with steps of entries. All of
them are given to the program on its standard input, and what it answers is compared line by line. How many
runs agreed is printed. Of the first that differs all is printed that makes it, and the status is 1. Without a
program the cases are printed as the model answers them.
"""

import argparse
import shlex
import subprocess
import sys
from dataclasses import dataclass
from itertools import groupby, zip_longest

from entries import Entries
from random_runs import random_run
from steps import answers


@dataclass(frozen=True)
class Case:
    """The lines that make a run, and what is told of each step."""

    document: str
    steps: tuple
    told: tuple

    def lines(self):
        steps = "; ".join(escaped(step, "%;") for step in joined(self.steps))
        return ["file " + escaped(self.document, "%;"), "entries " + steps]

    def answered(self):
        """The lines with their answer, as a program of cases prints them."""
        return [*self.lines(), *("  " + escaped(line, "%") for lines in self.told for line in lines)]


def made(seed):
    chooser = random_run(seed)
    document = chooser.document()
    entries = Entries(document)
    steps, told = [], []
    for step in chooser.steps(entries):
        steps.append(step)
        told.append(answers(entries, step))
    return Case(document.written(), tuple(steps), tuple(told))


def joined(steps):
    """What slots work one after another is one step."""
    for is_work, group in groupby(steps, lambda step: step.startswith("work ")):
        if is_work:
            yield "work " + " ".join(step.removeprefix("work ") for step in group)
        else:
            yield from group


def escaped(text, further):
    """Each byte is escaped that is not printable, and each of these."""
    return "".join(
        character if " " <= character <= "~" and character not in further else f"%{ord(character):02X}"
        for character in text
    )


def answered_by(program, cases):
    """What the program prints for each case."""
    given = "".join(line + "\n" for case in cases for line in case.lines())
    run = subprocess.run(shlex.split(program), input=given.encode("latin-1"), capture_output=True, check=False)
    lines = run.stdout.decode("latin-1").split("\n")[:-1]
    begins = [number for number, line in enumerate(lines) if line.startswith("file ")] + [len(lines)]
    return [lines[begin:end] for begin, end in zip(begins, begins[1:])]


def show(seed, case, printed):
    expected = case.answered()
    parted = next(number for number, (one, other) in enumerate(zip_longest(expected, printed)) if one != other)
    print(f"run {seed} differs, first in line {parted}")
    for line in case.lines():
        print(line)
    for title, lines in (("the model says", expected), ("the program prints", printed)):
        print(f"---- {title}")
        print("\n".join(lines[max(parted - 12, 2) : parted + 6]))


def compare(seeds, program):
    cases = [made(seed) for seed in seeds]
    for agreed, (seed, case, printed) in enumerate(zip_longest(seeds, cases, answered_by(program, cases))):
        if case.answered() != printed:
            show(seed, case, printed or [])
            return agreed
    return len(seeds)


def asked():
    words = argparse.ArgumentParser(description=__doc__, formatter_class=argparse.RawDescriptionHelpFormatter)
    words.add_argument("first", type=int, metavar="FIRST")
    words.add_argument("last", type=int, metavar="LAST")
    words.add_argument("--program")
    return words.parse_args()


def main():
    words = asked()
    seeds = range(words.first, words.last + 1)
    if words.program is None:
        print("\n".join(line for seed in seeds for line in made(seed).answered()))
        return 0
    agreed = compare(seeds, words.program)
    print(f"{agreed} of {len(seeds)} runs agreed")
    return int(agreed < len(seeds))


if __name__ == "__main__":
    sys.exit(main())
