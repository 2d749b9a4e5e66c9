#!/usr/bin/env python3
"""Random plays of one connection, worked out by the model and compared with what the program prints.

    python3 tests/model/plays.py [--program PROGRAM] [--coming] [KIND] FROM TO

plays the seeds from FROM to TO, of one kind or of all. The program is `fsw` at the top of the repository,
unless another one is named. With `--coming` the model knows what the program does not know yet, and there
are kinds of plays that have it. Compared are the whole output, the status and what stands on standard error.
A line tells of each kind how many plays agreed. Of the first play that differs all is printed that makes it,
and the status is 1.
"""

import argparse
import pathlib
import subprocess
import sys
import tempfile
from dataclasses import dataclass
from functools import partial
from itertools import zip_longest

import hunts
import load
from coming import COMING_KINDS
from kinds import KINDS
from reloaded import Reloaded
from session import Result, Session

FILE = "FILE"

TOP = pathlib.Path(__file__).resolve().parents[2]

KNOWN_KINDS = KINDS | {"reloaded": Reloaded}


@dataclass(frozen=True)
class Play:
    """The words of a command line, the document that is its FILE, and the input; and what the model says."""

    words: tuple
    document: str
    given: str
    expected: Result


def made_play(kind, seed, coming=False):
    """Commands are chosen as the model plays, so that they suit the channels that are there."""
    chooser = kind(seed)
    document = chooser.document()
    session = Session(document, coming)
    given = []

    def pieces():
        for piece in chooser.pieces(session):
            given.append(piece)
            yield piece

    expected = session.play(pieces())
    return Play(("play", FILE), document.written(), "".join(given), expected)


def made_load(seed):
    words = load.words(seed)
    return Play(("load", *words), "", "", load.printed(*words))


def made_hunt(seed):
    words, document, expected = hunts.made(seed)
    return Play(("hunt", FILE, *words), document.written(), "", expected)


def makers(coming):
    """What makes the plays of each kind of a seed."""
    kinds = KNOWN_KINDS | COMING_KINDS if coming else KNOWN_KINDS
    made = {name: partial(made_play, kind, coming=coming) for name, kind in kinds.items()} | {"load": made_load}
    return made | {"hunts": made_hunt} if coming else made


def printed_by_program(program, play):
    with tempfile.NamedTemporaryFile(suffix=".xml") as file:
        file.write(play.document.encode("latin-1"))
        file.flush()
        words = [program, *(file.name if word == FILE else word for word in play.words)]
        run = subprocess.run(words, input=play.given.encode("latin-1"), capture_output=True, check=False)
    return Result(run.stdout.decode("latin-1"), run.returncode, run.stderr.decode("latin-1").strip())


def parting(expected, printed):
    """The first line of the output that differs, of both."""
    both = zip_longest(expected.output.split("\n"), printed.output.split("\n"))
    return next(((number, *lines) for number, lines in enumerate(both, 1) if lines[0] != lines[1]), None)


def show(name, seed, play, printed):
    print(f"{name} {seed} differs, first in {parting(play.expected, printed)}")
    for title, text in (
        ("words", " ".join(play.words)),
        ("document", play.document),
        ("input", play.given),
        ("the model says", play.expected),
        ("the program prints", printed),
    ):
        print(f"---- {title}\n{text}")


def compare(name, make, seeds, program):
    """How many plays of the kind agreed, up to the first that differs."""
    for agreed, seed in enumerate(seeds):
        play = make(seed)
        printed = printed_by_program(program, play)
        if printed != play.expected:
            show(name, seed, play, printed)
            return agreed
    return len(seeds)


def asked():
    words = argparse.ArgumentParser(description=__doc__, formatter_class=argparse.RawDescriptionHelpFormatter)
    words.add_argument("kind", nargs="?", choices=makers(coming=True))
    words.add_argument("first", type=int, metavar="FROM")
    words.add_argument("last", type=int, metavar="TO")
    words.add_argument("--program", default=str(TOP / "fsw"))
    words.add_argument("--coming", action="store_true")
    asked_for = words.parse_args()
    if asked_for.kind and asked_for.kind not in makers(asked_for.coming):
        words.error(f"{asked_for.kind} is still to come")
    return asked_for


def main():
    words = asked()
    seeds = range(words.first, words.last + 1)
    made = makers(words.coming)
    for name in [words.kind] if words.kind else made:
        agreed = compare(name, made[name], seeds, words.program)
        print(f"{name}: {agreed} of {len(seeds)} agreed", flush=True)
        if agreed < len(seeds):
            return 1
    return 0


if __name__ == "__main__":
    sys.exit(main())
