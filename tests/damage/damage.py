"""Damages what the program is given, and refuses it memory.

python3 tests/damage/damage.py [--program FILE] [--plays FILE] [--serves FILE] [PART ..] does these parts, or all:
refusals, mutations, links, sizes. `mutations` and `links` try the cases of the numbers from --from on, --count and
--links many, of a --seed; what fails is kept in --folder.
"""

import argparse
import pathlib
import sys
import tempfile
from dataclasses import dataclass

import corpus
import links
import mutations
import refusals
import sizes

TOP = pathlib.Path(__file__).resolve().parents[2]


@dataclass(frozen=True)
class Programs:
    program: str
    plays: str
    serves: str


def built(name):
    return str(TOP / "crates" / name / "out" / name)


def asked():
    words = argparse.ArgumentParser(description=__doc__, formatter_class=argparse.RawDescriptionHelpFormatter)
    words.add_argument("--program", default=built("fs_main"))
    words.add_argument("--plays", default=built("plays"))
    words.add_argument("--serves", default=built("serves"))
    words.add_argument("--seed", default="1")
    words.add_argument("--from", type=int, default=0, dest="first")
    words.add_argument("--count", type=int, default=1_000_000)
    words.add_argument("--links", type=int, default=20_000)
    words.add_argument("--model", type=int, default=1, help="plays of each kind of the model that are damaged")
    words.add_argument("--folder", default=f"{tempfile.gettempdir()}/fsw-damaged")
    words.add_argument("parts", nargs="*", metavar="PART")
    return words.parse_args()


def main():
    given = asked()
    programs = Programs(*(str(pathlib.Path(path).resolve()) for path in (given.program, given.plays, given.serves)))
    parts = given.parts or ["refusals", "mutations", "links", "sizes"]
    failed = 0
    if "refusals" in parts:
        failed += refusals.refusals(programs)
    if {"mutations", "links"} & set(parts):
        chooser = mutations.Chooser(given.seed, corpus.corpus(range(given.model)))
        if "mutations" in parts:
            numbers = range(given.first, given.first + given.count)
            failed += mutations.mutations(programs, chooser, given.folder, numbers)
        if "links" in parts:
            numbers = range(given.first, given.first + given.links)
            failed += links.links(programs.program, chooser, given.folder, numbers)
    if "sizes" in parts:
        failed += sizes.sizes(programs.program)
    sys.exit(1 if failed else 0)


if __name__ == "__main__":
    main()
