"""Starts `fsw serve`, and sees that it serves many clients as it should, whatever some of them do.

python3 tests/serve/checks.py [--program FILE] [NAME ..] runs the checks of these names, or all, and prints a line for each.
"""

import argparse
import pathlib
import sys
import time
import traceback

import controllers
import crowds
import endings
import reloads
import rudeness
import times
from answers import at_once, talks
from server import Server

TOP = pathlib.Path(__file__).resolve().parents[2]
PROGRAM = TOP / "crates/fs_main/out/fs_main"


def many(program):
    """16 clients with 1,000 commands each, all at once."""
    with Server(program) as server:
        begun = time.monotonic()
        talkers, works = talks(server, range(16), 1000)
        at_once(*works)
        seconds = time.monotonic() - begun
        given = sum(talker.given for talker in talkers)
        calls = [identifier for talker in talkers for identifier in talker.identifiers]
        if len(calls) != len(set(calls)):
            raise AssertionError("two calls had one identifier")
        events = max(talker.last_event for talker in talkers)
        for talker in talkers:
            talker.client.close()
        server.ends_well()
    return f"{given} answers, {len(calls)} calls, {events} events told, {seconds:.1f} s"


CHECKS = {
    "many": many,
    "vanishing": rudeness.vanishing,
    "slow": rudeness.slow,
    "reconnecting": crowds.reconnecting,
    "endless": crowds.endless,
    "crowd": crowds.crowd,
    "shutdown": endings.shutdown,
    "full": endings.full,
    "parting": endings.parting,
    "idle": times.idle,
    "quick": times.quick,
    "waiting": times.waiting,
    "controlled": controllers.controlled,
    "held": controllers.held,
    "dialing": controllers.dialing,
    "whole": reloads.whole,
    "gone": reloads.gone,
}


def passes(name, program):
    try:
        print(f"ok {name} {CHECKS[name](program)}", flush=True)
        return True
    except Exception as fault:
        print(f"FAILED {name} {type(fault).__name__} {fault}", flush=True)
        traceback.print_exc()
        return False


def main():
    words = argparse.ArgumentParser()
    words.add_argument("--program", default=PROGRAM)
    words.add_argument("names", nargs="*", metavar="NAME")
    given = words.parse_args()
    results = [passes(name, given.program) for name in given.names or CHECKS]
    sys.exit(0 if all(results) else 1)


if __name__ == "__main__":
    main()
