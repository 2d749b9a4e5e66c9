"""Damaged inputs that are given to a real server, over its port."""

import random
import time
from collections import Counter

from mutate import damaged
from mutations import Case, alone
from served import GREETING, Served, give, read_all, with_port

# So many connections come to one server.
A_SERVER = 250

# A connection that has nothing more to say for so long is left: what it waits for may take an hour.
SILENCE = 0.03

SECONDS = 20

ENTERS = b"auth ClueCon\n\n"


def document_of(chance, program, plays):
    """A document that is read, and names no port or password of its own."""
    while True:
        document = chance.choice(plays).document
        served = Case(("check", "f"), with_port(document, 1), b"")
        if b"configuration" not in document and alone(program, served).status == 0:
            return document


class Visits:
    """Connections to one server, one after another."""

    def __init__(self, server, chooser, chance):
        self.server = server
        self.chooser = chooser
        self.chance = chance
        self.given = []
        self.ended = 0

    def input(self):
        plays = self.chooser.plays
        return damaged(self.chance, self.chance.choice(plays).given, self.chance.choice(plays).given)

    def visit(self):
        """Why no further connection can come, if so: the fault, or an empty text where there is none."""
        end = self.server.end()
        if end is None:
            return ""
        with end:
            data = self.input()
            self.given.append(data)
            give(end, data)
            got, ended = read_all(end, SECONDS, SILENCE if len(self.given) % 10 else 1)
        self.ended += ended
        if not GREETING.startswith(got[: len(GREETING)]):
            return f"{got[:80]!r} was read first"
        return None if got else ""

    def run(self):
        for _ in range(A_SERVER):
            fault = self.visit()
            if fault is not None:
                return fault
        return ""


def shut(server, end):
    """Ends the server by a connection that came first. Says what is wrong, if anything is."""
    give(end, ENTERS + b"api fsctl shutdown\n\n")
    read_all(end, SECONDS)
    if server.ends(SECONDS) is None:
        return "the server does not end"
    return server.fault((0, 8))


def one_server(program, chooser, chance):
    """How many connections there were, how many of them ended by themselves, and what was wrong."""
    document = document_of(chance, program, chooser.plays)
    with Served(program, document) as server:
        first = server.listens()
        if first is None:
            return Visits(server, chooser, chance), document, "the server does not listen"
        with first:
            visits = Visits(server, chooser, chance)
            fault = visits.run() or shut(server, first)
        return visits, document, fault


def links(program, chooser, folder, numbers):
    """Tries so many connections, and says how many servers failed."""
    begun, count, told = time.monotonic(), 0, Counter()
    while count < len(numbers):
        name = f"{chooser.seed} {numbers.start + count}"
        visits, document, fault = one_server(program, chooser, random.Random(f"links {name}"))
        count += len(visits.given)
        told["servers"] += 1
        told["links that ended by themselves"] += visits.ended
        if fault:
            told["failed"] += 1
            print(f"  server of {name}: {fault}; its last input was {visits.given[-1:]!r}")
            print(f"  and its document {document!r}", flush=True)
        if told["servers"] % 20 == 0:
            print(f"  {count} links, {count / (time.monotonic() - begun):.0f} a second", flush=True)
    word = "FAILED" if told["failed"] else "ok"
    print(f"{word} links: {count} links, {dict(told)}", flush=True)
    return told["failed"]
