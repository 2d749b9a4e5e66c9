"""Loads: many calls that a number gives, and how many events and hangups of each kind they have."""

import random

from dialplan import Action, Document, Extension
from random_plays import ANSWER, ODD_NUMBERS, PARK
from session import Result, Session
from tables import CAUSES, EVENTS
from variables import read_number

MOST_CALLS = 100000
USAGE = "usage: fsw check FILE | hunt FILE CONTEXT DEST | play FILE | load COUNT START | serve FILE"

MULTIPLIER = 6364136223846793005
INCREMENT = 1442695040888963407


def document():
    """Nothing is there for the fourth digit."""
    extensions = [
        Extension("d0", (ANSWER, PARK)),
        Extension("d1", (Action("hangup", "USER_BUSY"),)),
        Extension("d2", (Action("sleep", "200"), ANSWER, PARK)),
    ]
    return Document({"default": extensions}, journal_limit=1073741824)


def blocks(count, start):
    """Each call goes to the extension of a digit, and is hung up with all that came of it."""
    yield "auth ClueCon\n\n"
    number = start
    for _ in range(count):
        number = (number * MULTIPLIER + INCREMENT) % 2**64
        yield f"api originate loopback/d{number // 2**33 % 4} &park()\n\n"
        yield "api hupall\n\n"
    yield "exit\n\n"


def printed(*words):
    """What `fsw load` prints with these words behind it."""
    numbers = [read_number(word) for word in words]
    if len(numbers) != 2 or None in numbers or not 1 <= numbers[0] <= MOST_CALLS:
        return Result("", 2, USAGE)
    session = Session(document())
    ended = session.play(blocks(*numbers))
    counts = "".join(f"{line}\n" for line in lines(numbers[0], session))
    return Result(counts, ended.status, ended.error)


def lines(count, session):
    yield f"calls {count}"
    yield from (f"cause {name} {session.hangups[name]}" for name in CAUSES if session.hangups[name])
    yield from (f"event {name} {session.events_told[name]}" for name in EVENTS if session.events_told[name])


def words(seed):
    """Mostly a few calls with any start, and now and then words that are none of a load."""
    chosen = random.Random(f"load {seed}")
    count, start = str(chosen.randint(1, 60)), str(chosen.randrange(2**64))
    if chosen.random() < 0.7:
        return count, start
    odd = chosen.choice((*ODD_NUMBERS, "100001", "2x", "18446744073709551616"))
    return chosen.choice(((odd, start), (count, odd), (odd,), (), (count, start, odd)))
