"""Hunts: what `fsw hunt` prints, of documents whose conditions have times, and the faults that times may have.

A line is printed for each action: the application, a space, and the data as it stands, escaped. The hunt is at
the minute in which the clock begins, for a call of which nothing is known but where it goes. A document with a
fault is refused: an attribute that is malformed, one that conditions may not have here, or a setting out of its
range. The fault in front is told, with its place.
"""

import random
import re

from channels import Channel, Profile
from dialplan import Action, Document, Extension, hunt
from frames import escape
from hourly import odd_time, some_times
from hours import FIELDS, REFUSED, Malformed, values
from session import Journal, Result
from switch import Switch
from variables import OF_CHANNELS, Variables, read_number

LAST_BASE = 253370000000
MOST_OFFSET = 1439

TIMED = re.compile(r'<condition( [^>]*)>|<param name="(time-base|time-offset)" value="([^"]*)"/>')
ATTRIBUTE = re.compile(r' ([a-z-]+)="([^"]*)"')


def printed(document, context, number):
    fault = first_fault(document.written())
    if fault:
        return Result("", 3, fault)
    switch = Switch(document, Journal(document.journal_limit), coming=True)
    profile = Profile(number, context, "", "", "", "", "", source="fsw")
    actions = hunt(switch, Channel(1, "inbound", profile, Variables(OF_CHANNELS)))
    lines = [f"{action.application} {escape(action.data)}\n" for action in actions]
    return Result("".join(lines) or "NO_ROUTE_DESTINATION\n")


def first_fault(text):
    """What is said of the first fault of the times and settings of a document, from left to right."""
    for found in TIMED.finditer(text):
        attributes, setting, value = found.groups()
        if setting and not in_range(setting, value):
            return f"fsw: BadSetting at {found.start()}"
        for one in ATTRIBUTE.finditer(attributes or ""):
            kind = fault_of(*one.groups())
            if kind:
                return f"fsw: {kind} at {found.start(1) + one.start(1)}"
    return None


def in_range(setting, value):
    """A base is a multiple of a minute. An offset may have a minus in front."""
    if setting == "time-base":
        number = read_number(value)
        return number is not None and number <= LAST_BASE and number % 60 == 0
    number = read_number(value.removeprefix("-"))
    return number is not None and number <= MOST_OFFSET


def fault_of(name, text):
    if name in REFUSED:
        return "TimeAttribute"
    if name in FIELDS:
        try:
            values(name, text)
        except Malformed:
            return "BadAttribute"
    return None


def made(seed):
    """The words of a hunt, its document, and what is printed."""
    chosen = Hunt(seed)
    return ("default", chosen.number), chosen.document, printed(chosen.document, "default", chosen.number)


class Hunt:
    """A small document whose extensions have times, of a seed, and where a call of it goes.

    An attribute does not stand twice. Where one has, it has the text that is last.
    """

    SETTINGS = (
        "0", "60", "61", "x", "", "-60", "253369999980", "253370000040", "253370000000", "00000000000000000060",
    )
    OFFSETS = ("0", "1439", "-1439", "1440", "-1440", "--1", "- 1", "x", "1.0", "-")

    def __init__(self, seed):
        self.random = random.Random(f"hunts {seed}")
        self.odd = self.random.random() < 0.4
        base, offset = self.base(), self.offset()
        self.minute = base // 60 + offset if isinstance(base, int) and isinstance(offset, int) else 0
        made = [self.extension(count) for count in range(1, self.random.randint(2, 6))]
        self.document = Document({"default": made}, time_base=base, time_offset=offset)
        self.number = self.random.choice(("1", "1", "1", "2"))

    def base(self):
        if self.odd and self.random.random() < 0.2:
            return self.random.choice(self.SETTINGS)
        return 60 * self.random.choice((0, 540, 3420, self.random.randrange(4222833334)))

    def offset(self):
        if self.odd and self.random.random() < 0.2:
            return self.random.choice(self.OFFSETS)
        return self.random.choice((0, 0, 1, -1, 60, -300, 1439, -1439))

    def extension(self, count):
        """One says that it is open, and mostly another one when it is not."""
        times = some_times(self.random, self.minute)
        if self.odd and self.random.random() < 0.3:
            times += (odd_time(self.random),)
        opened = (Action("set", "o=${o}x", inline=True), Action("log", f"open {count} ${{o}}"))
        closed = (Action("log", f"closed {count}"), Action("set", "o=${o}y", inline=True))
        return Extension(
            self.random.choice("1112"),
            opened[: self.random.choice((1, 2, 2, 2))],
            self.random.random() < 0.4,
            tuple(dict(times).items()),
            closed[: self.random.choice((0, 0, 1, 2))],
        )
