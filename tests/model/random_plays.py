"""What all kinds of random plays share: choices by weight, and channels that suit the play so far."""

import random

from channels import Wait
from dialplan import Action
from tables import identifier

LONG_PLAY = 4000
LONGEST_SLEEP = "3600000"

ANSWER = Action("answer")
PARK = Action("park")

SOME_CAUSES = (
    "USER_BUSY",
    "NO_ANSWER",
    "CALL_REJECTED",
    "NO_ROUTE_DESTINATION",
    "ORIGINATOR_CANCEL",
    "LOSE_RACE",
    "NO_USER_RESPONSE",
    "NORMAL_CLEARING",
    "frob",
)

ODD_NUMBERS = (
    "0",
    "1",
    "2",
    "3",
    "5",
    "007",
    "0060",
    "3600",
    "3601",
    LONGEST_SLEEP,
    "3600001",
    "00000000000000000002",
    "000000000000000000002",
    "18446744073709551615",
    "18446744073709551617",
    "+2",
    "-1",
    " 2",
    "2 ",
    "",
    "x",
    "1.5",
    "2s",
    "_undef_",
)

ODD_CAUSE_LISTS = (
    "17",
    "00000000000000000017",
    "000000000000000000017",
    "017,021",
    "016",
    "+17",
    "0x11",
    "17.0",
    "17 ,21",
    " 17",
    "true",
    "true,17",
    "TRUE",
    "true ",
    ",",
    "USER_BUSY,",
    "USER_BUSY,3",
    "user_busy",
    "3,17,21",
    "CALL_REJECTED,NO_ROUTE_DESTINATION",
    "NORMAL_UNSPECIFIED",
    "41,28,31,42",
    "_undef_",
    "false",
    "1,7",
    "502",
    "27",
)


def brackets(pairs, opening="{", closing="}", separator=","):
    """Pairs in a bracket, or nothing where there are none."""
    chosen = "" if separator == "," else f"^^{separator}"
    return opening + chosen + separator.join(pairs) + closing if pairs else ""


def answered_alone(channel):
    """A channel in no bridge that a command can join to another one."""
    return channel.answered and not channel.bridge and channel.leg is None


def waits(channel):
    return channel.wait in (Wait.LEGS, Wait.BRIDGE, Wait.SLEEP)


def bridged(channel):
    return channel.bridge is not None


def rings(channel):
    return channel.leg is not None or channel.partner.leg is not None


def any_channel(_channel):
    return True


class Kind:
    """A random play, made of a seed. A kind says which document it has and which command comes next."""

    fewest_commands = 5
    most_commands = 30

    def __init__(self, seed):
        self.random = random.Random(f"{type(self).__name__} {seed}")
        self.numbers = []

    def document(self):
        raise NotImplementedError

    def command(self, session):
        raise NotImplementedError

    def first_commands(self):
        return ["auth ClueCon", "event plain ALL"]

    def commands(self, session):
        """Each command is chosen when those before it have been played."""
        yield from self.first_commands()
        for _ in range(self.random.randint(self.fewest_commands, self.most_commands)):
            if len(session.written) > LONG_PLAY:
                break
            yield self.command(session)
        if self.chance(0.5):
            yield "exit"

    def pieces(self, session):
        """The input, a block for each command."""
        return map(self.block, self.commands(session))

    def block(self, line):
        return f"{line}\n\n"

    def chance(self, probability):
        return self.random.random() < probability

    def one_of(self, *choices):
        return self.made(self.random.choice(choices))

    def weighed(self, *choices):
        """One of pairs of a weight and a choice."""
        weights, values = zip(*choices)
        return self.made(self.random.choices(values, weights)[0])

    def made(self, choice):
        """A choice is a value, or a function that makes one."""
        return choice() if callable(choice) else choice

    def some(self, make, *counts):
        """As many of what is made as one of the counts says."""
        return [make() for _ in range(self.random.choice(counts))]

    def number(self):
        return self.weighed((30, lambda: self.one_of(*self.numbers)), (1, "none"))

    def cause(self):
        return self.one_of(*SOME_CAUSES)

    def seconds(self):
        return self.one_of("1", "1", "2", "3")

    def short_name(self):
        """An identifier that several legs may be given."""
        return f"Z{self.random.randint(1, 6)}"

    def channel(self, session, *preferences):
        """The identifier of a live channel, mostly one that fits a preference. Now and then of none."""
        live = session.switch.live_channels()
        if not live or self.chance(0.04):
            drawn = session.switch.identifiers_drawn
            return self.one_of(self.short_name, "x", lambda: identifier(self.random.randint(1, drawn + 2)))
        preferred = self.random.choice(preferences or [any_channel])
        fitting = [channel for channel in live if preferred(channel)]
        return self.random.choice(fitting if fitting and self.chance(0.85) else live).identifier

    def legs(self, leg, *groups):
        """Groups of legs, as many legs in each as one of the counts says."""
        return "|".join(self.some(lambda: ",".join(self.some(leg, 1, 1, 1, 1, 2, 2, 3)), *groups))
