"""Plays of bridges that form rings."""

from dialplan import Action, Document, Extension
from random_plays import ANSWER, LONGEST_SLEEP, PARK, Kind, answered_alone, brackets, bridged


class Rings(Kind):
    """Dialled and joined bridges over pairs of partners, and then one cause that runs round them."""

    def document(self):
        callers = [Extension(f"e{count}", tuple(self.calls(count))) for count in range(1, 5)]
        called = [Extension(f"p{count}", tuple(self.is_called())) for count in range(1, 4)]
        self.numbers = [extension.number for extension in callers + called]
        never = Extension("never", (Action("sleep", LONGEST_SLEEP),))
        return Document({"default": [*callers, *called, never]})

    def endings(self, likely):
        if self.chance(likely):
            yield "hangup_after_bridge=true"
        if self.chance(0.15):
            yield "park_after_bridge=true"

    def calls(self, count):
        numbers = ["p1", "p2", "p3", *([f"e{count + 1}"] if count < 4 else [])]
        yield from (Action("set", ending) for ending in self.endings(0.5))
        if self.chance(0.7):
            yield ANSWER
        legs = ",".join(self.some(lambda: "loopback/" + self.random.choice(numbers), 1, 1, 2))
        yield Action("bridge", brackets(list(self.endings(0.55))) + legs)
        yield self.one_of(PARK, Action("sleep", "60000"), Action("bridge", "loopback/p2"))

    def is_called(self):
        yield from (Action("set", ending) for ending in self.endings(0.4))
        if self.chance(0.3):
            yield Action("sleep", self.one_of("1000", "2000"))
        yield ANSWER
        yield self.one_of(PARK, Action("sleep", "60000"), Action("bridge", "loopback/never,loopback/p1"))

    def commands(self, session):
        yield from self.first_commands()
        for _ in range(self.random.randint(2, 4)):
            yield self.originate()
        yield "api msleep 3000"
        for _ in range(self.random.randint(1, 4)):
            yield from self.join_some(session)
            yield from self.some(lambda: self.command(session), 1, 2)
        yield "exit"

    def originate(self):
        number = self.one_of(*self.numbers)
        dials = f"&bridge(loopback/{self.one_of(*self.numbers)})"
        target = self.one_of("&park()", "&sleep(60000)", dials, number)
        return f"api originate {brackets(list(self.endings(0.55)))}loopback/{number} {target}"

    def join_some(self, session):
        """Preferred are channels whose partners are bridged, so that rings come of it."""
        for _ in range(self.random.randint(1, 5)):
            free = list(filter(answered_alone, session.switch.live_channels()))
            if len(free) < 2:
                return
            first = self.random.choice(free)
            others = [channel for channel in free if channel is not first]
            near = [channel for channel in others if channel.partner.bridge or self.chance(0.4)]
            yield f"api uuid_bridge {first.identifier} {self.random.choice(near or others).identifier}"

    def command(self, session):
        channel = self.channel(session, bridged)
        return self.weighed(
            (5, lambda: f"api uuid_kill {channel} {self.cause()}"),
            (3, f"api uuid_park {channel}"),
            (3, lambda: f"api uuid_transfer {channel} {self.number()}"),
            (1, "api msleep 1000"),
        )
