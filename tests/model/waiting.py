"""Plays of queues, and how plays try an application among others."""

from channels import Wait
from dialplan import Action, Extension
from further import Further, parked
from random_plays import PARK, any_channel, brackets, bridged, waits


def queued(channel):
    return channel.wait is Wait.QUEUE


def taking(channel):
    return channel.wait is Wait.CALLER


def dialing(channel):
    return channel.wait is Wait.LEGS and channel.answered


class Trying(Further):
    """All applications, and among them those that a kind of plays tries."""

    QUEUES = ("g", "F", "a!b", "!", "q" * 1100, "\xe9%:=")
    IMPORTANCE = ("", "", "", "", "!5", "!", "!x!9")
    HOWS = (
        "", "", " wait", " wait", " nowait", " nowait", "  nowait ", " NoWait", " x", " nowait x",
        " x nowait",
    )
    PRIORITIES = (
        *"0123456789", *"4646", "1", "9", "05", "10", "", "x", "-1", "' 3'", "_undef_", "\xb2", "\xb3",
    )
    ODD_FIFOS = (
        "", "f", "in", "out", "f In", "f OUT", "f wait", "f x in", "!5 in", "! out", "f\tin", "f ! in",
        "f in\t", "in in", "out out nowait", "${a} in", "${open in", "f, in", "f,g in", "f undo",
    )
    NAMES_OF_EVENTS = (
        "event plain ALL", "event plain ALL", "event plain CUSTOM fifo::info", "event CUSTOM fifo::info",
        "event CUSTOM x  fifo::info y", "event CUSTOM", "event CUSTOM ALL", "event CUSTOM FIFO::INFO",
        "event ALL CUSTOM x", "event CHANNEL_BRIDGE CUSTOM fifo::info CHANNEL_STATE",
        "event CHANNEL_UNBRIDGE fifo::info CUSTOM", "nixevent CUSTOM", "nixevent CUSTOM fifo::info",
        "nixevent CUSTOM fifo::info", "nixevent CUSTOM x", "nixevent ALL", "nixevent ALL CUSTOM fifo::info",
        "nixevent CHANNEL_STATE CUSTOM",
    )
    FILTERS = (
        "Event-Subclass fifo::info", "FIFO-Name f", "FIFO-Name f!5", "FIFO-Name g", "FIFO-Action push",
        "FIFO-Action abort", "FIFO-Action caller_pop", "Event-Name CUSTOM", "delete Event-Name",
        "delete FIFO-Name", "delete FIFO-Action", "delete Event-Subclass", "delete Event-Subclass fifo::info",
    )

    def __init__(self, seed):
        super().__init__(seed)
        self.further_queues = self.weighed((5, 0.03), (3, 0.25), (1, 0.6))

    def tried(self):
        raise NotImplementedError

    def action(self):
        usual = super().action
        return self.weighed((3, usual), (1, self.tried))

    def later_action(self):
        usual = super().later_action
        return self.weighed((4, usual), (1, self.tried))

    def told_action(self):
        usual = super().told_action
        return self.weighed((3, usual), (2, self.tried))

    def target(self):
        usual = super().target
        return self.weighed((4, usual), (1, self.tried_target))

    def tried_target(self):
        tried = self.tried()
        return f"'&{tried.application}({tried.data})'"

    def fifo(self):
        return Action("fifo", self.weighed(
            (5, lambda: self.queue() + " in" + self.one_of("", "", "", " ", " out", " nowait")),
            (5, lambda: self.queue() + " out" + self.one_of(*self.HOWS)),
            (0.7, lambda: self.one_of(*self.ODD_FIFOS)),
        ))

    def queue(self):
        """Mostly one and the same, so that callers and takers meet."""
        name = self.one_of(*self.QUEUES) if self.chance(self.further_queues) else "f"
        return name + self.one_of(*self.IMPORTANCE)

    def event_command(self):
        usual = super().event_command
        return self.weighed(
            (2, usual),
            (3, lambda: self.one_of(*self.NAMES_OF_EVENTS)),
            (2, lambda: "filter " + self.one_of(*self.FILTERS)),
        )


class Queues(Trying):
    """Callers and takers of queues, what moves them and their partners, and what is told of queues."""

    fewest_commands = 8
    most_commands = 45

    def __init__(self, seed):
        super().__init__(seed)
        counts = range(1, self.one_of(2, 3, 4))
        self.numbers += [f"{does}{count}" for does in ("in", "out") for count in counts]

    def document(self):
        """Now and then one with room for many callers."""
        document = super().document()
        if self.chance(0.25):
            document.slots = 128
        return document

    def extension(self, layer):
        number = self.numbers[layer]
        if number.startswith(("in", "out")):
            return Extension(number, tuple(self.of_queue(number.rstrip("0123456789"))))
        return super().extension(layer)

    def tried(self):
        return self.fifo()

    def of_queue(self, does):
        """What a caller does, or a taker."""
        yield from self.settings()
        if does == "in" and self.chance(0.6):
            yield Action("set", "fifo_priority=" + self.one_of(*self.PRIORITIES).replace("'", ""))
        yield from self.some(self.pause, 0, 0, 1)
        how = self.one_of(*self.HOWS) if does == "out" else ""
        yield Action("fifo", f"{self.queue()} {does}{how}")
        yield from self.some(self.behind_queue, 0, 1, 1, 2)

    def behind_queue(self):
        return self.weighed(
            (3, PARK),
            (3, self.fifo),
            (2, lambda: Action("transfer", self.called())),
            (2, lambda: Action("sleep", self.one_of("500", "1000", "60000"))),
            (2, self.later_action),
        )

    def pair(self):
        usual = super().pair
        return self.weighed((4, usual), (1, lambda: "fifo_priority=" + self.one_of(*self.PRIORITIES)))

    def first_commands(self):
        of_queues = ("CUSTOM fifo::info", "CHANNEL_BRIDGE CUSTOM fifo::info", "CUSTOM", "CUSTOM ALL")
        subscribed = self.weighed((6, "ALL"), (4, lambda: self.one_of(*of_queues, "CHANNEL_EXECUTE")))
        return ["auth ClueCon", "event plain " + subscribed]

    def lasting_call(self):
        usual = super().lasting_call
        return self.weighed((1, usual), (4, self.call))

    def call(self):
        """A call to a queue, or one whose own leg enters or takes."""
        priority = [f"fifo_priority={self.one_of(*self.PRIORITIES)}"] if self.chance(0.3) else []
        url = brackets(priority + list(self.braces())) + "loopback/" + self.called()
        lasting = ("&park()", "&park()", "&park()", "&sleep(60000)", "&bridge(loopback/rings)")
        target = self.weighed((5, lambda: self.one_of(*lasting)), (2, self.tried_target), (2, self.target))
        line = f"api originate {url} {target}"
        return self.in_background(line) if self.chance(0.4) else line

    def called(self):
        does = self.weighed((4, "in"), (3, "out"), (1, "e"))
        return self.one_of(*(number for number in self.numbers if number.startswith(does)))

    def moved(self, session):
        return self.channel(session, queued, queued, taking, bridged, waits, any_channel)

    def target_of_command(self, session):
        return self.channel(session, queued, queued, taking, bridged, parked, parked, any_channel)

    def joined(self, session):
        """Mostly one who waits in a queue is joined to another channel, which may have legs of its own."""
        names = [
            self.channel(session, queued, queued, taking),
            self.channel(session, queued, dialing, dialing, parked, any_channel),
        ]
        self.random.shuffle(names)
        return "api uuid_bridge " + " ".join(names)

    def said_to(self, session):
        channel = self.target_of_command(session)
        return self.one_of(
            lambda: f"api uuid_setvar {channel} fifo_priority {self.one_of(*self.PRIORITIES)}",
            lambda: f"api uuid_setvar {channel} hangup_after_bridge {self.one_of('true', 'true', '')}",
            f"api uuid_getvar {channel} signal_bond",
            f"api uuid_dump {channel}",
            f"api uuid_setvar {channel} park_after_bridge true",
        )

    def crowd(self):
        """Several calls, of which most wait in queues."""
        return "\n\n".join(self.some(self.call, 3, 5, 8))

    def command(self, session):
        usual = super().command
        return self.chosen(
            session,
            (5, lambda: usual(session)),
            (6, self.call),
            (0.3, self.crowd),
            (4, lambda: self.message(session)),
            (1, lambda: self.joined(session)),
            (1.5, lambda: self.said_to(session)),
            (1.5, lambda: self.job(session)),
            (2, self.event_command),
            (0.15, lambda: self.one_of(*self.SHUTDOWNS)),
        )
