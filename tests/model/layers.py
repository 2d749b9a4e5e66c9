"""Plays of calls that dial calls, in layers."""

from dialplan import Action, Document, Extension
from random_plays import ANSWER, PARK, Kind, answered_alone, any_channel, brackets, bridged, rings, waits


class Layers(Kind):
    """Extensions dial mostly those above them. Commands go to channels that wait, at moments that collide."""

    def __init__(self, seed):
        super().__init__(seed)
        self.numbers = [f"e{count}" for count in range(1, self.random.randint(5, 8) + 1)]
        self.contexts = ["default", "other"] if self.chance(0.4) else ["default"]
        self.least = 0
        self.likely = self.random.choice([0.1, 0.3, 0.5])
        self.sleeps = self.one_of(("1000",), ("1000", "2000"), ("500", "1000", "1500", "2000", "3000"))

    def document(self):
        layers = range(len(self.numbers))
        contexts = {context: [self.extension(layer) for layer in layers] for context in self.contexts}
        self.least = 0
        return Document(contexts, slots=32 if self.chance(0.8) else self.random.randint(4, 12))

    def number(self):
        """Mostly one above the layer in hand."""
        if self.chance(0.93) and self.numbers[self.least :]:
            return self.random.choice(self.numbers[self.least :])
        return super().number()

    def extension(self, layer):
        self.least = layer + 1
        is_last = self.least >= len(self.numbers) or self.chance(0.35)
        actions = [
            *self.settings(),
            *self.some(self.pause, 0, 1, 2),
            ANSWER if is_last else Action("bridge", self.dial_string()),
            *self.some(self.later_action, 0, 1, 2),
        ]
        if is_last and self.chance(0.5):
            actions.append(Action("sleep", self.one_of("60000", "3000", "5000")))
        return Extension(self.numbers[layer], tuple(actions))

    def settings(self):
        """What a channel sets for the end of its bridges and for their failures."""
        if self.chance(self.likely):
            yield Action("set", "hangup_after_bridge=true")
        if self.chance(self.likely):
            yield Action("set", "park_after_bridge=true")
        if self.chance(self.likely * 0.6):
            yield Action("export", self.one_of("nolocal:park_after_bridge=true", "park_after_bridge=true"))
        if self.chance(0.5):
            causes = self.one_of("true", "true", "USER_BUSY,3", "17", "CALL_REJECTED")
            yield Action("set", "continue_on_fail=" + causes)
        if self.chance(0.25):
            yield Action("set", "call_timeout=" + self.seconds())

    def sleep(self):
        return Action("sleep", self.one_of(*self.sleeps))

    def pause(self):
        return self.one_of(ANSWER, self.sleep)

    def later_action(self):
        return self.weighed(
            (6, self.pause),
            (2, PARK),
            (1, lambda: Action("hangup", self.cause())),
            (1.5, lambda: Action("bridge", self.dial_string())),
            (1, lambda: Action("transfer", self.number())),
            (0.5, Action("eval")),
        )

    def dial_string(self):
        return brackets(list(self.braces())) + self.legs(self.leg, 1, 1, 1, 1, 2, 3)

    def braces(self):
        if self.chance(self.likely):
            yield "park_after_bridge=true"
        if self.chance(self.likely * 0.5):
            yield "hangup_after_bridge=true"
        if self.chance(0.2):
            yield "originate_timeout=" + self.seconds()
        if self.chance(0.1):
            yield "origination_uuid=" + self.short_name()

    def leg(self):
        pairs = [self.pair()] if self.chance(0.25) else []
        return brackets(pairs, "[", "]") + self.endpoint()

    def pair(self):
        return self.weighed(
            (3, lambda: "leg_timeout=" + self.seconds()),
            (4, "park_after_bridge=true"),
            (1, "hangup_after_bridge=true"),
            (1, lambda: "origination_uuid=" + self.short_name()),
            (1, "a=1"),
        )

    def endpoint(self):
        return self.weighed(
            (12, lambda: "loopback/" + self.number()),
            (0.5, lambda: f"loopback/{self.number()}/{self.one_of(*self.contexts)}"),
            (1.3, lambda: "error/" + self.cause()),
        )

    def command(self, session):
        few = len(session.switch.live_channels()) < 6
        return self.weighed(
            (9 if few else 4, self.originate),
            (3.5, lambda: f"api uuid_kill {self.moved(session)} {self.one_of('', self.cause)}".rstrip()),
            (5, lambda: self.uuid_bridge(session)),
            (4, lambda: f"api uuid_park {self.moved(session)}"),
            (4, lambda: f"api uuid_transfer {self.moved(session)} {self.number()}"),
            (0.3, lambda: self.one_of("api hupall", "api hupall USER_BUSY")),
            (5, lambda: "api msleep " + self.one_of(*self.sleeps, "500", "1000")),
            (0.7, lambda: f"api uuid_getvar {self.channel(session)} {self.told_variable()}"),
        )

    def moved(self, session):
        return self.channel(session, waits, waits, rings, bridged, any_channel)

    def uuid_bridge(self, session):
        caller, other = (self.channel(session, answered_alone) for _ in range(2))
        return f"api uuid_bridge {caller} {other}"

    def told_variable(self):
        return self.one_of(
            "signal_bond", "bridge_hangup_cause", "originate_disposition", "hangup_cause", "export_vars", "a"
        )

    def originate(self):
        self.least = self.one_of(0, 1)
        line = f"api originate {self.dial_string()} {self.target()}"
        self.least = 0
        return line

    def target(self):
        return self.weighed(
            (3, "&park()"),
            (3, self.number),
            (4, lambda: f"'&bridge({self.unquoted_dial_string()})'"),
            (0.5, "&answer()"),
            (0.5, "&sleep(1000)"),
        )

    def unquoted_dial_string(self):
        return self.dial_string().replace("'", "")
