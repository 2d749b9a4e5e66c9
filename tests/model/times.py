"""Plays of times that collide."""

from dialplan import Action, Document, Extension
from layers import Layers
from random_plays import ANSWER, LONGEST_SLEEP, ODD_CAUSE_LISTS, ODD_NUMBERS, PARK, brackets


class Times(Layers):
    """Times of every kind and moments that collide, lists of causes, and profiles as legs show them."""

    LOGGED = "|".join(
        "${" + name + "}"
        for name in (
            "ani rdnis chan_name source caller_id_name caller_id_number dialplan context uuid network_addr "
            "username destination_number signal_bond originate_disposition bridge_hangup_cause export_vars g"
        ).split()
    )
    SHOW = Action("log", LOGGED)

    def document(self):
        callers = [Extension(f"c{count}", tuple(self.calls())) for count in range(1, 5)]
        called = [Extension(f"w{count}", tuple(self.is_called(count))) for count in range(1, 4)]
        self.numbers = [extension.number for extension in callers + called]
        never = Extension("never", (Action("sleep", LONGEST_SLEEP),))
        other = Extension("w1", (self.SHOW, Action("hangup", self.cause())))
        slots = 32 if self.chance(0.85) else self.random.randint(4, 10)
        contexts = {"default": [*callers, *called, never], "other": [other]}
        return Document(contexts, slots, global_values={"g": "leg_timeout"})

    def time(self):
        return self.one_of(self.seconds, lambda: self.one_of(*ODD_NUMBERS))

    def is_called(self, count):
        yield from (self.SHOW, Action("sleep", f"{count}000"), ANSWER)
        yield self.one_of(PARK, Action("sleep", "1000"), Action("sleep", "2000"))

    def calls(self):
        if self.chance(0.8):
            yield Action("set", "continue_on_fail=" + self.one_of(*ODD_CAUSE_LISTS))
        if self.chance(0.5):
            yield Action("set", "call_timeout=" + self.time())
        yield from self.some(self.export, 0, 0, 1, 1, 2)
        if self.chance(0.2):
            yield Action("unset", self.one_of("leg_timeout", "nolocal:leg_timeout", "export_vars"))
        yield from self.some(self.pause, 0, 1)
        for _ in range(self.random.randint(1, 2)):
            yield from (Action("bridge", self.dial_string()), self.SHOW)
        yield self.one_of(PARK, Action("hangup"), ANSWER, Action("transfer", "w1"))

    def export(self):
        timed = self.one_of("leg_timeout", "originate_timeout", "call_timeout")
        others = ("origination_caller_id_name=E", "nolocal:origination_caller_id_number=77", "a=${uuid}", "g")
        return Action("export", self.weighed(
            (4, lambda: f"{self.one_of('', 'nolocal:')}{timed}={self.time()}"),
            (1, lambda: self.one_of(*others)),
        ))

    def pair(self):
        return self.weighed(
            (6, lambda: f"{self.one_of('leg_timeout', 'originate_timeout')}={self.time()}"),
            (0.5, lambda: "call_timeout=" + self.time()),
            (0.5, lambda: "origination_caller_id_name=" + self.one_of("Q", "", "L" * 300)),
            (0.5, lambda: "origination_caller_id_number=" + self.one_of("9", "", "8" * 300)),
            (0.4, lambda: "export_vars=" + self.one_of("'a,,g'", "',call_timeout'", "a")),
            (0.9, lambda: self.one_of("a=1", "continue_on_fail=true")),
        )

    def braces(self):
        return self.some(self.pair, 0, 0, 1, 2, 3)

    def leg(self):
        pairs = self.some(self.pair, 0, 0, 1, 2)
        return brackets(pairs[:1], "[", "]") + brackets(pairs[1:], "[", "]") + self.endpoint()

    def endpoint(self):
        return self.weighed(
            (11, lambda: f"loopback/{self.one_of('never', *self.numbers or ['w1', 'w2', 'w3', 'c2'])}"),
            (1.5, lambda: "error/" + self.cause()),
            (0.8, lambda: self.one_of("loopback/none", "loopback/w1/other")),
        )

    def originate(self):
        line = super().originate()
        if self.chance(0.35):
            name, number = self.one_of("Al", "'A l'", "''", "N" * 300), self.one_of("55", "''")
            line += f" XML default {name} {number} {self.time()}"
        return line

    def target(self):
        return self.weighed((4, super().target), (1, f"&log({self.LOGGED})"))
