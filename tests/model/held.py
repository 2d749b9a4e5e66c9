"""Plays of channels that hold things of which there are some."""

from dialplan import Action, Extension
from random_plays import ANSWER, PARK, any_channel, brackets
from waiting import Trying


class Limiting(Trying):
    """All applications, and among them limits."""

    REALMS = ("r", "r", "r", "s", "\xe9", "R")
    NAMES_HELD = ("a", "a", "a", "b", "c", "r")
    MOST = ("0", "1", "1", "1", "2", "2", "3", "4", "4294967295", "00000000000000000002")
    ODD_MOST = (
        "", "-1", "+1", "x", "1.5", "4294967296", "000000000000000000001", "18446744073709551616", "0x1", "1\t",
    )
    ODD_LIMITS = (
        "", "hash", "hash r", "hash r a", "db r a 1", "HASH r a 1", "r a 1", "hash r a 1 " + "y" * 257,
        "hash r a 1 e1 XML " + "y" * 257, "hash r a 0 e1 XML default " + "y" * 300, "hash " + "r" * 257 + " a 1",
        "hash r " + "a" * 256 + " 1", "hash r " + "a" * 257 + " 1", "hash\tr a 1", "hash r a 0 -e1",
        "hash r a 0 -both e1", "hash r ${nosuch} 1", "hash r ${a} 1", "hash r ${destination_number} 1",
        "hash ${uuid} a 1", "hash r a 1 ''",
    )

    def tried(self):
        return self.limit()

    def limit(self):
        return Action("limit", self.weighed(
            (12, lambda: f"{self.held()} {self.one_of(*self.MOST)}{self.elsewhere()}"),
            (1, lambda: f"{self.held()} {self.one_of(*self.ODD_MOST)}"),
            (1, lambda: self.one_of(*self.ODD_LIMITS)),
        ))

    def held(self):
        return f"hash {self.one_of(*self.REALMS)} {self.one_of(*self.NAMES_HELD)}"

    def elsewhere(self):
        """Where a channel goes for which there is no room."""
        behind = self.one_of("XML", "foo", "xml", "XML default", "XML nix", "XML other", "XML default more")
        return self.weighed((6, ""), (4, lambda: " " + self.number()), (1.5, lambda: f" {self.number()} {behind}"))


class Held(Limiting):
    """Calls that go on where there is room and elsewhere where there is none, and what is told of that."""

    fewest_commands = 10
    most_commands = 50

    def document(self):
        """Mostly there is an extension for those who have no room, and now and then one that holds many things."""
        document = super().document()
        extensions = document.contexts["default"]
        if self.chance(0.8):
            elsewhere = Action("transfer", self.number())
            last = self.one_of(Action("hangup", "USER_BUSY"), PARK, ANSWER, elsewhere, self.limit)
            extensions.append(Extension("limit_exceeded", (ANSWER, last) if self.chance(0.5) else (last,)))
        for name in ("holds", "holds2"):
            run = (*self.settings(), *self.some(self.limit, 1, 1, 2, 3), ANSWER, *self.some(self.later_action, 0, 1))
            extensions.append(Extension(name, (*run, PARK)))
        holds = [Action("limit", f"hash many {count} 2") for count in range(self.one_of(63, 64, 65))]
        extensions.append(Extension("many", (*holds, *self.some(self.limit, 0, 1, 2), ANSWER, PARK)))
        self.numbers = [*self.numbers, "holds", "holds", "holds2"]
        return document

    def lasting_call(self):
        usual = super().lasting_call
        return self.weighed((1, usual), (5, self.call))

    def call(self):
        called = self.weighed((4, "holds"), (3, "holds2"), (0.5, "many"), (1, self.number))
        target = self.one_of("&park()", "&park()", "holds", self.tried_target)
        line = f"api originate {brackets(list(self.braces()))}loopback/{called} {target}"
        return self.in_background(line) if self.chance(0.3) else line

    def usage(self):
        odd = ("", "hash", "hash r", "db r a", "r a", "hash  r   a  x", "Hash r a", f"hash {'r' * 257} a")
        return "api limit_usage " + self.weighed((8, self.held), (1, lambda: self.one_of(*odd, "hash many 1")))

    def command(self, session):
        usual = super().command
        channel = self.channel(session, any_channel)
        return self.chosen(
            session,
            (6, self.call),
            (4, self.usage),
            (3, lambda: usual(session)),
            (3, lambda: self.message(session)),
            (2, f"api uuid_kill {channel}"),
            (2, lambda: f"api uuid_transfer {channel} {self.one_of('holds', 'holds2', self.number())}"),
            (1, lambda: self.job(session)),
            (0.5, self.event_command),
            (0.1, lambda: self.one_of("api hupall", *self.SHUTDOWNS)),
        )
