"""Plays of odd bytes, of values at their limits, and of a journal that fills."""

from dialplan import Action, Document, Extension
from layers import Layers
from random_plays import ANSWER, ODD_NUMBERS, PARK
from session import LARGEST_COST
from tables import EVENTS, State, identifier


class Bytes(Layers):
    """Odd bytes, odd names and identifiers, large tables, and extensions behind which the hunt goes on."""

    IDENTIFIERS = (
        "46530000-0000-8000-8000-000000000001",
        "46530000000080008000000000000001",
        "'{46530000-0000-8000-8000-000000000001}'",
        "urn:uuid:46530000-0000-8000-8000-00000000000F",
        "46530000-0000-8000-ABCD-00000000000F",
        "4653000000008000ABCDabcdef012345",
        "46530000-0000-8000-8000-00000000000",
        "46530000-0000-8000-8000-0000000000001",
        "46530001-0000-8000-8000-000000000001",
        "46530000-0000-4000-8000-000000000001",
        "Z" * 64,
        "Z" * 65,
        "'c,d'",
        "e\xe9",
        "~",
        "x\x7fy",
        "Z1",
        "Z2",
    )
    NAMES = ("a", "p%", "q:r", "\xc3\xa9", "t\tu", "b\\", "A", "m/n", "hangup_cause", "signal_bond", "uuid")
    VALUES = ("1", "w\tx", "%\xc2\xa7", "_undef_", "${a}${a}", "${uuid}", "\xff", "\x7f")

    def assignment(self):
        return f"{self.one_of(*self.NAMES, 'x y', 'k=')}={self.one_of(*self.VALUES)}"

    def braces(self):
        yield from super().braces()
        if self.chance(0.2):
            yield "origination_uuid=" + self.one_of(*self.IDENTIFIERS)
        if self.chance(0.2):
            yield self.one_of(*self.NAMES) + "=" + self.one_of(*self.VALUES, "%41", "a\\,b")

    def document(self):
        document = super().document()
        contexts = {
            context: [made for extension in extensions for made in self.changed(extension)]
            for context, extensions in document.contexts.items()
        }
        return Document(contexts, slots=self.one_of(32, 32, 64, 128, 256, 3, 5))

    def changed(self, extension):
        """An extension in front behind which the hunt goes on, and a few actions more."""
        if self.chance(0.25):
            inline = Action("set", self.assignment(), inline=self.chance(0.5))
            yield Extension(extension.number, (inline, Action("log", "${a}|${x y}|${uuid}")), continues=True)
        if self.chance(0.07):
            yield Extension(extension.number, ())
        actions = list(extension.actions)
        if self.chance(0.4):
            put = Action(self.one_of("set", "export"), self.assignment())
            actions.insert(self.random.randint(0, len(actions)), put)
        if self.chance(0.1):
            behind = self.one_of(" xml", " XML", " XML other", " XML nix")
            actions.append(Action("transfer", self.number() + behind))
        if self.chance(0.1):
            actions.insert(0, Action("bridge", "loopback/" + extension.number))
        yield Extension(extension.number, tuple(actions))

    def legs(self, leg, *groups):
        if self.chance(0.03):
            return ",".join(["loopback/" + self.number()] * self.one_of(20, 33, 64, 65))
        return super().legs(leg, *groups)


class Limits(Layers):
    """Values and names at their limits, expansion, globals, filters and subscriptions."""

    LARGEST = "x" * 16384
    ACTIONS = (
        Action("set", "a=" + LARGEST),
        Action("set", "b=" + LARGEST),
        Action("set", "b=" + "y" * 16381),
        Action("set", "b=" + "y" * 16382),
        Action("set", "b=" + "y" * 16383),
        Action("set", "a=x" + LARGEST),
        Action("log", "${a}${a}${a}${a}"),
        Action("log", "${a}${a}${a}${a}1"),
        Action("log", "\\${a} ${a:-3} ${a:2:2} ${a:x} ${open"),
        Action("transfer", "${a}"),
        Action("set", "${a:0:256}=1"),
        Action("set", "${a:0:257}=1"),
        Action("set", "hangup_cause=" + LARGEST),
        Action("set", "signal_bond=${a}"),
        Action("export", "a=" + LARGEST),
        Action("export", "nolocal:zz=${b}"),
        Action("export", "${a:0:256}=q"),
        Action("bridge", "loopback/${a:0:256}"),
        Action("bridge", "loopback/${a:0:257}"),
        Action("bridge", "loopback/e5//${a:0:3}"),
        Action("bridge", "{b=${b}}loopback/e5,error/USER_BUSY"),
        Action("bridge", "[b=${b},c=${a}]loopback/e5,loopback/e4"),
        Action("set", "a=", inline=True),
        Action("set", "a=" + LARGEST, inline=True),
        Action("set", "c=${a}${a}${a}${a}${a}", inline=True),
        Action("transfer", "e5 ${a:0:256}"),
        Action("transfer", "e5 XML ${a:0:257}"),
        Action("transfer", "e5 XML default ${a}"),
        Action("set_global", "g=${a}"),
        Action("unset", "a=1"),
    )

    def document(self):
        document = super().document()
        for extensions in document.contexts.values():
            extensions[:] = [self.with_more(extension) for extension in extensions]
        return document

    def with_more(self, extension):
        first = [Action("set", "a=" + self.LARGEST)] if self.chance(0.3) else []
        actions = [*first, *extension.actions]
        for added in self.some(lambda: self.one_of(*self.ACTIONS), 0, 1, 2, 3):
            actions.insert(self.random.randint(0, len(actions)), added)
        return Extension(extension.number, tuple(actions))

    def first_commands(self):
        before = ["api echo x", "event ALL"] if self.chance(0.1) else []
        return [*(["auth x"] if self.chance(0.03) else []), *before, *super().first_commands()]

    def command(self, session):
        channel = self.channel(session)
        usual = super().command
        return self.weighed(
            (30, lambda: usual(session)),
            (3, lambda: self.globals_command(channel)),
            (3, lambda: self.filter_command(channel)),
            (3, self.event_command),
            (3, lambda: self.long_command(channel)),
        )

    def globals_command(self, channel):
        return self.one_of(
            f"api global_setvar g={self.one_of('1', '2', '3', identifier(2), '', 'a=b')}",
            "api global_getvar",
            "api global_getvar g",
            f"api expand uuid_bridge {channel} ${{g}}",
            f"api expand uuid_kill {channel} ${{g}}",
            "api expand originate {x=${g}}loopback/e${g} &park()",
            "api expand msleep 100${nosuch}0",
            "api expand expand echo x",
            "api expand  echo ${g}",
            "api expand",
            "api expand echo ${g}${g}${g}${g}${g}",
            "api global_setvar =x",
            "api global_setvar g=" + self.LARGEST,
            "api global_setvar",
        )

    def filter_command(self, channel):
        return self.one_of(
            f"filter Unique-ID {channel}",
            f"filter Channel-State {self.one_of(*State).name}",
            f"filter Hangup-Cause {self.cause()}",
            f"filter Other-Leg-Unique-ID {channel}",
            f"filter delete Unique-ID {channel}",
            "filter delete Unique-ID",
            "filter delete Channel-State",
            "filter x",
            "filter  Call-Direction   inbound",
            "filter  delete  Call-Direction",
            "filter delete",
        )

    def event_command(self):
        names = " ".join(self.random.sample(EVENTS, 3))
        return self.one_of(
            f"nixevent {names}", f"event plain {names}", "event plain ALL", "event plain ALL", "noevents",
            "event json ALL", "event", "event frob", "nixevent frob", "auth ClueCon",
        )

    def long_command(self, channel):
        long = "y" * self.one_of(256, 257)
        legs = ",".join(["error/USER_BUSY"] * self.one_of(64, 65))
        return self.one_of(
            f"api uuid_transfer {channel} {long}",
            f"api uuid_transfer {channel} e1 XML {long}",
            f"api originate loopback/{long} &park()",
            f"api originate loopback/e1 {long}",
            f"api originate loopback/e1 &park() XML {long}",
            f"api originate loopback/e1 &park() XML default {long} {long}",
            f"api originate {legs} &park()",
            "api originate {leg_timeout=1}" + ",".join(["loopback/e5"] * 17) + " &park()",
            "api msleep " + self.one_of(*ODD_NUMBERS),
        )


class Room(Layers):
    """A journal near its limit, a call that runs away, and more events than may wait."""

    def __init__(self, seed):
        super().__init__(seed)
        self.limit = None
        self.spins = self.chance(0.25)

    def document(self):
        document = super().document()
        if not self.spins:
            self.limit = self.one_of(1048576, 1200000, lambda: self.random.randint(1048576, 2200000))
            document.journal_limit = self.limit
            return document
        count = self.one_of(1200, 1450, 2500, 5010)
        last = Action("transfer", "spin") if count < 2000 else self.one_of(PARK, ANSWER, Action("hangup"))
        document.contexts["default"].append(Extension("spin", (Action("eval"),) * count + (last,)))
        self.numbers.append("spin")
        return document

    def command(self, session):
        if self.spins and self.chance(0.4):
            return "api originate loopback/spin &park()"
        if self.limit and self.chance(0.7):
            return "api echo " + "x" * self.filling(session.journal.cost)
        return super().command(session)

    def filling(self, cost):
        """So many bytes that the journal comes near to one of the two costs at which something changes."""
        aim = self.one_of(self.limit * 15 // 16, self.limit - LARGEST_COST)
        wanted = aim - cost - self.random.randint(-300, 1500)
        return min(max(wanted, 1), 65500)
