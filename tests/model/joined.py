"""Plays of bridges whose legs are joined again, sent elsewhere with each other, or left alone."""

from dialplan import Action, Document, Extension
from random_plays import ANSWER, LONGEST_SLEEP, PARK, Kind, any_channel, brackets, bridged
from waiting import dialing, queued


def answered(channel):
    return channel.answered and channel.leg is None


def beside_bridge(channel):
    """Its partner is bridged, so that it may be dragged along by what happens there."""
    return channel.partner.bridge is not None and answered(channel)


class Joined(Kind):
    """Bridges that were dialed, joined and taken from a queue, and then commands alone that move their legs."""

    fewest_commands = 12
    most_commands = 50
    ENDINGS = ("hangup_after_bridge", "park_after_bridge")

    def __init__(self, seed):
        super().__init__(seed)
        self.numbers = ["dials", "dials2", "rings", "in", "out", "waits", "ans", "deep"]
        self.likely = self.one_of(0.1, 0.3, 0.6)

    def document(self):
        never = Action("sleep", LONGEST_SLEEP)
        made = {
            "dials": (ANSWER, Action("bridge", f"{self.braces()}loopback/ans"), *self.behind()),
            "dials2": (Action("bridge", f"{self.braces()}loopback/in,loopback/ans"), *self.behind()),
            "deep": (Action("bridge", f"{self.braces()}loopback/dials"), *self.behind()),
            "rings": (ANSWER, Action("bridge", "loopback/never,loopback/never"), *self.behind()),
            "in": (Action("fifo", "f in"), *self.behind()),
            "out": (Action("fifo", "f out nowait"), *self.behind()),
            "waits": (Action("fifo", "f out"), *self.behind()),
            "ans": (ANSWER, PARK),
            "never": (never,),
        }
        extensions = [Extension(number, (*self.settings(), *run)) for number, run in made.items()]
        return Document({"default": extensions}, slots=self.one_of(32, 64, 128))

    def settings(self):
        return [Action("set", f"{ending}=true") for ending in self.ENDINGS if self.chance(self.likely / 2)]

    def braces(self):
        return brackets([f"{ending}=true" for ending in self.ENDINGS if self.chance(self.likely)])

    def behind(self):
        """What a channel runs that goes on behind its bridge."""
        again = Action("transfer", "dials")
        return self.some(lambda: self.one_of(PARK, PARK, Action("sleep", "60000"), Action("eval"), again), 0, 1, 2)

    def first_commands(self):
        return ["auth ClueCon", "event plain ALL", *self.some(self.originate, 2, 3, 4, 6)]

    def originate(self):
        bridges = f"&bridge(loopback/{self.number()})"
        of_queues = ("'&fifo(f out nowait)'", "'&fifo(f in)'")
        lasting = self.one_of("&park()", "&park()", "&sleep(60000)", bridges, *of_queues)
        return f"bgapi originate {self.braces()}loopback/{self.number()} {lasting}"

    def command(self, session):
        few = len(session.switch.live_channels()) < 10
        return self.weighed(
            (9 if few else 1, self.originate),
            (9, lambda: self.uuid_bridge(session)),
            (7, lambda: self.uuid_transfer(session)),
            (2, lambda: f"api uuid_park {self.leg(session)}"),
            (1, lambda: f"api uuid_kill {self.leg(session)} {self.cause()}"),
            (2, lambda: self.setting(session)),
            (1, lambda: self.asking(session)),
            (1, lambda: "api msleep " + self.one_of("0", "1000", "60000")),
            (1, lambda: self.odd_command(session)),
            (0.2, lambda: self.one_of("api hupall", "api hupall USER_BUSY")),
        )

    def leg(self, session):
        return self.channel(session, bridged, bridged, bridged, beside_bridge, dialing, queued, answered)

    def uuid_bridge(self, session):
        """Mostly two legs of bridges, now and then of one, or one leg and a channel beside it."""
        caller = self.leg(session)
        found = session.switch.find(caller)
        near = found and self.one_of(found.peer, found.partner, found.partner.peer)
        other = near.identifier if near and self.chance(0.3) else self.leg(session)
        return self.one_of(f"api uuid_bridge {caller} {other}", f"api uuid_bridge {other} {caller}")

    def uuid_transfer(self, session):
        """A side that is moved, and where to, mostly of a leg."""
        side = self.weighed((4, "-both "), (4, "-bleg "), (1, ""))
        behind = self.weighed((8, ""), (1, " XML"), (1, " XML default"), (0.5, " XML nix"), (0.5, " foo"))
        return f"api uuid_transfer {self.leg(session)} {side}{self.number()}{behind}"

    def setting(self, session):
        name, value = self.one_of(*self.ENDINGS), self.one_of("true", "true", "true", "false", "")
        return f"api uuid_setvar {self.leg(session)} {name} {value}".rstrip()

    def asking(self, session):
        names = ("signal_bond", "bridge_hangup_cause", "hangup_cause", "originate_disposition")
        channel = self.channel(session, bridged, any_channel)
        return self.one_of(f"api uuid_getvar {channel} {self.one_of(*names)}", f"api uuid_dump {channel}")

    def odd_command(self, session):
        channel = self.channel(session, bridged, any_channel)
        long = "y" * self.one_of(256, 257)
        return self.one_of(
            f"api uuid_transfer {channel} -both", f"api uuid_transfer {channel} -bleg  ",
            f"api uuid_transfer {channel} -Both ans", f"api uuid_transfer {channel} -aleg ans",
            f"api uuid_transfer {channel} - ans", f"api uuid_transfer  {channel}  -bleg   ans   XML",
            f"api uuid_transfer {channel} -both -bleg", f"api uuid_transfer {channel} ans -both",
            f"api uuid_transfer {channel} -bleg {long}", f"api uuid_transfer {channel} -both ans XML {long}",
            f"api uuid_transfer {channel} -both ans XML default {long}", "api uuid_transfer x -both ans",
            "api uuid_transfer -both ans", f"api uuid_bridge {channel} {channel}", f"api uuid_bridge {channel} x",
            f"sendmsg {channel}\ncall-command: execute\nexecute-app-name: transfer\n"
            f"execute-app-arg: {self.one_of('-both', '-bleg', '-')} ans",
        )
