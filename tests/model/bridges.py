"""Bridges: how two channels are joined, how that ends, and what the other leg does then."""

from dataclasses import dataclass
from enum import Enum

from channels import Channel, Wait


class Kind(Enum):
    DIALED = "a channel dialed it"
    JOINED = "a command joined two channels"
    TAKEN = "a channel took a caller of a queue"


@dataclass(frozen=True)
class Outcome:
    """What a leg does that outlives the other one: it is hung up, parks or goes on."""

    hangs_up_with: str = None
    parks: bool = False


GOES_ON = Outcome()
PARKS = Outcome(parks=True)


@dataclass(eq=False)
class Bridge:
    number: int
    caller: Channel
    answerer: Channel
    kind: Kind

    def legs(self):
        return self.caller, self.answerer

    def other(self, leg):
        return self.answerer if leg is self.caller else self.caller

    def outcome(self, leg, cause):
        """What this leg does where the other one died of the cause."""
        if self.ends_as_caller(leg):
            return Outcome(cause) if leg.variables.get("hangup_after_bridge") == "true" else GOES_ON
        return PARKS if leg.variables.get("park_after_bridge") == "true" else Outcome("NORMAL_CLEARING")

    def ends_as_caller(self, leg):
        """Who dialed does, and either of two whom a queue brought together."""
        return self.kind is Kind.TAKEN or self.kind is Kind.DIALED and leg is self.caller

    def headers(self):
        return [
            ("Bridge-A-Unique-ID", self.caller.identifier),
            ("Bridge-B-Unique-ID", self.answerer.identifier),
            ("Bridge-Number", str(self.number)),
        ]


def join(switch, caller, answerer, kind):
    switch.bridges_begun += 1
    bridge = Bridge(switch.bridges_begun, caller, answerer, kind)
    for leg in bridge.legs():
        leg.bridge = bridge
        leg.variables.set("signal_bond", bridge.other(leg).identifier)
        leg.wait_for(Wait.BRIDGE)
    switch.tell("CHANNEL_BRIDGE", caller, bridge.headers())


def end(bridge, cause):
    """Both legs get the cause of its end."""
    for leg in bridge.legs():
        leg.bridge = None
        leg.variables.set("bridge_hangup_cause", cause)


def tell_end(switch, bridge, cause):
    switch.tell("CHANNEL_UNBRIDGE", bridge.caller, [*bridge.headers(), ("Hangup-Cause", cause)])


def outlive(switch, channel, outcome):
    """Who outlives its bridge parks, or goes on: its application is over."""
    if outcome.parks:
        switch.park(channel)
    else:
        switch.complete(channel)
