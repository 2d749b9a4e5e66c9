"""Originations: which legs a dial string makes, of what one dies as it is made, and how a race is decided."""

import re
from dataclasses import dataclass, field
from enum import Enum

from channels import Channel, Profile
from dialing import DialString
from dialplan import Action
from tables import CAUSES
from variables import LONGEST_NAME, OF_CHANNELS, Variables, read_seconds

SECOND = 1000000
USUAL_SECONDS = 60

HYPHENED = "46530000-0000-8000-[0-9a-f]{4}-[0-9a-f]{12}"
SHORT = "4653000000008000[0-9a-f]{16}"
OWN_IDENTIFIER = re.compile(rf"{HYPHENED}|{SHORT}|\{{{HYPHENED}\}}|urn:uuid:{HYPHENED}")
GIVEN_IDENTIFIER = re.compile("[!-~]{1,64}")


class DiesAsMade(Exception):
    """A leg that cannot be made, and the cause of which it dies."""

    def __init__(self, cause):
        super().__init__(cause)
        self.cause = cause


@dataclass(eq=False)
class Leg:
    """A leg of the group that is tried. A leg that dies as it is made has no channel."""

    channel: Channel = None
    deadline: int = None
    answered_in: int = None
    died_in: int = None
    cause: str = None

    def lives(self):
        return self.died_in is None

    def answer(self, entry):
        self.answered_in = entry

    def die(self, cause, entry):
        self.died_in = entry
        self.cause = cause


class Verdict(Enum):
    WON = 0
    TIME_OVER = 1
    LEG_TIME_OVER = 2
    NEXT_GROUP = 3
    FAILED = 4
    PENDING = 5


@dataclass(frozen=True)
class Decision:
    verdict: Verdict
    leg: Leg = None
    due: int = 0


@dataclass(frozen=True)
class Route:
    """Where a leg that has won is sent by a command."""

    destination_number: str
    dialplan: str
    context: str


@dataclass(frozen=True)
class Order:
    """Who calls by a command, what the leg that has won is to do, and the job that answers."""

    job: int
    caller_id_name: str
    caller_id_number: str
    then: Action | Route


@dataclass(eq=False)
class Origination:
    """It belongs to the channel that dials, or to the order of a command."""

    owner: Channel | Order
    dial_string: DialString
    deadline: int
    group: int = 0
    legs: list = field(default_factory=list)

    def living(self):
        return [leg for leg in self.legs if leg.lives()]

    def decide(self, now):
        """The first of these that holds. Of legs that were answered in one entry the first one has won."""
        living = self.living()
        answered = [leg for leg in living if leg.answered_in is not None]
        if answered:
            return Decision(Verdict.WON, min(answered, key=lambda leg: leg.answered_in))
        if now >= self.deadline:
            return Decision(Verdict.TIME_OVER)
        timed = [leg for leg in living if leg.deadline is not None]
        for leg in timed:
            if now >= leg.deadline:
                return Decision(Verdict.LEG_TIME_OVER, leg)
        if living:
            return Decision(Verdict.PENDING, due=min([self.deadline, *(leg.deadline for leg in timed)]))
        if self.group + 1 < len(self.dial_string.groups):
            return Decision(Verdict.NEXT_GROUP)
        return Decision(Verdict.FAILED, self.last_dead())

    def last_dead(self):
        """Of legs that died in one entry the last in the text tells the cause."""
        return max(reversed(self.legs), key=lambda leg: leg.died_in)

    def due(self, now):
        """The next moment at which there is something to decide."""
        decision = self.decide(now)
        return decision.due if decision.verdict is Verdict.PENDING else now


def originate(switch, owner, dial_string, seconds):
    origination = Origination(owner, dial_string, switch.now + seconds * SECOND)
    make_group(switch, origination)
    return origination


def make_group(switch, origination):
    """The legs of the group are made one after another, each in the two least slots that are free then."""
    origination.legs = []
    for dialed in origination.dial_string.groups[origination.group]:
        try:
            leg = make_leg(switch, origination, dialed)
        except DiesAsMade as death:
            leg = Leg(died_in=switch.entry, cause=death.cause)
        origination.legs.append(leg)


def make_leg(switch, origination, dialed):
    """The leg and its far end have the same variables, and profiles that differ in their own names."""
    extension, context = read_endpoint(dialed.endpoint)
    variables, within_limits = leg_variables(origination, dialed)
    given = variables.get("origination_uuid")
    if not within_limits or not may_be_given(switch, given):
        raise DiesAsMade("NORMAL_TEMPORARY_FAILURE")
    slots = switch.free_slots()[:2]
    if len(slots) < 2 or switch.journal.nearly_full():
        raise DiesAsMade("SWITCH_CONGESTION")
    identifiers = given or switch.draw_identifier(), switch.draw_identifier()
    name, number = caller_id(origination.owner, variables)
    near, far = (
        Channel(
            slot,
            direction,
            Profile(extension, context, name, number, own, f"loopback/{extension}-{side}", ani=number),
            variables.copy(),
        )
        for slot, direction, own, side in zip(slots, ("outbound", "inbound"), identifiers, "ab")
    )
    switch.add_pair(near, far)
    return begin_leg(switch, near)


def begin_leg(switch, channel):
    """A leg may have a time of its own, which counts from its making."""
    seconds = read_seconds(channel.variables.get("leg_timeout"))
    channel.leg = Leg(channel, None if seconds is None else switch.now + seconds * SECOND)
    return channel.leg


def read_endpoint(endpoint):
    """All behind `error/` is the name of a cause. A loopback is cut at its first three slashes; what is empty behind its
    extension is not named."""
    kind, _, behind = endpoint.partition("/")
    if kind == "error":
        raise DiesAsMade(behind if behind in CAUSES else "NORMAL_UNSPECIFIED")
    if kind != "loopback":
        raise DiesAsMade("DESTINATION_OUT_OF_ORDER")
    extension, context, dialplan = (behind.split("/", 2) + ["", ""])[:3]
    if extension == "" or max(map(len, (extension, context, dialplan))) > LONGEST_NAME:
        raise DiesAsMade("INVALID_NUMBER_FORMAT")
    if dialplan not in ("", "XML"):
        raise DiesAsMade("NO_ROUTE_DESTINATION")
    return extension, context or "default"


def leg_variables(origination, dialed):
    """The exports, the braces and the brackets, set in this order; and whether the limits let all through."""
    pairs = [*exported(origination.owner), *origination.dial_string.braces, *dialed.pairs]
    variables = Variables(OF_CHANNELS)
    set_all = [variables.set(name, value) for name, value in pairs]
    return variables, all(set_all)


def exported(owner):
    """What the channel that dials exports, without `nolocal:` in front of a name.

    A name that is empty then, and one that the channel does not have, are passed over.
    """
    if isinstance(owner, Order):
        return
    for listed in owner.variables.exports():
        name = listed.removeprefix("nolocal:")
        value = owner.variables.get(listed)
        if name and value is not None:
            yield name, value


def may_be_given(switch, given):
    """It is printable, none that the switch may draw, and that of no channel in a slot, live or not."""
    if given is None:
        return True
    if not GIVEN_IDENTIFIER.fullmatch(given) or OWN_IDENTIFIER.fullmatch(given.lower()):
        return False
    return all(channel.identifier != given for channel in switch.channels.values())


def caller_id(owner, variables):
    """Who calls: as the leg is told, or else as the channel that dials, or the command, says."""
    calls = owner.profile if isinstance(owner, Channel) else owner
    name = variables.get("origination_caller_id_name", calls.caller_id_name)
    number = variables.get("origination_caller_id_number", calls.caller_id_number)
    return name[:LONGEST_NAME], number[:LONGEST_NAME]

