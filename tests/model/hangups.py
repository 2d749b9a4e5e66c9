"""The hangup closure: who is hung up with whom, of what, and what is told of it.

And how a channel leaves its bridge, its legs, its queue and its controller, and lives on.
"""

import bridges
import queues
from channels import Wait
from tables import State


def by_slot(channels):
    return sorted(channels, key=lambda channel: channel.slot)


def hang_up(switch, causes, survivors=()):
    """Hangs up these channels, each of its cause, and all whom they drag along.

    What else outlives a bridge in this entry does it with those who outlive the bridges that end here, unless it
    is dragged along.
    """
    rounds = rounds_of({channel: cause for channel, cause in causes.items() if channel.live()})
    members = {channel: cause for members_of_round in rounds for channel, cause in members_of_round.items()}
    ended = ended_bridges(rounds)
    survivors = outcomes_of_survivors(members, ended, dict(survivors))
    for bridge, cause in ended.items():
        bridges.end(bridge, cause)
    for channel in by_slot(members):
        queues.leave(switch, channel)
        tell_bridge_of(switch, channel, ended)
        hang_up_one(switch, channel, members[channel])
    for channel in by_slot(survivors):
        bridges.outlive(switch, channel, survivors[channel])


def rounds_of(first):
    """The rounds, each a cause by channel. A round has whom the one before drags and who is in none yet."""
    rounds = []
    members = set()
    current = first
    while current:
        rounds.append(current)
        members |= current.keys()
        following = {}
        for channel in by_slot(current):
            for dragged, cause in dragged_by(channel, current[channel]):
                if dragged.live() and dragged not in members:
                    following.setdefault(dragged, cause)
        current = following
    return rounds


def dragged_by(channel, cause):
    """Its partner, the living legs that it waits for, and its peer where that is to hang up."""
    yield channel.partner, cause
    if channel.wait is Wait.LEGS:
        for leg in channel.dialed.living():
            yield leg.channel, "ORIGINATOR_CANCEL"
    if channel.bridge:
        outcome = channel.bridge.outcome(channel.peer, cause)
        if outcome.hangs_up_with:
            yield channel.peer, outcome.hangs_up_with


def ended_bridges(rounds):
    """The bridges that end, each of the cause of the leg in the earlier round, or in the lesser slot."""
    ended = {}
    for members in rounds:
        for channel in by_slot(members):
            if channel.bridge:
                ended.setdefault(channel.bridge, members[channel])
    return ended


def outcomes_of_survivors(members, ended, further):
    outcomes = further | {leg: bridge.outcome(leg, cause) for bridge, cause in ended.items() for leg in bridge.legs()}
    return {leg: outcome for leg, outcome in outcomes.items() if leg not in members}


def tell_bridge_of(switch, channel, ended):
    """The end of a bridge is told once, in front of the first of its legs that is hung up."""
    for bridge in [bridge for bridge in ended if channel in bridge.legs()]:
        bridges.tell_end(switch, bridge, ended.pop(bridge))


def hang_up_one(switch, channel, cause):
    switch.tell("CHANNEL_HANGUP", channel, [("Hangup-Cause", cause)])
    channel.cause = cause
    channel.variables.set("hangup_cause", cause)
    if channel.leg:
        channel.leg.die(cause, switch.entry)
        channel.leg = None
    switch.holds.release(channel)
    channel.drop_actions()
    channel.messages = []
    channel.controller = None
    channel.wait_for(Wait.NOTHING)
    switch.enter(channel, State.CS_HANGUP)


def leave(switch, channels):
    """These channels leave what they are in: their legs first, which are hung up in one hangup, then their bridges.

    Either may take some of them along. Behind that each leaves its queue, and runs and waits for nothing.
    """
    dialing = [channel for channel in channels if channel.wait is Wait.LEGS]
    legs = [leg.channel for channel in dialing for leg in channel.dialed.living()]
    for channel in dialing:
        channel.wait_for(Wait.NOTHING)
    hang_up(switch, dict.fromkeys(legs, "ORIGINATOR_CANCEL"))
    leave_bridges(switch, [channel for channel in channels if channel.live()])
    for channel in by_slot(channels):
        queues.leave(switch, channel)
        channel.drop_actions()
        channel.controller = None
        channel.rest()


def leave_bridges(switch, leaving):
    """Each bridge of which a leg leaves alive ends of NORMAL_CLEARING, in the order of their numbers.

    Behind that, all other legs that are to hang up do it in one hangup, which may drag along those that leave.
    """
    cause = "NORMAL_CLEARING"
    ended = sorted({channel.bridge for channel in leaving if channel.bridge}, key=lambda bridge: bridge.number)
    outcomes = {
        leg: bridge.outcome(leg, cause) for bridge in ended for leg in bridge.legs() if leg not in leaving
    }
    for bridge in ended:
        bridges.end(bridge, cause)
    for bridge in ended:
        bridges.tell_end(switch, bridge, cause)
    hung_up = {leg: outcome.hangs_up_with for leg, outcome in outcomes.items() if outcome.hangs_up_with}
    hang_up(switch, hung_up, {leg: outcome for leg, outcome in outcomes.items() if leg not in hung_up})
