"""What is done once the legs of an origination are decided."""

import bridges
from channels import Channel, Wait
from dialplan import Action
from hangups import hang_up
from originations import Verdict, make_group
from tables import CAUSES, State
from variables import read_number

# a channel whose bridge has failed of one of these goes on by itself
MILD_CAUSES = ("NO_ANSWER", "NO_USER_RESPONSE", "ORIGINATOR_CANCEL")


def conclude(switch, origination):
    decision = origination.decide(switch.now)
    if decision.verdict is Verdict.WON:
        win(switch, origination, decision.leg)
    elif decision.verdict is Verdict.TIME_OVER:
        run_out(switch, origination)
    elif decision.verdict is Verdict.LEG_TIME_OVER:
        hang_up(switch, {decision.leg.channel: "NO_ANSWER"})
    elif decision.verdict is Verdict.NEXT_GROUP:
        origination.group += 1
        make_group(switch, origination)
    elif decision.verdict is Verdict.FAILED:
        fail(switch, origination, decision.leg.cause)


def owner_died(origination):
    return isinstance(origination.owner, Channel) and not origination.owner.live()


def run_out(switch, origination):
    hang_up(switch, {leg.channel: "NO_ANSWER" for leg in origination.living()})
    if not owner_died(origination):
        fail(switch, origination, "NO_ANSWER")


def win(switch, origination, leg):
    """The losers are hung up first. They may take the owner with them, or the winner."""
    winner = leg.channel
    hang_up(switch, {loser.channel: "LOSE_RACE" for loser in origination.living() if loser is not leg})
    if owner_died(origination):
        return
    if not winner.live():
        fail(switch, origination, winner.cause)
        return
    winner.leg = None
    if isinstance(origination.owner, Channel):
        join_winner(switch, origination.owner, winner)
    else:
        obey(switch, origination.owner, winner)


def join_winner(switch, channel, winner):
    switch.answer(channel)
    channel.variables.set("originate_disposition", "SUCCESS")
    bridges.join(switch, channel, winner, bridges.Kind.DIALED)
    switch.enter(winner, State.CS_EXCHANGE_MEDIA)


def obey(switch, order, winner):
    """The leg runs the application as its only action, or is routed."""
    if isinstance(order.then, Action):
        winner.actions = [order.then]
        switch.enter(winner, State.CS_EXECUTE)
    else:
        winner.profile.route(order.then.destination_number, order.then.dialplan, order.then.context)
        switch.enter(winner, State.CS_ROUTING)
    switch.end_job(order.job, f"+OK {winner.identifier}\n")


def fail(switch, origination, cause):
    if isinstance(origination.owner, Channel):
        origination.owner.wait_for(Wait.NOTHING)
        fail_bridge(switch, origination.owner, cause)
    else:
        switch.end_job(origination.owner.job, f"-ERR {cause}\n")


def fail_bridge(switch, channel, cause):
    channel.variables.set("originate_disposition", cause)
    if cause in MILD_CAUSES or continues_on(channel.variables.get("continue_on_fail", ""), cause):
        switch.complete(channel)
    else:
        hang_up(switch, {channel: cause})


def continues_on(listed, cause):
    """`true`, or a comma list in which the name of the cause stands, or its number."""
    words = listed.split(",")
    return listed == "true" or cause in words or CAUSES[cause] in map(read_number, words)
