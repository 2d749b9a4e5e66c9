"""The applications that a channel runs as its actions."""

import queues
from channels import Target, Wait
from dialing import DialFault, read_dial_string
from dialplan import INLINE, assign
from hangups import by_slot, hang_up, leave
from holds import MOST_HOLDS
from originations import USUAL_SECONDS, originate
from races import fail_bridge
from tables import State, cause_or, words_of
from variables import (
    LONGEST_NAME,
    ExpansionTooLong,
    expand,
    read_milliseconds,
    read_number,
    read_seconds,
)

TOLD_OF_ARGUMENT = 1024
UNKNOWN_APPLICATION = "DESTINATION_OUT_OF_ORDER"
LAST_PORT = 65535
SHORTEST_LIMIT, LONGEST_LIMIT = 4, 7
GREATEST_MOST = 4294967295


def run_action(switch, channel, action):
    """An argument that is too long uses the action up, and nothing is run."""
    try:
        argument = expand(action.data, switch.scope(channel))
    except ExpansionTooLong:
        hang_up(switch, {channel: "NORMAL_TEMPORARY_FAILURE"})
        return
    channel.running = (("Application", action.application), ("Application-Data", argument[:TOLD_OF_ARGUMENT]))
    switch.tell("CHANNEL_EXECUTE", channel, channel.running)
    if action.application in INLINE:
        run_assignment(switch, channel, action.application, argument)
    else:
        application(switch, action.application)(switch, channel, argument)


def application(switch, name):
    """What the application of this name does. What is still to come is known to some switches alone."""
    coming = COMING if switch.coming else {}
    return APPLICATIONS.get(name) or coming.get(name) or run_unknown


def run_assignment(switch, channel, application, argument):
    assign(switch, channel, application, argument)
    switch.complete(channel)


def run_unknown(switch, channel, _argument):
    hang_up(switch, {channel: UNKNOWN_APPLICATION})


def run_answer(switch, channel, _argument):
    switch.answer(channel)
    switch.complete(channel)


def run_sleep(switch, channel, argument):
    """A sleep of no time, and one of what is no number, is over at once."""
    milliseconds = read_milliseconds(argument)
    if milliseconds:
        channel.wait_for(Wait.SLEEP, wakes=switch.now + milliseconds * 1000)
    else:
        switch.complete(channel)


def run_hangup(switch, channel, argument):
    hang_up(switch, {channel: cause_or("NORMAL_CLEARING", words_of(argument))})


def run_bridge(switch, channel, argument):
    """A dial string with a fault is a failed bridge at once. Otherwise the channel waits for its legs."""
    try:
        dial_string = read_dial_string(argument)
    except DialFault:
        fail_bridge(switch, channel, "INVALID_NUMBER_FORMAT")
        return
    told = read_seconds(dial_string.brace("originate_timeout"))
    own = read_seconds(channel.variables.get("call_timeout"))
    channel.wait_for(Wait.LEGS, dialed=originate(switch, channel, dial_string, told or own or USUAL_SECONDS))


def run_park(switch, channel, _argument):
    """A channel that is parked already goes on."""
    if channel.state is State.CS_PARK:
        switch.complete(channel)
    else:
        switch.park(channel)


def is_route(words):
    """There is an extension, and none of the three words is too long."""
    return bool(words) and all(len(word) <= LONGEST_NAME for word in words[:3])


def may_be_routed(words):
    """An extension that nothing stands in front of begins with no minus."""
    return is_route(words) and not words[0].startswith("-")


def run_transfer(switch, channel, argument):
    words = words_of(argument)
    if may_be_routed(words):
        transfer(switch, [channel], words[:3])
    else:
        run_unknown(switch, channel, argument)


def transfer(switch, channels, words):
    """The channels leave what they are in. Who lives on is routed. What is not named stays."""
    leave(switch, channels)
    for channel in by_slot(channels):
        if channel.live():
            channel.wait_for(Wait.NOTHING)
            channel.profile.route(*words)
            switch.enter(channel, State.CS_ROUTING)


def run_fifo(switch, channel, argument):
    """`NAME in` enters a queue. `NAME out` takes a caller, and waits for one unless it is told not to.

    The name ends in front of its last `!`. Where it is empty, and in any other form, the channel is hung up.
    """
    named, does, how = (words_of(argument) + ["", "", ""])[:3]
    queue = named.rpartition("!")[0] if "!" in named else named
    if not queue or does not in ("in", "out"):
        run_unknown(switch, channel, argument)
        return
    switch.answer(channel)
    if does == "in":
        queues.enter(switch, channel, queue)
    elif switch.queues.first(queue):
        queues.take(switch, channel, queue)
    elif how == "nowait":
        switch.complete(channel)
    else:
        channel.wait_for(Wait.CALLER, queue=queue)


def run_limit(switch, channel, argument):
    """`hash REALM NAME MOST` holds a thing where fewer than MOST others do, and else routes the channel elsewhere.

    A channel that holds it already goes on. Where to it is routed the words behind may say.
    """
    words = words_of(argument)[:LONGEST_LIMIT]
    if not is_limit(words):
        run_unknown(switch, channel, argument)
        return
    _, realm, name, most, *elsewhere = words
    holders = switch.holds.of(realm, name)
    if channel in holders:
        switch.complete(channel)
    elif len(holders) >= read_number(most):
        transfer(switch, [channel], elsewhere or ["limit_exceeded"])
    elif switch.holds.count(channel) == MOST_HOLDS:
        hang_up(switch, {channel: "SWITCH_CONGESTION"})
    else:
        switch.holds.add(realm, name, channel)
        switch.complete(channel)


def is_limit(words):
    """The one backend, three words more, of which the last is a number, and no word that is too long."""
    if len(words) < SHORTEST_LIMIT or words[0] != "hash":
        return False
    most = read_number(words[3])
    return most is not None and most <= GREATEST_MOST and all(len(word) <= LONGEST_NAME for word in words)


def run_socket(switch, channel, argument):
    """The channel waits for a dial. Where nobody is named, or a controller holds it, it goes on at once."""
    target = read_target(words_of(argument))
    if target is None or channel.controller:
        switch.complete(channel)
    else:
        channel.wait_for(Wait.DIAL, target=target)


def read_target(words):
    """A host and a port from 1 to 65,535, parted by the last colon of the first word.

    `full` says that the controller may do all, wherever it stands behind that.
    """
    host, _, port = (words or [""])[0].rpartition(":")
    number = read_number(port)
    if host == "" or number is None or not 1 <= number <= LAST_PORT:
        return None
    return Target(host, number, "full" in words[1:])


APPLICATIONS = {
    "answer": run_answer,
    "sleep": run_sleep,
    "hangup": run_hangup,
    "bridge": run_bridge,
    "park": run_park,
    "transfer": run_transfer,
    "fifo": run_fifo,
    "socket": run_socket,
}

# what the program does not know yet
COMING = {
    "limit": run_limit,
}
