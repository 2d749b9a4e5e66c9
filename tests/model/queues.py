"""Queues: who waits in them and in which order, how a caller leaves one, and what is told of it."""

import re
from dataclasses import dataclass

import bridges
from channels import Channel, Wait

SUBCLASS = "fifo::info"
USUAL_PRIORITY = 5


@dataclass(frozen=True)
class Caller:
    queue: str
    priority: int
    channel: Channel


class Queues:
    """All callers that wait, in the order in which they are taken."""

    def __init__(self):
        self.callers = []

    def add(self, caller):
        """The least number is first, and of one number who came first."""
        self.callers.append(caller)
        self.callers.sort(key=lambda caller: caller.priority)

    def first(self, queue):
        return next((caller for caller in self.callers if caller.queue == queue), None)

    def caller(self, channel):
        return next((caller for caller in self.callers if caller.channel is channel), None)


def priority(channel):
    """A variable of the channel says it by one digit. Anything else is none."""
    said = channel.variables.get("fifo_priority", "")
    return int(said) if re.fullmatch("[0-9]", said) else USUAL_PRIORITY


def enter(switch, channel, queue):
    switch.queues.add(Caller(queue, priority(channel), channel))
    channel.wait_for(Wait.QUEUE)
    tell(switch, channel, queue, "push")


def take(switch, taker, queue):
    """The first caller of the queue is joined to the taker. It is the caller of their bridge, too."""
    caller = switch.queues.first(queue)
    switch.queues.callers.remove(caller)
    tell(switch, caller.channel, queue, "caller_pop")
    bridges.join(switch, caller.channel, taker, bridges.Kind.TAKEN)


def leave(switch, channel):
    """A caller leaves its queue other than by a taker."""
    caller = switch.queues.caller(channel)
    if caller:
        switch.queues.callers.remove(caller)
        tell(switch, channel, caller.queue, "abort")


def tell(switch, channel, queue, action):
    further = [("FIFO-Name", queue), ("FIFO-Action", action)]
    switch.tell("CUSTOM", channel, further, subclass=SUBCLASS)
