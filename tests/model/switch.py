"""The switch: its slots and jobs, what happens to a channel, and what each has to do at a moment."""

from dataclasses import dataclass
from functools import partial

from applications import run_action
from channels import Channel, Wait
from dialplan import hunt
from hangups import by_slot, hang_up
from holds import Holds
from jobs import Job
from queues import Queues, take
from races import conclude
from tables import State, identifier
from tasks import Tasks
from variables import OF_GLOBALS, ExpansionTooLong, Variables

MOST_ROUTED = 70

BUSY_STATES = (State.CS_NEW, State.CS_INIT, State.CS_ROUTING, State.CS_HANGUP, State.CS_REPORTING)
STATES_OF_ACTIONS = (State.CS_EXECUTE, State.CS_PARK)


@dataclass(frozen=True)
class Event:
    """What an entry tells, mostly of a channel, which is shown as the entry leaves it."""

    name: str
    channel: Channel = None
    further: tuple = ()
    with_variables: bool = False
    body: str = ""
    subclass: str = ""


class Switch:
    """One entry at a time changes it. The entry in hand collects its events, and the answers that were owed.

    A switch to which `coming` is said knows what is still to come.
    """

    def __init__(self, document, journal, coming=False, loads=()):
        self.coming = coming
        self.document = document
        self.journal = journal
        self.loads = iter(loads)
        self.contexts = document.contexts
        self.globals = Variables(OF_GLOBALS, document.global_values)
        self.channels = {}
        self.queues = Queues()
        self.holds = Holds()
        self.tasks = Tasks()
        self.jobs = {}
        self.now = 0
        self.entry = 0
        self.events = []
        self.ends_of_jobs = []
        self.answers = {}
        self.asking = None
        self.job_in_hand = None
        self.stopping = False
        self.jobs_begun = 0
        self.bridges_begun = 0
        self.identifiers_drawn = 0

    def begin_entry(self):
        self.entry += 1
        self.events = []
        self.ends_of_jobs = []
        self.answers = {}

    def events_of_entry(self):
        """How a job ended is told last."""
        return self.events + self.ends_of_jobs

    def tell(self, name, channel=None, further=(), with_variables=False, subclass=""):
        self.events.append(Event(name, channel, tuple(further), with_variables, subclass=subclass))

    def scope(self, channel):
        """Where the names of a text are looked for that is expanded for this channel."""
        return lambda name: channel.sought(name, self.globals)

    def find(self, name):
        """The live channel that has this identifier."""
        return next((channel for channel in self.live_channels() if channel.identifier == name), None)

    def live_channels(self):
        return [channel for channel in self.channels.values() if channel.live()]

    def free_slots(self):
        return [slot for slot in range(1, self.document.slots + 1) if slot not in self.channels]

    def draw_identifier(self):
        self.identifiers_drawn += 1
        return identifier(self.identifiers_drawn)

    def add_pair(self, near, far):
        near.partner = far
        far.partner = near
        self.channels[near.slot] = near
        self.channels[far.slot] = far

    def begin_job(self, headers=None):
        """The number of a new job. Without headers its answer is owed to the connection that asks for it."""
        self.jobs_begun += 1
        self.jobs[self.jobs_begun] = Job(headers, None if headers else self.asking)
        return self.jobs_begun

    def end_job(self, number, answer):
        self.give_answer(self.jobs.pop(number), answer)

    def give_answer(self, job, answer):
        if job.owed():
            self.answers[job.owed_to] = answer
        else:
            self.ends_of_jobs.append(Event("BACKGROUND_JOB", further=job.headers, body=answer))

    def owes(self, connection):
        return any(job.owed_to is connection for job in self.jobs.values())

    def shut_down(self):
        """All live channels are hung up in one hangup. No job and no task is left, and what was owed is answered."""
        hang_up(self, dict.fromkeys(self.live_channels(), "SYSTEM_SHUTDOWN"))
        self.tell("SHUTDOWN", further=[("Event-Info", "System Shutting Down")])
        self.answers = {job.owed_to: "-ERR SYSTEM_SHUTDOWN\n" for job in self.jobs.values() if job.owed()}
        self.jobs = {}
        self.tasks = Tasks()
        self.stopping = True

    def enter(self, channel, state):
        """A change of state is told, and in front of it that the channel left CS_PARK or came there."""
        if channel.state is state:
            return
        if channel.state is State.CS_PARK:
            self.tell("CHANNEL_UNPARK", channel)
        channel.state = state
        if state is State.CS_PARK:
            self.tell("CHANNEL_PARK", channel)
        self.tell("CHANNEL_STATE", channel)

    def park(self, channel):
        """The channel drops its actions and waits for its controller, or for commands."""
        channel.drop_actions()
        self.enter(channel, State.CS_PARK)
        channel.rest()

    def complete(self, channel):
        """What the channel runs is over, and it goes on."""
        self.tell("CHANNEL_EXECUTE_COMPLETE", channel, channel.running)
        channel.running = None
        channel.rest()

    def answer(self, channel):
        """The channel and then its partner are answered, where they were not."""
        for answered in (channel, channel.partner):
            if not answered.answered:
                answered.answered = True
                self.tell("CHANNEL_ANSWER", answered)
                if answered.leg:
                    answered.leg.answer(self.entry)

    def due(self, channel):
        """The next moment at which the channel has something to do, if it ever has by itself."""
        if channel.state in BUSY_STATES:
            return self.now
        if channel.state not in STATES_OF_ACTIONS:
            return None
        if channel.wait in (Wait.NOTHING, Wait.DIAL):
            return self.now
        if channel.wait in (Wait.COMMANDS, Wait.CONTROLLER):
            return self.now if channel.messages else None
        if channel.wait is Wait.SLEEP:
            return max(self.now, channel.wakes)
        if channel.wait is Wait.CALLER:
            return self.now if self.queues.first(channel.queue) else None
        return channel.dialed.due(self.now) if channel.wait is Wait.LEGS else None

    def moments(self):
        """The moments at which slots, tasks and then jobs have something to do, each with what does it."""
        for channel in by_slot(self.channels.values()):
            moment = self.due(channel)
            if moment is not None:
                yield moment, partial(work, self, channel)
        if self.tasks.waiting:
            yield self.tasks.due(self.now), partial(self.tasks.work, self)
        for number, job in self.jobs.items():
            yield job.task.due(self.now), partial(job.task.work, self, number)

    def next_work(self):
        """What is to be done now: the least slot first, and jobs only where no slot has anything to do."""
        return next((do for moment, do in self.moments() if moment <= self.now), None)

    def advance(self):
        """The clock goes on to the next moment at which there is something to do."""
        self.now = min(moment for moment, _ in self.moments())


def work(switch, channel):
    """The one thing that a channel does in an entry of its own."""
    if channel.state is State.CS_NEW:
        switch.tell("CHANNEL_CREATE", channel)
        switch.enter(channel, State.CS_INIT)
    elif channel.state is State.CS_INIT:
        far_end = channel.direction == "inbound"
        switch.enter(channel, State.CS_ROUTING if far_end else State.CS_CONSUME_MEDIA)
    elif channel.state is State.CS_ROUTING:
        route(switch, channel)
    elif channel.state in STATES_OF_ACTIONS:
        go_on(switch, channel)
    elif channel.state is State.CS_HANGUP:
        cause = [("Hangup-Cause", channel.cause)]
        switch.tell("CHANNEL_HANGUP_COMPLETE", channel, cause, with_variables=True)
        switch.enter(channel, State.CS_REPORTING)
    elif channel.state is State.CS_REPORTING:
        switch.enter(channel, State.CS_DESTROY)
        switch.tell("CHANNEL_DESTROY", channel)
        del switch.channels[channel.slot]


def route(switch, channel):
    """The channel gets its actions by a hunt, or is hung up for the first reason that holds."""
    if channel.routed == MOST_ROUTED:
        hang_up(switch, {channel: "EXCHANGE_ROUTING_ERROR"})
        return
    try:
        actions = hunt(switch, channel)
        refused = None if actions else "NO_ROUTE_DESTINATION"
    except ExpansionTooLong:
        refused = "NORMAL_TEMPORARY_FAILURE"
    if channel.profile.dialplan != "XML":
        refused = "NO_ROUTE_DESTINATION"
    if refused:
        hang_up(switch, {channel: refused})
        return
    channel.routed += 1
    channel.actions = actions
    switch.enter(channel, State.CS_EXECUTE)


def go_on(switch, channel):
    """A channel that executes wakes, decides its race, takes a caller, or runs its next message or action.

    Where it has none of them it is hung up. Who waits for a dial goes on: work is what comes of a dial in vain.
    """
    if channel.wait in (Wait.SLEEP, Wait.DIAL):
        switch.complete(channel)
    elif channel.wait is Wait.CALLER:
        take(switch, channel, channel.queue)
    elif channel.wait is Wait.LEGS:
        conclude(switch, channel.dialed)
    elif channel.messages:
        run_action(switch, channel, channel.messages.pop(0))
    elif channel.actions:
        run_action(switch, channel, channel.actions.pop(0))
    else:
        hang_up(switch, {channel: "NORMAL_CLEARING"})
