"""Entries that are made one after another, of any number of connections and channels, in whatever order.

What is due is worked where somebody says so. An entry is refused for the first of these reasons that holds,
and then changes nothing: its connection is gone or reads no more, there are as many connections as may be,
the connection is owed an answer, nothing waits to be taken, something waits or is owed that was to be sent,
or nothing is due. All moments are 0.
"""

from functools import partial

from blocks import Stream
from channels import Wait
from commands import Connection
from controllers import Controller
from deliveries import Deliveries
from frames import AUTH_REQUEST
from session import Journal
from switch import Switch, work


class Refused(Exception):
    """The entry is refused for this reason."""


class Entries:
    """A switch with its connections, those that are closed too, and the frames that were taken."""

    def __init__(self, document):
        self.journal = Journal(document.journal_limit)
        self.switch = Switch(document, self.journal)
        self.deliveries = Deliveries(self.switch)
        self.connections = []
        self.places_of_commands = {}
        self.places = 0
        self.written = []

    def entry(self, do, connection=None, block_length=0):
        """An entry that is not refused, and its events."""
        self.journal.enter(block_length)
        self.places += 1
        return self.deliveries.enter(do, connection)

    def arrive(self):
        if self.switch.stopping:
            raise Refused("Gone")
        if self.full():
            raise Refused(f"TooMany {{ live: {self.live()} }}")
        connection = Connection(self.switch)
        connection.outbox.put(AUTH_REQUEST)
        return self.entry(lambda: self.open(connection))

    def open(self, connection):
        """Connections are numbered from 1 in the order in which they open, whoever opened them."""
        self.connections.append(connection)
        self.deliveries.connections.append(connection)

    def open_connections(self):
        """The numbers of the connections that are not closed, and these."""
        numbered = enumerate(self.connections, 1)
        return [(number, one) for number, one in numbered if one in self.deliveries.connections]

    def live(self):
        return len(self.deliveries.connections)

    def full(self):
        return self.live() == self.switch.document.connections

    def connection(self, number):
        """A connection that is there and not closed."""
        if not 1 <= number <= len(self.connections):
            raise Refused("Gone")
        connection = self.connections[number - 1]
        if connection not in self.deliveries.connections:
            raise Refused("Gone")
        return connection

    def reader(self, number):
        """A connection that reads commands."""
        connection = self.connection(number)
        if connection.ended:
            raise Refused("Gone")
        return connection

    def say(self, number, line):
        connection = self.reader(number)
        if self.switch.owes(connection):
            raise Refused(f"Busy {{ since: {self.places_of_commands[connection]} }}")
        self.places_of_commands[connection] = self.places
        block = block_of(line)
        return self.entry(partial(connection.frames_for, block), connection, block.length)

    def leave(self, number):
        return self.entry(self.reader(number).leave)

    def close(self, number):
        """With all that was sent: nothing waits, and nothing is owed."""
        connection = self.connection(number)
        queued, owed = len(connection.outbox.waiting), self.switch.owes(connection)
        if not connection.ended or queued or owed:
            raise Refused(f"Unsent {{ queued: {queued}, owed: {str(owed).lower()} }}")
        return self.entry(lambda: self.deliveries.close(connection))

    def work(self, slot):
        """Who waits for a dial has no work of its own."""
        channel = self.switch.channels.get(slot)
        dials = channel is None or channel.wait is Wait.DIAL
        self.see_due(None if dials else self.switch.due(channel))
        return self.entry(partial(work, self.switch, channel))

    def job(self, number):
        job = self.switch.jobs.get(number)
        self.see_due(job and job.task.due(self.switch.now))
        return self.entry(partial(job.task.work, self.switch, number))

    def see_due(self, moment):
        if moment is None:
            raise Refused("NotDue { next: None }")
        if moment > self.switch.now:
            raise Refused(f"NotDue {{ next: Some({moment}) }}")

    def dialed(self, slot):
        """Where as many connections are there as may be, the link is of no use."""
        if self.full():
            return self.undialed(slot)
        channel = self.dialing(slot)
        return self.entry(lambda: self.open(Controller(self.switch, channel)))

    def undialed(self, slot):
        """The channel goes on."""
        channel = self.dialing(slot)
        return self.entry(partial(self.switch.complete, channel))

    def dialing(self, slot):
        channel = self.switch.channels.get(slot)
        if channel is None or channel.wait is not Wait.DIAL:
            raise Refused("NotDue { next: None }")
        return channel

    def halt(self):
        if self.switch.stopping:
            raise Refused("Gone")
        return self.entry(self.switch.shut_down)

    def taken(self, number):
        outbox = self.connection(number).outbox
        if not outbox.waiting:
            raise Refused("Empty")
        self.journal.enter()
        self.places += 1
        self.written.append(outbox.take())
        return self.written[-1]

    def due_slots(self):
        return [slot for slot, channel in self.switch.channels.items() if self.is_due(self.due(channel))]

    def due_jobs(self):
        now = self.switch.now
        return [number for number, job in self.switch.jobs.items() if self.is_due(job.task.due(now))]

    def due(self, channel):
        return None if channel.wait is Wait.DIAL else self.switch.due(channel)

    def is_due(self, moment):
        return moment is not None and moment <= self.switch.now

    def dialing_slots(self):
        return [slot for slot, channel in self.switch.channels.items() if channel.wait is Wait.DIAL]


def block_of(line):
    """A command is said with its empty line."""
    stream = Stream()
    stream.feed(f"{line}\n\n")
    block = stream.next_block()
    assert block and not stream.rest, line
    return block
