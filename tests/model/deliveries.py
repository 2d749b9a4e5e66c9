"""What each connection is given by an entry, and what waits for it until it is taken.

Within an entry a connection is given the replies to its own command, then the events that it had subscribed
before the entry, then an answer that it was owed, and last the notice, where the entry ends it. Who has left
by the end of its input gets no notice, and who is closed gets nothing more.
"""

from collections import Counter, deque
from dataclasses import dataclass

from frames import api_response, event_frame, event_headers

MOST_WAITING_EVENTS = 10000


@dataclass(frozen=True)
class Waiting:
    """A frame that waits to be taken."""

    text: str
    of_event: bool = False


class Outbox:
    """An event is lost where 10,000 of them wait. Other frames do not count, and are never lost."""

    def __init__(self):
        self.waiting = deque()
        self.events = 0

    def put(self, text):
        self.waiting.append(Waiting(text))

    def put_event(self, headers, body, form):
        if self.events < MOST_WAITING_EVENTS:
            self.events += 1
            self.waiting.append(Waiting(event_frame(headers, body, form), of_event=True))

    def take(self):
        frame = self.waiting.popleft()
        self.events -= frame.of_event
        return frame.text


@dataclass(frozen=True)
class Before:
    """A connection as an entry found it."""

    connection: object
    ended: bool
    subscription: object


class Deliveries:
    """The connections of a switch, what its entries tell them, and how many events of each name were told."""

    def __init__(self, switch):
        self.switch = switch
        self.connections = []
        self.events_told = Counter()
        self.hangups = Counter()

    def enter(self, do, connection=None):
        """One entry, which may give replies to the connection that makes it. What it told."""
        self.switch.begin_entry()
        before = [Before(one, one.ended, one.subscription) for one in self.connections]
        for reply in do() or ():
            connection.outbox.put(reply)
        events = self.switch.events_of_entry()
        for event in events:
            self.tell(event, before)
        for owed_to, answer in self.switch.answers.items():
            owed_to.outbox.put(api_response(answer))
        for one in before:
            part(one)
        return events

    def tell(self, event, before):
        self.events_told[event.name] += 1
        if event.name == "CHANNEL_HANGUP":
            self.hangups[event.channel.cause] += 1
        listeners = [one for one in before if one.subscription.names.has(event)]
        if listeners:
            headers = event_headers(event, self.events_told.total(), self.switch.now)
            for listener in listeners:
                if listener.subscription.lets_through(headers):
                    listener.connection.outbox.put_event(headers, event.body, listener.subscription.form)

    def close(self, connection):
        """What waits for a connection that is closed is dropped, and so is what comes for it behind that."""
        self.connections.remove(connection)
        connection.outbox = Outbox()


def part(before):
    """A connection that has lost what it was for ends. Its notice comes once."""
    connection = before.connection
    if not connection.ended and connection.lost():
        connection.end()
    if connection.ended and not before.ended and not connection.left:
        connection.outbox.put(connection.notice())
