"""The play of one connection: its entries and what they cost, the clock, and the frames that are written."""

from dataclasses import dataclass
from functools import partial

from blocks import LONGEST_BLOCK, BlockFault, Stream
from commands import Connection
from deliveries import Deliveries
from frames import AUTH_REQUEST
from reloads import same_again
from switch import Switch

COST_OF_ENTRY = 64
LARGEST_COST = COST_OF_ENTRY + LONGEST_BLOCK
LONGEST_DOCUMENT = 1048576
LARGEST_LOAD = COST_OF_ENTRY + LONGEST_DOCUMENT + 1
MOST_AT_ONE_MOMENT = 100000


class PlayOver(Exception):
    """The play ends with this status and this line on standard error."""

    def __init__(self, status, line):
        super().__init__(line)
        self.status = status
        self.line = line


class Journal:
    """An entry is made where the cost so far and that of the largest entry are within the limit."""

    def __init__(self, limit):
        self.limit = limit
        self.cost = 0
        self.cost_before_entry = 0

    def enter(self, block_length=0):
        if self.cost + LARGEST_COST > self.limit:
            raise PlayOver(8, f"fsw: journal full {self.cost} {self.limit}")
        self.cost_before_entry = self.cost
        self.cost += COST_OF_ENTRY + block_length

    def has_room_for_load(self):
        """Behind the largest entry in place of that in hand there is room for a load of the longest text."""
        return self.cost_before_entry + LARGEST_COST + LARGEST_LOAD <= self.limit

    def add_load(self, length):
        """The entry in hand has a text of this length, where there was room for the longest."""
        if self.cost_before_entry + LARGEST_LOAD > self.limit:
            raise PlayOver(8, f"fsw: journal full {self.cost_before_entry} {self.limit}")
        self.cost += length

    def nearly_full(self):
        """Over 15/16 of the limit were cost before the entry in hand."""
        return self.cost_before_entry * 16 > self.limit * 15


@dataclass(frozen=True)
class Result:
    """What a program prints, its status, and its line on standard error."""

    output: str
    status: int = 0
    error: str = ""

    def __str__(self):
        return f"{self.output}\nstatus {self.status}\n{self.error}"


class Session:
    def __init__(self, document, coming=False, loads=None):
        """Whenever the file is read again it has the document, unless there are other loads to come."""
        self.journal = Journal(document.journal_limit)
        self.switch = Switch(document, self.journal, coming, loads or same_again(document))
        self.stream = Stream()
        self.connection = Connection(self.switch)
        self.deliveries = Deliveries(self.switch)
        self.deliveries.connections.append(self.connection)
        self.written = []
        self.enter(lambda: [AUTH_REQUEST])
        self.run()

    @property
    def ended(self):
        return self.connection.ended

    @property
    def events_told(self):
        return self.deliveries.events_told

    @property
    def hangups(self):
        return self.deliveries.hangups

    def feed(self, text):
        """More of the input. Each command that is whole is done, and all that is to be done behind it."""
        self.stream.feed(text)
        while not self.ended and (block := self.next_block()) is not None:
            self.enter(partial(self.connection.frames_for, block), block.length)
            self.run()

    def next_block(self):
        """Where the block has a fault, the connection is closed as at the end of the input."""
        try:
            return self.stream.next_block()
        except BlockFault as fault:
            self.close()
            raise PlayOver(10, f"fsw: {fault}") from None

    def close(self):
        """The end of the input, or of a connection that has ended, is an entry too."""
        if not self.ended:
            self.enter(self.connection.leave)
            self.write_waiting()
        self.journal.enter()

    def enter(self, do, block_length=0):
        """One entry, which may give replies."""
        self.journal.enter(block_length)
        self.deliveries.enter(do, self.connection)

    def run(self):
        """Does all that is due. While a reply is owed the clock goes on. Then what waits is written."""
        self.settle()
        while self.switch.owes(self.connection):
            self.switch.advance()
            self.settle()
        self.write_waiting()

    def settle(self):
        """All that is to be done at this moment is done one after another, up to 100,000 things."""
        done = 0
        while (do := self.switch.next_work()) is not None:
            if done == MOST_AT_ONE_MOMENT:
                raise PlayOver(9, f"fsw: runaway {MOST_AT_ONE_MOMENT}")
            done += 1
            self.enter(do)

    def write_waiting(self):
        """Each frame that is taken is an entry of its own."""
        outbox = self.connection.outbox
        while outbox.waiting:
            self.journal.enter()
            self.written.append(outbox.take())

    def play(self, pieces):
        """The result of a play whose input has these pieces, which may be chosen as it goes on."""
        try:
            for piece in pieces:
                self.feed(piece)
                if self.ended:
                    break
            self.close()
        except PlayOver as over:
            return Result("".join(self.written), over.status, over.line)
        return Result("".join(self.written))
