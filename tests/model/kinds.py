"""All kinds of random plays, and two that mix them."""

from dataclasses import replace

from background import Crowds, FurtherBlocks, FurtherStreams, Jobs
from dialplan import Document
from joined import Joined
from layers import Layers
from limits import Bytes, Limits, Room
from messages import Messages, Variables
from rings import Rings
from shutdowns import Shutdowns
from sockets import Dialing, Sockets
from spelling import Spelling
from streams import Blocks, Streams
from times import Times
from waiting import Queues
from words import Words


class Mixture(Layers):
    """Documents of several kinds in one, commands of all kinds, and longer plays."""

    fewest_commands = 10
    most_commands = 60

    def __init__(self, seed):
        super().__init__(seed)
        self.parts = [kind(f"mixed {seed}") for kind in (Words, Rings, Times, Bytes) if self.chance(0.6)]

    def document(self):
        """Half of the extensions of the parts get numbers of their own."""
        contexts = {"other": [], **super().document().contexts}
        for part in self.parts:
            for context, extensions in part.document().contexts.items():
                contexts[context] += [self.renamed(extension) for extension in extensions]
        for extensions in contexts.values():
            self.random.shuffle(extensions)
        numbers = {extension.number for extensions in contexts.values() for extension in extensions}
        self.numbers = sorted(numbers)
        for part in self.parts:
            part.numbers = self.numbers
        return Document(contexts, slots=self.one_of(32, 32, 32, 64, 16, 8))

    def renamed(self, extension):
        return replace(extension, number=extension.number + self.one_of("", "q"))

    def command(self, session):
        if self.parts and self.chance(0.35):
            return self.random.choice(self.parts).command(session)
        return super().command(session)


class Everything(Mixture, Dialing):
    """Documents of several kinds in one, all commands, and longer plays, queues, sockets and joined legs among them."""

    FURTHER_PARTS = (Queues, Sockets, Joined)

    def __init__(self, seed):
        super().__init__(seed)
        self.further_parts = [kind(f"mixed {seed}") for kind in self.FURTHER_PARTS if self.chance(0.8)]
        self.parts += self.further_parts

    def tried(self):
        return self.one_of(self.fifo, self.socket)

    def command(self, session):
        if self.further_parts and self.chance(0.35):
            return self.random.choice(self.further_parts).command(session)
        usual = super().command
        return self.chosen(
            session,
            (10, lambda: usual(session)),
            (4, lambda: self.job(session)),
            (4, lambda: self.message(session)),
            (2, lambda: self.channel_command(session)),
            (1, self.event_command),
            (0.1, lambda: self.one_of(*self.SHUTDOWNS, *self.NO_SHUTDOWNS)),
        )


ALL = (
    Words, Layers, Rings, Times, Bytes, Limits, Spelling, Room, Mixture, Messages, Variables, Jobs, Crowds,
    Shutdowns, Queues, Sockets, Joined, Everything, Blocks, FurtherBlocks, Streams, FurtherStreams,
)
KINDS = {kind.__name__.lower(): kind for kind in ALL}
