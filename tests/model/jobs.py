"""Jobs: what is still to be done for a command that has not been answered yet."""

from dataclasses import dataclass

from originations import Origination
from races import conclude

MOST_JOBS = 1024


@dataclass
class Job:
    """Its answer is owed to a connection, or is told by an event that has these headers."""

    headers: tuple = None
    owed_to: object = None
    task: object = None

    def owed(self):
        return self.headers is None


@dataclass(frozen=True)
class Sleep:
    until: int

    def due(self, now):
        return max(now, self.until)

    def work(self, switch, number):
        switch.end_job(number, "+OK\n")


@dataclass(frozen=True)
class Dial:
    origination: Origination

    def due(self, now):
        return self.origination.due(now)

    def work(self, switch, _number):
        conclude(switch, self.origination)
