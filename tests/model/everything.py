"""Plays of all that there is, with what is still to come in them."""

import kinds
from held import Held, Limiting
from hourly import BASES, Hourly
from scheduled import AGAIN, Scheduled


class Everything(kinds.Everything, Limiting):
    """Documents of several kinds in one, all commands, and longer plays, and in them what is still to come."""

    FURTHER_PARTS = (*kinds.Everything.FURTHER_PARTS, Hourly, Scheduled, Held)
    TOGETHER = (
        "event json ALL", "event plain ALL", "api reloadxml", "bgapi reloadxml", "api sched_api +1 g reloadxml",
        "api msleep 3600000", "api sched_api +1 g hupall", "api limit_usage hash r a",
        "api sched_api +0 g reloadxml",
    )

    def document(self):
        """The clock begins somewhere, and there is a global that runs itself again."""
        document = super().document()
        document.time_base = self.one_of(0, *BASES)
        document.global_values = {"again": AGAIN if self.chance(0.05) else "echo over"}
        return document

    def tried(self):
        return self.one_of(self.fifo, self.socket, self.limit)

    def command(self, session):
        usual = super().command
        return self.weighed((15, lambda: usual(session)), (1, lambda: self.one_of(*self.TOGETHER)))
