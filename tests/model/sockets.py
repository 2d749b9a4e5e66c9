"""Plays of waits for a connection, which no play can have."""

from blocks import LONGEST_BLOCK
from dialplan import Action, Extension
from session import COST_OF_ENTRY, LARGEST_COST
from waiting import Trying


class Dialing(Trying):
    """All applications, and among them waits for a connection."""

    TARGETS = (
        "h:9", "127.0.0.1:9999 async full", "localhost:8021 async", "::1:8021 full", "h:1", "h:65535",
        " h:9  x", "h:00000000000000000009", "\xe9:80", "${destination_number}:9", "h:8${a}",
    )
    NO_TARGETS = (
        "", "h", "127.0.0.1", "h:", ":9", ":", "h:0", "h:65536", "h:x", "h:-1", "h:+9", "h:9.0", "h:9\t",
        "h: 9", "h :9", "h:000000000000000000009", "h:18446744073709551625", "async full", "h:9:", "${a}:9",
        "h:${nosuch}",
    )

    def tried(self):
        return self.socket()

    def socket(self):
        return Action("socket", self.weighed(
            (3, lambda: self.one_of(*self.TARGETS)),
            (2, lambda: self.one_of(*self.NO_TARGETS)),
        ))


class Sockets(Dialing):
    """Waits for a connection that cannot be had, amid other applications and near the end of a journal."""

    def document(self):
        document = super().document()
        if self.chance(0.6):
            document.journal_limit = 1048576 + self.one_of(0, 1, 1023, 1024, 1025, 20000)
        if self.chance(0.03):
            spins = self.some(self.socket, 900, 1100) + [Action("transfer", "spin")]
            document.contexts["default"].append(Extension("spin", tuple(spins)))
            self.numbers = self.numbers + ["spin"]
        return document

    def action(self):
        usual = super().action
        return self.weighed((1, usual), (1, self.tried))

    def command(self, session):
        usual = super().command
        small = session.journal.limit < 2 * 1048576
        return self.chosen(
            session,
            (6, lambda: usual(session)),
            (4, lambda: self.message(session)),
            (2, lambda: self.job(session)),
            (0.5, self.event_command),
            (3 if small else 0, lambda: self.filling(session.journal)),
            (0.1, lambda: self.one_of(*self.SHUTDOWNS)),
        )

    def filling(self, journal):
        """Long commands, behind which there is room for a few entries, so that each of them tells."""
        room = journal.limit - LARGEST_COST - journal.cost - self.random.randint(0, 6000)
        whole, rest = divmod(max(room, 0), LONGEST_BLOCK + 2 * COST_OF_ENTRY)
        lengths = [LONGEST_BLOCK] * whole + [rest]
        return "\n\n".join("api uuid_exists ".ljust(length - 2, "x") for length in lengths)
