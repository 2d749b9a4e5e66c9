"""Plays whose file is read again and again. It has the same document each time, whose globals come back."""

from jobs import MOST_JOBS
from kinds import Everything
from session import LARGEST_COST, LARGEST_LOAD


class Reloaded(Everything):
    """The plays of all kinds, with globals that are changed and come back, and journals that loads fill."""

    LARGE = "x" * 16384
    NAMES = ("a", "g", "k", "x", "new", "large0", "\xe9", "n n")
    RELOADS = ("api reloadxml", "api reloadxml", "bgapi reloadxml", "api expand reloadxml", "api  reloadxml  x")

    def document(self):
        document = super().document()
        document.global_values |= {name: self.one_of("1", "two", "${a}", "\xff") for name in self.NAMES[:5]}
        if self.chance(0.2):
            document.global_values |= {f"large{count}": self.LARGE for count in range(self.one_of(3, 15))}
        if self.chance(0.4):
            loads = self.one_of(0, 1, 2, 5)
            document.journal_limit = LARGEST_COST + LARGEST_LOAD + loads * len(document.written())
            document.journal_limit += self.random.randint(0, 60000)
        return document

    def reload(self):
        return self.one_of(*self.RELOADS)

    def changed_global(self):
        name = self.one_of(*self.NAMES[:6])
        return self.one_of(
            f"api global_setvar {name}={self.one_of('5', '', '_undef_', 'reloadxml', self.LARGE)}",
            "api global_getvar",
            f"api global_getvar {name}",
            f"api expand ${{{name}}}",
            f"api expand echo ${{{name}}}",
            lambda: self.many_globals(self.LARGE, self.one_of(8, 15)),
            lambda: self.many_globals("1", self.one_of(900, 1018, 1019, 1020)),
        )

    def many_globals(self, value, count):
        return "\n\n".join(f"api global_setvar f{number}={value}" for number in range(count))

    def crowd(self, session):
        """A load finds no room for its job, or a job that waits goes on in its own."""
        room = MOST_JOBS - len(session.switch.jobs) + self.one_of(-1, 0)
        return "\n\n".join([*["bgapi msleep 1000"] * max(room, 0), self.reload(), self.reload(), "api hupall"])

    def command(self, session):
        usual = super().command
        early = len(session.written) < 300
        return self.weighed(
            (7, lambda: usual(session)),
            (3, self.reload),
            (2, self.changed_global),
            (0.5, "api msleep 1000"),
            (0.1 if early else 0, lambda: self.crowd(session)),
        )
