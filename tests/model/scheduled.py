"""Plays of tasks that hang channels up and run commands at moments to come."""

from dialplan import Action, Extension
from further import Further, parked
from jobs import MOST_JOBS
from random_plays import ANSWER, LONGEST_SLEEP, PARK, any_channel
from tables import SWITCH_IDENTIFIER, identifier
from tasks import MOST_TASKS

AGAIN = "sched_api +0 g expand ${again}"


class Scheduled(Further):
    """Commands that are run later, channels that have an end, and tasks that are deleted before it comes."""

    TIMES = (
        "+0", "+1", "+1", "+2", "+2", "+3", "+007", "+60", "+3600", "+9999999999", "9999999999", "0", "1", "2", "5",
    )
    ODD_TIMES = (
        "", "+", "++1", "+ 1", "-1", "+-1", "1s", "1.5", "+x", "x", "12345678901", "+12345678901", "+0000000001",
        "00000000000", "\xb2", "+\t1",
    )
    FURTHER = ("create_uuid", "hupall", "nosuch  x", "fsctl", "expand echo ${again}", "uuid_kill")
    GROUPS = ("g", "g", "h", "1", "2", "3", "007", "0", "G", "\xe9", "none", "18446744073709551616")

    def document(self):
        """Now and then a time base, which absolute times are less. A global runs itself again and again."""
        document = super().document()
        document.time_base = self.one_of(0, 0, 60, 120, 3600, 253369999980)
        document.global_values |= {"again": AGAIN if self.chance(0.2) else "echo over", "g": "uuid_exists"}
        if self.chance(0.2):
            document.journal_limit = 1048576 + self.one_of(0, 20000, 100000)
        runs = (Action("sleep", self.one_of("500", "1000", "2000")), ANSWER, PARK)
        document.contexts["default"].append(Extension("late", runs))
        return document

    def time(self, session):
        """Mostly soon. An absolute time may be so, too, or be over."""
        base, now = session.switch.document.time_base, session.switch.now // 1000000
        soon = str(base + now + self.random.randint(-2, 4))
        return self.weighed(
            (10, lambda: self.one_of(*self.TIMES)),
            (4 if len(soon) < 11 else 0, soon.lstrip("-")),
            (0.5, lambda: self.one_of(*self.ODD_TIMES)),
        )

    def group(self, session):
        return self.one_of(*self.GROUPS, lambda: self.channel(session))

    def later(self, session):
        """A command that a task runs. It may begin another one."""
        channel = self.channel(session, parked, any_channel)
        return self.weighed(
            (5, lambda: "echo " + self.one_of("one", "two", " a  b ", "${again}", "")),
            (3, lambda: self.one_of(f"uuid_kill {channel}", f"uuid_exists {channel}", f"uuid_park {channel}")),
            (2, lambda: "msleep " + self.one_of("0", "500", "1000", "2000", LONGEST_SLEEP)),
            (2, lambda: self.originate().removeprefix("api ")),
            (2, lambda: f"sched_api {self.time(session)} {self.group(session)} {self.later(session)}"),
            (1, lambda: f"sched_hangup {self.time(session)} {channel}"),
            (1, lambda: "sched_del " + self.group(session)),
            (1, lambda: self.one_of(*self.FURTHER)),
            (0.6, "expand ${again}"),
            (0.2, "fsctl shutdown"),
        )

    def task(self, session):
        spaces = self.one_of(" ", " ", " ", "  ")
        line = self.weighed(
            (6, lambda: f"sched_api {self.time(session)}{spaces}{self.group(session)}{spaces}{self.later(session)}"),
            (4, lambda: self.sched_hangup(session)),
            (3, lambda: f"sched_del {self.deleted(session)}"),
            (0.5, lambda: self.odd_task(session)),
        )
        return self.in_background("api " + line) if self.chance(0.15) else "api " + line

    def sched_hangup(self, session):
        channel = self.target_of_command(session)
        cause = self.one_of("", "", "", " USER_BUSY", " frob", " NO_ANSWER x", "  CALL_REJECTED")
        return f"sched_hangup {self.time(session)} {channel}{cause}"

    def deleted(self, session):
        """Mostly the number or the group of a task that waits."""
        tasks = session.switch.tasks
        number, group = str(self.random.randint(1, tasks.added + 1)), self.group(session)
        if tasks.waiting and self.chance(0.7):
            task = self.random.choice(tasks.waiting)
            number, group = str(task.number), task.group
        return self.one_of(number, "0" + number, number + " x", group)

    def odd_task(self, session):
        channel = self.channel(session)
        return self.one_of(
            "sched_api", "sched_api +1", "sched_api +1 g", "sched_api +1 g ", "sched_hangup", "sched_hangup +1",
            "sched_hangup x x", "sched_hangup +1 x", "sched_del", "sched_del ", f"sched_hangup  +1   {channel}  ",
            f"sched_hangup {channel} +1", "sched_api +1\tg echo x", "sched_api +1 g  echo  x ", "Sched_del g",
            f"sched_hangup +1 {SWITCH_IDENTIFIER}", "expand sched_api +1 g echo ${g}",
        )

    def crowd_of_tasks(self, session):
        """So many that none more can be added, or one, and then what would add or delete some."""
        room = MOST_TASKS - len(session.switch.tasks.waiting) + self.one_of(-1, 0, 0, 1)
        many = [f"api sched_api {self.one_of('+1', '+3600')} crowd echo x"] * max(room, 0)
        behind = ("api sched_del crowd", "api sched_del 1", "api sched_api +1 h echo", "api sched_hangup +1 x",
                  "api sched_api +1 h", "api sched_api +0 h echo x", "api msleep 1000", "bgapi sched_api +1 h echo x",
                  f"api sched_hangup +1 {self.channel(session)}")
        return "\n\n".join([*many, *self.some(lambda: self.one_of(*behind), 2, 3, 5)])

    def crowd_of_jobs(self, session):
        """So many jobs that a task finds no room for its command."""
        room = MOST_JOBS - len(session.switch.jobs) + self.one_of(-1, 0, 0)
        tasks = self.some(lambda: f"api sched_api {self.one_of('+0', '+1')} g echo x", 1, 2, 3)
        last = self.one_of("api hupall", "api msleep 1000", "api create_uuid")
        return "\n\n".join([*["bgapi msleep " + self.one_of("1000", "2000")] * max(room, 0), *tasks, last])

    def named_call(self):
        """A call whose leg has a name that others had before."""
        called = self.one_of("stays", "late")
        return f"api originate {{origination_uuid={self.short_name()}}}loopback/{called} &park()"

    def command(self, session):
        usual = super().command
        new = len(session.written) < 300
        return self.chosen(
            session,
            (10, lambda: self.task(session)),
            (4, lambda: "api msleep " + self.one_of("0", "500", "1000", "1000", "2000", "60000")),
            (2, lambda: usual(session)),
            (2, self.named_call),
            (1, lambda: self.job(session)),
            (0.5, lambda: self.message(session)),
            (0.5, self.event_command),
            (0.15 if new else 0.01, lambda: self.crowd_of_tasks(session)),
            (0.15 if new else 0.01, lambda: self.crowd_of_jobs(session)),
            (0.1, lambda: self.one_of(*self.SHUTDOWNS)),
            (0.05, "api expand ${again}"),
            (0.3, lambda: f"api uuid_exists {identifier(self.random.randint(1, 9))}"),
        )
