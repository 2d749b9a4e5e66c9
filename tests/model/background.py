"""Kinds of plays of jobs in the background, and of many jobs and messages."""

from commands import MOST_MESSAGES
from further import Further
from jobs import MOST_JOBS
from limits import Room
from random_plays import LONGEST_SLEEP, bridged, rings, waits
from streams import Blocks, Streams
from tables import identifier


class Jobs(Further):
    """Background jobs beside calls, at moments that collide, and the events that tell how they end."""

    def command(self, session):
        usual = super().command
        return self.chosen(
            session,
            (5, lambda: usual(session)),
            (8, lambda: self.job(session)),
            (1, self.event_command),
            (1, lambda: "api msleep " + self.one_of("500", "1000", "3000")),
        )


class Crowds(Room, Further):
    """As many jobs and messages as there may be, a journal near its limit, and events that are lost."""

    fewest_commands = 4
    most_commands = 12

    def __init__(self, seed):
        super().__init__(seed)
        self.spins = self.chance(0.15)

    def command(self, session):
        usual = super().command
        new = len(session.written) < 500
        return self.chosen(
            session,
            (6, lambda: usual(session)),
            (2, lambda: self.job(session)),
            (2, lambda: self.message(session)),
            (4 if new else 0.1, lambda: self.crowd_of_jobs(session)),
            (4 if new else 0.1, lambda: self.crowd_of_messages(session)),
            (2 if self.spins else 0, lambda: self.in_background("api originate loopback/spin &park()")),
            (1, self.event_command),
            (0.3, lambda: self.one_of(*self.SHUTDOWNS)),
        )

    def crowd_of_jobs(self, session):
        """So many that none more can begin, or one, and then some commands that would need one."""
        room = MOST_JOBS - len(session.switch.jobs) + self.one_of(-1, 0, 0, 1)
        many = ["bgapi msleep " + self.one_of("1000", "2000", LONGEST_SLEEP)] * max(room, 0)
        behind = (
            "bgapi echo x", "bgapi\nJob-UUID: q", "api msleep 1000", "api msleep", "api msleep x",
            "api originate error/USER_BUSY &park()", "api originate a,,b &park()", "api originate x",
            "api expand msleep 1", "bgapi originate loopback/e1 &park()", "api create_uuid",
        )
        return "\n\n".join([*many, *self.some(lambda: self.one_of(*behind), 1, 2, 3, 5)])

    def crowd_of_messages(self, session):
        if not session.switch.live_channels():
            return self.lasting_call()
        channel = self.channel(session, waits, rings, bridged)
        application = self.one_of("eval", "log")
        told = f"sendmsg {channel}\ncall-command: execute\nexecute-app-name: {application}"
        behind = ("hangup", "execute", "frob")
        last = self.some(lambda: f"sendmsg {channel}\ncall-command: {self.one_of(*behind)}", 0, 1, 2)
        count = MOST_MESSAGES + self.one_of(-1, 0, 0, 1)
        return "\n\n".join([told] * count + last)


class FurtherBlocks(Blocks, Further):
    """Jobs and messages by blocks with odd line ends, empty lines in front, further headers and bodies."""

    HEADERS = (
        *Blocks.HEADERS, "call-command: execute", "CALL-COMMAND:execute", "call-command: hangup",
        "execute-app-name: answer", "execute-app-arg: 500", "execute-app-name: sleep", "Job-UUID : q",
        "job-uuid:\t r \t", "Job-UUID: ", "hangup-cause: USER_BUSY", " call-command: execute",
    )

    def command(self, session):
        usual = super().command
        return self.chosen(
            session,
            (5, lambda: usual(session)),
            (3, lambda: self.job(session)),
            (3, lambda: self.message(session)),
            (1, lambda: self.channel_command(session)),
        )


class FurtherStreams(Streams):
    """Whole inputs with odd words and odd bytes in all commands."""

    HEADERS = FurtherBlocks.HEADERS

    def odd_command(self):
        usual = super().odd_command
        return self.weighed(
            (6, usual),
            (3, lambda: "b" + self.odd_api_command()),
            (2, lambda: self.spaced("bgapi", *self.some(self.odd_word, 0, 1, 1, 2))),
            (2, lambda: f"sendmsg {identifier(self.random.randint(1, 4))}"),
            (1, self.odd_further_command),
        )

    def odd_further_command(self):
        odd = self.some(self.odd_word, 0, 1, 2, 3)
        name = self.one_of("fsctl", "expand uuid:" + identifier(1))
        return self.spaced("api", name, *self.some(lambda: identifier(self.random.randint(1, 3)), 0, 1), *odd)
