"""Random runs of entries, of channels that controllers hold beside calls, jobs and clients.

Extensions ask for controllers amid other applications. Clients make calls, and move, join, kill and tell
channels; controllers tell their own channel and others, subscribe and filter, ask for api commands whether
they may or not, and part in every way. Whatever is due is worked in any order, and frames are taken now or
later. A step is chosen when those before it were made.
"""

from itertools import takewhile

from channels import Wait
from controllers import Controller
from dialplan import Action, Extension
from further import parked
from kinds import Everything
from random_plays import ANSWER, PARK, any_channel, brackets, bridged, waits
from sockets import Dialing
from tables import EVENTS
from waiting import queued, taking

MOST_STEPS_OF_REST = 400


def held(channel):
    return channel.controller is not None


def asks(channel):
    return channel.wait is Wait.DIAL


def rests_with_controller(channel):
    return channel.wait is Wait.CONTROLLER


def socket(data):
    return Action("socket", data)


class Controlled(Dialing):
    """The steps of a run, each of which is possible, but for a few that are refused."""

    fewest_steps = 30
    most_steps = 350

    FULL = ("h:9 full", "127.0.0.1:9999 async full", "h:1 x full async", "::1:8084 full full")
    SINGLE = ("h:9", "h:9 async", "h:80 FULL", "pbx:0080 fully", "h:9 full,")
    IDENTIFIERS = ("a:b", "x%41", "<&>", "u=1", "A")
    PAIRS = ("p%q=1", "r='x y'", "s=a:b", "hangup_after_bridge=true", "park_after_bridge=true")
    ASKING = (
        Extension("sock", (socket(FULL[1]), ANSWER, PARK)),
        Extension("own", (socket(SINGLE[0]), ANSWER, PARK)),
        Extension("held", (ANSWER, socket(FULL[0]), Action("set", "k=v"), PARK)),
        Extension("two", (ANSWER, socket(FULL[0]), socket(SINGLE[1]), Action("export", "a=1"), PARK)),
        Extension("last", (ANSWER, Action("set", "hangup_after_bridge=true"), socket(FULL[2]))),
        Extension("kept", (ANSWER, Action("set", "park_after_bridge=true"), socket(FULL[0]))),
        Extension("turns", (ANSWER, socket(FULL[0]), Action("fifo", "f in"), socket(FULL[0]))),
        Extension("joins", (socket(FULL[0]), Action("bridge", "loopback/held"), socket(SINGLE[1]))),
    )
    SUBSCRIPTIONS = (
        "event plain ALL", "event ALL", "event plain CHANNEL_EXECUTE_COMPLETE CHANNEL_HANGUP",
        "event CHANNEL_EXECUTE CUSTOM fifo::info", "event plain CHANNEL_STATE CHANNEL_BRIDGE BACKGROUND_JOB",
        "nixevent CHANNEL_STATE", "nixevent ALL", "noevents", "event json ALL", "event plain x",
    )
    BEFORE_PASSWORD = ("auth x", "exit", "connect", "api echo x", "sendmsg")
    NOT_FOR_CLIENTS = ("connect", "sendmsg", "exit", "auth ClueCon", "sendmsg\ncall-command: hangup")
    ODD_COMMANDS = ("auth ClueCon", "auth", "api", "bgapi", "nosuch", "api nosuch x", "bgapi create_uuid")

    def __init__(self, seed):
        super().__init__(seed)
        self.most_clients = self.one_of(1, 2, 2, 3, 4)
        self.hasty = self.one_of(2, 6, 14)
        self.lingers = self.chance(0.3)

    def document(self):
        document = super().document()
        document.contexts["default"] += self.ASKING
        document.connections = self.weighed((16, 16), (1, 2), (1, 3), (1, 5))
        return document

    def sleep(self):
        """Moments stand still, so that whoever sleeps does so until it is moved."""
        return Action("sleep", self.weighed((8, "0"), (3, "x"), (2, "1000")))

    def tried(self):
        return self.weighed((3, self.socket), (1, self.fifo))

    def socket(self):
        usual = super().socket
        return self.weighed(
            (2, usual),
            (4, lambda: socket(self.one_of(*self.FULL))),
            (3, lambda: socket(self.one_of(*self.SINGLE))),
        )

    def steps(self, entries):
        """A client comes first. At the end all that waits is taken, mostly once nothing is due any more."""
        yield "arrive"
        for _ in range(self.random.randint(self.fewest_steps, self.most_steps)):
            if entries.switch.stopping and self.chance(0.1):
                break
            yield self.step(entries)
        if self.chance(0.3):
            yield "halt"
        if self.chance(0.6):
            yield from self.rest_of_work(entries)
        yield from self.partings(entries)

    def step(self, entries):
        slots, jobs, dials = entries.due_slots(), entries.due_jobs(), entries.dialing_slots()
        talking = [number for number, one in entries.open_connections() if self.may_say(entries, one)]
        waiting = [number for number, one in entries.open_connections() if one.outbox.waiting]
        closable = [number for number, one in entries.open_connections() if self.may_close(entries, one)]
        return self.weighed(
            (self.hasty if slots else 0, lambda: f"work {self.worker(entries, slots)}"),
            (3 if jobs else 0, lambda: f"job {self.random.choice(jobs)}"),
            (4 if dials else 0, lambda: self.dial(dials)),
            (8 if talking else 0, lambda: self.said(entries, self.speaker(entries, talking))),
            ((0.5 if self.lingers else 2) if waiting else 0, lambda: self.taken(entries, waiting)),
            (4 if closable else 0, lambda: f"close {self.random.choice(closable)}"),
            (self.arrivals(entries, talking), "arrive"),
            (0.3, lambda: self.parting(entries)),
            (0.15, lambda: self.refused(entries)),
            (0.01, "halt"),
        )

    def may_say(self, entries, connection):
        return not connection.ended and not entries.switch.owes(connection)

    def may_close(self, entries, connection):
        return connection.ended and not connection.outbox.waiting and not entries.switch.owes(connection)

    def worker(self, entries, slots):
        """Often a far end, which asks for a controller sooner than its leg does."""
        far_ends = [slot for slot in slots if entries.switch.channels[slot].direction == "inbound"]
        return self.random.choice(far_ends if far_ends and self.chance(0.5) else slots)

    def dial(self, slots):
        return f"{self.one_of('dialed', 'dialed', 'dialed', 'undialed')} {self.random.choice(slots)}"

    def speaker(self, entries, talking):
        """Mostly a controller."""
        weights = [12 if isinstance(entries.connections[number - 1], Controller) else 1 for number in talking]
        return self.weighed(*zip(weights, talking))

    def arrivals(self, entries, talking):
        """Where nobody can say anything, somebody comes."""
        if entries.switch.stopping or entries.full():
            return 0.01
        open_now = [one for _, one in entries.open_connections() if not one.ended]
        clients = [one for one in open_now if not isinstance(one, Controller)]
        return 4 if not talking else 0.5 if len(clients) < self.most_clients else 0.02

    def taken(self, entries, waiting):
        """In short no answer and no reply is told that shows a channel."""
        number = self.random.choice(waiting)
        frames = entries.connections[number - 1].outbox.waiting
        short = len(list(takewhile(may_be_heard, frames)))
        return self.weighed(
            (3 if short else 0, f"hear {number} {short}"),
            (2 if short else 0, lambda: f"hear {number} {self.random.randint(1, short)}"),
            (2, f"read {number}"),
            (1 if may_be_cut(frames[0].text) else 0, f"take {number}"),
        )

    def parting(self, entries):
        """One leaves, or is closed where it has begun to end."""
        if not entries.open_connections():
            return "close 1"
        number, connection = self.random.choice(entries.open_connections())
        return f"close {number}" if connection.ended else f"leave {number}"

    def refused(self, entries):
        """A step that is likely to be refused."""
        slot = self.random.randint(0, entries.switch.document.slots + 1)
        number = self.random.randint(0, len(entries.connections) + 1)
        waiting = [number for number, one in entries.open_connections() if one.outbox.waiting]
        empty = self.random.choice([one for one in range(len(entries.connections) + 2) if one not in waiting])
        job = self.random.randint(0, entries.switch.jobs_begun + 1)
        return self.one_of(
            f"work {slot}", f"work {slot}", f"dialed {slot}", f"undialed {slot}", f"job {job}",
            f"close {number}", f"leave {number}", f"say {number} api echo x", f"take {empty}", f"read {empty}",
            f"hear {empty} 2",
        )

    def rest_of_work(self, entries):
        """Whatever is due is worked, in any order, up to a number of steps."""
        for _ in range(MOST_STEPS_OF_REST):
            works = [f"work {slot}" for slot in entries.due_slots()]
            jobs = [f"job {number}" for number in entries.due_jobs()]
            dials = [self.dial([slot]) for slot in entries.dialing_slots()]
            if not works + jobs + dials:
                break
            yield self.random.choice(works + jobs + dials)

    def partings(self, entries):
        """All frames are taken. Some connections leave, and are closed."""
        for number, connection in entries.open_connections():
            while connection.outbox.waiting:
                yield self.taken(entries, [number])
            if self.chance(0.5):
                yield f"leave {number}"
                yield f"close {number}"

    def said(self, entries, number):
        connection = entries.connections[number - 1]
        if not connection.accepted:
            line = self.weighed((20, "auth ClueCon"), (1, lambda: self.one_of(*self.BEFORE_PASSWORD)))
        elif isinstance(connection, Controller):
            line = self.of_controller(entries, connection)
        else:
            line = self.of_client(entries, connection)
        return f"say {number} {one_block(line)}"

    def of_client(self, entries, connection):
        """Mostly calls, as long as few channels have controllers."""
        if not connection.listening and self.chance(0.4):
            return self.one_of(*self.SUBSCRIPTIONS)
        live = entries.switch.live_channels()
        asking = sum(held(channel) or asks(channel) for channel in live)
        return self.weighed(
            ([30, 20, 10, 2, 0.5][min(asking, 4)] if len(live) < 20 else 0, self.call),
            (3, lambda: self.unhurried(self.command(entries))),
            (4, lambda: self.message(entries)),
            (2, lambda: self.asked(entries)),
            (1, lambda: self.channel_command(entries)),
            (1, lambda: self.job(entries)),
            (0.5, self.event_command),
            (0.5, lambda: self.one_of(*self.SUBSCRIPTIONS)),
            (0.3, lambda: self.one_of(*self.NOT_FOR_CLIENTS)),
            (0.05, lambda: self.one_of(*self.SHUTDOWNS)),
        )

    def of_controller(self, entries, connection):
        return self.weighed(
            (4, lambda: self.one_of("connect", "connect", "connect x", "connect\nConnect: y")),
            (10, lambda: self.own_message(connection)),
            (2, lambda: self.message(entries)),
            (3, lambda: self.one_of(*self.SUBSCRIPTIONS)),
            (1, lambda: self.filter_of(connection)),
            (0.5, self.event_command),
            (4, lambda: self.unhurried(self.moving(entries, connection))),
            (1, lambda: self.job(entries)),
            (1, lambda: self.channel_command(entries)),
            (1, lambda: self.one_of("exit", "exit now")),
            (0.3, lambda: self.one_of(*self.ODD_COMMANDS)),
            (0.05, lambda: self.one_of(*self.SHUTDOWNS)),
        )

    def call(self):
        """A call whose far end, or whose leg, asks for a controller."""
        pairs = [*self.braces(), *self.some(lambda: self.one_of(*self.PAIRS), 0, 0, 1)]
        if self.chance(0.3):
            pairs.append("origination_uuid=" + self.one_of(*self.IDENTIFIERS))
        if self.chance(0.3):
            pairs.append("origination_caller_id_name=" + self.one_of("Ann", "A+B"))
        number = self.one_of(*self.ASKING * 2, self.one_of(*self.LASTING)).number
        target = self.weighed((6, "&park()"), (3, self.tried_target), (2, self.target), (1, number))
        return self.unhurried(f"api originate {brackets(pairs)}loopback/{number} {target}")

    def asked(self, entries):
        """A channel is told to ask for a controller, mostly one that is parked and would rest so."""
        channel = self.channel(entries, parked, parked, parked, any_channel)
        target = self.one_of(*self.FULL, *self.SINGLE)
        headers = ("call-command: execute", "execute-app-name: socket", f"execute-app-arg: {target}")
        return "\n".join([f"sendmsg {channel}", *headers])

    def unhurried(self, line):
        """A call is mostly begun in the background, so that its client goes on."""
        begins = line.startswith(("api originate", "api msleep")) and self.chance(0.8)
        return self.in_background(line) if begins else line

    def moving(self, entries, connection):
        """Commands that move its own channel or others, or are owed an answer."""
        own = connection.own_channel
        other = self.channel(entries, held, parked, any_channel)
        leg = self.one_of(own, self.channel(entries, bridged))
        return self.weighed(
            (3, lambda: self.command(entries)),
            (1, lambda: f"api uuid_transfer {own} {self.goal()}"),
            (1, lambda: f"api uuid_transfer {leg} {self.one_of('-both', '-bleg')} {self.goal()}"),
            (1, f"api uuid_park {own}"),
            (1, lambda: f"api uuid_bridge {self.one_of(f'{own} {other}', f'{other} {own}')}"),
            (1, lambda: f"api uuid_kill {self.one_of(own, other)} {self.cause()}"),
            (1, f"api uuid_setvar {own} b x:y z"),
            (1, f"api uuid_dump {own}"),
            (2, lambda: "api msleep " + self.one_of("0", "0", "1000")),
        )

    def goal(self):
        return self.one_of("held", "own", "stays", self.number)

    def own_message(self, connection):
        """Mostly without an identifier, and of what its channel can do."""
        told = self.weighed(
            (12, self.told_application),
            (0.6, self.told_hangup),
            (0.4, lambda: list(self.one_of(*self.ODD_MESSAGES))),
        )
        line = self.weighed((9, "sendmsg"), (1, "sendmsg "), (1, f"sendmsg {connection.own_channel}"))
        return "\n".join([line, *told])

    def told_action(self):
        usual = super().told_action
        return self.weighed(
            (5, usual),
            (3, ANSWER),
            (2, lambda: Action("bridge", "loopback/" + self.one_of("stays", "held", "own", "sock"))),
            (1, lambda: Action("transfer", self.one_of("held", "own", "stays", "two"))),
            (2, PARK),
            (1, self.tried),
            (1, lambda: Action("set", self.one_of("a b=1% x", "k=v:w", "hangup_after_bridge=true", "k="))),
            (1, Action("sleep", "1000")),
        )

    def filter_of(self, connection):
        own = connection.own_channel
        return self.one_of(
            f"filter Unique-ID {own}", f"filter delete Unique-ID {own}", f"filter Other-Leg-Unique-ID {own}",
            "filter delete Unique-ID", "filter Application socket", "filter Event-Name " + self.one_of(*EVENTS),
        )

    def target_of_command(self, entries):
        busy = (waits, bridged, queued, taking)
        return self.channel(entries, held, held, asks, rests_with_controller, parked, *busy, any_channel)

    def moved(self, entries):
        return self.channel(entries, held, rests_with_controller, asks, waits, parked, bridged, any_channel)


class Mingled(Controlled, Everything):
    """The same in documents of several kinds, with the commands of all of them."""


def random_run(seed):
    """Every other one has a document of several kinds."""
    return (Controlled, Mingled)[seed % 2](seed)


def may_be_heard(frame):
    """An event of a channel, or a frame that shows none."""
    of_channel = frame.of_event and "\nEvent-Name: BACKGROUND_JOB\n" not in frame.text
    return of_channel or "Unique-ID: " not in frame.text


def may_be_cut(text):
    """The head of the frame has no further lines, and none of them stands behind it."""
    further = ("Job-UUID: ", "Socket-Mode: ", "Controlled-Session-UUID: ")
    return not any(f"\n{header}" in text for header in further)


def one_block(line):
    """Of several commands the first one. It is said with an empty line: two line ends are the end of its body."""
    head, gap, body = line.partition("\n\n")
    length = f"Content-Length: {len(body)}"
    if not gap or length not in head:
        return head
    return head.replace(length, f"Content-Length: {len(body) + 2}") + gap + body
