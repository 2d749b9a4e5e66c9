"""What plays of messages, of channels, of jobs and of shutdowns choose their commands of."""

from dialplan import Action, Extension
from random_plays import (
    ANSWER,
    LONGEST_SLEEP,
    ODD_NUMBERS,
    PARK,
    any_channel,
    brackets,
    bridged,
    rings,
    waits,
)
from tables import State, identifier
from words import Words


def parked(channel):
    return channel.state is State.CS_PARK


def parked_and_busy(channel):
    """It waits for what a message made it begin."""
    return parked(channel) and waits(channel)


def has_messages(channel):
    return bool(channel.messages)


class Further(Words):
    """What all of these kinds choose their commands of."""

    HEADER_NAMES = ("Job-UUID", "job-uuid", "JOB-UUID")
    JOB_NAMES = (
        "q", "Q-1", "!", "~", "j" * 64, "j" * 65, "", " ", "two words", "\xe9", "\x7f", "t\tu", identifier(2),
        identifier(16**11), "%41:=", "-ERR",
    )
    SHUTDOWNS = (
        "api fsctl shutdown", "bgapi fsctl shutdown", "api expand fsctl shutdown", "api  fsctl  shutdown ",
        "bgapi expand fsctl ${nosuch}shutdown", "bgapi fsctl shutdown\nJob-UUID: last",
    )
    NO_SHUTDOWNS = (
        "api fsctl", "api fsctl shutdown now", "bgapi fsctl", "bgapi fsctl shutdown x", "fsctl",
        "api fsctl Shutdown", "api fsctl\tshutdown",
    )
    NAMES = (
        "a", "b", "k", "x y", "p%", "park_after_bridge", "hangup_after_bridge", "continue_on_fail",
        "call_timeout",
    )
    VALUES = ("1", "true", "two  words ", "", "_undef_", " ", "%\xc2\xa7", "USER_BUSY", "${a}", "2")

    ODD_MESSAGES = (
        (), ("call-command:",), ("call-command: frob",), ("call-command: Execute",),
        ("call-command: execute",), ("call-command: execute", "execute-app-name:"),
        ("call-command: hangup", "call-command: execute"), ("execute-app-name: answer",),
    )
    LASTING = (
        Extension("stays", (ANSWER, PARK)),
        Extension("talks", (ANSWER, Action("sleep", "60000"))),
        Extension("rings", (Action("sleep", LONGEST_SLEEP),)),
        Extension("dials", (Action("bridge", "loopback/stays"), PARK)),
        Extension("waits", (Action("bridge", "loopback/rings"), Action("sleep", "60000"))),
    )

    def document(self):
        document = super().document()
        document.contexts["default"] += self.LASTING
        return document

    def lasting_call(self):
        """A call that is there for some time. One that only rings is begun in the background."""
        number = self.one_of(*self.LASTING).number
        pairs = brackets(list(self.braces()))
        bridges = f"&bridge(loopback/{number})"
        target = self.weighed((3, "&park()"), (1, "&sleep(60000)"), (1, bridges), (2, self.target))
        background = number in ("rings", "waits") or self.chance(0.5)
        line = f"api originate {pairs}loopback/{number} {target}"
        return self.in_background(line) if background else line

    def chosen(self, session, *choices):
        """One of the choices, or a call that lasts, mostly so where few channels are there."""
        few = len(session.switch.live_channels()) < 4
        return self.weighed((40 if few else 1, self.lasting_call), *choices)

    def target_of_command(self, session):
        busy = (parked_and_busy, parked_and_busy, waits, rings, bridged, has_messages)
        return self.channel(session, parked, parked, *busy, any_channel)

    def in_background(self, line):
        """The command of an api line as a job, which may be given a name."""
        rest = line.removeprefix("api")
        name = ""
        if self.chance(0.35):
            name = f"\n{self.one_of(*self.HEADER_NAMES)}:{self.one_of('', ' ')}{self.one_of(*self.JOB_NAMES)}"
        if self.chance(0.05):
            name += "\nJob-UUID: second"
        return f"bgapi{rest}{name}"

    def job(self, session):
        line = self.weighed(
            (5, self.originate),
            (4, lambda: "api msleep " + self.one_of("0", "500", "1000", "1000", "2000", LONGEST_SLEEP)),
            (2, lambda: self.usual_api_command(session)),
            (3, lambda: self.channel_command(session)),
            (1, lambda: self.one_of("api", "api ", "api echo", "api  echo  a  b ", "api nosuch  1 ")),
            (0.5, lambda: "api msleep " + self.one_of(*ODD_NUMBERS)),
            (0.5, lambda: self.one_of(*self.NO_SHUTDOWNS[:2])),
        )
        return self.in_background(line)

    def usual_api_command(self, session):
        """A command of plays as they are today, where it is one of the api."""
        line = Words.command(self, session)
        return line if line.startswith("api ") else "api hupall"

    def channel_command(self, session):
        """Commands that tell or change what a channel has."""
        channel = self.target_of_command(session)
        text = self.one_of(
            "echo ${a}|${uuid}|${destination_number}|${x}",
            "uuid_exists ${uuid}",
            "uuid_getvar ${uuid} signal_bond",
            "uuid_kill ${signal_bond}",
            "uuid_bridge ${uuid} ${signal_bond}",
            "msleep ${a}000",
            "originate {k=${a}}loopback/${destination_number} &park()",
            "expand echo x",
            "${a}",
            "uuid_setvar ${uuid} k ${a} ${k}",
            "echo ${open \\${a}",
            "",
            " ",
        )
        odd = (
            "api uuid_setvar", f"api uuid_setvar {channel}", f"api uuid_setvar {channel} a", "api uuid_dump",
            f"api  uuid_setvar   {channel}   a   b ", "api uuid_setvar x", "api uuid_setvar x y z",
            f"api uuid_dump {channel} x", f"api create_uuid {channel}", f"api expand uuid:{channel}",
            "api expand uuid: echo x", "api expand uuid:", "api expand UUID:x echo x",
            f"api expand  uuid:{channel}  echo  x", f"api expand uuid:{channel}\techo x",
        )
        name = self.one_of(*self.NAMES)
        return self.weighed(
            (5, lambda: f"api uuid_setvar {channel} {name} {self.one_of(*self.VALUES)}"),
            (4, f"api uuid_dump {channel}"),
            (3, f"api expand uuid:{channel} {text}"),
            (1, f"api uuid_getvar {channel} {name}"),
            (0.5, "api create_uuid"),
            (0.5, lambda: self.one_of(*odd)),
        )

    def message(self, session):
        """A channel is told something, by headers and now and then by a body."""
        channel = self.target_of_command(session)
        told = self.weighed(
            (12, self.told_application),
            (1.5, self.told_hangup),
            (1, lambda: list(self.one_of(*self.ODD_MESSAGES))),
        )
        odd = (f"sendmsg  {channel}", f"sendmsg {channel} x", "sendmsg", "sendmsg ", "sendmsg x")
        line = self.weighed((20, f"sendmsg {channel}"), (1, lambda: self.one_of(*odd)))
        return "\n".join([line, *told])

    def told_hangup(self):
        causes = ("", "USER_BUSY x", "17", "user_busy", self.cause, self.cause)
        headers = self.some(lambda: f"hangup-cause: {self.one_of(*causes)}", 0, 1, 1, 2)
        return ["call-command: hangup", *headers]

    def told_application(self):
        """The headers stand in any order. What the header of the argument would say, a body may say."""
        action = self.told_action()
        command = self.one_of("call-command", "Call-Command")
        headers = [f"{command}: execute", f"execute-app-name: {action.application}"]
        body = []
        if self.chance(0.2):
            body = [f"Content-Length: {len(action.data)}", "", action.data]
            if self.chance(0.2):
                headers.append("execute-app-arg:" + self.one_of("", " 1", " a=b"))
        elif action.data or self.chance(0.5):
            headers.append(f"{self.one_of('execute-app-arg', 'Execute-App-Arg')}: {action.data}")
        self.random.shuffle(headers)
        return headers + body

    def told_action(self):
        return self.weighed(
            (3, self.sleep),
            (2, ANSWER),
            (2, PARK),
            (3, lambda: Action("bridge", self.dial_string())),
            (3, self.action),
            (2, lambda: self.one_of(Action("sleep", "60000"), Action("bridge", "loopback/rings"))),
            (0.5, lambda: Action("sleep", self.one_of(*ODD_NUMBERS))),
            (0.2, lambda: Action("answer", "x" * 1100)),
            (0.3, lambda: self.one_of(*map(Action, ("hangup", "", "Answer", "frob")))),
        )

    def event_command(self):
        return self.one_of(
            "event plain BACKGROUND_JOB SHUTDOWN", "event plain ALL", "event plain ALL", "noevents",
            "nixevent CHANNEL_STATE CHANNEL_EXECUTE", "nixevent BACKGROUND_JOB", "filter Job-Command echo",
            "filter Job-Command originate", "filter Event-Name BACKGROUND_JOB", "filter delete Event-Info",
            "filter delete Job-Command", "filter delete Event-Name", "filter Job-UUID q",
            "filter Event-Info System Shutting Down", "filter Job-Command-Arg 1000",
            "filter Content-Length 4", "filter Event-Name CHANNEL_HANGUP",
        )
