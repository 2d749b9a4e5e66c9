#!/usr/bin/env python3
"""Plays whose answers the rules tell, and what the model says of them.

    python3 tests/model/rows.py [--coming]

prints how many rows agree. With `--coming` there are rows of what the program does not know yet, too. Of each
row that does not agree, what it expects and what the model says are printed, and the status is 1.
"""

import argparse
import json
import re
import sys
from collections import Counter
from functools import partial
from urllib.parse import unquote_to_bytes

import hunts
import load
import rows_of_runs
from api import COMING, COMMANDS
from blocks import Stream
from dialplan import Action, Document, Extension
from reloads import NO_FILE, document_load, refused_load
from session import Session
from tables import identifier

ROWS = {}
COMING_ROWS = {}

NOTICE = "Disconnected, goodbye.\nSee you at ClueCon! http://www.cluecon.com/\n"
ACCEPTED = "+OK accepted"
LISTENS = "+OK event listener enabled plain"
NO_CHANNEL = "-ERR No such channel!\n"
EMPTY = Document({})
FIRST, SECOND = identifier(1), identifier(2)


def row(name, rows=ROWS):
    """Makes a function the row of this name. It gives pairs of what the model says and what is expected."""

    def register(run):
        rows[name] = run
        return run

    return register


def actions(text):
    """Applications with their arguments, a semicolon between two of them."""
    return tuple(Action(*one.strip().split(" ", 1)) for one in text.split(";"))


def usual_document():
    """A document of calls of every kind."""
    extensions = {
        "ans": "answer; park",
        "busy": "hangup USER_BUSY",
        "slow": "sleep 5000; answer; park",
        "never": "sleep 3600000",
        "loop": "transfer loop",
        "self": "bridge loopback/self",
        "short": "answer; sleep 1000; hangup CALL_REJECTED",
        "fail1": "bridge error/USER_BUSY; answer; park",
        "fail2": "set continue_on_fail=true; bridge error/USER_BUSY; answer; park",
        "fail3": "bridge error/NO_ANSWER; answer; park",
        "goon": "bridge loopback/short; park",
        "hab": "set hangup_after_bridge=true; bridge loopback/short; park",
        "many": "; ".join(["eval"] * 10003),
        "spin": "; ".join(["eval"] * 2000) + "; transfer spin",
    }
    made = [Extension(number, actions(text)) for number, text in extensions.items()]
    return Document({"default": made}, global_values={"x": "1234567890"})


def blocks(*lines):
    return [line + "\n\n" for line in lines]


class Played:
    """A play of one connection."""

    def __init__(self, document, pieces, coming=False, loads=None):
        self.session = Session(document, coming, loads)
        self.result = self.session.play(pieces)

    def told(self):
        """The texts of replies, and the bodies of all other frames."""
        return [headers.get("Reply-Text", body) for headers, body in frames(self.result.output)]

    def bodies(self):
        """The bodies of the answers of api commands."""
        told = frames(self.result.output)
        return [body for headers, body in told if headers["Content-Type"] == "api/response"]

    def ended(self):
        return self.result.status, self.result.error


def frames(output):
    """The headers and the body of each frame."""
    while output:
        head, _, output = output.partition("\n\n")
        headers = dict(line.split(": ", 1) for line in head.split("\n"))
        length = int(headers.get("Content-Length", 0))
        yield headers, output[:length]
        output = output[length:]


def play(document, *lines):
    return Played(document, blocks("auth ClueCon", *lines))


def answers(*lines):
    """What api commands answer in a play of the usual document."""
    return play(usual_document(), *(f"api {line}" for line in lines)).bodies()


def named(*events):
    """The names of events in the texts of frames."""
    return [re.match("Event-Name: (.*)", text).group(1) for text in events]


ECHO = (
    "Content-Type: auth/request\n\n"
    "Content-Type: command/reply\nReply-Text: +OK accepted\n\n"
    "Content-Type: api/response\nContent-Length: 2\n\nhi"
    "Content-Type: command/reply\nReply-Text: +OK bye\n\n"
    "Content-Type: text/disconnect-notice\nContent-Length: 67\n\n" + NOTICE
)


@row("nothing is sent")
def nothing():
    yield Played(EMPTY, []).result.output, "Content-Type: auth/request\n\n"


@row("echo")
def echo():
    yield play(EMPTY, "api echo hi", "exit").result.output, ECHO


@row("another password")
def another_password():
    yield Played(EMPTY, blocks("auth wrong", "api echo hi")).told(), ["", "-ERR invalid", NOTICE]


@row("CR LF and single bytes")
def single_bytes():
    text = "\n\n" + "".join(blocks("auth ClueCon", "api echo hi", "exit"))
    yield Played(EMPTY, text.replace("\n", "\r\n")).result.output, ECHO


@row("the longest block, one that is too long, and a bad length")
def long_blocks():
    yield play(EMPTY, "api echo " + "x" * 65525).told()[2], "x" * 65525
    too_long = play(EMPTY, "api echo " + "x" * 65526)
    yield (too_long.told(), *too_long.ended()), (["", ACCEPTED], 10, "fsw: block too long 65537")
    yield play(EMPTY, "api echo hi\nContent-Length: x").ended(), (10, "fsw: bad length")


@row("expansion of a global")
def expansion():
    texts = ("${x:-4:2}", "${x:4:2}", "${x:12:1}", "${x:-20:3}", "${nosuch}", "${open", "\\${x}")
    expected = ["78", "56", "-ERR no reply\n", "123", "-ERR no reply\n", "${open", "${x}"]
    yield answers(*(f"expand echo {text}" for text in texts)), expected
    yield len(expected[4]), 14


@row("a global is set, told and taken out")
def globals_set():
    lines = ("global_setvar x=1234567890", "global_getvar", "global_setvar x=", "global_getvar x")
    said = play(EMPTY, *(f"api {line}" for line in lines))
    yield said.bodies(), ["+OK\n", "x=1234567890\n", "+OK\n", "-ERR no reply\n"]


@row("a call that is busy, and one that is answered late")
def late_answer():
    yield answers("originate error/USER_BUSY &park()"), ["-ERR USER_BUSY\n"]
    slow = play(usual_document(), "api originate loopback/slow &park()")
    yield (slow.bodies(), slow.session.switch.now), ([f"+OK {FIRST}\n"], 5000000)
    yield answers("originate sofia/x &park()"), ["-ERR DESTINATION_OUT_OF_ORDER\n"]


@row("a call is killed, and the clock goes on")
def killed():
    kill = f"api uuid_kill {FIRST}"
    begin = "api originate loopback/ans &park()"
    said = play(usual_document(), begin, kill, f"api uuid_exists {FIRST}", kill, "api msleep 2000")
    yield said.bodies(), [f"+OK {FIRST}\n", "+OK\n", "false", NO_CHANNEL, "+OK\n"]
    yield said.session.switch.now, 2000000


@row("groups of legs, and their variables")
def groups():
    url = "{^^:a=1:b='x,y'}[leg_timeout=2]loopback/never,loopback/slow|error/CALL_REJECTED"
    said = answers(f"originate {url} &park()", f"uuid_exists {FIRST}", f"uuid_getvar {identifier(3)} b")
    yield said, [f"+OK {identifier(3)}\n", "false", "x,y"]
    said = answers("originate loopback/ans,loopback/slow &park()", f"uuid_exists {identifier(3)}")
    yield said, [f"+OK {FIRST}\n", "false"]


@row("a bridge ends once")
def one_unbridge():
    begin = [f"api originate {{origination_uuid={name}}}loopback/ans &park()" for name in "AB"]
    begin += ["event plain CHANNEL_UNBRIDGE", "api uuid_bridge A B"]
    said = play(usual_document(), *begin, "api uuid_kill A", "api uuid_kill B", "api uuid_kill A")
    told = said.told()[2:]
    yield told[:5] + told[6:], ["+OK A\n", "+OK B\n", LISTENS, "+OK B\n", "+OK\n", NO_CHANNEL, NO_CHANNEL]
    yield re.findall("Bridge-(.)-Unique-ID: (.*)", told[5]), [("A", "A"), ("B", "B")]
    other_end = play(usual_document(), *begin, "api uuid_kill B", "api uuid_kill A", "api uuid_kill B")
    yield other_end.session.events_told["CHANNEL_UNBRIDGE"], 1
    yield len(other_end.told()), len(said.told())


@row("a bridge that fails, and one that ends")
def failed_bridges():
    yield answers("originate loopback/fail1 &park()"), ["-ERR USER_BUSY\n"]
    for number in ("fail2", "fail3"):
        yield answers(f"originate loopback/{number} &park()"), [f"+OK {FIRST}\n"]
    later = ("msleep 2000", f"uuid_exists {FIRST}", f"uuid_getvar {SECOND} bridge_hangup_cause")
    said = answers("originate loopback/goon &park()", *later)
    yield said, [f"+OK {FIRST}\n", "+OK\n", "true", "CALL_REJECTED"]
    yield answers("originate loopback/hab &park()", *later)[2:], ["false", NO_CHANNEL]


BUSY_HANGUP = f"""Event-Name: CHANNEL_HANGUP
Core-UUID: {identifier(0)}
Event-Sequence: 9
Event-Date-Timestamp: 0
Channel-State: CS_HANGUP
Channel-State-Number: 10
Channel-Name: loopback/busy-a
Unique-ID: {FIRST}
Call-Direction: outbound
Answer-State: hangup
Caller-Destination-Number: busy
Caller-Context: default
Hangup-Cause: USER_BUSY

"""


@row("the events of a hangup")
def hangup_events():
    said = play(usual_document(), "event plain CHANNEL_HANGUP", "api originate loopback/busy &park()")
    second = BUSY_HANGUP.replace("Sequence: 9", "Sequence: 11").replace("busy-a", "busy-b")
    second = second.replace(FIRST, SECOND).replace("outbound", "inbound")
    yield said.told()[2:], [LISTENS, BUSY_HANGUP, second, "-ERR USER_BUSY\n"]
    yield (len(BUSY_HANGUP), len(second)), (372, 372)


JOB_ENDED = f"""Event-Name: BACKGROUND_JOB
Core-UUID: {identifier(0)}
Event-Sequence: 1
Event-Date-Timestamp: 0
Job-UUID: {FIRST}
Job-Command: echo
Job-Command-Arg: a%20b
Content-Length: 3

a b"""


@row("a background job is told, and no event behind noevents")
def background_job():
    said = play(
        EMPTY,
        "event plain BACKGROUND_JOB",
        "filter Job-Command echo",
        "bgapi echo a b",
        "noevents",
        "bgapi echo c",
    )
    yield said.told()[2:], [
        LISTENS,
        "+OK filter added. [Job-Command]=[echo]",
        f"+OK Job-UUID: {FIRST}",
        JOB_ENDED,
        "+OK no longer listening for events",
        f"+OK Job-UUID: {SECOND}",
    ]
    yield len(JOB_ENDED), 227
    headers = {"Content-Type": "command/reply", "Reply-Text": f"+OK Job-UUID: {FIRST}"}
    yield list(frames(said.result.output))[4][0], {**headers, "Job-UUID": FIRST}


@row("10,000 events wait at most")
def lost_events():
    said = play(usual_document(), "event plain CHANNEL_EXECUTE", "api originate loopback/many &park()")
    told = said.told()[3:]
    yield Counter(named(*told[:-1])), {"CHANNEL_EXECUTE": 10000}
    yield told[-1], "-ERR NORMAL_CLEARING\n"
    yield said.session.events_told["CHANNEL_EXECUTE"], 10003


@row("calls that never end by themselves")
def endless_calls():
    yield answers("originate loopback/loop &park()"), ["-ERR EXCHANGE_ROUTING_ERROR\n"]
    yield answers("originate loopback/self &park()"), ["-ERR SWITCH_CONGESTION\n"]
    yield answers("originate loopback/none &park()"), ["-ERR NO_ROUTE_DESTINATION\n"]
    spin = play(usual_document(), "api originate loopback/spin &park()")
    yield (spin.bodies(), *spin.ended()), ([], 9, "fsw: runaway 100000")


@row("a full journal")
def full_journal():
    said = play(Document({}, journal_limit=1048576), *["api echo " + "x" * 65525] * 15)
    yield (len(said.bodies()), *said.ended()), (14, 8, "fsw: journal full 985166 1048576")


@row("unknown commands, a usage, an identifier, globals, and a shutdown")
def small_commands():
    said = play(
        EMPTY,
        "api nosuch 1",
        "nosuch",
        "noevents",
        "api uuid_exists x",
        "api create_uuid",
        "api global_setvar g=5",
        "api global_getvar g",
        "api uuid_kill",
        "api fsctl shutdown",
        "api echo no",
    )
    yield said.told()[2:], [
        "-ERR nosuch Command not found!\n",
        "-ERR command not found",
        "-ERR not listening for events",
        "false",
        FIRST,
        "+OK\n",
        "5",
        "-USAGE: <uuid> [cause]\n",
        "+OK\n",
        NOTICE,
    ]
    yield said.ended(), (0, "")


CALL = "api originate {origination_uuid=A}loopback/ans &park()"


@row("a message sets a variable of a parked channel")
def message_sets():
    sets = "sendmsg A\ncall-command: execute\nexecute-app-name: set\nexecute-app-arg: k=v"
    said = play(usual_document(), CALL, sets, "api uuid_getvar A k")
    yield said.told()[2:], ["+OK A\n", "+OK", "v"]


@row("usages")
def usages():
    expected = {
        "expand": "[uuid:U ]text*",
        "global_setvar": "<name>=<value>",
        "msleep": "<milliseconds>",
        "uuid_exists": "<uuid>",
        "uuid_kill": "<uuid> [cause]",
        "uuid_setvar": "<uuid> <name> [value*]",
        "uuid_getvar": "<uuid> <name>",
        "uuid_dump": "<uuid>",
        "uuid_park": "<uuid>",
        "uuid_transfer": "<uuid> [-both|-bleg] <exten> [dialplan] [context]",
        "uuid_bridge": "<uuid> <other_uuid>",
        "originate": "<call url> <exten>|&<app>(<args>) [dialplan] [context] [cid_name] [cid_num] [timeout]",
        "fsctl": "shutdown",
    }
    yield answers(*expected), [f"-USAGE: {usage}\n" for usage in expected.values()]
    others = COMMANDS.keys() - expected.keys()
    yield others, {"echo", "create_uuid", "global_getvar", "hupall", "reloadxml"}


@row("what is missed first")
def missed_first():
    no_value = "-USAGE: <uuid> <name> [value*]\n"
    yield answers("uuid_setvar x", "uuid_setvar x n", "uuid_dump x"), [no_value, NO_CHANNEL, NO_CHANNEL]
    yield answers("expand uuid:x echo", "expand uuid:x "), [NO_CHANNEL, "-USAGE: [uuid:U ]text*\n"]
    yield answers("expand uuid:x", "", "fsctl shutdown now", "fsctl halt"), [
        "-ERR uuid:x Command not found!\n",
        "-ERR  Command not found!\n",
        "-USAGE: shutdown\n",
        "-USAGE: shutdown\n",
    ]


@row("variables of a channel are set and told")
def variables_told():
    said = play(
        usual_document(),
        CALL,
        "api uuid_setvar A k  v w",
        "api expand uuid:A echo ${k} ${context} ${x}",
        "api uuid_setvar A k",
        "api uuid_getvar A k",
        "api uuid_setvar A " + "n" * 257 + " v",
        "api uuid_setvar A a%b c;d",
        "api uuid_dump A",
    )
    dump = (
        "Channel-State: CS_PARK\nChannel-State-Number: 6\nChannel-Name: loopback/ans-a\nUnique-ID: A\n"
        "Call-Direction: outbound\nAnswer-State: answered\nCaller-Destination-Number: ans\n"
        "Caller-Context: default\nvariable_origination_uuid: A\nvariable_a%25b: c%3Bd\n"
    )
    limit = "-ERR variable limit passed\n"
    yield said.bodies()[1:], ["+OK\n", "v w default 1234567890", "+OK\n", "_undef_", limit, "+OK\n", dump]


@row("messages are refused in order")
def messages_refused():
    said = play(usual_document(), "sendmsg", "sendmsg A B", CALL, "sendmsg A", "sendmsg A\ncall-command: x")
    yield said.told()[2:], [
        "-ERR invalid session id []",
        "-ERR invalid session id [A]",
        "+OK A\n",
        "-ERR invalid call-command",
        "-ERR invalid call-command",
    ]
    ring = "bgapi originate {origination_uuid=A}loopback/never &park()"
    evaluate = "sendmsg A\ncall-command: execute\nexecute-app-name: eval"
    said = play(usual_document(), ring, *[evaluate] * 1001, "sendmsg A\ncall-command: x")
    yield Counter(said.told()[3:]), {
        "+OK": 1000,
        "-ERR message queue full": 1,
        "-ERR invalid call-command": 1,
    }


@row("messages run before actions, and wake a parked channel")
def messages_run():
    execute = "sendmsg A\ncall-command: execute\nexecute-app-name: "
    said = play(usual_document(), CALL, "event plain CHANNEL_EXECUTE", f"{execute}answer", f"{execute}park")
    yield re.findall("Application: (.*)", said.result.output), ["answer", "park"]
    waits = "bgapi originate {origination_uuid=A}loopback/ans &sleep(1000)"
    sleeps = f"{execute}sleep\nContent-Length: 3\n\n500"
    said = play(usual_document(), "event plain CHANNEL_EXECUTE", waits, sleeps, "api msleep 2000")
    yield re.findall("Application: (.*)\nApplication-Data: (.*)", said.result.output), [
        ("sleep", "1000"),
        ("sleep", "500"),
    ]
    yield said.session.hangups, {"NORMAL_CLEARING": 2}
    killed = play(usual_document(), CALL, "sendmsg A\ncall-command: hangup\nhangup-cause: USER_BUSY")
    yield killed.session.hangups, {"USER_BUSY": 2}


@row("a job goes on in a call and in a sleep, and 1,024 jobs may be there")
def many_jobs():
    said = play(
        usual_document(),
        "event plain BACKGROUND_JOB",
        "bgapi originate loopback/ans &park()\nJob-UUID: call",
        "bgapi msleep 1000\nJob-UUID: sleep",
        "bgapi originate a,,b &park()\nJob-UUID: fault",
        "api msleep 1000",
    )
    ends = re.findall("Job-UUID: (.*)\nJob-Command.*\n.*\nContent-Length.*\n\n(.*)\n", said.result.output)
    yield ends, [("call", f"+OK {FIRST}"), ("fault", "-ERR INVALID_NUMBER_FORMAT"), ("sleep", "+OK")]
    sleeps = ["bgapi msleep 1000"] * 1024
    refused = ("bgapi echo", "api msleep x", "api msleep 1", "api originate a,,b &park()", "api create_uuid")
    yield play(EMPTY, *sleeps, *refused).told()[1026:], [
        "-ERR too many jobs",
        "-USAGE: <milliseconds>\n",
        "-ERR too many jobs\n",
        "-ERR too many jobs\n",
        identifier(1025),
    ]


@row("a shutdown hangs up all, drops the jobs, answers what is owed, and ends the connection")
def shutdown():
    begin = ("event plain CHANNEL_HANGUP SHUTDOWN BACKGROUND_JOB", "bgapi msleep 1000", CALL)
    said = play(usual_document(), *begin, "api fsctl shutdown").told()[5:]
    yield (said[0], named(*said[1:-1]), said[-1]), ("+OK\n", ["CHANNEL_HANGUP"] * 2 + ["SHUTDOWN"], NOTICE)
    by_job = play(usual_document(), *begin, "bgapi fsctl shutdown")
    said = by_job.told()[6:]
    yield (named(*said[:-1]), said[-1]), (["CHANNEL_HANGUP"] * 2 + ["SHUTDOWN", "BACKGROUND_JOB"], NOTICE)
    yield by_job.session.hangups, {"SYSTEM_SHUTDOWN": 2}
    yield (by_job.session.switch.jobs, by_job.session.switch.channels), ({}, {})


@row("a shutdown while an answer is owed")
def shutdown_while_owed():
    session = Session(EMPTY)
    stream = Stream()
    for line in ("auth ClueCon", "event plain SHUTDOWN", "api msleep 1000"):
        stream.feed(f"{line}\n\n")
        session.enter(partial(session.connection.frames_for, stream.next_block()))
    session.enter(session.switch.shut_down)
    session.run()
    said = [body for _, body in frames("".join(session.written))][3:]
    yield (named(said[0]), said[1:]), (["SHUTDOWN"], ["-ERR SYSTEM_SHUTDOWN\n", NOTICE])


@row("one call as a load")
def load_of_one():
    yield load.printed("1", "0").output, (
        "calls 1\ncause NO_ROUTE_DESTINATION 2\nevent CHANNEL_CREATE 2\nevent CHANNEL_STATE 10\n"
        "event CHANNEL_HANGUP 2\nevent CHANNEL_HANGUP_COMPLETE 2\nevent CHANNEL_DESTROY 2\n"
    )
    yield load.printed("1", "0").status, 0


@row("no call as a load")
def load_of_none():
    yield load.printed("0", "0").status, 2


@row("a thousand calls as a load")
def load_of_a_thousand():
    printed = load.printed("1000", "7")
    yield printed.output.splitlines(), [
        "calls 1000",
        "cause NO_ROUTE_DESTINATION 490",
        "cause USER_BUSY 496",
        "cause MANAGER_REQUEST 1014",
        "event CHANNEL_CREATE 2000",
        "event CHANNEL_STATE 12276",
        "event CHANNEL_ANSWER 1014",
        "event CHANNEL_EXECUTE 2028",
        "event CHANNEL_EXECUTE_COMPLETE 766",
        "event CHANNEL_PARK 1014",
        "event CHANNEL_UNPARK 1014",
        "event CHANNEL_HANGUP 2000",
        "event CHANNEL_HANGUP_COMPLETE 2000",
        "event CHANNEL_DESTROY 2000",
    ]
    yield load.printed("1000", "7"), printed


WATCHED = (
    "event plain CHANNEL_STATE CHANNEL_ANSWER CHANNEL_EXECUTE CHANNEL_EXECUTE_COMPLETE CHANNEL_BRIDGE "
    "CHANNEL_UNBRIDGE CHANNEL_PARK CHANNEL_UNPARK CHANNEL_HANGUP CUSTOM fifo::info"
)


def queue_document():
    """Callers and takers of queues, and what else they need. A park behind `fifo` shows who goes on."""
    extensions = {
        "q": "fifo f in; park",
        "w": "fifo f out; park",
        "n": "fifo f out nowait; park",
        "last": "fifo f out nowait; hangup USER_BUSY",
        "q7": "set fifo_priority=7; fifo sales in",
        "q3": "set fifo_priority=3; fifo sales in",
        "agent": "fifo sales out nowait; park",
        "ans": "answer; park",
        "dials": "answer; bridge loopback/never",
        "never": "sleep 3600000",
        "sock": "socket 127.0.0.1:9999 async full; answer; park",
    }
    made = [Extension(number, actions(text)) for number, text in extensions.items()]
    return Document({"default": made}, slots=64)


def call(number):
    return f"api originate loopback/{number} &park()"


def execute(channel, application, argument=""):
    told = ("call-command: execute", f"execute-app-name: {application}", f"execute-app-arg: {argument}")
    return "\n".join([f"sendmsg {identifier(channel)}", *told])


def queued(*lines, document=None):
    """A play of callers and takers, or of another document."""
    return play(document or queue_document(), *lines)


def coming(*lines, document=None):
    """A play in which the model knows what is still to come."""
    return Played(document or usual_document(), blocks("auth ClueCon", *lines), coming=True)


def events(played):
    return [body for headers, body in frames(played.result.output) if "event" in headers["Content-Type"]]


def brief(played):
    """Its events by what they tell and the numbers of their channels: `HANGUP 2`, and of queues `push 2`."""
    return ", ".join(f"{told_by(event)} {number_in(event)}" for event in events(played))


def told_by(event):
    of_queue = re.search("^FIFO-Action: (.*)", event, re.MULTILINE)
    return (of_queue or re.match("Event-Name: (?:CHANNEL_)?(.*)", event)).group(1)


def number_in(event):
    return int(re.search("^Unique-ID: .*-(.*)", event, re.MULTILINE).group(1), 16)


@row("the least number is taken first, and of one number who came first")
def least_first():
    killed = f"api uuid_kill {identifier(4)}"
    bonds = [f"api uuid_getvar {identifier(number)} signal_bond" for number in (6, 2, 12)]
    said = queued(call("q7"), call("q3"), call("q3"), killed, *[call("agent")] * 3, *bonds).bodies()
    began = [f"+OK {identifier(number)}\n" for number in (1, 3, 5, 7, 9, 11)]
    yield said[:3] + said[4:7], began
    yield said[3], "+OK\n"
    yield said[7:], [identifier(8), identifier(10), "_undef_"]


@row("a number is one digit, and 5 otherwise")
def numbers_of_callers():
    said = ("9", "05", "", "0", "x", "5", "4", "10", "6", "' 3'", "3", "\xb2")
    calls = [f"api originate {{fifo_priority={number}}}loopback/q &park()" for number in said]
    watched = ("event plain CUSTOM fifo::info", "filter FIFO-Action caller_pop")
    takers = [call("n")] * len(said)
    taken = [number_in(event) // 2 for event in events(queued(*calls, *watched, *takers))]
    yield taken, [4, 11, 7, 2, 3, 5, 6, 8, 10, 12, 9, 1]


@row("a taker waits for a caller")
def taker_waits():
    said = queued(call("w"), call("q"), f"api uuid_getvar {SECOND} signal_bond")
    yield said.bodies(), [f"+OK {FIRST}\n", f"+OK {identifier(3)}\n", identifier(4)]
    yield brief(queued(WATCHED, call("w"))), (
        "STATE 1, STATE 1, STATE 2, STATE 2, STATE 2, EXECUTE 2, ANSWER 2, ANSWER 1, "
        "STATE 1, EXECUTE 1, PARK 1, STATE 1"
    )
    yield brief(queued(call("w"), WATCHED, call("q"))), (
        "STATE 3, STATE 3, STATE 4, STATE 4, STATE 4, EXECUTE 4, ANSWER 4, ANSWER 3, push 4, "
        "caller_pop 4, BRIDGE 4, STATE 3, EXECUTE 3, PARK 3, STATE 3"
    )


@row("a taker does not wait")
def taker_does_not_wait():
    yield brief(queued(WATCHED, call("n"))), (
        "STATE 1, STATE 1, STATE 2, STATE 2, STATE 2, EXECUTE 2, ANSWER 2, ANSWER 1, EXECUTE_COMPLETE 2, "
        "EXECUTE 2, PARK 2, STATE 2, STATE 1, EXECUTE 1, PARK 1, STATE 1"
    )
    yield brief(queued(call("q"), WATCHED, call("n"))), (
        "STATE 3, STATE 3, STATE 4, STATE 4, STATE 4, EXECUTE 4, ANSWER 4, ANSWER 3, caller_pop 2, BRIDGE 2, "
        "STATE 3, EXECUTE 3, PARK 3, STATE 3"
    )


@row("of two takers that wait the one in the least slot has the caller")
def two_takers():
    bonds = [f"api uuid_getvar {identifier(number)} signal_bond" for number in (6, 4)]
    said = queued(call("ans"), call("w"), f"api uuid_kill {FIRST}", call("w"), call("q"), *bonds)
    yield said.bodies()[-2:], [identifier(8), "_undef_"]


@row("how events tell of queues")
def texts_of_queues():
    subscribed = "event plain CUSTOM fifo::info"
    pushed, taken = events(queued(subscribed, call("q"), call("n")))
    yield pushed, (
        "Event-Name: CUSTOM\nEvent-Subclass: fifo%3A%3Ainfo\n"
        f"Core-UUID: {identifier(0)}\nEvent-Sequence: 11\nEvent-Date-Timestamp: 0\n"
        "Channel-State: CS_EXECUTE\nChannel-State-Number: 4\nChannel-Name: loopback/q-b\n"
        f"Unique-ID: {SECOND}\nCall-Direction: inbound\nAnswer-State: answered\n"
        "Caller-Destination-Number: q\nCaller-Context: default\nFIFO-Name: f\nFIFO-Action: push\n\n"
    )
    peer = f"Other-Leg-Unique-ID: {identifier(4)}\nFIFO-Name: f\nFIFO-Action: caller_pop\n\n"
    yield taken[-len(peer) :], peer
    for command, state in (("uuid_kill", "CS_HANGUP"), ("uuid_park", "CS_PARK")):
        _, left = events(queued(subscribed, call("q"), f"api {command} {SECOND}"))
        yield (told_by(left), f"Channel-State: {state}\n" in left), ("abort", True)


@row("forms of the application that hang up")
def forms_that_hang_up():
    forms = (
        "", "f", "in", "f x", "f In", "f OUT", "f wait", "f nowait out", "!5 in", "! out", "f\tin", " !  in",
    )
    for form in forms:
        document = Document({"default": [Extension("1", (Action("fifo", form), Action("park")))]})
        yield queued(call("1"), document=document).bodies(), ["-ERR DESTINATION_OUT_OF_ORDER\n"]


@row("forms of the application that enter a queue, wait for a caller, or go on")
def forms_that_are_known():
    entered = {"f in": "f", "  f   in  ": "f", "f!5 in": "f", "f! in": "f", "a!b!5 in": "a!b", "in in": "in",
               "f in out": "f", "!!5 in": "!", "f\t in": "f\t"}
    waiting = ("f out", "f out wait", "f out x", "f out x nowait", "f out NOWAIT", "f!x out wait nowait")
    going_on = ("f out nowait", "  f  out   nowait ", "f out nowait wait", "f!x out nowait")
    for form, queue in entered.items():
        switch = after_form(form)
        yield [(caller.queue, caller.channel.slot) for caller in switch.queues.callers], [(queue, 2)]
    for form in waiting + going_on:
        yield after_form(form).channels[2].state.name, "CS_PARK" if form in going_on else "CS_EXECUTE"


def after_form(form):
    document = Document({"default": [Extension("1", (Action("fifo", form), Action("park")))]})
    said = queued(call("1"), document=document)
    assert said.bodies() == [f"+OK {FIRST}\n"]
    return said.session.switch


@row("a queue is found by its name without what stands behind the last mark")
def importance():
    made = [
        Extension("in", actions("fifo a!b!5 in")),
        Extension("other", actions("fifo a!9 out nowait; park")),
        Extension("same", actions("fifo a!b!1 out nowait")),
    ]
    document = Document({"default": made})
    bonds = [f"api uuid_getvar {identifier(number)} signal_bond" for number in (4, 6)]
    said = queued(call("in"), call("other"), call("same"), *bonds, document=document)
    yield said.bodies()[3:], ["_undef_", SECOND]


HUNG_UP = "HANGUP 1, UNPARK 1, STATE 1, abort 2, HANGUP 2, STATE 2"
GONE = "STATE 1, STATE 1, STATE 2, STATE 2"


@row("a caller leaves its queue by a hangup")
def left_by_hangup():
    message = f"sendmsg {SECOND}\ncall-command: hangup"
    for line in (f"api uuid_kill {SECOND} USER_BUSY", f"api uuid_kill {FIRST}", "api hupall", message):
        said = queued(call("q"), WATCHED, line)
        yield (brief(said), said.session.switch.queues.callers), (f"{HUNG_UP}, {GONE}", [])
    yield brief(queued(call("q"), WATCHED, "api fsctl shutdown")), HUNG_UP


@row("a caller leaves its queue by a race that its leg loses")
def left_by_lost_race():
    said = queued(WATCHED, "api originate loopback/q,loopback/q &park()")
    yield brief(said), (
        "STATE 1, STATE 1, STATE 2, STATE 2, STATE 2, EXECUTE 2, ANSWER 2, ANSWER 1, push 2, "
        "STATE 3, STATE 3, STATE 4, STATE 4, STATE 4, EXECUTE 4, ANSWER 4, ANSWER 3, push 4, "
        "HANGUP 3, STATE 3, abort 4, HANGUP 4, STATE 4, STATE 1, "
        "EXECUTE 1, PARK 1, STATE 1, STATE 3, STATE 3, STATE 4, STATE 4"
    )
    yield [caller.channel.identifier for caller in said.session.switch.queues.callers], [SECOND]


@row("a caller leaves its queue by a transfer and a park")
def left_by_transfer_and_park():
    said = queued(call("q"), WATCHED, f"api uuid_transfer {SECOND} ans")
    yield brief(said), (
        "abort 2, STATE 2, STATE 2, EXECUTE 2, EXECUTE_COMPLETE 2, EXECUTE 2, PARK 2, STATE 2"
    )
    yield (said.bodies()[1], said.session.switch.queues.callers), ("+OK\n", [])
    said = queued(call("q"), WATCHED, f"api uuid_park {SECOND}")
    yield brief(said), "abort 2, PARK 2, STATE 2"
    yield (said.bodies()[1], said.session.switch.queues.callers), ("+OK\n", [])


@row("a caller leaves its queue as it is joined to another channel")
def left_by_uuid_bridge():
    fourth = identifier(4)
    for near, far, caller in ((fourth, SECOND, 4), (SECOND, fourth, 2)):
        said = queued(call("q"), call("ans"), WATCHED, f"api uuid_bridge {near} {far}")
        yield brief(said), f"abort 2, BRIDGE {caller}, STATE 2, UNPARK 4, STATE 4"
    said = queued(call("q"), call("q"), WATCHED, f"api uuid_bridge {fourth} {SECOND}")
    yield (brief(said), said.bodies()[2]), ("abort 2, abort 4, BRIDGE 4, STATE 2, STATE 4", f"+OK {SECOND}\n")
    yield said.session.switch.queues.callers, []
    said = queued(call("q"), call("dials"), WATCHED, f"api uuid_bridge {fourth} {SECOND}")
    yield brief(said), (
        "HANGUP 5, STATE 5, HANGUP 6, STATE 6, abort 2, BRIDGE 4, STATE 2, STATE 4, "
        "STATE 5, STATE 5, STATE 6, STATE 6"
    )


@row("a taker that waits leaves, and nothing is told of a queue")
def taker_leaves():
    yield brief(queued(call("w"), WATCHED, f"api uuid_park {SECOND}")), "PARK 2, STATE 2"
    said = queued(call("w"), f"api uuid_park {SECOND}", call("q"), f"api uuid_getvar {SECOND} signal_bond")
    yield said.bodies()[-1], "_undef_"
    yield brief(queued(call("w"), WATCHED, "api hupall")), HUNG_UP.replace("abort 2, ", "") + ", " + GONE


TAKEN = (call("q"), call("n"))


@row("who outlives the bridge of a queue goes on")
def outlives_queue():
    yield brief(queued(*TAKEN, WATCHED, f"api uuid_kill {identifier(3)}")), (
        "HANGUP 3, UNPARK 3, STATE 3, UNBRIDGE 2, HANGUP 4, STATE 4, EXECUTE_COMPLETE 2, "
        "EXECUTE 2, PARK 2, STATE 2, STATE 3, STATE 3, STATE 4, STATE 4"
    )
    yield brief(queued(*TAKEN, WATCHED, f"api uuid_kill {FIRST}")), (
        "HANGUP 1, UNPARK 1, STATE 1, UNBRIDGE 2, HANGUP 2, STATE 2, EXECUTE_COMPLETE 4, "
        f"{GONE}, EXECUTE 4, PARK 4, STATE 4"
    )
    parks = f"api uuid_setvar {identifier(4)} park_after_bridge true"
    said = queued(call("q"), call("last"), parks, f"api uuid_kill {FIRST}")
    yield said.session.hangups, {"NORMAL_CLEARING": 2, "USER_BUSY": 2}


@row("who is to be hung up behind the bridge of a queue has the same cause")
def hung_up_behind_queue():
    for survivor, killed, cause in ((2, 4, "CALL_REJECTED"), (4, 2, "USER_BUSY")):
        hangs_up = f"api uuid_setvar {identifier(survivor)} hangup_after_bridge true"
        said = queued(*TAKEN, hangs_up, WATCHED, f"api uuid_kill {identifier(killed)} {cause}")
        yield brief(said), (
            "HANGUP 1, UNPARK 1, STATE 1, UNBRIDGE 2, HANGUP 2, STATE 2, HANGUP 3, UNPARK 3, STATE 3, "
            f"HANGUP 4, STATE 4, {GONE}, STATE 3, STATE 3, STATE 4, STATE 4"
        )
        yield said.session.hangups, {cause: 4}


@row("a leg leaves the bridge of a queue alive")
def leaves_taken():
    park = f"api uuid_park {identifier(4)}"
    said = queued(*TAKEN, WATCHED, park, f"api uuid_getvar {SECOND} bridge_hangup_cause")
    yield brief(said), "UNBRIDGE 2, EXECUTE_COMPLETE 2, PARK 4, STATE 4, EXECUTE 2, PARK 2, STATE 2"
    yield said.bodies()[-1], "NORMAL_CLEARING"
    said = queued(*TAKEN, f"api uuid_setvar {SECOND} hangup_after_bridge true", WATCHED, park)
    yield brief(said), (
        f"UNBRIDGE 2, HANGUP 1, UNPARK 1, STATE 1, HANGUP 2, STATE 2, PARK 4, STATE 4, {GONE}"
    )


@row("a taker takes its own partner")
def takes_partner():
    begin = "api originate loopback/q '&fifo(f out nowait)'"
    bonds = [f"api uuid_getvar {name} signal_bond" for name in (FIRST, SECOND)]
    yield queued(begin, *bonds).bodies(), [f"+OK {FIRST}\n", SECOND, FIRST]
    yield brief(queued(begin, WATCHED, f"api uuid_kill {FIRST}")), (
        f"UNBRIDGE 2, HANGUP 1, STATE 1, HANGUP 2, STATE 2, {GONE}"
    )


@row("a parked channel enters a queue by a message, and parks again behind it")
def parked_caller():
    enters = execute(2, "fifo", "f in")
    yield brief(queued(call("ans"), WATCHED, enters, f"api uuid_park {SECOND}")), "EXECUTE 2, push 2, abort 2"
    taken = (call("ans"), enters, call("n"))
    yield brief(queued(*taken, WATCHED, f"api uuid_kill {identifier(3)}", execute(2, "eval"))), (
        "HANGUP 3, UNPARK 3, STATE 3, UNBRIDGE 2, HANGUP 4, STATE 4, EXECUTE_COMPLETE 2, "
        "STATE 3, STATE 3, STATE 4, STATE 4, EXECUTE 2, EXECUTE_COMPLETE 2"
    )


@row("messages wait with callers and takers")
def messages_wait():
    for number, left in (("q", "abort 2, "), ("w", "")):
        said = queued(call(number), WATCHED, execute(2, "eval"))
        yield (brief(said), said.told()[-1]), ("", "+OK")
        said = queued(call(number), execute(2, "eval"), WATCHED, f"api uuid_park {SECOND}")
        yield brief(said), f"{left}PARK 2, STATE 2, EXECUTE 2, EXECUTE_COMPLETE 2"


@row("events of queues go by their subclass")
def subclasses():
    steps = {
        "event CUSTOM": 0, "event plain CUSTOM fifo::info": 1, "nixevent CUSTOM x": 1,
        "nixevent CUSTOM fifo::info": 0, "event CUSTOM a fifo::info b": 1, "nixevent CUSTOM": 0,
        "event CHANNEL_CREATE fifo::info": 0, "event CUSTOM ALL": 0, "event CUSTOM FIFO::INFO fifo::inf": 0,
        "event ALL": 1, "nixevent CUSTOM  fifo::info": 1, "nixevent CHANNEL_CREATE CUSTOM": 0,
        "event ALL CUSTOM x": 1, "nixevent ALL CUSTOM x": 0, "event CUSTOM fifo::info CHANNEL_CREATE": 1,
        "noevents": 0, "event CHANNEL_STATE CUSTOM fifo::info": 1, "nixevent ALL": 0,
    }
    lines = [line for step in steps for line in (step, "api echo here", call("q"), "api hupall")]
    parts = queued(*lines).result.output.split("here")[1:]
    yield [part.count("FIFO-Action: push") for part in parts], list(steps.values())
    replies = queued(*steps).told()[2:]
    disabled, ended = "+OK event listener disabled", "+OK no longer listening for events"
    given = {"event": LISTENS, "nixevent": disabled, "noevents": ended}
    yield replies, [given[step.split(" ")[0]] for step in steps]


@row("filters on events of queues")
def filters_of_queues():
    fitting = {
        "FIFO-Name f": "push 2, abort 2", "FIFO-Action push": "push 2", "FIFO-Action abort": "abort 2",
        "Event-Subclass fifo::info": "push 2, abort 2", "Event-Subclass fifo%3A%3Ainfo": "",
        "FIFO-Name f!5": "", "Event-Name CUSTOM": "push 2, abort 2", "Channel-State CS_HANGUP": "abort 2",
    }
    for one, expected in fitting.items():
        said = queued("event plain CUSTOM fifo::info", f"filter {one}", call("q"), f"api uuid_kill {FIRST}")
        yield brief(said), expected


@row("a channel goes on where no connection can be had")
def no_connection():
    said = queued(WATCHED, call("sock"))
    yield said.bodies(), [f"+OK {FIRST}\n"]
    yield brief(said), (
        "STATE 1, STATE 1, STATE 2, STATE 2, STATE 2, EXECUTE 2, EXECUTE_COMPLETE 2, "
        "EXECUTE 2, ANSWER 2, ANSWER 1, EXECUTE_COMPLETE 2, EXECUTE 2, PARK 2, STATE 2, "
        "STATE 1, EXECUTE 1, PARK 1, STATE 1"
    )
    said = queued(call("ans"), WATCHED, execute(2, "socket", "h:9"), execute(2, "eval"))
    yield brief(said), "EXECUTE 2, EXECUTE_COMPLETE 2, EXECUTE 2, EXECUTE_COMPLETE 2"


@row("which targets are dialed: an entry more tells of it")
def targets():
    dialed = ("h:9", "127.0.0.1:9999 async full", " h:1", "::1:65535", "h:00000000000000000009", "h:9 x y")
    others = (
        "", "h", "127.0.0.1", "h:", ":9", ":", "h:0", "h:65536", "h:x", "h:-1", "h:+9", "h:9.0", "h:9\t",
        "h: 9", "h:9:", "h:000000000000000000009", "async", "h :9",
    )
    for target in dialed + others:
        run = (Action("socket", target), *actions("answer; park"))
        said = queued(call("1"), document=Document({"default": [Extension("1", run)]}))
        yield (target, said.session.journal.cost), (target, COST_OF_CALL + 64 * (target in dialed))


# The entries are the connection, two commands, two channels that begin, a route, `socket`, `answer` and `park`,
# the decision, the other `park`, three frames, the end of the input, and the end of the connection.
COST_OF_CALL = 64 * (1 + 2 + 2 * 2 + 1 + 3 + 1 + 1 + 3 + 1 + 1) + len(f"auth ClueCon\n\n{call('1')}\n\n")


@row("a wait for a connection is one of the 100,000 entries at one moment")
def endless_dials():
    for target, ended in (("h:9", (9, "fsw: runaway 100000")), ("h", (0, ""))):
        text = "; ".join([f"socket {target}"] * 720) + "; transfer spin"
        document = Document({"default": [Extension("spin", actions(text))]}, slots=2)
        yield queued(call("spin"), document=document).ended(), ended


def bridge_document():
    """Channels that dial one, that are joined by commands, and that meet in a queue."""
    dials = Extension("calls", actions("answer; bridge loopback/ans; park"))
    return Document({"default": [dials, *queue_document().contexts["default"]]}, slots=64)


def bridging(*lines):
    return play(bridge_document(), *lines)


def uuid_bridge(caller, other):
    return f"api uuid_bridge {identifier(caller)} {identifier(other)}"


def uuid_transfer(channel, *words):
    return " ".join(["api uuid_transfer", identifier(channel), *words])


def in_order(*parts):
    """Events of several parts in one line."""
    return ", ".join(part for part in parts if part)


def hung_up(near, far):
    """A leg is hung up with its partner, which is parked, the one in the lesser slot first."""
    told = {near: f"HANGUP {near}, STATE {near}", far: f"HANGUP {far}, UNPARK {far}, STATE {far}"}
    return in_order(*(told[slot] for slot in sorted(told)))


def gone(*slots):
    return in_order(*(f"STATE {slot}, STATE {slot}" for slot in slots))


def routed(slot):
    """A channel that was answered is routed to an extension that answers and parks."""
    return f"STATE {slot}, EXECUTE {slot}, EXECUTE_COMPLETE {slot}, EXECUTE {slot}, PARK {slot}, STATE {slot}"


@row("legs of two bridges are joined, and the others are hung up or park")
def rejoined():
    begin = [f"api originate {{origination_uuid={name}}}loopback/ans &park()" for name in "ABCD"]
    begin += ["api uuid_bridge A B", "api uuid_bridge C D", "event plain CHANNEL_UNBRIDGE"]
    joins = ("api uuid_bridge A C", "api uuid_exists B", "api uuid_exists D", "api uuid_getvar A signal_bond")
    said = play(usual_document(), *begin, *joins)
    told = said.told()[9:]
    yield (told[0], told[3:]), ("+OK C\n", ["false", "false", "C"])
    yield [re.findall("(?:Bridge-.*|Hangup-Cause): (.*)", event) for event in told[1:3]], [
        ["A", "B", "1", "NORMAL_CLEARING"],
        ["C", "D", "2", "NORMAL_CLEARING"],
    ]
    said = play(usual_document(), *begin, "api uuid_setvar B park_after_bridge true", *joins)
    yield said.bodies()[-3:], ["true", "false", "C"]


@row("the two legs of a bridge are joined again")
def joined_twice():
    begin = [f"api originate {{origination_uuid={name}}}loopback/ans &park()" for name in "AB"]
    said = play(usual_document(), *begin, "event plain CHANNEL_UNBRIDGE", *["api uuid_bridge A B"] * 2)
    yield said.bodies()[2:], ["+OK B\n"] * 2
    yield re.findall("Bridge-Number: (.*)", said.result.output), ["1"]
    for caller, other, change in ((2, 3, "STATE 2"), (3, 2, "STATE 2"), (5, 7, ""), (7, 5, "")):
        said = bridging(*THREE_BRIDGES, WATCHED, uuid_bridge(caller, other))
        ended = f"UNBRIDGE {2 if caller < 5 else 5}"
        yield brief(said), in_order(ended, f"BRIDGE {caller}", change)
    for caller, other in ((10, 12), (12, 10)):
        said = bridging(*THREE_BRIDGES, WATCHED, uuid_bridge(caller, other))
        yield brief(said), f"UNBRIDGE 10, BRIDGE {caller}, STATE 10, STATE 12"
        yield said.bodies()[-1], f"+OK {identifier(other)}\n"


# Bridge 1 was dialed by 2 to 3, bridge 2 joined 5 to 7, and in bridge 3 the caller 10 was taken by 12. Each channel
# in an odd slot is the partner of the one behind it, and who is in no bridge is parked.
THREE_BRIDGES = (call("calls"), call("ans"), call("ans"), uuid_bridge(5, 7), call("q"), call("n"))

# of each leg that leaves its bridge: the caller, who is hung up of that, who goes on, its change of state when it is
# joined, and what is told later
PARTS_OF_LEAVING = {
    2: ("UNBRIDGE 2", hung_up(3, 4), "", "STATE 2", gone(3, 4)),
    3: ("UNBRIDGE 2", "", "EXECUTE_COMPLETE 2", "", "EXECUTE 2, PARK 2, STATE 2"),
    5: ("UNBRIDGE 5", hung_up(7, 8), "", "", gone(7, 8)),
    7: ("UNBRIDGE 5", hung_up(5, 6), "", "", gone(5, 6)),
    10: ("UNBRIDGE 10", "", "EXECUTE_COMPLETE 12", "STATE 10", "EXECUTE 12, PARK 12, STATE 12"),
    12: ("UNBRIDGE 10", "", "EXECUTE_COMPLETE 10", "STATE 12", "EXECUTE 10, PARK 10, STATE 10"),
}


@row("legs of any two bridges are joined")
def any_two_legs():
    bridges = ((2, 3), (5, 7), (10, 12))
    for first, second in ((0, 1), (0, 2), (1, 2)):
        for near in bridges[first]:
            for far in bridges[second]:
                parts = [in_order(*both) for both in zip(PARTS_OF_LEAVING[near], PARTS_OF_LEAVING[far])]
                *leaving, changes, later = parts
                for caller, other in ((near, far), (far, near)):
                    said = bridging(*THREE_BRIDGES, WATCHED, uuid_bridge(caller, other))
                    yield brief(said), in_order(*leaving, f"BRIDGE {caller}", changes, later)
                    yield said.bodies()[-1], f"+OK {identifier(other)}\n"


@row("legs of two bridges of one kind are joined")
def two_of_a_kind():
    dialed = (call("calls"), call("calls"), WATCHED)
    yield brief(bridging(*dialed, uuid_bridge(6, 2))), (
        f"UNBRIDGE 2, UNBRIDGE 6, {hung_up(3, 4)}, {hung_up(7, 8)}, BRIDGE 6, STATE 2, STATE 6, {gone(3, 4, 7, 8)}"
    )
    yield brief(bridging(*dialed, uuid_bridge(7, 3))), (
        "UNBRIDGE 2, UNBRIDGE 6, EXECUTE_COMPLETE 2, EXECUTE_COMPLETE 6, BRIDGE 7, "
        "EXECUTE 2, PARK 2, STATE 2, EXECUTE 6, PARK 6, STATE 6"
    )
    yield brief(bridging(*dialed, uuid_bridge(7, 2))), (
        f"UNBRIDGE 2, UNBRIDGE 6, {hung_up(3, 4)}, EXECUTE_COMPLETE 6, BRIDGE 7, STATE 2, {gone(3, 4)}, "
        "EXECUTE 6, PARK 6, STATE 6"
    )
    joined = (*[call("ans")] * 4, uuid_bridge(7, 1), uuid_bridge(5, 3), WATCHED)
    yield brief(bridging(*joined, uuid_bridge(3, 1))), (
        f"UNBRIDGE 7, UNBRIDGE 5, {hung_up(5, 6)}, {hung_up(7, 8)}, BRIDGE 3, {gone(5, 6, 7, 8)}"
    )
    taken = (*[call("q"), call("n")] * 2, WATCHED)
    yield brief(bridging(*taken, uuid_bridge(8, 2))), (
        "UNBRIDGE 2, UNBRIDGE 6, EXECUTE_COMPLETE 4, EXECUTE_COMPLETE 6, BRIDGE 8, STATE 2, STATE 8, "
        "EXECUTE 4, PARK 4, STATE 4, EXECUTE 6, PARK 6, STATE 6"
    )


@row("what legs do that are left behind, by their variables")
def left_behind():
    parks, hangs_up = "park_after_bridge", "hangup_after_bridge"
    with_partner = "HANGUP {0}, UNPARK {0}, STATE {0}, HANGUP {1}, STATE {1}"
    left_alone = {
        (2, 3, parks): ("PARK 3, STATE 3", ""),
        (2, 3, hangs_up): (hung_up(3, 4), gone(3, 4)),
        (3, 2, parks): ("EXECUTE_COMPLETE 2", "EXECUTE 2, PARK 2, STATE 2"),
        (3, 2, hangs_up): (with_partner.format(1, 2), gone(1, 2)),
        (5, 7, parks): ("PARK 7, STATE 7", ""),
        (7, 5, parks): ("PARK 5, STATE 5", ""),
        (7, 5, hangs_up): (hung_up(5, 6), gone(5, 6)),
        (10, 12, parks): ("EXECUTE_COMPLETE 12", "EXECUTE 12, PARK 12, STATE 12"),
        (10, 12, hangs_up): (with_partner.format(11, 12), gone(11, 12)),
        (12, 10, hangs_up): (with_partner.format(9, 10), gone(9, 10)),
    }
    for (leaves, stays, variable), (told, later) in left_alone.items():
        sets = f"api uuid_setvar {identifier(stays)} {variable} true"
        said = bridging(*THREE_BRIDGES, call("ans"), sets, WATCHED, uuid_bridge(leaves, 13))
        ended, *_, change, _ = PARTS_OF_LEAVING[leaves]
        expected = in_order(ended, told, f"BRIDGE {leaves}", change, "UNPARK 13, STATE 13", later)
        yield brief(said), expected
        yield said.session.hangups, {"NORMAL_CLEARING": 2} if later.startswith("STATE") else {}


@row("some are hung up and others park behind two bridges, and all hangups come first")
def hangups_first():
    parks = f"api uuid_setvar {identifier(3)} park_after_bridge true"
    causes = [f"api uuid_getvar {identifier(slot)} bridge_hangup_cause" for slot in (2, 3, 5)]
    said = bridging(*THREE_BRIDGES, parks, WATCHED, uuid_bridge(2, 5), *causes)
    yield brief(said), f"UNBRIDGE 2, UNBRIDGE 5, {hung_up(7, 8)}, PARK 3, STATE 3, BRIDGE 2, STATE 2, {gone(7, 8)}"
    yield said.bodies()[-3:], ["NORMAL_CLEARING"] * 3


@row("a leg dies of what its own leaving does")
def dies_of_leaving():
    partners = (call("ans"), call("ans"), uuid_bridge(1, 2), WATCHED)
    both = "HANGUP 1, STATE 1, HANGUP 2, STATE 2"
    for caller, other in ((1, 3), (3, 1), (2, 4)):
        said = bridging(*partners, uuid_bridge(caller, other))
        yield (brief(said), said.bodies()[-1]), (f"UNBRIDGE 1, {both}, {gone(1, 2)}", NO_CHANNEL)
        yield [channel.state.name for channel in said.session.switch.live_channels()], ["CS_PARK"] * 2
    for command, answer in ((uuid_transfer(1, "ans"), "+OK\n"), (uuid_transfer(1, "-bleg ans"), "+OK\n")):
        said = bridging(*partners, command)
        yield (brief(said), said.bodies()[-1]), (f"UNBRIDGE 1, {both}, {gone(1, 2)}", answer)
    said = bridging(*partners, uuid_transfer(2, "-both ans"))
    yield brief(said), f"UNBRIDGE 1, STATE 1, STATE 2, {routed(1)}, {routed(2)}"


@row("the partner of a leg that is left behind dies as it is joined, and the other one stays")
def partner_dies():
    begin = (call("ans"), call("ans"), uuid_bridge(1, 3), WATCHED)
    for caller, other in ((1, 4), (4, 1)):
        said = bridging(*begin, uuid_bridge(caller, other), f"api uuid_dump {FIRST}", uuid_transfer(1, "-both ans"))
        yield brief(said), f"UNBRIDGE 1, {hung_up(3, 4)}, {gone(3, 4)}"
        refused, dump, unbridged = said.bodies()[-3:]
        yield (refused, unbridged), (NO_CHANNEL, "-ERR Channel not bridged!\n")
        yield "Channel-State: CS_EXCHANGE_MEDIA\n" in dump and "Other-Leg" not in dump, True
    said = bridging(*begin, uuid_bridge(1, 4), "event plain CHANNEL_STATE", uuid_transfer(1, "ans"))
    yield brief(said).endswith(f"STATE 1, {routed(1)}"), True


@row("hangups run through bridges that still stand, and not through those that were left")
def through_bridges():
    ring = (call("ans"), call("ans"), uuid_bridge(1, 3), uuid_bridge(4, 2), WATCHED)
    all_four = in_order(*(f"HANGUP {slot}, STATE {slot}" for slot in (1, 2, 3, 4)))
    said = bridging(*ring, uuid_bridge(1, 4))
    yield (brief(said), said.bodies()[-1]), (f"UNBRIDGE 1, UNBRIDGE 4, {all_four}, {gone(1, 2, 3, 4)}", NO_CHANNEL)
    parks = f"api uuid_setvar {identifier(3)} park_after_bridge true"
    said = bridging(*ring[:-1], parks, WATCHED, uuid_bridge(1, 4))
    yield (brief(said), said.bodies()[-1]), (
        f"UNBRIDGE 1, UNBRIDGE 4, HANGUP 1, STATE 1, HANGUP 2, STATE 2, PARK 3, STATE 3, {gone(1, 2)}",
        NO_CHANNEL,
    )
    chain = (*[call("ans")] * 3, uuid_bridge(1, 3), uuid_bridge(4, 5))
    through = "UNBRIDGE 1, HANGUP 3, STATE 3, UNBRIDGE 4, HANGUP 4, STATE 4"
    said = bridging(*chain, WATCHED, uuid_bridge(1, 6))
    yield (brief(said), said.bodies()[-1]), (f"{through}, {hung_up(5, 6)}, {gone(3, 4, 5, 6)}", NO_CHANNEL)
    parks = f"api uuid_setvar {identifier(5)} park_after_bridge true"
    said = bridging(*chain, parks, WATCHED, uuid_bridge(1, 6))
    yield brief(said), f"{through}, PARK 5, STATE 5, BRIDGE 1, UNPARK 6, STATE 6, {gone(3, 4)}"


@row("both legs of a bridge are sent elsewhere")
def both_transferred():
    begin = [f"api originate {{origination_uuid={name}}}loopback/ans &park()" for name in "AB"]
    moves = ["api uuid_transfer A -both ans", "api uuid_exists A", "api uuid_exists B"]
    said = play(usual_document(), *begin, "api uuid_bridge A B", "event plain CHANNEL_UNBRIDGE", *moves, moves[0])
    yield said.bodies()[3:], ["+OK\n", "true", "true", "-ERR Channel not bridged!\n"]
    yield len(events(said)), 1
    for legs in ((2, 3), (5, 7), (10, 12)):
        for leg in legs:
            said = bridging(*THREE_BRIDGES, WATCHED, uuid_transfer(leg, "-both ans"))
            moved = [f"STATE {leg}" for leg in legs]
            yield brief(said), in_order(f"UNBRIDGE {legs[0]}", *moved, *map(routed, legs))
    said = bridging(*THREE_BRIDGES, uuid_transfer(7, "-both ans XML nix"))
    yield said.session.hangups, {"NO_ROUTE_DESTINATION": 4}


@row("the peer of a leg is sent elsewhere")
def peer_transferred():
    expected = {
        2: f"UNBRIDGE 2, EXECUTE_COMPLETE 2, STATE 3, EXECUTE 2, PARK 2, STATE 2, {routed(3)}",
        3: f"UNBRIDGE 2, {hung_up(3, 4)}, STATE 2, {routed(2)}, {gone(3, 4)}",
        5: f"UNBRIDGE 5, {hung_up(5, 6)}, STATE 7, {gone(5, 6)}, {routed(7)}",
        7: f"UNBRIDGE 5, {hung_up(7, 8)}, STATE 5, {routed(5)}, {gone(7, 8)}",
        10: f"UNBRIDGE 10, EXECUTE_COMPLETE 10, STATE 12, EXECUTE 10, PARK 10, STATE 10, {routed(12)}",
        12: f"UNBRIDGE 10, EXECUTE_COMPLETE 12, STATE 10, {routed(10)}, EXECUTE 12, PARK 12, STATE 12",
    }
    for leg, told in expected.items():
        said = bridging(*THREE_BRIDGES, WATCHED, uuid_transfer(leg, "-bleg ans"))
        yield (brief(said), said.bodies()[-1]), (told, "+OK\n")
    hangs_up = f"api uuid_setvar {identifier(12)} hangup_after_bridge true"
    said = bridging(*THREE_BRIDGES, hangs_up, WATCHED, uuid_transfer(12, "-bleg ans"))
    yield brief(said), (
        "UNBRIDGE 10, HANGUP 11, UNPARK 11, STATE 11, HANGUP 12, STATE 12, STATE 10, "
        f"{routed(10)}, {gone(11, 12)}"
    )


@row("the peer of a leg is its partner, whom a queue brought to it")
def peer_is_partner():
    begin = ("api originate loopback/q '&fifo(f out nowait)'", WATCHED)
    ended = "UNBRIDGE 2, EXECUTE_COMPLETE 1, STATE 2, HANGUP 1, STATE 1, HANGUP 2, STATE 2"
    said = bridging(*begin, uuid_transfer(1, "-bleg ans"))
    yield brief(said), f"{ended}, {gone(1, 2)}"
    said = bridging(*begin, uuid_transfer(2, "-bleg ans"))
    yield brief(said), f"UNBRIDGE 2, EXECUTE_COMPLETE 2, STATE 1, {routed(1)}, EXECUTE 2, PARK 2, STATE 2"


# its leg and its far end draw the next identifiers
RINGS = "bgapi originate loopback/never &park()\nJob-UUID: rings"


@row("which words of a transfer are known, and what is missed first")
def words_of_transfer():
    usage = "-USAGE: <uuid> [-both|-bleg] <exten> [dialplan] [context]\n"
    long = "y" * 257
    for words in ("", "x", "x -both", "x -bleg ", "x -Both ans", "x - ans", "x -aleg ans", f"x -both {long}",
                  f"x -bleg ans {long}", f"x -both ans XML {long}", "-both ans XML"):
        expected = NO_CHANNEL if words == "-both ans XML" else usage
        yield (words, *answers(f"uuid_transfer {words}")), (words, expected)
    said = bridging(RINGS, *(uuid_transfer(1, words) for words in ("-both ans", "-bleg ans", "ans")))
    yield said.bodies(), ["-ERR Channel not ready!\n"] * 3
    unbridged = "-ERR Channel not bridged!\n"
    words = ("-both ans", "-bleg ans", "-both -bleg", "ans -both", "-both")
    said = bridging(call("ans"), *(uuid_transfer(1, one) for one in words))
    yield said.bodies()[1:], [unbridged] * 3 + ["+OK\n", usage]
    said = bridging(*THREE_BRIDGES, execute(4, "transfer", "-both ans"))
    yield said.session.hangups, {"DESTINATION_OUT_OF_ORDER": 2}


@row("what is missed first of two that are to be joined again")
def refusals_of_joining():
    pairs = ((2, 2), (2, 99), (2, 13), (14, 2))
    said = bridging(*THREE_BRIDGES, RINGS, *(uuid_bridge(*pair) for pair in pairs))
    yield said.bodies()[-4:], [
        "-ERR Same channel!\n", NO_CHANNEL, "-ERR Channel not ready!\n", "-ERR Channel not answered!\n"
    ]
    yield said.session.events_told["CHANNEL_UNBRIDGE"], 0


@row("legs that are left die first, of all in the order of slots, then bridges end, and queues are left last")
def order_of_leaving():
    cancelled = "HANGUP 3, STATE 3, HANGUP 4, STATE 4, HANGUP 7, STATE 7, HANGUP 8, STATE 8"
    for caller, other in ((6, 2), (2, 6)):
        said = bridging(call("dials"), call("dials"), WATCHED, uuid_bridge(caller, other))
        yield brief(said), f"{cancelled}, BRIDGE {caller}, STATE 2, STATE 6, {gone(3, 4, 7, 8)}"
        yield said.session.hangups, {"ORIGINATOR_CANCEL": 4}
    dialing = (call("calls"), call("dials"), WATCHED)
    cancelled = "HANGUP 7, STATE 7, HANGUP 8, STATE 8"
    yield brief(bridging(*dialing, uuid_bridge(6, 3))), (
        f"{cancelled}, UNBRIDGE 2, EXECUTE_COMPLETE 2, BRIDGE 6, STATE 6, EXECUTE 2, PARK 2, STATE 2, {gone(7, 8)}"
    )
    yield brief(bridging(*dialing, uuid_bridge(2, 6))), (
        f"{cancelled}, UNBRIDGE 2, {hung_up(3, 4)}, BRIDGE 2, STATE 2, STATE 6, {gone(3, 4, 7, 8)}"
    )
    waiting = (call("calls"), call("q"), WATCHED)
    yield brief(bridging(*waiting, uuid_bridge(6, 2))), (
        f"UNBRIDGE 2, {hung_up(3, 4)}, abort 6, BRIDGE 6, STATE 2, STATE 6, {gone(3, 4)}"
    )
    yield brief(bridging(*waiting, uuid_bridge(3, 6))), (
        "UNBRIDGE 2, EXECUTE_COMPLETE 2, abort 6, BRIDGE 3, STATE 6, EXECUTE 2, PARK 2, STATE 2"
    )


@row("partners that dial, and partners that wait in a queue, die with a leg that is left behind")
def waiting_partners():
    dialing = (call("dials"), call("ans"), uuid_bridge(1, 5), WATCHED)
    legs, pair = "HANGUP 3, STATE 3, HANGUP 4, STATE 4", "HANGUP 1, STATE 1, HANGUP 2, STATE 2"
    said = bridging(*dialing, uuid_transfer(1, "-bleg ans"))
    yield brief(said), f"UNBRIDGE 1, {pair}, {legs}, STATE 5, {gone(1, 2, 3, 4)}, {routed(5)}"
    yield said.session.hangups, {"NORMAL_CLEARING": 2, "ORIGINATOR_CANCEL": 2}
    for caller, other in ((2, 5), (5, 2)):
        said = bridging(*dialing, uuid_bridge(caller, other))
        yield (brief(said), said.bodies()[-1]), (f"{legs}, UNBRIDGE 1, {pair}, {gone(1, 2, 3, 4)}", NO_CHANNEL)
    waiting = (call("q"), call("ans"), uuid_bridge(3, 1), WATCHED)
    pair = "HANGUP 1, STATE 1, abort 2, HANGUP 2, STATE 2"
    said = bridging(*waiting, uuid_transfer(3, "ans"))
    yield brief(said), f"UNBRIDGE 3, {pair}, STATE 3, {gone(1, 2)}, {routed(3)}"
    said = bridging(*waiting, uuid_bridge(3, 2))
    yield (brief(said), said.bodies()[-1]), (f"UNBRIDGE 3, {pair}, {gone(1, 2)}", NO_CHANNEL)
    said = bridging(*waiting, f"api uuid_setvar {FIRST} park_after_bridge true", uuid_bridge(3, 2))
    yield brief(said), "UNBRIDGE 3, PARK 1, STATE 1, abort 2, BRIDGE 3, STATE 2"


@row("the end of a bridge tells its caller as the entry leaves it")
def texts_of_ends():
    named_by = "(Channel-State|Unique-ID|Other-Leg-Unique-ID|Bridge-.-Unique-ID|Bridge-Number|Hangup-Cause): (.*)"
    watched = "event plain CHANNEL_UNBRIDGE CHANNEL_BRIDGE"
    said = bridging(*THREE_BRIDGES, watched, uuid_bridge(10, 5))
    yield [[value for _, value in re.findall(f"(?m)^{named_by}", event)] for event in events(said)], [
        ["CS_EXCHANGE_MEDIA", identifier(5), identifier(10), identifier(5), identifier(7), "2", "NORMAL_CLEARING"],
        ["CS_EXCHANGE_MEDIA", identifier(10), identifier(5), identifier(10), identifier(12), "3", "NORMAL_CLEARING"],
        ["CS_EXCHANGE_MEDIA", identifier(10), identifier(5), identifier(10), identifier(5), "4"],
    ]
    said = bridging(*THREE_BRIDGES, watched, uuid_transfer(5, "-both ans"))
    yield [[value for _, value in re.findall(f"(?m)^{named_by}", event)] for event in events(said)], [
        ["CS_ROUTING", identifier(5), identifier(5), identifier(7), "2", "NORMAL_CLEARING"]
    ]


@row("variables of legs that are joined again, and of those that are left")
def variables_of_rejoined():
    dumps = [f"api uuid_dump {identifier(leg)}" for leg in (2, 5)]
    said = bridging(*THREE_BRIDGES, "event plain CHANNEL_HANGUP_COMPLETE", uuid_bridge(2, 5), *dumps)
    told = [re.findall("variable_(.*): (.*)", text) for text in (*said.bodies()[-2:], *events(said))]
    cleared = [("bridge_hangup_cause", "NORMAL_CLEARING"), ("hangup_cause", "NORMAL_CLEARING")]
    yield told, [
        [("originate_disposition", "SUCCESS"), ("signal_bond", identifier(5)), cleared[0]],
        [("signal_bond", SECOND), cleared[0]],
        [("signal_bond", SECOND), *cleared],
        cleared[1:],
        [("signal_bond", identifier(5)), *cleared],
        cleared[1:],
    ]


@row("messages are kept by legs that are joined again or sent elsewhere")
def messages_kept():
    said = bridging(*THREE_BRIDGES, execute(2, "eval"), WATCHED, uuid_bridge(2, 5), uuid_transfer(2, "-both ans"))
    told = brief(said)
    yield told.endswith(in_order("UNBRIDGE 2, STATE 2, STATE 5, STATE 2, EXECUTE 2, EXECUTE_COMPLETE 2",
                                 routed(2).removeprefix("STATE 2, "), routed(5))), True


def timed_document(times, **settings):
    """Another call goes by the times of an extension, and tells whether they hold."""
    in_time, otherwise = actions("log open; answer"), actions("log closed; answer")
    told = Extension("1", in_time, times=tuple(times.items()), otherwise=otherwise)
    return Document({"default": [told]}, **settings)


def is_open(times, **settings):
    """Whether the times hold where the clock begins."""
    printed = hunts.printed(timed_document(times, **settings), "default", "1").output
    return {"log open\nanswer \n": True, "log closed\nanswer \n": False}[printed]


@row("a condition with times", COMING_ROWS)
def times_of_condition():
    times = {"wday": "2-6", "hour": "9-17"}
    bases = {0: False, 32400: True, 205200: False}
    yield {base: is_open(times, time_base=base) for base in bases}, bases


@row("what minutes are called", COMING_ROWS)
def names_of_minutes():
    minutes = {
        (0, 0): {"hour": "0", "minute": "0", "mon": "1", "mday": "1", "wday": "thu"},
        (0, -1): {"hour": "23", "minute": "59", "mon": "12", "mday": "31", "wday": "wed"},
        (0, -1439): {"hour": "0", "minute": "1", "mon": "12", "mday": "31", "wday": "4"},
        (0, 1439): {"hour": "23", "minute": "59", "mon": "1", "mday": "1", "wday": "5"},
        (951782400, 0): {"hour": "0", "minute": "0", "mon": "2", "mday": "29", "wday": "tue"},
        (951782400, 1439): {"hour": "23", "minute": "59", "mon": "2", "mday": "29", "wday": "tue"},
        (4102444740, 0): {"hour": "23", "minute": "59", "mon": "12", "mday": "31", "wday": "thu"},
        (4102444740, 1): {"hour": "0", "minute": "0", "mon": "1", "mday": "1", "wday": "fri"},
        (253369999980, 0): {"hour": "3", "minute": "33", "mon": "12", "mday": "23", "wday": "wed"},
    }
    for (base, offset), names in minutes.items():
        for field, value in names.items():
            settings = {"time_base": base, "time_offset": offset}
            held = [one for one in ALL_VALUES[field] if is_open({field: str(one)}, **settings)]
            number = DAYS.index(value) + 1 if value in DAYS else int(value)
            yield (base, offset, field, held), (base, offset, field, [number])
            yield is_open({field: value}, **settings), True


DAYS = ("sun", "mon", "tue", "wed", "thu", "fri", "sat")
ALL_VALUES = {"hour": range(24), "minute": range(60), "mon": range(1, 13), "mday": range(1, 32), "wday": range(1, 8)}


@row("lists and ranges of values", COMING_ROWS)
def lists_of_values():
    hours = {
        "3": {3}, "003": {3}, "3,5": {3, 5}, "3-5": {3, 4, 5}, "22-1": {22, 23, 0, 1}, "5-5": {5}, "23-0": {23, 0},
        "1-0": set(range(24)), "0-23": set(range(24)), "3,3-4,00000000000000000007": {3, 4, 7},
        "1-2,22-23": {1, 2, 22, 23},
    }
    for text, held in hours.items():
        yield {hour for hour in range(24) if is_open({"hour": text}, time_base=hour * 3600)}, held
    days = {
        "sun": {1}, "sat-sun": {7, 1}, "sun-sat": {1, 2, 3, 4, 5, 6, 7}, "6-mon": {6, 7, 1, 2},
        "mon,3,fri-6": {2, 3, 6},
    }
    for text, held in days.items():
        of_days = {day for day in range(1, 8) if is_open({"wday": text}, time_base=(day + 2) % 7 * 86400)}
        yield (text, of_days), (text, held)
    yield is_open({"hour": "0", "minute": "1"}, time_base=60), True
    yield [is_open({"hour": hour, "minute": minute}) for hour, minute in (("0", "1"), ("1", "0"), ("0", "0"))], [
        False, False, True
    ]
    yield is_open({"Hour": "99"}), True


@row("what a condition may not have, and settings out of their range", COMING_ROWS)
def faults_of_times():
    malformed = {
        "hour": ("24", "", "1-", "-1", "1-2-3", "1,,2", ",", " 1", "1 ", "x", "+1", "0" * 20 + "1", "sun"),
        "minute": ("60",), "mon": ("0", "13", "jan"), "mday": ("0", "32"),
        "wday": ("0", "8", "Sun", "sunday", "sun-"),
    }
    for field, texts in malformed.items():
        for text in texts:
            yield (field, text, refused({field: text})), (field, text, ("BadAttribute", f'{field}="{text}"'))
    others = ("year", "yday", "mweek", "week", "minute-of-day", "time-of-day", "date-time", "tz-offset", "dst")
    for field in others:
        yield refused({field: "1"}), ("TimeAttribute", f'{field}="1"')
    yield refused({"hour": "1", "minute": "60", "year": "1"}), ("BadAttribute", 'minute="60"')
    yield refused({"year": "1", "hour": "99"}), ("TimeAttribute", 'year="1"')
    settings = {"time-base": ("61", "x", "-60", "", "253370000040"), "time-offset": ("1440", "-1440", "x")}
    for setting, texts in settings.items():
        for text in texts:
            fault = refused({"hour": "99"}, **{setting.replace("-", "_"): text})
            yield fault, ("BadSetting", f'<param name="{setting}" value="{text}"/>')


def refused(times, **settings):
    """The fault of a document, and what stands at its place."""
    document = timed_document(times, **settings)
    printed = hunts.printed(document, "default", "1")
    kind, place = re.fullmatch("fsw: (.*) at (.*)", printed.error).groups()
    text = document.written()[int(place) :]
    return kind, re.match('<[^>]*>|[^=]*="[^"]*"', text).group()


@row("an extension out of its times is passed over, and its other actions take it", COMING_ROWS)
def out_of_times():
    never, always = (("hour", "1"),), (("hour", "0"),)
    last = Extension("1", actions("log last"))
    cases = (
        ((Extension("1", actions("log a"), times=never), last), "log last\n"),
        ((Extension("1", actions("log a"), times=always), last), "log a\n"),
        ((Extension("1", actions("log a"), True, always), last), "log a\nlog last\n"),
        ((Extension("1", actions("log a"), True, never), last), "log last\n"),
        ((Extension("1", actions("log a"), False, never, actions("log b")), last), "log b\n"),
        ((Extension("1", actions("log a"), True, never, actions("log b")), last), "log b\nlog last\n"),
        ((Extension("1", actions("log a"), False, always, actions("log b")), last), "log a\n"),
        ((Extension("2", actions("log a"), False, never, actions("log b")), last), "log last\n"),
        ((Extension("1", (), times=always), last), "NO_ROUTE_DESTINATION\n"),
        ((Extension("1", (), times=never), last), "log last\n"),
        ((Extension("1", (), False, always, actions("log b")), last), "NO_ROUTE_DESTINATION\n"),
    )
    for extensions, expected in cases:
        yield hunts.printed(Document({"default": list(extensions)}), "default", "1").output, expected


@row("inline actions act in their times, and others where these do not hold", COMING_ROWS)
def inline_by_time():
    puts = [Action("set", f"v={one}", inline=True) for one in "ab"]
    made = [
        Extension("1", (puts[0],), True, (("minute", "0"),), (puts[1],)),
        Extension("1", actions("answer; log got ${v}; park")),
    ]
    for offset, expected in ((0, "got a"), (1, "got b"), (60, "got a")):
        document = Document({"default": made}, time_offset=offset)
        said = coming("event plain CHANNEL_EXECUTE", call("1"), document=document)
        yield re.findall("Application-Data: (.*)", said.result.output), [expected.replace(" ", "%20")]


@row("the clock goes on, and with it the times", COMING_ROWS)
def times_go_on():
    document = timed_document({"wday": "fri", "hour": "0"}, time_base=86340)
    lines = (call("1"), "api msleep 59999", call("1"), "api msleep 1", call("1"), "api msleep 3600000", call("1"))
    said = coming("event plain CHANNEL_EXECUTE", "filter Application log", *lines, document=document)
    yield re.findall("Application-Data: (.*)", said.result.output), ["closed", "closed", "open", "closed"]


@row("behind the last year no time holds", COMING_ROWS)
def behind_last_year():
    document = timed_document({"hour": "0-23"}, time_base=253369999980, time_offset=1439)
    hours = ["api msleep 3600000"] * 188
    lines = (*hours, "api msleep 1620000", call("1"), "api msleep 59999", call("1"), "api msleep 1", call("1"))
    said = coming("event plain CHANNEL_EXECUTE", "filter Application log", *lines, document=document)
    yield re.findall("Application-Data: (.*)", said.result.output), ["open", "open", "closed"]
    untimed = Document({"default": [Extension("1", actions("answer; park"))]}, time_base=253369999980)
    said = coming(*hours, *["api msleep 3600000"] * 30, call("1"), document=untimed)
    yield said.bodies()[-1], f"+OK {FIRST}\n"


def jobs_told(played):
    """The bodies of BACKGROUND_JOB, and of the answers of api commands, in their order."""
    return [body.partition("\n\n")[2] if body.startswith("Event") else body for body in played.told()]


@row("tasks are done in the order of their moments", COMING_ROWS)
def order_of_tasks():
    tasks = ("api sched_api +2 g echo two", "api sched_api +1 g echo one")
    said = coming("event plain BACKGROUND_JOB", *tasks, "api msleep 3000")
    yield jobs_told(said)[3:], ["+OK Added: 1\n", "+OK Added: 2\n", "one", "two", "+OK\n"]
    moments = re.findall("Event-Date-Timestamp: (.*)", said.result.output)
    yield (moments, said.session.switch.now), (["1000000", "2000000"], 3000000)
    same = [f"api sched_api +1 g echo {one}" for one in "abc"]
    said = coming("event plain BACKGROUND_JOB", *same, "api sched_api +0 g echo first", "api msleep 1000")
    yield jobs_told(said)[3:], [*(f"+OK Added: {number}\n" for number in (1, 2, 3, 4)), "first", "+OK\n", *"abc"]


@row("a channel is hung up at a moment, unless the task is deleted", COMING_ROWS)
def hung_up_later():
    begin = (CALL, "api sched_hangup +1 A")
    yield coming(*begin, "api msleep 2000", "api uuid_exists A").bodies()[1:], ["+OK\n", "+OK\n", "false"]
    kept = coming(*begin, "api sched_del A", "api msleep 2000", "api uuid_exists A")
    yield kept.bodies()[1:], ["+OK\n", "+OK Deleted: 1\n", "+OK\n", "true"]
    causes = {"": "ALLOTTED_TIMEOUT", " USER_BUSY x": "USER_BUSY"}
    causes |= dict.fromkeys((" frob", " 17"), "NORMAL_CLEARING")
    for word, cause in causes.items():
        said = coming(CALL, f"api sched_hangup +1 A{word}", "api msleep 1000")
        yield (said.session.hangups, said.session.switch.now), ({cause: 2}, 1000000)
    said = coming(CALL, "api sched_hangup +0 A", "api uuid_exists A")
    yield (said.bodies()[1:], said.session.hangups), (["+OK\n", "false"], {"ALLOTTED_TIMEOUT": 2})


@row("a channel that is gone is not hung up, and one of its name is in its place", COMING_ROWS)
def hung_up_by_name():
    begin = (CALL, "api sched_hangup +2 A", "api uuid_kill A", "api msleep 1000")
    said = coming(*begin, "event plain ALL", "api msleep 2000")
    yield events(said), []
    said = coming(*begin, CALL, "api msleep 2000", "api uuid_exists A")
    yield (said.bodies()[-1], said.session.hangups), ("false", {"NORMAL_CLEARING": 2, "ALLOTTED_TIMEOUT": 2})


@row("how times are said", COMING_ROWS)
def times_said():
    begin, later = ("event plain BACKGROUND_JOB", "api msleep 10000"), Document({}, time_base=60)
    moments = {"+0": 10, "+5": 15, "+007": 17, "130": 70, "75": 15, "70": 10, "60": 10, "3": 10, "0000000071": 11}
    for time, expected in moments.items():
        said = coming(*begin, f"api sched_api {time} g echo", "api msleep 100000", document=later)
        yield re.findall("Event-Date-Timestamp: (.*)", said.result.output), [f"{expected}000000"]
    far = coming("api sched_api +9999999999 g echo", "api sched_api 9999999999 g echo", document=later)
    yield [task.moment for task in far.session.switch.tasks.waiting], [9999999939000000, 9999999999000000]
    for time in ("", "+", "++1", "-1", "1s", "x", "12345678901", "+12345678901", "+1.5", "1+"):
        odd = (f"api sched_api {time} g echo x", CALL, f"api sched_hangup {time} A x")
        said = coming(*odd, "api sched_api +1 g echo")
        usage = "-USAGE: [+]<time> <group> <command*>\n", "-USAGE: [+]<time> <uuid> [cause]\n"
        yield (time, *said.bodies()), (time, usage[0], "+OK A\n", usage[1], "+OK Added: 1\n")


@row("usages of what begins and deletes tasks, and what is missed first", COMING_ROWS)
def usages_of_tasks():
    expected = {
        "sched_hangup": "[+]<time> <uuid> [cause]",
        "sched_api": "[+]<time> <group> <command*>",
        "sched_del": "<group|number>",
    }
    yield {name: COMING[name].usage for name in expected}, expected
    for line in ("sched_hangup", "sched_hangup +1", "sched_hangup x A", "sched_api", "sched_api +1", "sched_api +1 g",
                 "sched_api +1 g  ", "sched_del", "sched_del "):
        yield coming(CALL, f"api {line}").bodies()[1], f"-USAGE: {expected[line.split(' ')[0]]}\n"
    said = coming("api sched_hangup +1 A", CALL, "api sched_hangup +1 a", "api sched_api  +1   g   echo  x ")
    yield said.bodies(), [NO_CHANNEL, "+OK A\n", NO_CHANNEL, "+OK Added: 1\n"]
    yield said.session.switch.tasks.waiting[0].what.text, "echo  x "


@row("tasks are deleted by their group, by their number, and by both", COMING_ROWS)
def deleted_tasks():
    groups = ("2", "g", "g", "h", "2")
    begin = (*(f"api sched_api +1 {group} echo {group}" for group in groups), "event plain BACKGROUND_JOB")
    keys = {
        "g": (2, "22h"), "2": (3, "gh"), "4": (1, "2gg2"), "004": (1, "2gg2"), "6": (0, "2ggh2"), "G": (0, "2ggh2"),
        "h x": (1, "2gg2"), "0": (0, "2ggh2"), "1": (1, "ggh2"), "+1": (0, "2ggh2"),
    }
    for key, (count, kept) in keys.items():
        said = coming(*begin, f"api sched_del {key}", "api msleep 2000")
        done = jobs_told(said)[-1 - len(kept) : -1]
        yield (key, said.bodies()[5], sorted(done)), (key, f"+OK Deleted: {count}\n", sorted(kept))
    said = coming(CALL, "api sched_hangup +1 A", "api sched_api +1 g echo", "api sched_del A", "api sched_del 2")
    yield said.bodies()[2:], ["+OK Added: 2\n", "+OK Deleted: 1\n", "+OK Deleted: 1\n"]


@row("1,024 tasks may be there, and numbers are given once", COMING_ROWS)
def many_tasks():
    tasks = [f"api sched_api +{1 + number % 2} g{number % 2} echo" for number in range(1024)]
    lines = (CALL, "api sched_api +1 g echo", "api sched_hangup +1 A", "api sched_hangup +1 B", "api sched_api +1 g",
             "api sched_del g1", "api sched_api +1 g echo", "api sched_hangup +1 A", "api sched_api +1 g echo")
    said = coming(*tasks, *lines).bodies()
    yield said[1023:], [
        "+OK Added: 1024\n", "+OK A\n", "-ERR too many tasks\n", "-ERR too many tasks\n", NO_CHANNEL,
        "-USAGE: [+]<time> <group> <command*>\n", "+OK Deleted: 512\n", "+OK Added: 1025\n", "+OK\n",
        "+OK Added: 1027\n",
    ]


@row("a task runs its command as a job in the background, whose name is drawn then", COMING_ROWS)
def task_as_job():
    begin = ("event plain BACKGROUND_JOB", "api sched_api +1 g msleep  500", "api create_uuid")
    said = coming(*begin, "api msleep 2000", "api create_uuid")
    yield said.bodies()[1:], [FIRST, "+OK\n", identifier(3)]
    yield events(said), [
        f"Event-Name: BACKGROUND_JOB\nCore-UUID: {identifier(0)}\nEvent-Sequence: 1\nEvent-Date-Timestamp: 1500000\n"
        f"Job-UUID: {SECOND}\nJob-Command: msleep\nJob-Command-Arg: 500\nContent-Length: 4\n\n+OK\n"
    ]
    said = coming("event plain BACKGROUND_JOB", "api sched_api +1 g sched_api +1 h echo inner", "api msleep 3000")
    yield jobs_told(said)[3:], ["+OK Added: 1\n", "+OK Added: 2\n", "inner", "+OK\n"]
    said = coming("event plain BACKGROUND_JOB", "bgapi sched_api +0 g nosuch", "bgapi sched_del g")
    yield [body for body in jobs_told(said) if "UUID" not in body][3:], [
        "+OK Added: 1\n", "-ERR nosuch Command not found!\n", "+OK Deleted: 0\n"
    ]


@row("a command of a task finds 1,024 jobs", COMING_ROWS)
def task_without_job():
    sleeps = ["bgapi msleep 5000\nJob-UUID: sleeps"] * 1023
    tasks = [f"api sched_api +1 g echo {one}" for one in "ab"]
    watched = "event plain BACKGROUND_JOB"
    filters = "filter Job-Command echo"
    said = coming(watched, *sleeps, *tasks, filters, "api msleep 1000", "api create_uuid")
    told = [re.search("Job-UUID: (.*)\n.*\n.*Arg: (.*)\n.*\n\n(.*)", event).groups() for event in events(said)]
    yield told, [(FIRST, "a", "-ERR too many jobs"), (SECOND, "b", "-ERR too many jobs")]
    yield said.bodies()[-1], identifier(3)
    said = coming(watched, *sleeps[1:], *tasks, filters, "api msleep 1000")
    told = [re.search("Arg: (.*)\n.*\n\n(.*)", event).groups() for event in events(said)]
    yield told, [("b", "-ERR too many jobs"), ("a", "a")]


@row("channels come before tasks, and tasks before jobs", COMING_ROWS)
def tasks_in_between():
    watched = "event plain CHANNEL_HANGUP CHANNEL_DESTROY BACKGROUND_JOB"
    tasks = ("api sched_api +1 g echo", "api sched_hangup +1 A", "api sched_api +1 g uuid_exists A")
    said = coming(watched, "bgapi msleep 1000", CALL, *tasks, "api msleep 1000")
    yield named(*events(said)), ["CHANNEL_HANGUP"] * 2 + ["CHANNEL_DESTROY"] * 2 + ["BACKGROUND_JOB"] * 3
    yield re.findall("Job-Command: (.*)", said.result.output), ["msleep", "echo", "uuid_exists"]
    wakes = "bgapi originate {origination_uuid=B}loopback/ans &sleep(1000)"
    watched = "event plain CHANNEL_EXECUTE_COMPLETE BACKGROUND_JOB"
    said = coming(wakes, watched, "api sched_api +1 g echo", "api msleep 1000")
    yield named(*events(said)), ["CHANNEL_EXECUTE_COMPLETE", "BACKGROUND_JOB"]


@row("while nothing is owed no moment comes, and a shutdown drops all tasks", COMING_ROWS)
def tasks_wait_and_go():
    said = coming("event plain ALL", "api sched_api +1 g echo", "api echo x", "api echo y")
    yield (events(said), len(said.session.switch.tasks.waiting)), ([], 1)
    said = coming("event plain ALL", "api sched_api +1 g echo", "api fsctl shutdown")
    yield (named(*events(said)), said.session.switch.tasks.waiting), (["SHUTDOWN"], [])
    tasks = ("api sched_api +1 g fsctl shutdown", "api sched_api +1 g echo")
    said = coming("event plain ALL", *tasks, "api msleep 5000")
    yield named(*events(said)), ["SHUTDOWN", "BACKGROUND_JOB"]
    yield said.told()[-2:], ["-ERR SYSTEM_SHUTDOWN\n", NOTICE]


@row("a command that adds itself again and again, at one moment or by the second", COMING_ROWS)
def endless_tasks():
    document = Document({}, global_values={"again": "sched_api +0 g expand ${again}"})
    said = coming("api expand ${again}", document=document)
    yield (said.bodies(), *said.ended()), ([], 9, "fsw: runaway 100000")
    document = Document({}, global_values={"again": "sched_api +1 g expand ${again}"})
    said = coming("api expand ${again}", "api msleep 10000", "api sched_del g", document=document)
    yield said.bodies(), ["+OK Added: 1\n", "+OK\n", "+OK Deleted: 1\n"]
    yield said.session.switch.tasks.added, 11


@row("the model of today knows no tasks", COMING_ROWS)
def no_tasks_yet():
    names = ("sched_api", "sched_hangup", "sched_del")
    yield answers(*(f"{name} +1 g echo" for name in names)), [f"-ERR {name} Command not found!\n" for name in names]


LISTENS_TO_JSON = "+OK event listener enabled json"
NO_FORMAT, NO_KEYWORDS = "-ERR event format not supported", "-ERR no keywords supplied"

JSON_OF_JOB = (
    f'{{"Content-Length":"3","Core-UUID":"{identifier(0)}","Event-Date-Timestamp":"0","Event-Name":"BACKGROUND_JOB",'
    f'"Event-Sequence":"1","Job-Command":"echo","Job-Command-Arg":"a b","Job-UUID":"{FIRST}","_body":"a b"}}'
)


@row("an event as JSON, and plain again", COMING_ROWS)
def event_as_json():
    again = ("event plain CHANNEL_HANGUP", "bgapi echo a b", "event xml ALL")
    said = coming("event json BACKGROUND_JOB", "bgapi echo a b", *again)
    plain = JOB_ENDED.replace("Event-Sequence: 1", "Event-Sequence: 2").replace(FIRST, SECOND)
    began = [f"+OK Job-UUID: {name}" for name in (FIRST, SECOND)]
    yield said.told()[2:], [LISTENS_TO_JSON, began[0], JSON_OF_JOB, LISTENS, began[1], plain, NO_FORMAT]
    heads = [headers for headers, _ in frames(said.result.output) if "event" in headers["Content-Type"]]
    yield heads, [
        {"Content-Length": "260", "Content-Type": "text/event-json"},
        {"Content-Length": "227", "Content-Type": "text/event-plain"},
    ]


@row("a call that is hung up, as JSON", COMING_ROWS)
def hangup_as_json():
    said = coming("event json CHANNEL_HANGUP", "api originate loopback/busy &park()")
    yield events(said)[0], (
        '{"Answer-State":"hangup","Call-Direction":"outbound","Caller-Context":"default",'
        '"Caller-Destination-Number":"busy","Channel-Name":"loopback/busy-a","Channel-State":"CS_HANGUP",'
        f'"Channel-State-Number":"10","Core-UUID":"{identifier(0)}","Event-Date-Timestamp":"0",'
        f'"Event-Name":"CHANNEL_HANGUP","Event-Sequence":"9","Hangup-Cause":"USER_BUSY","Unique-ID":"{FIRST}"}}'
    )
    yield len(events(said)), 2


@row("which form is taken, and when", COMING_ROWS)
def forms():
    lines = {
        "event BACKGROUND_JOB": (LISTENS, "plain"),
        "event json": (NO_KEYWORDS, "plain"),
        "event json frob": (NO_KEYWORDS, "plain"),
        "event json CHANNEL_HANGUP": (LISTENS_TO_JSON, "json"),
        "event xml": (NO_FORMAT, "json"),
        "event xml BACKGROUND_JOB": (NO_FORMAT, "json"),
        "event frob": (NO_KEYWORDS, "json"),
        "nixevent CHANNEL_HANGUP": ("+OK event listener disabled", "json"),
        "event plain json CHANNEL_HANGUP": (LISTENS, "plain"),
        "event JSON CHANNEL_HANGUP": (LISTENS, "plain"),
        "event  json  plain xml CHANNEL_HANGUP": (LISTENS_TO_JSON, "json"),
        "event CHANNEL_HANGUP json": (LISTENS, "plain"),
        "event json CUSTOM": (LISTENS_TO_JSON, "json"),
        "event CUSTOM json": (LISTENS, "plain"),
        "event json ALL": (LISTENS_TO_JSON, "json"),
    }
    said = coming(*(part for line in lines for part in (line, "bgapi echo x")))
    replies = [text for text in said.told()[2:] if text.startswith(("+OK event", "-ERR"))]
    types = [headers["Content-Type"] for headers, _ in frames(said.result.output)]
    told = [name for name in types if "event" in name]
    yield replies, [reply for reply, _ in lines.values()]
    yield told, [f"text/event-{form}" for _, form in lines.values()]
    said = coming("event json ALL", "noevents", "bgapi echo x", "event BACKGROUND_JOB", "bgapi echo x")
    yield len(events(said)), 1
    yield "text/event-plain" in said.result.output, True


@row("what is escaped in JSON", COMING_ROWS)
def escaped_in_json():
    texts = {
        'q"q': 'q\\"q', "b\\b": "b\\\\b", "t\tt": "t\\tt", "\x01\x1f\x0b": "\\u0001\\u001f\\u000b",
        "\b\f": "\\b\\f", "\0": "\\u0000", "/%:=": "/%:=", "\x7f": "\x7f", "\xc3\xa9": "\xc3\xa9",
        "\xf0\x9f\x98\x80": "\xf0\x9f\x98\x80", "a\xffb c": "a%FFb%20c", "\xc3": "%C3", "\xc0\xaf": "%C0%AF",
        "\xed\xa0\x80": "%ED%A0%80", '\xff"': "%FF%22", "\xc3\xa9\xff": "%C3%A9%FF",
    }
    for text, written in texts.items():
        said = coming("event json BACKGROUND_JOB", f"bgapi echo {text}")
        told = re.search('"Job-Command-Arg":"(.*)","Job-UUID".*"_body":"(.*)"}', events(said)[0])
        yield told.groups(), (written, written)
        yield f'"Content-Length":"{len(text)}"' in events(said)[0], True
    said = coming("event json BACKGROUND_JOB", "bgapi nosuch  \xff", "bgapi echo", "bgapi")
    names = "Content-Length|_body|Job-Command|Job-Command-Arg"
    yield [re.findall(f'"({names})":"([^"]*)"', event) for event in events(said)], [
        [("Content-Length", "31"), ("Job-Command", "nosuch"), ("Job-Command-Arg", "%FF"),
         ("_body", "-ERR nosuch Command not found!\\n")],
        [("Job-Command", "echo")],
        [("Content-Length", "25"), ("_body", "-ERR  Command not found!\\n")],
    ]


@row("JSON has the headers of plain events, unescaped, and what is no UTF-8 alone is escaped", COMING_ROWS)
def same_as_plain():
    lines = (
        "api originate {origination_uuid=A,a%b='x y',\xc3\xa9=\xc3\xa9,q=\xff}loopback/goon &park()", call("goon"),
        "sendmsg A\ncall-command: execute\nexecute-app-name: log\nContent-Length: 5\n\na\n\"b\n", "bgapi uuid_dump A",
        "api msleep 3000", "api hupall", call("q"), call("n"), "bgapi fsctl shutdown",
    )
    both = [Document({"default": usual_document().contexts["default"] + queue_document().contexts["default"]})] * 2
    plain, as_json = (
        coming(f"event {form} ALL", *lines, document=document) for form, document in zip(("plain", "json"), both)
    )
    yield len(events(plain)) > 100, True
    for one, other in zip(events(plain), events(as_json), strict=True):
        head, _, body = one.partition("\n\n")
        headers = dict(line.split(": ", 1) for line in head.split("\n"))
        expected = {name: readable(unquote_to_bytes(value)) for name, value in headers.items()}
        read = json.loads(other.encode("latin-1"))
        yield read, expected | ({"_body": body} if body else {})
        yield list(read), sorted(read)


def readable(value):
    try:
        return value.decode()
    except UnicodeDecodeError:
        return "".join(f"%{byte:02X}" for byte in value)


@row("filters look at values and not at JSON", COMING_ROWS)
def filters_of_json():
    filters = {
        'Job-Command-Arg a"b': 1, 'Job-Command-Arg a\\"b': 0, "_body x": 0, "Content-Length 3": 0,
        "Job-Command-Arg \xff": 1, "Job-Command-Arg %FF": 0,
    }
    for one, count in filters.items():
        said = coming("event json BACKGROUND_JOB", f"filter {one}", "bgapi echo a\"b", "bgapi echo \xff")
        yield (one, len(events(said))), (one, count)


@row("10,000 events wait at most as JSON, too", COMING_ROWS)
def lost_json():
    said = coming("event json CHANNEL_EXECUTE", "api originate loopback/many &park()")
    yield len(events(said)), 10000
    yield json.loads(events(said)[-1])["Event-Name"], "CHANNEL_EXECUTE"


@row("the model of today knows no JSON", COMING_ROWS)
def no_json_yet():
    yield play(EMPTY, "event json ALL", "event json").told()[2:], [NO_FORMAT] * 2


def limit_document(*extensions, **settings):
    """Calls that hold a thing, and those for which there is no room."""
    texts = {
        "lim": "limit hash r a 1; answer; park",
        "two": "limit hash r a 2; answer; park",
        "limit_exceeded": "hangup USER_BUSY",
        "ans": "answer; park",
        "busy": "hangup CALL_REJECTED",
        "-odd": "hangup NO_ANSWER",
    } | dict(extensions)
    made = [Extension(number, actions(text)) for number, text in texts.items()]
    return Document({"default": made, "other": [Extension("ans", actions("hangup NO_ANSWER"))]}, **settings)


def limited(*lines, extensions=()):
    return coming(*lines, document=limit_document(*extensions))


def limit_of(text):
    """What becomes of a call that runs it, answers and parks: the answer of the command, and how many hold `a`."""
    return limited(call("1"), USAGE_OF_LIMITS, extensions=[("1", f"limit {text}; answer; park")]).bodies()


GOES_ON, NO_ROOM, NO_FORM = f"+OK {FIRST}\n", "-ERR USER_BUSY\n", "-ERR DESTINATION_OUT_OF_ORDER\n"
USAGE_OF_LIMITS = "api limit_usage hash r a"


@row("one call at a time holds a thing", COMING_ROWS)
def one_at_a_time():
    lines = (call("lim"), call("lim"), USAGE_OF_LIMITS, f"api uuid_kill {FIRST}", call("lim"))
    yield limited(*lines).bodies(), [GOES_ON, NO_ROOM, "1", "+OK\n", f"+OK {identifier(5)}\n"]
    lines = (call("two"), call("two"), call("two"), USAGE_OF_LIMITS, call("lim"), "api hupall", USAGE_OF_LIMITS)
    said = limited(*lines).bodies()
    yield said[2:5] + said[6:], [NO_ROOM, "2", NO_ROOM, "0"]
    mixed = (call("lim"), call("two"), USAGE_OF_LIMITS, call("two"), f"api uuid_kill {FIRST}", call("lim"))
    yield limited(*mixed).bodies()[2:], ["2", NO_ROOM, "+OK\n", NO_ROOM]


@row("a thing is told by its realm and its name", COMING_ROWS)
def realm_and_name():
    usages = [f"api limit_usage hash {key}" for key in ("r a", "r b", "a r", "R a", "r A", "r  a more")]
    yield limited(call("lim"), *usages).bodies()[1:], ["1", "0", "0", "0", "0", "1"]
    other = (("b", "limit hash r b 1; answer; park"), ("s", "limit hash s a 1; answer; park"))
    said = limited(call("lim"), call("b"), call("s"), call("b"), *usages[:2], extensions=other)
    yield said.bodies()[1:], [f"+OK {identifier(3)}\n", f"+OK {identifier(5)}\n", NO_ROOM, "1", "1"]


@row("who holds a thing already goes on", COMING_ROWS)
def held_already():
    yield limit_of("hash r a 1; limit hash r a 0; limit hash r a 1"), [GOES_ON, "1"]
    yield limit_of("hash r a 0"), [NO_ROOM, "0"]
    again = ("1", "limit hash r a 1; answer; transfer 1")
    said = limited("api originate loopback/1 &park()", USAGE_OF_LIMITS, extensions=[again])
    yield said.session.hangups, {"EXCHANGE_ROUTING_ERROR": 2}


@row("what a channel does for which there is no room", COMING_ROWS)
def no_room():
    expected = {
        "hash r a 0 busy": "-ERR CALL_REJECTED\n", "hash r a 0 ans": GOES_ON, "hash r a 0 ans XML": GOES_ON,
        "hash r a 0 ans XML other": "-ERR NO_ANSWER\n", "hash r a 0 ans foo": "-ERR NO_ROUTE_DESTINATION\n",
        "hash r a 0 -odd": "-ERR NO_ANSWER\n", "hash r a 0 nix": "-ERR NO_ROUTE_DESTINATION\n",
        "hash r a 0 ans XML default more": GOES_ON, "hash r a 0 -both ans": "-ERR NO_ROUTE_DESTINATION\n",
    }
    for text, answer in expected.items():
        yield (text, limit_of(text)), (text, [answer, "0"])
    said = limited(WATCHED, call("1"), extensions=[("1", "limit hash r a 0 ans; park")])
    yield brief(said).partition(", ANSWER")[0], (
        "STATE 1, STATE 1, STATE 2, STATE 2, STATE 2, EXECUTE 2, STATE 2, STATE 2, EXECUTE 2"
    )
    said = limited(call("lim"), call("ans"), WATCHED, execute(4, "limit", "hash r a 1 ans"))
    yield brief(said), f"EXECUTE 4, UNPARK 4, STATE 4, {routed(4)}"
    messages = (execute(4, "limit", "hash r a 2 ans"), execute(2, "limit", "hash r a 0"))
    said = limited(call("lim"), call("ans"), WATCHED, *messages)
    yield brief(said), "EXECUTE 4, EXECUTE_COMPLETE 4, EXECUTE 2, EXECUTE_COMPLETE 2"
    document = limit_document(("1", "limit hash r a 0; answer; park"))
    del document.contexts["default"][2]
    yield coming(call("1"), document=document).bodies(), ["-ERR NO_ROUTE_DESTINATION\n"]


@row("forms of limits", COMING_ROWS)
def forms_of_limits():
    long, longest = "y" * 257, "y" * 256
    refused = (
        "", "hash", "hash r", "hash r a", "hash r a x", "hash r a -1", "hash r a +1", "hash r a 1.5",
        "hash r a 4294967296", "hash r a " + "0" * 20 + "1", "db r a 1", "HASH r a 1", "r a 1", "hash\tr a 1",
        f"hash {long} a 1", f"hash r {long} 1", f"hash r a 1 {long}", f"hash r a 1 ans {long}",
        f"hash r a 1 ans XML {long}", "hash r a ${nosuch}",
    )
    for text in refused:
        yield (text, limit_of(text)), (text, [NO_FORM, "0"])
    fine = (
        "hash r a 1", "hash r a 4294967295", "hash r a " + "0" * 19 + "1", "  hash  r   a  1  ",
        "hash r ${nosuch}a 1", f"hash r a 1 {longest} {longest} {longest} {long}",
    )
    for text in fine:
        yield (text, limit_of(text)), (text, [GOES_ON, "1"])


@row("a channel holds 64 things", COMING_ROWS)
def many_holds():
    holds = "; ".join(f"limit hash r {count} 1" for count in range(64))
    yield limit_of(f"hash r a 1; {holds}"), ["-ERR SWITCH_CONGESTION\n", "0"]
    yield limit_of(f"hash x y 0 1; {holds}"), ["-ERR EXCHANGE_ROUTING_ERROR\n", "0"]
    full = (
        ("full", f"{holds}; limit hash r 63 0; limit hash r a 0 ans"),
        ("more", f"{holds}; limit hash r a 1 ans"),
    )
    yield limited(call("full"), "api limit_usage hash r 63", extensions=full).bodies(), [GOES_ON, "1"]
    said = limited(call("lim"), call("more"), "api limit_usage hash r 0", extensions=full)
    yield said.bodies()[1:], [f"+OK {identifier(3)}\n", "1"]
    said = limited(call("more"), "api limit_usage hash r 0", extensions=full)
    yield said.bodies(), ["-ERR SWITCH_CONGESTION\n", "0"]


@row("a channel holds a thing until it is hung up", COMING_ROWS)
def until_hung_up():
    stays = (f"api uuid_transfer {SECOND} ans", f"api uuid_park {SECOND}", uuid_bridge(2, 4))
    for line in stays:
        yield limited(call("lim"), call("ans"), line, USAGE_OF_LIMITS).bodies()[-1], "1"
    goes = (f"api uuid_kill {FIRST}", f"api uuid_kill {SECOND}", "api hupall", f"api uuid_transfer {SECOND} nix")
    for line in goes:
        yield limited(call("lim"), line, USAGE_OF_LIMITS).bodies()[-1], "0"
    said = limited("api originate loopback/two,loopback/two &park()", USAGE_OF_LIMITS)
    yield said.bodies(), [GOES_ON, "1"]
    yield limited("api originate loopback/ans '&limit(hash r a 1)'", USAGE_OF_LIMITS).bodies(), [GOES_ON, "0"]


@row("the usage of limits, which the model of today does not know", COMING_ROWS)
def usage_of_limits():
    usage = "-USAGE: hash <realm> <id>\n"
    words = ("", " hash", " hash r", " r a", " db r a", " HASH r a", " hash r a", " hash r " + "a" * 300)
    yield limited(*(f"api limit_usage{one}" for one in words)).bodies(), [usage] * 6 + ["0"] * 2
    said = queued(call("lim"), USAGE_OF_LIMITS, document=limit_document())
    yield said.bodies(), [NO_FORM, "-ERR limit_usage Command not found!\n"]


RELOADED = "+OK [Success]\n"


def other_document(**settings):
    """The usual document, but for calls to `ans`, which are busy."""
    document = usual_document()
    extensions = document.contexts["default"]
    extensions[0] = Extension("ans", actions("hangup USER_BUSY"))
    return Document({"default": extensions}, **settings)


def loaded(*lines, document=None, loads=None):
    """A play of loads of the file."""
    return Played(document or usual_document(), blocks("auth ClueCon", *lines), loads=loads)


def reloaded(*lines, document=None, loads=None):
    """The documents that the file has when it is read again."""
    return loaded(*lines, document=document, loads=loads and map(document_load, loads))


@row("the file is read again, and has another document")
def read_again():
    lines = (call("ans"), "api reloadxml", call("ans"), f"api uuid_exists {FIRST}", "api expand echo ${x}")
    said = reloaded(*lines, loads=[other_document()])
    yield said.bodies(), [GOES_ON, RELOADED, NO_ROOM, "true", "1234567890"]
    yield reloaded(*lines).bodies(), [GOES_ON, RELOADED, f"+OK {identifier(3)}\n", "true", "1234567890"]
    yield (COST_OF_PASSWORD, ROOM_FOR_LOAD), (270, 1114241)
    lines = ("api reloadxml", call("ans"), "api  reloadxml  now", call("ans"), "api expand reloadxml", call("ans"))
    said = reloaded(*lines, loads=[other_document(), usual_document(), Document({})])
    refused = "-ERR NO_ROUTE_DESTINATION\n"
    yield said.bodies(), [RELOADED, NO_ROOM, RELOADED, f"+OK {identifier(3)}\n", RELOADED, refused]


@row("the file is no document, or is gone")
def no_document():
    refusals = (
        refused_load("<document", "Truncated at 9"),
        refused_load("x" * 1048577, "TooLarge at 1048576"),
        refused_load("<document/>", "pattern refused in extension 1 condition 2"),
        NO_FILE,
    )
    for refusal in refusals:
        said = loaded("api reloadxml", call("ans"), loads=[refusal])
        yield said.bodies(), [f"-ERR {refusal.refusal}\n", GOES_ON]


@row("what a load costs")
def cost_of_load():
    for load in (document_load(usual_document()), refused_load("<document", "Truncated at 9"), NO_FILE):
        said = loaded("api reloadxml", loads=[load])
        commands = len("auth ClueCon\n\napi reloadxml\n\n")
        # the connection, two commands, the load, three frames, the end of the input, and that of the connection
        yield said.session.journal.cost, 64 * 9 + commands + load.length
    yield len(usual_document().written()) > 9, True


@row("whether the journal has room for a load")
def room_for_load():
    refused = "-ERR journal limit\n"
    yield loaded("api reloadxml", document=Document({}, journal_limit=1048576)).bodies(), [refused]
    watched, job = "event plain BACKGROUND_JOB", "bgapi reloadxml"
    begun = 64 + len(f"{watched}\n\n") + 64 + 64 + len(f"{job}\n\n")
    for more, answer in ((0, RELOADED), (-1, refused)):
        limit = COST_OF_PASSWORD + ROOM_FOR_LOAD + more
        yield loaded("api reloadxml", document=Document({}, journal_limit=limit)).bodies(), [answer]
        said = loaded(watched, job, document=Document({}, journal_limit=limit + begun))
        yield [event.partition("\n\n")[2] for event in events(said)], [answer]
    longest = "api reloadxml ".ljust(65534, "x")
    said = loaded(longest, document=Document({}, journal_limit=COST_OF_PASSWORD + ROOM_FOR_LOAD))
    yield (said.bodies(), said.ended()), ([RELOADED], (0, ""))


# the connection, its frame, the password, and its frame
COST_OF_PASSWORD = 64 * 4 + len("auth ClueCon\n\n")

# a command of the longest block, and a text of one byte more than a document may have
ROOM_FOR_LOAD = 64 + 65536 + 64 + 1048577


@row("globals of the document come back, over those that are there")
def globals_come_back():
    document = Document({}, global_values={"a": "1", "b": "2", "c": "3"})
    lines = ("global_setvar b=x", "global_setvar c=", "global_setvar d=4", "reloadxml", "global_getvar")
    said = reloaded(*(f"api {line}" for line in lines), document=document)
    yield said.bodies()[3:], [RELOADED, "a=1\nb=2\nd=4\nc=3\n"]
    loads = [Document({}, global_values={"e": "5"})]
    said = reloaded(*(f"api {line}" for line in lines), document=document, loads=loads)
    yield said.bodies()[3:], [RELOADED, "a=1\nb=x\nd=4\ne=5\n"]


@row("globals of the document may pass a limit, and then nothing changes")
def globals_past_limit():
    names = {f"n{count}": "1" for count in range(1023)}
    two_more = Document(other_document().contexts, global_values={"y": "1", "z": "1"})
    one_more = Document(other_document().contexts, global_values={"y": "2", "n0": "2"})
    document = Document(usual_document().contexts, global_values=names)
    lines = ("api reloadxml", call("ans"), "api global_getvar y", "api global_getvar n0")
    limit = "-ERR variable limit passed\n"
    yield reloaded(*lines, document=document, loads=[two_more]).bodies(), [limit, GOES_ON, "-ERR no reply\n", "1"]
    yield reloaded(*lines, document=document, loads=[one_more]).bodies(), [RELOADED, NO_ROOM, "2", "2"]
    large = {f"large{count}": "x" * 16377 for count in range(16)}
    for last, answer in (("x" * 6, RELOADED), ("x" * 7, limit)):
        total = sum(len(name) + len(value) for name, value in large.items())
        loads = [Document({}, global_values={"y": "x" * (262144 - total - 7) + last})]
        yield reloaded("api reloadxml", document=Document({}, global_values=large), loads=loads).bodies(), [answer]
    # one becomes small and another large, so that the limit is kept in the end
    before, behind = large | {"y": "x"}, large | {"large0": "x", "y": "x" * 16000}
    documents = [Document({}, global_values=values) for values in (before, behind)]
    yield reloaded("api reloadxml", document=documents[0], loads=documents[1:]).bodies(), [RELOADED]


@row("what a channel has to run stays, and where it is routed to next is new")
def running_stays():
    texts = (("answer; sleep 1000; transfer 2", "park"), ("hangup", "hangup USER_BUSY"))
    waits, busy = (
        Document({"default": [Extension(number, actions(text)) for number, text in zip("12", two)]}) for two in texts
    )
    lines = (call("1"), "api reloadxml", f"api uuid_exists {SECOND}", "api msleep 1000", f"api uuid_exists {SECOND}")
    said = reloaded(*lines, document=waits, loads=[busy])
    yield said.bodies()[1:], [RELOADED, "true", "+OK\n", "false"]
    yield said.session.hangups, {"USER_BUSY": 2}


@row("settings stay")
def settings_stay():
    smaller = Document(usual_document().contexts, slots=2, journal_limit=1048576, password="other")
    lines = ("api reloadxml", *[call("ans")] * 17, "auth other", "api reloadxml")
    said = reloaded(*lines, loads=[smaller] * 2)
    began = [f"+OK {identifier(1 + 2 * count)}\n" for count in range(16)]
    yield said.bodies(), [RELOADED, *began, "-ERR SWITCH_CONGESTION\n", RELOADED]


@row("jobs that load")
def jobs_that_load():
    loads = [document_load(usual_document()), refused_load("<document", "Truncated at 9")]
    jobs = ("bgapi reloadxml\nJob-UUID: q", "bgapi reloadxml")
    said = loaded("event plain BACKGROUND_JOB", *jobs, loads=loads)
    told = "Job-UUID: (.*)\nJob-Command: reloadxml\n.*\n\n(.*)"
    yield [re.search(told, event).groups() for event in events(said)], [
        ("q", "+OK [Success]"),
        (FIRST, "-ERR Truncated at 9"),
    ]
    sleeps = ["bgapi msleep 5000"] * 1023
    said = loaded("event plain BACKGROUND_JOB", *sleeps, "bgapi reloadxml", "bgapi msleep 1", "api reloadxml")
    yield [event.partition("\n\n")[2] for event in events(said)], [RELOADED]
    yield said.bodies(), ["-ERR too many jobs\n"]
    full = loaded("bgapi msleep 1000", "api reloadxml", document=Document({}, journal_limit=1048576))
    yield full.bodies(), ["-ERR journal limit\n"]


def main():
    words = argparse.ArgumentParser(description=__doc__, formatter_class=argparse.RawDescriptionHelpFormatter)
    words.add_argument("--coming", action="store_true")
    rows = ROWS | rows_of_runs.ROWS
    if words.parse_args().coming:
        rows |= COMING_ROWS
    agreed = 0
    for name, run in rows.items():
        parted = [(said, expected) for said, expected in run() if said != expected]
        agreed += not parted
        for said, expected in parted:
            print(f"{name}\n  expected        {expected!r}\n  the model says  {said!r}")
    print(f"{agreed} of {len(rows)} rows agree")
    return int(agreed < len(rows))


if __name__ == "__main__":
    sys.exit(main())
