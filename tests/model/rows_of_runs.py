"""Rows of runs of entries: of channels that controllers hold, and of what these are told.

In each of them client 1 calls an extension that asks for a controller. Slot 1 is the call's leg, slot 2 its
far end, which is dialed for, so that connection 2 is the controller.
"""

from dialplan import Action, Document, Extension
from entries import Entries
from frames import GOODBYE
from steps import answers
from tables import identifier

LEG, FAR_END, DIALED = map(identifier, (1, 2, 3))

NOTICE = GOODBYE.split("\n")[:1]
SOCKET = Action("socket", "127.0.0.1:9999 async full")
ANSWER, PARK = Action("answer"), Action("park")
NO_CONTROLLER = "-ERR command not found"


def document(*actions, connections=16):
    """The extensions `1` of these actions, `ans` that answers and parks, and `busy`."""
    extensions = {"1": actions, "ans": (ANSWER, PARK), "busy": (Action("hangup", "USER_BUSY"),)}
    made = [Extension(number, tuple(does)) for number, does in extensions.items()]
    return Document({"default": made}, connections=connections)


USUAL = document(SOCKET, ANSWER, PARK)
ANSWERED = document(ANSWER, SOCKET, PARK)

COME = ("arrive", "say 1 auth ClueCon", "hear 1 2")
CALL = "say 1 bgapi originate loopback/1 &park()\nJob-UUID: J"
WORK = "job 1; work 1 1 2 2 2 2"


def told(used, *steps, first=()):
    """What these steps tell, behind the call and whatever comes first."""
    entries = Entries(used)
    for step in (*COME, *first, CALL, "hear 1 1", *WORK.split("; ")):
        answers(entries, step)
    return [line for step in steps for line in answers(entries, step)]


def message(application, argument=""):
    return f"say 2 sendmsg\ncall-command: execute\nexecute-app-name: {application}\nexecute-app-arg: {argument}"


def greeting():
    """`connect` is answered as docs/reference/controllers.md has it, and the notice at the end."""
    connected = ("dialed 2", "take 2", "say 2 connect", "read 2")
    yield told(USUAL, *connected, "say 2 exit", "read 2", "read 2", "close 2"), [
        "Empty", "Content-Type: command/reply", "Reply-Text: +OK", "Channel-State: CS_EXECUTE",
        "Channel-State-Number: 4", "Channel-Name: loopback/1-b", f"Unique-ID: {FAR_END}",
        "Call-Direction: inbound", "Answer-State: ringing", "Caller-Destination-Number: 1",
        "Caller-Context: default", "Socket-Mode: async", "Control: full", "",
        "Content-Type: command/reply", "Reply-Text: +OK bye", "",
        "Content-Type: text/disconnect-notice", f"Controlled-Session-UUID: {FAR_END}",
        "Content-Disposition: disconnect", "Content-Length: 67", "", "Disconnected, goodbye.",
        "See you at ClueCon! http://www.cluecon.com/",
    ]


def variables_in_greeting():
    """Variables stand in front of the mode, escaped; an empty caller has no header."""
    steps = ("work 2", "dialed 2", message("set", "a b=1% x"), "work 2", "hear 2 1", "say 2 connect", "read 2")
    yield told(ANSWERED, *steps)[-8:], [
        "Call-Direction: inbound", "Answer-State: answered", "Caller-Destination-Number: 1",
        "Caller-Context: default", "variable_a%20b: 1%25%20x", "Socket-Mode: async", "Control: full", "",
    ]


def who_may_do_all():
    """`full` says so, behind the address alone. Without it no job begins, and no identifier is drawn."""
    arguments = {
        "h:9 full": "full", "h:9 async full": "full", "h:9 x full y": "full", " h:9  full": "full",
        "h:9": "single-channel", "h:9 FULL": "single-channel", "h:9 fully": "single-channel",
        "h:9 full,": "single-channel", "full:9": "single-channel",
    }
    for argument, control in arguments.items():
        used = document(Action("socket", argument), PARK)
        said = told(used, "dialed 2", "say 2 connect", "read 2")
        yield (argument, said[-2]), (argument, f"Control: {control}")
    single = document(Action("socket", "h:9"), PARK)
    asked = ("dialed 2", "say 2 api create_uuid", "say 2 bgapi echo x", "say 2 api fsctl shutdown", "hear 2 3")
    denied = ["-ERR permission denied"] * 3
    yield told(single, *asked, "job 2", "say 1 api create_uuid", "hear 1 9")[:5], [
        *denied, "NotDue { next: None }", identifier(3),
    ]


def for_controllers_alone():
    """A controller gives no password, and a client cannot connect."""
    steps = ("say 1 connect", "say 1 sendmsg", "hear 1 2", "dialed 2", "say 2 auth ClueCon", "hear 2 1")
    yield told(USUAL, *steps), [NO_CONTROLLER, "-ERR invalid session id []", NO_CONTROLLER]


def own_channel():
    """A message without an identifier goes to its own channel, and may hang that up."""
    connected = ("say 2 connect", "read 2")
    steps = ("dialed 2", message("answer"), "hear 2 1", *connected, "work 2", *connected)
    states = [line for line in told(USUAL, *steps) if line.startswith(("Answer-State", "+OK"))]
    yield states, ["+OK", "Answer-State: ringing", "Answer-State: answered"]
    steps = ("dialed 2", "say 2 sendmsg\ncall-command: hangup\nhangup-cause: USER_BUSY", "hear 2 2")
    yield told(USUAL, *steps), [f"at 0: {hung_up('USER_BUSY')} {hung_up('USER_BUSY')}", "+OK", *NOTICE]


def hung_up(cause):
    return f"CHANNEL_HANGUP({cause}) CHANNEL_STATE"


def watched(*steps, used=USUAL):
    """The same, where client 1 watches executions: what happens, with the last digit of who does it."""
    watches = "say 1 event plain CHANNEL_EXECUTE CHANNEL_EXECUTE_COMPLETE CHANNEL_PARK"
    said = told(used, *steps, first=(watches, "hear 1 1"))
    names = {"CHANNEL_EXECUTE": "runs", "CHANNEL_EXECUTE_COMPLETE": "over", "CHANNEL_PARK": "parks"}
    return [f"{names[name]} {whom[-1]}" for name, whom in map(name_and_whom, said) if name in names]


def name_and_whom(line):
    name, _, whom = line.partition(" ")
    return name, whom


def going_on():
    """That `socket` is over is told as the controller goes, unless the channel has run a message meanwhile."""
    rest = ("work 2 2 2", "hear 1 99")
    on_its_own = ["runs 2", "over 2", "runs 2", "over 2", "runs 2", "parks 2"]
    for ends in (("undialed 2",), ("dialed 2", "say 2 exit"), ("dialed 2", "leave 2")):
        yield (ends, watched(*ends, *rest)), (ends, on_its_own)
    yield watched("dialed 2", message("eval"), "work 2", "say 2 exit", *rest), [
        "runs 2", "runs 2", "over 2", "runs 2", "over 2", "runs 2", "parks 2",
    ]
    yield watched("dialed 2", message("eval"), "say 2 exit", "work 2", *rest), [
        "runs 2", "over 2", "runs 2", "over 2", "runs 2", "over 2", "runs 2", "parks 2",
    ]


def held_behind_other_waits():
    """Who sleeps as its controller goes does so as before, and whom a message parked stays parked."""
    asleep = told(USUAL, "dialed 2", message("sleep", "1"), "work 2", "say 2 exit", "work 2")
    yield asleep, ["NotDue { next: Some(1000) }"]
    parked = ("dialed 2", message("park"), "hear 2 1", "work 2", "say 2 connect", "read 2")
    said = told(USUAL, *parked, "say 2 exit", "work 2")
    yield [line for line in said if "State" in line or "next" in line], [
        "Channel-State: CS_PARK", "Channel-State-Number: 6", "Answer-State: ringing", "NotDue { next: None }",
    ]


def not_nested():
    """A further `socket` is over at once while a controller holds the channel, and is dialed behind that."""
    nested = ("dialed 2", message("socket", "h:9"), "work 2", "dialed 2", "hear 1 99")
    yield watched(*nested), ["runs 2", "runs 2", "over 2"]
    two = document(SOCKET, Action("socket", "h:9"), PARK)
    steps = ("dialed 2", "say 2 exit", "work 2", "dialed 2", "say 3 connect", "read 3")
    yield told(two, *steps)[-2], "Control: single-channel"


def limit():
    """As many connections as may be count, and those that are not closed yet. No number is used up."""
    used = document(SOCKET, ANSWER, SOCKET, PARK, connections=2)
    steps = ("arrive", "arrive", "dialed 2", "say 3 connect", "leave 2", "work 2 2", "dialed 2", "read 3")
    yield told(used, *steps), ["TooMany { live: 2 }", "Gone", "Gone"]
    steps = ("arrive", "leave 2", "take 2", "close 2", "dialed 2", "say 3 connect", "read 3", "arrive")
    yield told(used, *steps)[-3:], ["Control: full", "", "TooMany { live: 2 }"]


def losing():
    """Its channel leaves it, or is hung up. It is told so once, and reads no more."""
    moved = f"say 1 api uuid_transfer {FAR_END} ans"
    parked = f"say 1 api uuid_park {FAR_END}"
    killed = f"say 1 api uuid_kill {FAR_END} USER_BUSY"
    both_killed = f"at 0: {hung_up('USER_BUSY')} {hung_up('USER_BUSY')}"
    for command, hangup in ((moved, []), (parked, []), (killed, [both_killed])):
        steps = ("dialed 2", command, "say 2 connect", "hear 2 2", "close 2")
        yield (command, told(USUAL, *steps)), (command, [*hangup, "Gone", *NOTICE, "Empty"])
    yield told(USUAL, "dialed 2", message("transfer", "ans"), "work 2", "hear 2 2"), ["+OK", *NOTICE]
    joined = f"say 2 api uuid_bridge {LEG} {FAR_END}"
    steps = ("dialed 2", message("answer"), "work 2", "job 1", joined, "hear 2 3")
    both_joined = "at 0: CHANNEL_BRIDGE(1) CHANNEL_STATE CHANNEL_STATE"
    yield told(USUAL, *steps), [both_joined, "+OK", f"+OK {FAR_END}", *NOTICE]


def losing_by_sides():
    """Who is moved beside its peer, or in its place, loses its controller. Who is left by its peer keeps it."""
    dialed = "work 2 3 3 4 4 4 4 2"
    steps = ("dialed 2", message("bridge", "loopback/ans"), dialed, "hear 2 1")
    ended, moved = "at 0: CHANNEL_UNBRIDGE(1) ", " CHANNEL_STATE"
    both, cleared = "CHANNEL_STATE CHANNEL_STATE", hung_up("NORMAL_CLEARING")
    sides = {
        f"{FAR_END} -both": (ended + both, *NOTICE),
        f"{DIALED} -both": (ended + both, *NOTICE),
        f"{DIALED} -bleg": (f"{ended}{cleared} {cleared}{moved}", *NOTICE),
        f"{FAR_END} -bleg": (f"{ended}CHANNEL_EXECUTE_COMPLETE{moved}", "Empty"),
    }
    for words, expected in sides.items():
        said = told(USUAL, *steps, f"say 1 api uuid_transfer {words} ans", "hear 2 1")
        yield (words, *said[-2:]), (words, *expected)


def owed():
    """An answer that is still owed as the channel is lost comes behind the notice."""
    killed = f"say 1 api uuid_kill {FAR_END}"
    steps = ("dialed 2", "say 2 api msleep 0", killed, "close 2", "job 2", "hear 2 2", "close 2")
    yield told(USUAL, *steps)[1:], ["Unsent { queued: 1, owed: true }", *NOTICE, "+OK"]
    steps = ("dialed 2", "say 2 api msleep 0", "halt", "hear 2 2", "close 2")
    yield told(USUAL, *steps)[1:], ["-ERR SYSTEM_SHUTDOWN", *NOTICE]


def own_subscription():
    """It has subscribed nothing at first. The entry that ends it tells it what it had subscribed before."""
    subscribed = ("say 2 noevents", "say 2 event plain CHANNEL_EXECUTE_COMPLETE")
    said = told(USUAL, "dialed 2", *subscribed, "say 2 exit", "hear 2 9")
    yield said[:3], ["-ERR not listening for events", "+OK event listener enabled plain", "+OK bye"]
    yield (name_and_whom(said[3])[0], said[4:]), ("CHANNEL_EXECUTE_COMPLETE", [*NOTICE, *["Empty"] * 4])


ROWS = {
    "the reply to `connect`, and the notice": greeting,
    "the reply to `connect` shows variables": variables_in_greeting,
    "which controllers may do all": who_may_do_all,
    "what is for controllers alone, or for clients": for_controllers_alone,
    "a controller tells its own channel": own_channel,
    "a channel goes on once its controller goes": going_on,
    "what a channel does as its controller goes": held_behind_other_waits,
    "a channel that is held asks for no other controller": not_nested,
    "dials at the limit of connections": limit,
    "a controller loses its channel": losing,
    "a controller loses its channel by a side of a bridge": losing_by_sides,
    "an answer that a controller is owed": owed,
    "a controller subscribes for itself": own_subscription,
}
