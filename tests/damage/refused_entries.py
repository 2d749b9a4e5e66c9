"""Entries of a machine whose calls for memory are refused in turn: an entry that is refused changes nothing.

The program `plays` of crates/plays makes the entries of a line, and tells of each what it brings, or that memory was
wanting. Behind a refusal it tells what the same entries bring without the one that was refused. Where it was refused
memory for the telling itself, it ends with status 1, and nothing is compared.
"""

from refused_runs import EXAMPLES
from refusing import Tally


def steps():
    """A race, a call, a bridge that a command makes, its end by a hangup, what is told of it, and a halt."""
    made = ["arrive", "take 1", "say 1 auth ClueCon", "take 1", "say 1 event plain ALL", "take 1"]
    made += ["say 1 api originate [origination_uuid=A]loopback/22,loopback/20 &park()"]
    made += [f"work {slot}" for slot in (1, 2, 3, 4, 2, 2, 2, 4, 4, 1)] + ["job 1"]
    made += ["work 3", "work 4", "work 3", "work 4"]
    made += ["say 1 api originate {origination_uuid=B}loopback/22 &park()"]
    made += [f"work {slot}" for slot in (3, 4, 4, 4, 4)] + ["job 2", "take 1"]
    made += ["arrive", "say 2 auth ClueCon", "take 2", "take 2", "say 2 event plain CHANNEL_UNBRIDGE", "take 2"]
    made += ["say 2 filter Unique-ID A", "say 2 api global_setvar g=5"]
    made += ["say 1 bgapi originate loopback/22 &park()", "job 3"]
    made += ["say 1 api uuid_bridge A B", "take 2", "say 1 api uuid_setvar A k v", "say 1 api uuid_kill A USER_BUSY"]
    made += ["take 2", "take 2", "take 1", "say 2 exit", "take 2", "close 2"]
    return made + [f"work {slot}" for slot in (1, 2, 3, 4)] + ["halt", "work 1", *["take 1"] * 90, "ring"]


def line(made):
    document = (EXAMPLES / "race.xml").read_bytes().replace(b"%", b"%25").replace(b"\n", b"%0A")
    return b"file " + document + b"\nentries " + "; ".join(made).encode() + b"\n"


def told(output):
    """What the entries bring, behind the lines that were given."""
    return output.splitlines()[2:]


def answers(refuser, program, made):
    return told(refuser.run([program], line(made)).output)


def without_one(refuser, program, made):
    """What is told, by the place of the entry that is refused."""
    for place in range(len(made)):
        front = answers(refuser, program, made[:place]) if place else []
        rest = answers(refuser, program, made[:place] + made[place + 1 :])
        yield tuple(front + [b"  Memory"] + rest[len(front) :])


# What is told where the memory for the document was refused.
NOTHING = {b"  no document", b"  no dialplan"}


def fault_of(ran, whole, refused):
    if ran.status not in (0, 1):
        return f"status {ran.status}"
    lines = told(ran.output)
    if ran.status == 1 or lines == whole or NOTHING & set(lines) or tuple(lines) in refused:
        return None
    return f"behind the refusal it goes on otherwise, with {len(lines)} lines"


def end_of(ran, whole):
    if ran.status == 1:
        return "refused the telling"
    lines = told(ran.output)
    return "refused the document" if NOTHING & set(lines) else "did all" if lines == whole else "refused an entry"


def tried(refuser, program):
    made = steps()
    ran = refuser.run([program], line(made))
    whole, refused = told(ran.output), set(without_one(refuser, program, made))
    tally = Tally(f"{len(made)} entries, {ran.calls} calls, {sum(b':' in row for row in whole)} with events")
    for at in range(1, ran.calls + 1):
        again = refuser.run([program], line(made), at)
        tally.add(f"call {at}", end_of(again, whole), fault_of(again, whole, refused), again.seconds)
    return tally
