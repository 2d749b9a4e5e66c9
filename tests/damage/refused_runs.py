"""Words of the program whose calls for memory are refused in turn."""

import pathlib
from dataclasses import dataclass

from refusing import Tally
from told import WANT_OF_MEMORY

EXAMPLES = pathlib.Path(__file__).resolve().parents[2] / "examples"

UNBRIDGE = """auth ClueCon
api originate {origination_uuid=A}loopback/22 &park()
api originate {origination_uuid=B}loopback/22 &park()
event plain CHANNEL_BRIDGE CHANNEL_UNBRIDGE CHANNEL_HANGUP
api uuid_bridge A B
api uuid_kill A
api uuid_exists B
bgapi originate loopback/22 &park()
filter Unique-ID C
exit
"""

PLAYS = {
    "echo": ("empty.xml", "echo"),
    "race": ("race.xml", "race"),
    "bridge": ("bridge.xml", "bridge"),
    "calls": ("calls.xml", "calls"),
    "events": ("events.xml", "events"),
    "jobs": ("events.xml", "jobs"),
    "end": ("events.xml", "end"),
    "mistakes": ("mistakes.xml", "mistakes"),
    "call-centre": ("call-centre.xml", "call-centre"),
}


@dataclass(frozen=True)
class Row:
    name: str
    words: tuple
    given: bytes = b""


def rows():
    """The plays of the examples and one in which a bridge ends, the other words over some examples, and a load."""
    for name, (document, given) in PLAYS.items():
        yield Row(name, ("play", str(EXAMPLES / document)), (EXAMPLES / given).read_bytes())
    yield Row("unbridge", ("play", str(EXAMPLES / "race.xml")), UNBRIDGE.replace("\n", "\n\n").encode())
    yield Row("check", ("check", str(EXAMPLES / "call-centre.xml")))
    yield Row("hunt", ("hunt", str(EXAMPLES / "menu.xml"), "menu", "50003"))
    yield Row("no document", ("check", str(EXAMPLES / "echo")))
    yield Row("no words", ())
    yield Row("load", ("load", "2", "7"))


def fault_of(ran, whole):
    """What is wrong with a run of which calls were refused, if anything is."""
    if ran.status is None:
        return "it has not ended"
    if ran.status == 1:
        if ran.line != WANT_OF_MEMORY:
            return f"status 1 with {ran.line!r}"
        return None if whole.output.startswith(ran.output) else "what is written is no front"
    if (ran.status, ran.output, ran.line) != (whole.status, whole.output, whole.line):
        return f"status {ran.status} with {ran.line!r}, and {len(ran.output)} bytes in place of {len(whole.output)}"
    return None


def tried(refuser, program, row):
    """Refuses each call of a row in turn, alone and with all behind it."""
    words = [program, *row.words]
    whole = refuser.run(words, row.given)
    tally = Tally(f"{row.name}, {whole.calls} calls, status {whole.status}")
    for at in range(1, whole.calls + 1):
        for goes_on in (False, True):
            ran = refuser.run(words, row.given, at, goes_on)
            end = "wanted memory" if ran.status == 1 else "did all"
            tally.add(f"call {at}{' and on' if goes_on else ''}", end, fault_of(ran, whole), ran.seconds)
    return tally


def all_tried(refuser, program):
    return (tried(refuser, program, row) for row in rows())
