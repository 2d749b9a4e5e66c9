"""Journals of plays and of servers whose calls for memory were refused in turn.

Of a play the program `plays` of crates/plays tells the answers, and plays its journal again over a machine of its own:
an entry of it that is refused there is told. Of a server over links in memory the program `serves` of crates/serves
plays the journal again, and says where an entry is refused, or what was written to a link is no front of what the
entries hand out.
"""

import re

from refused_runs import EXAMPLES, PLAYS, UNBRIDGE
from refused_entries import NOTHING
from refusing import Tally

REFUSALS = (b"JournalFull", b"Gone", b"TooMany", b"Busy", b"Empty", b"Unsent", b"NotDue")


def escaped(data):
    return re.sub(rb"[^ -$&-~]", lambda found: b"%%%02X" % found[0][0], data)


def plays():
    for name in ("echo", "race", "bridge", "events"):
        document, given = PLAYS[name]
        yield name, (EXAMPLES / document).read_bytes(), (EXAMPLES / given).read_bytes()
    yield "unbridge", (EXAMPLES / "race.xml").read_bytes(), UNBRIDGE.replace("\n", "\n\n").encode()


def told(output):
    """What is told behind the lines that were given."""
    return [row for row in output.splitlines() if row.startswith(b"  ")]


def parts(rows):
    """The answers of a play, and what happens in its entries."""
    entries = [row for row in rows if row.startswith(b"  at ")]
    return [row for row in rows if not row.startswith(b"  at ")], entries


def is_refused_again(rows):
    """Whether memory was refused for a document, or for an entry that is played again."""
    return bool({b"  Memory", *NOTHING} & set(rows))


def play_fault(ran, whole):
    """The answers are a front, and so are the entries, of which none is refused."""
    if ran.status not in (0, 1):
        return f"status {ran.status}"
    rows = told(ran.output)
    if ran.status == 1 or is_refused_again(rows):
        return None
    for row in rows:
        if row.strip().startswith(REFUSALS):
            return f"an entry of the journal is refused: {row!r}"
    (answers, entries), (all_answers, all_entries) = parts(rows), parts(whole)
    if answers != all_answers[: len(answers)] or entries != all_entries[: len(entries)]:
        return f"it is no front: {answers[-3:]}, {entries[-1:]}"
    return None


def play_end(ran, whole):
    if ran.status == 1:
        return "refused the telling"
    rows = told(ran.output)
    if is_refused_again(rows):
        return "refused a document or the playing again"
    return "did all" if rows == whole else "played a front again"


def play_tried(refuser, program, name, document, given):
    text = b"file " + escaped(document) + b"\ninput " + escaped(given) + b"\nbridging\n"
    first = refuser.run([program], text)
    whole = told(first.output)
    tally = Tally(f"journal of {name}, {first.calls} calls, {len(whole)} lines")
    for at in range(1, first.calls + 1):
        ran = refuser.run([program], text, at)
        tally.add(f"call {at}", play_end(ran, whole), play_fault(ran, whole), ran.seconds)
    return tally


# Two links, of which the second ends the switch behind the calls of the first; where it does not, the door halts it.
SERVER = b"""file <document><section name='configuration'><configuration name='switch.conf'><settings>\
<param name='max-sessions' value='4'/></settings></configuration></section><section name='dialplan'>\
<context name='default'><extension><condition field='destination_number' expression='^ans$'>\
<action application='answer'/><action application='park'/></condition></extension></context></section></document>
failed-accepts 10000
command auth ClueCon
command api originate {origination_uuid=A}loopback/ans &park()
command api uuid_setvar A k v
command api originate {origination_uuid=B}loopback/ans &park()
command api uuid_bridge A B
command exit
link raise 357 a
command auth ClueCon
command api echo one
command api uuid_getvar A k
command api uuid_kill A
command api fsctl shutdown
link hold 14 a
serve
"""

NOT_AS_TOLD = b"  not as the journal has it"

STATUSES = {b"  status 0": b"", b"  status 1": b"  fsw: out of memory", b"  status 7": b"  fsw: door fault"}


# The playing again ends where memory is refused for it. Else it makes more calls than this behind the refusal.
FEW_CALLS = 20


def server_fault(ran, at):
    if ran.status is None:
        return "it has not ended"
    if ran.status not in (0, 1):
        return f"status {ran.status}"
    rows = told(ran.output)
    if NOT_AS_TOLD in rows and ran.calls - at > FEW_CALLS:
        return "the journal is no run, or what was written is no front"
    if ran.status == 0 and (not rows or rows[0] not in STATUSES or STATUSES[rows[0]] not in (b"", *rows[1:2])):
        return f"it ended with {rows[:2]}"
    return None


def server_end(ran):
    rows = told(ran.output)
    if NOT_AS_TOLD in rows:
        return "refused the playing again"
    return "refused the telling" if ran.status == 1 else rows[0].strip().decode() if rows else "nothing told"


def server_tried(refuser, program):
    """How many calls there are depends on the order of the threads, so some behind the last one are tried, too."""
    calls = max(refuser.run([program], SERVER).calls for _ in range(5))
    tally = Tally(f"journal of a server, {calls} calls")
    for at in range(1, calls + 50):
        ran = refuser.run([program], SERVER, at)
        tally.add(f"call {at}", server_end(ran), server_fault(ran, at), ran.seconds)
    return tally


def all_tried(refuser, programs):
    for row in plays():
        yield play_tried(refuser, programs.plays, *row)
    yield server_tried(refuser, programs.serves)
