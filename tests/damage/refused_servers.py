"""A server with two links whose calls for memory are refused in turn, and one whose channel dials a controller."""

import re
import socket
import time
from dataclasses import dataclass

from refusing import Tally
from served import Served, free_port, give, read_all

DOCUMENT = b"""<document><section name="dialplan"><context name="default">
<extension><condition field="destination_number" expression="^ans$">
<action application="answer"/><action application="park"/></condition></extension>
<extension><condition field="destination_number" expression="^held$">
<action application="socket" data="127.0.0.1:%d full"/>
<action application="answer"/><action application="park"/></condition></extension>
</context></section></document>"""

FIRST = b"""auth ClueCon
api originate {origination_uuid=A}loopback/ans &park()
api uuid_setvar A k v
api uuid_getvar A k
api originate {origination_uuid=C}loopback/ans &park()
api uuid_bridge A C
api uuid_kill A
exit
"""

SECOND = b"""auth ClueCon
api echo one
api global_setvar g=5
api expand echo $${g}
bgapi originate loopback/ans &park()|Job-UUID: job
api originate {origination_uuid=B}loopback/%s &park()
api uuid_exists B
exit
"""

LAST = b"""auth ClueCon
api fsctl shutdown
"""

CONTROLLER = b"""connect
sendmsg|call-command: execute|execute-app-name: answer
exit
"""

# Which identifiers are given to channels that have no name depends on the order of the threads.
IDENTIFIER = re.compile(rb"46530000-0000-8000-8000-[0-9a-f]{12}")

# A server that cannot make all its threads gives up within ten seconds. Longer is stuck.
SECONDS = 15

# What takes longer than this is told.
LATE = 2

# Where no call is made for so long, the server is at rest.
QUIET = 0.05


@dataclass
class Told:
    """What the links read, and how the server ended."""

    read: list
    stuck: bool
    status: int
    fault: str

    def end(self, whole):
        if self.status == 1:
            return "wanted memory"
        return "did all" if self.read == whole.read else "cut a link short"


def commands(text):
    """Each line is a command, with its headers behind strokes."""
    return text.replace(b"\n", b"\n\n").replace(b"|", b"\n")


class Rows:
    """Serves the same links again and again at ports of their own."""

    def __init__(self, refuser, program, dials):
        self.refuser = refuser
        self.program = program
        self.dials = dials
        self.begun = 0
        self.port = free_port()
        self.controller = socket.create_server(("127.0.0.1", 0))
        self.controller.settimeout(0.02)

    def serve(self, at):
        document = DOCUMENT % self.controller.getsockname()[1]
        with Served(self.program, document, self.port, self.refuser.surroundings(at)) as server:
            probe = server.listens()
            if probe is None:
                server.ends(SECONDS)
                return Told([], False, server.process.returncode, server.fault((0, 1)))
            probe.close()
            self.rest()
            read, stuck = self.talk(server)
            status = server.ends(SECONDS)
            return Told(read, stuck or status is None, status, server.fault((0, 1)) if status is not None else None)

    def rest(self):
        """Waits until all threads have begun: then no more calls are made."""
        before, calls = -1, self.refuser.calls()
        while calls != before:
            time.sleep(QUIET)
            before, calls = calls, self.refuser.calls()
        self.begun = calls

    def talk(self, server):
        ends = [server.end(), server.end()]
        for end, given in zip(ends, (FIRST, SECOND % (b"held" if self.dials else b"ans"))):
            if end:
                give(end, commands(given))
        controlled = self.control() if self.dials else None
        read = [read_all(end, SECONDS) if end else (b"", True) for end in ends]
        if controlled:
            read.append(read_all(controlled, SECONDS))
        read.append(self.shut(server))
        return [IDENTIFIER.sub(b"U", got) for got, _ in read], not all(ended for _, ended in read)

    def control(self):
        """Answers the dial of the channel, if it comes."""
        for _ in range(100):
            try:
                end, _ = self.controller.accept()
            except TimeoutError:
                continue
            give(end, commands(CONTROLLER))
            return end
        return None

    def shut(self, server):
        """Ends the switch; where the memory was wanting for that link, another one does."""
        got = b""
        for _ in range(2):
            end = server.end() if server.process.poll() is None else None
            if end is None:
                return got, True
            give(end, commands(LAST))
            got, ended = read_all(end, SECONDS)
            if not ended or b"+OK\n" in got:
                return got, ended
        return got, True


def is_front(read, whole):
    return whole.startswith(read)


def fault_of(told, whole):
    if told.fault:
        return told.fault
    if told.stuck:
        return f"something is stuck, status {told.status}"
    fronts = [is_front(read, all_of_it) for read, all_of_it in zip(told.read, whole.read)]
    if not all(fronts):
        wrong = fronts.index(False)
        return f"link {wrong} has read {told.read[wrong]!r}, and that is no front"
    short = sum(read != all_of_it for read, all_of_it in zip(told.read, whole.read))
    return f"{short} links were cut short" if short > 1 and told.status == 0 else None


def tried(refuser, program, dials):
    """Refuses the calls in turn until several in a row are behind the last one."""
    rows = Rows(refuser, program, dials)
    whole = rows.serve(0)
    name = "a controller" if dials else "two links"
    tally = Tally(f"serve, {name}, {refuser.calls()} calls, {rows.begun} of them to begin, status {whole.status}")
    at, behind = 1, 0
    while behind < 5:
        begun = time.monotonic()
        told = rows.serve(at)
        seconds = time.monotonic() - begun
        end = f"{told.end(whole)}{' late' if seconds > LATE else ''}"
        tally.add(f"call {at}", end, fault_of(told, whole), seconds)
        behind = behind + 1 if refuser.calls() < at else 0
        at += 1
    return tally
