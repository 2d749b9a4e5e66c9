"""A shutdown while clients give commands."""

import time

from answers import at_once
from client import Ended, is_notice, text_of
from server import LEAST_JOURNAL, Server

WINDOW = 16


class Stream:
    """A client that gives echoes without a pause, and keeps all frames that it reads."""

    def __init__(self, client):
        self.client = client
        self.answers = []
        self.events = []

    def run(self):
        try:
            while True:
                count = len(self.answers)
                self.give(count)
                for number in range(count, count + WINDOW):
                    self.take(number)
        except Ended:
            pass
        if self.answers.pop() != "text/disconnect-notice":
            raise AssertionError("the notice is not the last")

    def give(self, count):
        try:
            self.client.give(*(f"api echo {number}" for number in range(count, count + WINDOW)))
        except (ConnectionResetError, BrokenPipeError):
            pass

    def take(self, number):
        said = text_of(self.client.answer())
        self.answers.append(said)
        if said not in (str(number), "text/disconnect-notice"):
            raise AssertionError(f"echo {number} was answered {said!r}")


class Caller(Stream):
    """One that makes and ends calls, and is told of all events."""

    def run(self):
        self.client.command("event plain ALL")
        try:
            while True:
                self.answers.append(self.client.api("originate loopback/ans &park()"))
                if self.answers[-1].startswith("+OK "):
                    self.answers.append(self.client.api("uuid_kill " + self.answers[-1].split()[1]))
        except (Ended, BrokenPipeError, ConnectionResetError):
            pass
        self.see_events()
        if self.answers.pop() != "text/disconnect-notice":
            raise AssertionError(f"the notice is not the last, but {self.answers[-1]!r}")
        if [said for said in self.answers if not said.startswith(("+OK", "-ERR SYSTEM_SHUTDOWN"))]:
            raise AssertionError("a call was answered wrongly")

    def see_events(self):
        rows = [self.client.event() for _ in range(len(self.client.events))]
        sequences = [int(row["Event-Sequence"]) for row in rows]
        if sequences != sorted(set(sequences)):
            raise AssertionError("an event came twice, or in front of an earlier one")
        if [row["Event-Name"] for row in rows].count("SHUTDOWN") != 1 or rows[-1]["Event-Name"] != "SHUTDOWN":
            raise AssertionError("SHUTDOWN is not the last event")
        self.events = rows


def waits(client, command, answer):
    """Gives a command, if any, that the shutdown answers, and reads the notice behind that."""
    if command:
        client.give(command)
        said = text_of(client.answer())
        if said != answer:
            raise AssertionError(f"{command} was answered {said!r}")
    if not is_notice(client.frame()):
        raise AssertionError("the notice is missing")
    try:
        raise AssertionError(f"{client.frame()} came behind the notice")
    except Ended:
        pass


def shutdown(program):
    """Several clients give commands, some wait, and one ends the switch."""
    with Server(program) as server:
        streams = [Stream(server.client()) for _ in range(4)]
        callers = [Caller(server.client()) for _ in range(4)]
        idle, owed, last = server.client(), server.client(), server.client()
        at = []

        def end():
            time.sleep(1)
            at.append(time.monotonic())
            waits(last, "api fsctl shutdown", "+OK\n")
            status = server.process.wait(10)
            at.append(time.monotonic())
            if status != 0:
                raise AssertionError(f"the program ended with status {status} and {server.said()!r}")

        at_once(
            *(stream.run for stream in streams + callers),
            lambda: waits(idle, None, None),
            lambda: waits(owed, "api msleep 3600000", "-ERR SYSTEM_SHUTDOWN\n"),
            end,
        )
    answers = sum(len(stream.answers) for stream in streams + callers)
    events = sum(len(caller.events) for caller in callers)
    return f"{answers} answers and {events} events in order, ended within {1000 * (at[1] - at[0]):.0f} ms"


def full(program):
    """A journal that is full ends the program, and each connection with it."""
    with Server(program, journal=LEAST_JOURNAL) as server:
        idle, owed, unknown = server.client(), server.client(), server.client(password=None)
        owed.give("api msleep 3600000")
        unknown.frame()
        answers = echo_to_the_end(server.client())
        for client in (idle, owed, unknown):
            see_end(client)
        status, said = server.process.wait(10), server.said()
        if status != 8 or not said.startswith("fsw: journal full "):
            raise AssertionError(f"the program ended with status {status} and {said!r}")
    return f"{answers} answers, {said.strip()}"


def echo_to_the_end(client):
    """Gives echoes until the connection is lost, and says how many were answered."""
    count = 0
    try:
        while True:
            if client.api(f"echo {count}") != str(count):
                raise AssertionError(f"echo {count} was answered wrongly")
            count += 1
    except (Ended, BrokenPipeError, ConnectionResetError):
        return count


def see_end(client):
    """Sees that the connection is ended, and that nothing is read before."""
    try:
        raise AssertionError(f"{client.frame()} came, as the journal was full")
    except Ended:
        pass


def parting(program, count=600):
    """A client that leaves while it still sends, and reads afterwards, reads all answers and the notice."""
    with Server(program) as server:
        client = server.client(receive_buffer=4096)
        text = "z" * 300
        client.give(*[f"api echo {text}"] * count, "exit")
        try:
            client.send(b"x" * 100_000)
        except (BrokenPipeError, ConnectionResetError):
            pass
        if not server.comes_to_sockets(1, 20):
            raise AssertionError("the connection was not ended")
        frames = frames_of(client)
        if [text_of(frame) for frame in frames[:-2]] != [text] * count or not is_notice(frames[-1]):
            raise AssertionError(f"{len(frames)} frames were read in place of {count + 2}")
        server.ends_well()
    return f"{len(frames)} frames read behind the end"


def frames_of(client):
    """All frames up to the end of the connection."""
    frames = []
    try:
        while True:
            frames.append(client.frame())
    except Ended:
        return frames
