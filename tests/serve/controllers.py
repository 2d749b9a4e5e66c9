"""Calls that dial controllers."""

import pathlib
import socket
import subprocess
import sys
import time

from client import Ended, Peer, is_notice, text_of
from server import Server, free_port
from watch import Watch

EXAMPLE = pathlib.Path(__file__).resolve().parents[2] / "examples/controller.py"
CALL = "originate loopback/held &park()"


class Port:
    """A port at which controllers are dialed."""

    def __init__(self, backlog=128):
        self.listener = socket.create_server(("127.0.0.1", 0), backlog=backlog)
        self.number = self.listener.getsockname()[1]

    def controller(self):
        return Controller(self.listener.accept()[0])

    def close(self):
        self.listener.close()


class Controller(Peer):
    """A controller that knows its channel."""

    def __init__(self, connected):
        super().__init__(connected)
        self.channel = self.command("connect").headers
        self.identifier = self.channel["Unique-ID"]

    def does(self, application, argument=""):
        said = text_of(self.command(
            f"sendmsg\ncall-command: execute\nexecute-app-name: {application}\nexecute-app-arg: {argument}"
        ))
        if said != "+OK":
            raise AssertionError(f"{application} was answered {said!r}")

    def leaves(self):
        said = text_of(self.command("exit"))
        if said != "+OK bye":
            raise AssertionError(f"exit was answered {said!r}")
        self.sees_end()

    def sees_end(self):
        """The next answer is the notice, names the channel, and is the last."""
        notice = self.answer()
        if not is_notice(notice) or notice.headers.get("Controlled-Session-UUID") != self.identifier:
            raise AssertionError(f"{notice} came in place of the notice for {self.identifier}")
        try:
            raise AssertionError(f"{self.frame()} came behind the notice")
        except Ended:
            self.close()


class Calls:
    """A client that makes calls in the background, and is told what became of them."""

    def __init__(self, server):
        self.client = server.client()
        self.client.command("event plain BACKGROUND_JOB")

    def make(self, count):
        for _ in range(count):
            self.client.command("bgapi " + CALL)

    def answered(self, count):
        """The identifiers of as many calls, each of which was answered."""
        said = [self.client.event_body() for _ in range(count)]
        if [row for row in said if not row.startswith("+OK ")]:
            raise AssertionError(f"of {count} calls some were answered {sorted(set(said))[:3]!r}")
        return {row.split()[1] for row in said}


def controlled(program, count=100):
    """So many calls at once, with the example as their controller. Where all seats are taken a call goes on by itself."""
    port = free_port()
    words = [sys.executable, str(EXAMPLE), str(port)]
    with subprocess.Popen(words, stdout=subprocess.PIPE, stderr=subprocess.DEVNULL, text=True) as example:
        try:
            wait_for(port)
            with Server(program, controller=port) as server:
                calls = Calls(server)
                begun = time.monotonic()
                calls.make(count)
                made = calls.answered(count)
                seconds = time.monotonic() - begun
                calls.client.close()
                server.ends_well()
        finally:
            example.terminate()
        lines = [line.split() for line in example.stdout]
    if len(made) != count or not lines:
        raise AssertionError(f"{len(made)} calls of {count} were answered, and {len(lines)} controllers served")
    for identifier, name, notified in lines:
        if (name, notified) != ("loopback/held-b", identifier):
            raise AssertionError(f"a controller was told {identifier}, {name} and {notified}")
    if len({line[0] for line in lines}) != len(lines):
        raise AssertionError("two controllers had one channel")
    return f"{count} calls answered in {seconds:.2f} s, {len(lines)} of them by a controller"


def wait_for(port):
    for _ in range(400):
        try:
            return socket.create_connection(("127.0.0.1", port)).close()
        except ConnectionRefusedError:
            time.sleep(0.02)
    raise AssertionError("the example does not listen")


def held(program, count=15):
    """As many controllers as there are seats hold their channels, until they, their channels or the switch are gone."""
    port = Port()
    with Server(program, controller=port.number) as server:
        calls = Calls(server)
        calls.make(count)
        controllers = [port.controller() for _ in range(count)]
        for controller in controllers:
            listen(controller)
            controller.does("answer")
        calls.answered(count)
        for controller in controllers:
            told(controller, "answer")
        killed, moved, left, last = (controllers[first::4] for first in range(4))
        for controller in killed:
            calls.client.api(f"uuid_kill {controller.identifier}")
        for controller in moved:
            calls.client.api(f"uuid_transfer {controller.identifier} ans")
        for controller in left:
            controller.leaves()
        for controller in killed + moved:
            controller.sees_end()
        calls.make(1)
        late = port.controller()
        late.does("answer")
        calls.answered(1)
        server.ends_well()
        for controller in last + [late]:
            controller.sees_end()
    port.close()
    return f"{count} held at once: {len(killed)} killed, {len(moved)} moved, {len(left)} left, {len(last)} by the end of the switch"


def listen(controller):
    """Subscribes what tells of its own channel. The filter comes first, so that nothing of others comes in between."""
    controller.command(f"filter Unique-ID {controller.identifier}")
    controller.command("event plain CHANNEL_EXECUTE_COMPLETE")


def told(controller, application):
    event = controller.event()
    if (event["Unique-ID"], event["Application"]) != (controller.identifier, application):
        raise AssertionError(f"{event} was told in place of {application}")


def dialing(program, count=8):
    """Dials that take long hold up nobody else; once they fail, their calls go on."""
    port = Port(backlog=0)
    crowd = [socket.create_connection(("127.0.0.1", port.number)) for _ in range(1)]
    with Server(program, controller=port.number) as server:
        calls = Calls(server)

        def dial():
            calls.make(count)
            time.sleep(2)
            if calls.client.has_more(0):
                raise AssertionError("a call went on before its dial was over")
            port.close()
            for client in crowd:
                client.close()
            calls.answered(count)

        said = Watch(server).beside(dial)
        server.ends_well()
    return f"{count} dials, {said}"
