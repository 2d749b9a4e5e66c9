"""Many clients at once, each of which knows what its commands are to be answered."""

import random
import threading

from client import text_of

BLOCK = 8


class Talker:
    """A client that gives random commands, and compares what it is answered."""

    def __init__(self, client, number):
        self.client = client
        self.number = number
        self.random = random.Random(number)
        self.globals = {}
        self.calls = []
        self.identifiers = set()
        self.listens = False
        self.given = 0
        self.last_event = 0

    def talk(self, count):
        while self.given < count:
            kind = self.random.random()
            if kind < 0.1:
                self.originate()
            elif kind < 0.2 and self.calls:
                self.kill(self.calls.pop())
            else:
                self.block()
        for identifier in self.calls:
            self.kill(identifier)
        self.see_events()

    def expect(self, command, answer, got):
        if answer != got:
            raise AssertionError(f"client {self.number}: {command} was answered {got!r} in place of {answer!r}")

    def ask(self, command, answer):
        self.given += 1
        self.expect(command, answer, self.client.api(command))

    def originate(self):
        self.given += 1
        got = self.client.api("originate loopback/ans &park()")
        identifier = got.removeprefix("+OK ").strip()
        if not got.startswith("+OK ") or len(identifier) != 36 or identifier in self.identifiers:
            raise AssertionError(f"client {self.number}: a call was answered {got!r}")
        self.identifiers.add(identifier)
        self.calls.append(identifier)
        self.ask(f"uuid_exists {identifier}", "true")

    def kill(self, identifier):
        self.ask(f"uuid_kill {identifier}", "+OK\n")
        self.ask(f"uuid_exists {identifier}", "false")

    def block(self):
        """Several commands at once, and then their answers."""
        rows = [self.row() for _ in range(self.random.randrange(1, BLOCK))]
        self.given += len(rows)
        self.client.give(*(command for command, _ in rows))
        for command, answer in rows:
            self.expect(command, answer, text_of(self.client.answer()))

    def row(self):
        return self.random.choice([self.echo, self.expand, self.set_global, self.exists, self.listen, self.unlisten])()

    def echo(self):
        text = f"{self.number}/{self.random.randrange(10**9)}"
        return "api echo " + text, text

    def expand(self):
        name = self.name()
        return f"api expand echo <${{{name}}}>", f"<{self.globals.get(name, '')}>"

    def set_global(self):
        name, value = self.name(), str(self.random.randrange(10**6))
        self.globals[name] = value
        return f"api global_setvar {name}={value}", "+OK\n"

    def name(self):
        return f"of_{self.number}_{self.random.randrange(4)}"

    def exists(self):
        if self.calls and self.random.random() < 0.5:
            return f"api uuid_exists {self.random.choice(self.calls)}", "true"
        return f"api uuid_exists nobody-{self.number}", "false"

    def listen(self):
        self.listens = True
        return "event plain CHANNEL_CREATE", "+OK event listener enabled plain"

    def unlisten(self):
        said = "+OK no longer listening for events" if self.listens else "-ERR not listening for events"
        self.listens = False
        return "noevents", said

    def see_events(self):
        """Sees that each event is one that was asked for, and that they came in the order in which they were told."""
        while self.client.events:
            event = self.client.event()
            sequence = int(event["Event-Sequence"])
            if event["Event-Name"] != "CHANNEL_CREATE" or sequence <= self.last_event:
                raise AssertionError(f"client {self.number}: {event} came behind the event {self.last_event}")
            self.last_event = sequence


def at_once(*works):
    """Does these beside one another, and raises what one of them raised."""
    faults = []

    def run(work):
        try:
            work()
        except Exception as fault:
            faults.append(fault)

    threads = [threading.Thread(target=run, args=(work,), daemon=True) for work in works]
    for thread in threads:
        thread.start()
    for thread in threads:
        thread.join(240)
    if any(thread.is_alive() for thread in threads):
        raise AssertionError("not all came to their end")
    if faults:
        raise faults[0]


def talks(server, numbers, count):
    """The works of as many clients as there are numbers, with so many commands each."""
    talkers = [Talker(server.client(), number) for number in numbers]
    return talkers, [lambda talker=talker: talker.talk(count) for talker in talkers]
