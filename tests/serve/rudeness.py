"""Clients that vanish, and one that reads nothing: each harms itself alone."""

from answers import at_once, talks
from client import Client, Ended
from server import Server
from watch import Watch


def vanish(server, turn):
    """Goes away at once, in the middle of a block, or with answers unread; by a farewell or without."""
    client = Client(server.port, password=None if turn % 3 == 0 else "ClueCon")
    if turn % 3 == 1:
        client.send(b"sendmsg nobody\ncontent-length: 100\n\nhalf")
    if turn % 3 == 2:
        client.give(*(["api echo unread"] * 20 + ["api originate loopback/ans &park()", "event plain ALL"]))
    if turn % 2:
        client.reset()
    else:
        client.close()


def vanishing(program, count=300):
    with Server(program) as server:
        watch = Watch(server)
        talkers, works = talks(server, range(2), 300)

        def vanish_all():
            at_once(*works, *[lambda first=first: [vanish(server, turn) for turn in range(first, count, 3)] for first in range(3)])

        said = watch.beside(vanish_all)
        for talker in talkers:
            talker.client.close()
        if not server.comes_to_sockets(1, 10):
            raise AssertionError(f"{server.sockets() - 1} connections were left behind")
        client = server.client()
        client.api("hupall")
        server.ends_well()
    return f"{count} clients vanished, {said}"


def slow(program, calls=20000):
    """A client that subscribes all events and reads none."""
    with Server(program) as server:
        idler = server.client(receive_buffer=4096)
        idler.command("event plain ALL")
        watch = Watch(server)
        maker = server.client()
        had = server.sockets()
        made = []

        def make():
            while len(made) < calls and server.sockets() == had:
                made.append(maker.api("originate loopback/ans &park()"))
                maker.api("uuid_kill " + made[-1].split()[1])
            if server.sockets() == had and not server.comes_to_sockets(had - 1, 10):
                raise AssertionError("it kept its connection")

        said = watch.beside(make)
        read = read_out(idler)
        if [row for row in made if not row.startswith("+OK ")]:
            raise AssertionError("a call was refused")
        maker.close()
        server.ends_well()
    return f"lost behind {len(made)} calls, {read} events read afterwards, {said}"


def read_out(client):
    """Reads events to the end of a connection, each of which stands behind the last, and gives their number."""
    last = 0
    count = 0
    try:
        while True:
            sequence = int(client.event()["Event-Sequence"])
            if sequence <= last:
                raise AssertionError(f"the event {sequence} came behind {last}")
            last = sequence
            count += 1
    except Ended:
        return count
