"""Very many connections, and very many bytes."""

import time

from client import Client, Ended, is_notice
from server import Server
from watch import Watch


def reconnecting(program, count=10000):
    """Connections one after another, each with one command; half of them leave by `exit`."""
    with Server(program) as server:
        begun = time.monotonic()
        for turn in range(count):
            client = server.client()
            got = client.api(f"echo {turn}")
            if got != str(turn):
                raise AssertionError(f"echo {turn} was answered {got!r}")
            if turn % 2:
                leave(client)
            client.close()
        seconds = time.monotonic() - begun
        if not server.comes_to_sockets(1, 10):
            raise AssertionError(f"{server.sockets() - 1} connections were left behind")
        memory = server.most_memory()
        server.ends_well()
    return f"{count} connections, {seconds:.1f} s, {memory} KB at most"


def leave(client):
    """Leaves by `exit`, and sees that nothing comes behind the notice."""
    client.command("exit")
    if not is_notice(client.frame()):
        raise AssertionError("no notice came behind exit")
    try:
        raise AssertionError(f"{client.frame()} came behind the notice")
    except Ended:
        pass


def flood(server, head, most):
    """Sends so many bytes without an end, and gives how many were taken until the connection was lost."""
    client = server.client()
    piece = b"x" * 65536
    sent = 0
    try:
        client.send(head)
        while sent < most:
            client.send(piece)
            sent += len(piece)
    except (ConnectionResetError, BrokenPipeError):
        return sent
    finally:
        client.close()
    raise AssertionError(f"all of {sent} bytes were taken")


def endless(program, most=200_000_000, growth=65536):
    """Blocks without an end, by their line, by their headers, by their length."""
    with Server(program) as server:
        before = server.most_memory()
        taken = []
        heads = [b"", b"sendmsg nobody\n", b"sendmsg nobody\ncontent-length: 9999999999\n\n", b"\n" * 60000]

        def send_all():
            taken.extend(flood(server, head, most) for head in heads)

        said = Watch(server).beside(send_all)
        grown = server.most_memory() - before
        if grown > growth:
            raise AssertionError(f"the memory grew by {grown} KB")
        server.ends_well()
    return f"lost behind {max(taken)} bytes at most, memory grew by {grown} KB, {said}"


def crowd(program, count=1200):
    """More clients at once than the switch serves, and than it has descriptors for. Those in front leave."""
    with Server(program, connections=4) as server:
        watch = Watch(server, 1)
        waiting = []

        def crowd_in():
            waiting.extend(come(server.port, count))
            for client in waiting:
                client.greet("ClueCon")
                leave(client)
                client.close()

        said = watch.beside(crowd_in)
        server.ends_well()
    return f"{len(waiting)} clients were served one behind another, {said}"


def come(port, count):
    """So many clients that have given no password, or as many as come in."""
    try:
        for _ in range(count):
            client = Client(port, password=None, seconds=4)
            client.socket.settimeout(60)
            yield client
    except TimeoutError:
        pass
