"""Clients in processes of their own, which ask one thing again and again, and the times that their answers took."""

import multiprocessing
import socket
import time

FORK = multiprocessing.get_context("fork")


class Asker:
    """A client that asks the same each time, and knows how many bytes the answer has."""

    def __init__(self, port, hello, request, size):
        self.socket = socket.create_connection(("127.0.0.1", port))
        self.socket.setsockopt(socket.IPPROTO_TCP, socket.TCP_NODELAY, 1)
        if hello:
            self.socket.sendall(hello)
            rest = b""
            while b"accepted\n\n" not in rest:
                rest += self.socket.recv(4096)
        self.request, self.size = request, size

    def ask(self):
        self.socket.sendall(self.request)
        left = self.size
        while left > 0:
            got = len(self.socket.recv(left))
            if got == 0:
                raise ConnectionError("the server is gone")
            left -= got


class Measured:
    def __init__(self, times, seconds):
        times.sort()
        self.rate = len(times) / seconds
        self.middle = times[len(times) // 2]
        self.late = times[len(times) * 99 // 100]
        self.longest = times[-1]


def work(make, seconds, gate, results):
    """Asks until the time is up, and gives the times of all answers."""
    ask = make()
    ask()
    gate.wait()
    times = []
    now = time.perf_counter()
    end = now + seconds
    while now < end:
        ask()
        then = time.perf_counter()
        times.append(then - now)
        now = then
    results.put(times)


def measure(make, clients, seconds):
    """What so many clients get at once, each of which asks by what `make` gives."""
    gate, results = FORK.Barrier(clients), FORK.Queue()
    processes = [FORK.Process(target=work, args=(make, seconds, gate, results), daemon=True) for _ in range(clients)]
    for process in processes:
        process.start()
    times = [one for _ in processes for one in results.get(timeout=30 + seconds)]
    for process in processes:
        process.join()
    return Measured(times, seconds)
