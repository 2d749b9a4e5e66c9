"""Clients that go on while others misbehave."""

import threading
import time

from answers import at_once

# No answer may take so many seconds meanwhile.
SLOWEST = 2.0


class Watch:
    """Clients that go on while a check does its worst."""

    def __init__(self, server, count=2):
        self.clients = [server.client() for _ in range(count)]
        self.is_over = threading.Event()
        self.answers = 0
        self.longest = 0.0

    def works(self):
        return [lambda client=client, number=number: self.go_on(client, number) for number, client in enumerate(self.clients)]

    def go_on(self, client, number):
        count = 0
        while not self.is_over.is_set():
            count += 1
            begun = time.monotonic()
            got = client.api(f"echo {number}/{count}")
            if got != f"{number}/{count}":
                raise AssertionError(f"echo {number}/{count} was answered {got!r}")
            self.longest = max(self.longest, time.monotonic() - begun)
            self.answers += 1
        client.close()

    def beside(self, work):
        """Does a work beside them, and sees that they were answered all along."""

        def ended():
            try:
                work()
            finally:
                self.is_over.set()

        at_once(ended, *self.works())
        if self.longest > SLOWEST:
            raise AssertionError(f"an answer took {self.longest:.2f} s")
        return f"{self.answers} answers beside it, the longest {1000 * self.longest:.1f} ms"
