"""Echoes of one client beside calls of another that are routed long: python3 bench/routes.py PROGRAM SECONDS EXTENSIONS"""

import pathlib
import sys
import threading
import time

sys.path.insert(0, str(pathlib.Path(__file__).resolve().parents[1] / "tests/serve"))

from server import Server
from talking import Asker, measure

RUNS = 3
HELLO = b"auth ClueCon\n\n"
ECHO = b"api echo hi\n\n"
ECHO_SIZE = len(b"Content-Type: api/response\nContent-Length: 2\n\nhi")

# Nothing that a pattern begins with leaves one out: each is tried.
EXTENSION = """    <extension name="no{number}"><condition field="destination_number" expression="[a-z]+{number}$">
      <action application="answer"/>
    </condition></extension>"""
LAST = """    <extension name="last"><condition field="destination_number" expression="^last$">
      <action application="answer"/><action application="park"/>
    </condition></extension>"""


class Caller:
    """A client that makes calls to the last extension, one after another, and ends them."""

    def __init__(self, server):
        self.client = server.client()
        self.is_over = threading.Event()
        self.times = []
        self.thread = threading.Thread(target=self.run, daemon=True)

    def run(self):
        while not self.is_over.is_set():
            begun = time.perf_counter()
            call = self.client.api("originate loopback/last &park()").split()[1]
            self.times.append(time.perf_counter() - begun)
            self.client.api("uuid_kill " + call)

    def __enter__(self):
        self.thread.start()
        return self

    def __exit__(self, *_):
        self.is_over.set()
        self.thread.join()
        self.client.close()


def echoes(server, seconds):
    """The best of some runs of one client."""
    runs = [measure(lambda: Asker(server.port, HELLO, ECHO, ECHO_SIZE).ask, 1, seconds) for _ in range(RUNS)]
    return max(runs, key=lambda run: run.rate)


def line(name, run):
    print(f"  {name:<32}{run.rate:>9.0f} a second {1e6 * run.middle:>8.0f} us {1e6 * run.late:>8.0f} us of 99 in 100", flush=True)


def main():
    program, seconds, count = sys.argv[1], float(sys.argv[2]), int(sys.argv[3])
    extensions = "\n".join([EXTENSION.format(number=number) for number in range(count)] + [LAST])
    print(f"echoes of one client, {count} extensions:")
    with Server(program, extensions=extensions) as server:
        alone = echoes(server, seconds)
        line("alone", alone)
        with Caller(server) as caller:
            beside = echoes(server, seconds)
        line("beside calls that are routed", beside)
        each = 1000 * sorted(caller.times)[len(caller.times) // 2]
        print(f"    {beside.rate / alone.rate:.2f} times; {len(caller.times)} calls, each answered in {each:.1f} ms", flush=True)


main()
