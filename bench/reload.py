"""Echoes of one client beside loads of the file by another: python3 bench/reload.py PROGRAM SECONDS PATTERNS"""

import pathlib
import sys
import threading
import time

sys.path.insert(0, str(pathlib.Path(__file__).resolve().parents[1] / "tests/serve"))

from server import Server
from talking import Asker, measure

HELLO = b"auth ClueCon\n\n"
ECHO = b"api echo hi\n\n"
ECHO_SIZE = len(b"Content-Type: api/response\nContent-Length: 2\n\nhi")
LARGEST = 1_000_000

EXTENSION = """    <extension name="no{number}"><condition field="destination_number" expression="^no{number}$">
      <action application="log" data="{filling}"/>
    </condition></extension>"""


def extensions(count):
    """So many, with as much to say that they are about as many bytes as a file may have."""
    bare = len(EXTENSION.format(number=count, filling="")) + 1
    filling = "x" * max(LARGEST // count - bare, 0)
    return "\n".join(EXTENSION.format(number=number, filling=filling) for number in range(count))


class Loader:
    """A client that has the file loaded again, one time after another."""

    def __init__(self, server):
        self.client = server.client()
        self.is_over = threading.Event()
        self.times = []
        self.thread = threading.Thread(target=self.run, daemon=True)

    def run(self):
        while not self.is_over.is_set():
            begun = time.perf_counter()
            answer = self.client.api("reloadxml")
            if answer != "+OK [Success]\n":
                raise ValueError(answer)
            self.times.append(time.perf_counter() - begun)

    def __enter__(self):
        self.thread.start()
        return self

    def __exit__(self, *_):
        self.is_over.set()
        self.thread.join()
        self.client.close()


def echoes(server, seconds):
    return measure(lambda: Asker(server.port, HELLO, ECHO, ECHO_SIZE).ask, 1, seconds)


def line(name, run):
    figures = f"{1e6 * run.middle:>8.0f} us {1e6 * run.late:>8.0f} us of 99 in 100 {1e6 * run.longest:>8.0f} us at most"
    print(f"  {name:<32}{figures}", flush=True)


def main():
    program, seconds, count = sys.argv[1], float(sys.argv[2]), int(sys.argv[3])
    print(f"echoes of one client, {count} patterns:")
    with Server(program, extensions=extensions(count)) as server:
        alone = echoes(server, seconds)
        line("alone", alone)
        with Loader(server) as loader:
            beside = echoes(server, seconds)
        line("beside loads of the file", beside)
        each = 1000 * sorted(loader.times)[len(loader.times) // 2]
        more = 1000 * (beside.longest - alone.late)
        print(f"    at most {more:.2f} ms more than 99 in 100 alone; {len(loader.times)} loads of {each:.0f} ms", flush=True)


main()
