"""What the server gives, beside others: python3 bench/serve.py PROGRAM SECONDS"""

import csv
import pathlib
import shutil
import statistics
import subprocess
import sys
import time

sys.path.insert(0, str(pathlib.Path(__file__).resolve().parents[1] / "tests/serve"))

from server import Server, free_port
from talking import Asker, measure
from times import delay

RUNS = 3
HELLO = b"auth ClueCon\n\n"
ECHO = b"api echo hi\n\n"
ECHO_SIZE = len(b"Content-Type: api/response\nContent-Length: 2\n\nhi")
HERE = pathlib.Path(__file__).resolve().parent


def echoes(port):
    return lambda: Asker(port, HELLO, ECHO, ECHO_SIZE).ask


def pings(port):
    return lambda: Asker(port, None, b"PING\r\n", len(b"+PONG\r\n")).ask


def caller(server):
    """Makes a call and ends it."""

    def make():
        client = server.client()

        def call():
            client.api("uuid_kill " + client.api("originate loopback/ans &park()").split()[1])

        return call

    return make


class Redis:
    """Redis at a port of its own, that keeps nothing on the disk."""

    def __init__(self):
        self.port = free_port()
        words = ["redis-server", "--port", str(self.port), "--bind", "127.0.0.1", "--save", "", "--appendonly", "no"]
        self.process = subprocess.Popen(words, stdout=subprocess.DEVNULL, cwd="/")
        time.sleep(1)

    def own(self, clients, seconds):
        """What its own client measures, which is written in C."""
        count = str(int(20000 * seconds))
        words = ["redis-benchmark", "-p", str(self.port), "-t", "ping_mbulk", "-c", str(clients), "-n", count, "--csv"]
        row = list(csv.reader(subprocess.run(words, capture_output=True, text=True, check=True).stdout.splitlines()))[-1]
        return float(row[1]), float(row[4]) / 1000, float(row[6]) / 1000


def line(name, clients, rate, middle, late):
    print(f"  {name:<28}{clients:>3} clients {rate:>9.0f} a second {1e6 * middle:>8.0f} us {1e6 * late:>8.0f} us of 99 in 100", flush=True)


def best(runs):
    return max(runs, key=lambda run: run.rate)


def side_by_side(servers, clients, seconds):
    """Measures them in turn some times, prints the best run of each, and how the first stands to the others."""
    runs = {name: [] for name in servers}
    for _ in range(RUNS):
        for name, make in servers.items():
            runs[name].append(measure(make, clients, seconds))
    rates = {}
    for name, row in runs.items():
        found = best(row)
        rates[name] = found.rate
        line(name, clients, found.rate, found.middle, found.late)
    first, *others = rates
    for name in others:
        print(f"    {rates[first] / rates[name]:.2f} times the round trips of {name}", flush=True)


def events(server, count=500):
    """The way from a command of one client to the event that another one is told."""
    client, other = server.client(), server.client()
    other.command("event plain CHANNEL_HANGUP")
    times = sorted(delay(client, other) for _ in range(count))
    for one in (client, other):
        one.close()
    print(f"  {'event':<28}{1e6 * statistics.median(times):>8.0f} us {1e6 * times[count * 99 // 100]:>8.0f} us of 99 in 100", flush=True)


def main():
    program, seconds = sys.argv[1], float(sys.argv[2])
    peer = subprocess.Popen([sys.executable, str(HERE / "peer.py")], stdout=subprocess.PIPE, text=True)
    redis = Redis() if shutil.which("redis-server") and shutil.which("redis-benchmark") else None
    try:
        with Server(program) as server:
            run(server, int(peer.stdout.readline()), redis, seconds)
    finally:
        for other in [peer] + ([redis.process] if redis else []):
            other.kill()
            other.wait()


def run(server, peer_port, redis, seconds):
    servers = {"fsw": echoes(server.port), "the server in Python": echoes(peer_port)}
    if redis:
        servers["redis"] = pings(redis.port)
    print("round trips:")
    for clients in (1, 4, 16):
        side_by_side(servers, clients, seconds)
        if redis:
            line("redis by redis-benchmark", clients, *redis.own(clients, seconds))
    print("calls, each made and ended:")
    calls = best([measure(caller(server), 4, seconds) for _ in range(RUNS)])
    line("fsw", 4, calls.rate, calls.middle, calls.late)
    print("from the command of one client to the event of another:")
    events(server)


main()
