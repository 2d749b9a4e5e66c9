"""How quick the program is, how well it keeps times, and what it costs while nothing happens."""

import statistics
import time

from server import Server

# On a machine that does little else the median is under a millisecond; a check fails where it is far above.
SLOWEST = 0.05
MOST_IDLE = 0.05


def idle(program, seconds=5):
    """The share of a processor that a switch of 256 slots takes, with a client that waits for events."""
    with Server(program) as server:
        client = server.client()
        client.command("event plain ALL")
        time.sleep(1)
        before, begun = server.processor_seconds(), time.monotonic()
        time.sleep(seconds)
        share = (server.processor_seconds() - before) / (time.monotonic() - begun)
        if share > MOST_IDLE:
            raise AssertionError(f"{100 * share:.2f} % of a processor while nothing happens")
        server.ends_well()
    return f"{100 * share:.2f} % of a processor"


def quick(program, echoes=2000, calls=300):
    """Round trips of one client, and from its command to the event that another one is told."""
    with Server(program) as server:
        client, other = server.client(), server.client()
        trips = [timed(lambda: client.command("api echo hi")) for _ in range(echoes)]
        other.command("event plain CHANNEL_HANGUP")
        delays = [delay(client, other) for _ in range(calls)]
        server.ends_well()
    for name, times in (("an echo", trips), ("an event", delays)):
        if statistics.median(times) > SLOWEST:
            raise AssertionError(f"{name} took {1000 * statistics.median(times):.1f} ms")
    return f"echo {spread(trips)}, event {spread(delays)}"


# Commands whose answers come later, what they are answered, and after how many seconds.
WAITS = [
    ("msleep 20", "+OK", 0.02),
    ("originate loopback/late &park()", "+OK", 0.1),
    ("originate loopback/through &park()", "+OK", 0.1),
    ("originate loopback/rings &park() XML default nobody 1 1", "-ERR NO_ANSWER", 1),
]


def waiting(program, rounds=4):
    """Answers that come later: none is early, and none late, since whoever waits is woken."""
    with Server(program) as server:
        client = server.client()
        late = [lateness(client, *row) for _ in range(rounds) for row in WAITS]
        client.api("hupall")
        server.ends_well()
    if min(late) < 0 or statistics.median(late) > SLOWEST:
        raise AssertionError(f"answers came {spread(late)} late, the first {1000 * min(late):.3f} ms")
    return f"{spread(late)} late"


def lateness(client, command, wanted, seconds):
    """How many seconds an answer comes behind its time."""
    begun = time.perf_counter()
    said = client.api(command)
    took = time.perf_counter() - begun
    if not said.startswith(wanted):
        raise AssertionError(f"{command} was answered {said!r}")
    return took - seconds


def timed(work):
    begun = time.perf_counter()
    work()
    return time.perf_counter() - begun


def delay(client, other):
    """From a hangup by one client to the first of its events, of which the other one is told two: one for each leg."""
    call = client.api("originate loopback/ans &park()").split()[1]
    begun = time.perf_counter()
    client.give("api uuid_kill " + call)
    other.event()
    seconds = time.perf_counter() - begun
    other.event()
    client.answer()
    time.sleep(0.002)
    return seconds


def spread(times):
    times = sorted(times)
    rows = (statistics.median(times), times[len(times) * 99 // 100], times[-1])
    return "{:.3f} ms, {:.3f} ms of 99 in 100, {:.3f} ms at most".format(*(1000 * row for row in rows))
