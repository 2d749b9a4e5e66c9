"""Steps of entries, as a line of a case has them, and what is told of each.

An entry is told by which a bridge begins or ends or a channel is hung up: with its events, behind each the
number of its bridge or the cause of its hangup. Of what a connection is handed out a step tells the whole
frame, what stands behind its head, or this in short: of an event its name, its number and whom it tells of,
of a reply its text and behind it the identifier of a job that has begun, and of any answer, in whichever
frame, the lines that have no colon. A refused entry tells why.
"""

from entries import Refused

TOLD = ("CHANNEL_BRIDGE", "CHANNEL_UNBRIDGE", "CHANNEL_HANGUP")


def answers(entries, step):
    """What is told of a step, a line each."""
    does, *words = step.split(" ", 2 if step.startswith("say ") else -1)
    return [line for entry in ENTRIES[does](entries, *words) for line in lines_of_entry(entry)]


def lines_of_entry(entry):
    try:
        return entry()
    except Refused as refusal:
        return [str(refusal)]


def made(make):
    """The one entry of a step, with the numbers that the step names."""
    return lambda entries, *numbers: [lambda: told(make(entries)(*map(int, numbers)))]


def say(entries, number, line):
    yield lambda: told(entries.say(int(number), line))


def work(entries, *slots):
    for slot in map(int, slots):
        yield lambda slot=slot: told(entries.work(slot))


def take(entries, number):
    yield lambda: full_lines(body_of(entries.taken(int(number))))


def read(entries, number):
    yield lambda: whole_lines(entries.taken(int(number)))


def hear(entries, number, count):
    yield from [lambda: heard(entries.taken(int(number)))] * int(count)


ENTRIES = {
    "arrive": made(lambda entries: entries.arrive),
    "say": say,
    "leave": made(lambda entries: entries.leave),
    "close": made(lambda entries: entries.close),
    "work": work,
    "job": made(lambda entries: entries.job),
    "dialed": made(lambda entries: entries.dialed),
    "undialed": made(lambda entries: entries.undialed),
    "halt": made(lambda entries: entries.halt),
    "take": take,
    "read": read,
    "hear": hear,
}


def told(events):
    if not any(event.name in TOLD for event in events):
        return []
    return ["at 0: " + " ".join(map(named, events))]


def named(event):
    further = dict(event.further)
    if event.name in ("CHANNEL_BRIDGE", "CHANNEL_UNBRIDGE"):
        return f"{event.name}({further['Bridge-Number']})"
    return f"{event.name}({further['Hangup-Cause']})" if event.name == "CHANNEL_HANGUP" else event.name


def heard(frame):
    headers, body = headers_of(frame), body_of(frame)
    if headers["Content-Type"] == "text/event-plain":
        told_of = headers_of(body)
        whom = told_of.get("Unique-ID") or told_of.get("Job-UUID")
        return [words(told_of["Event-Name"], told_of["Event-Sequence"], whom), *without_colon(body_of(body))]
    if headers["Content-Type"] == "command/reply":
        return [words(headers["Reply-Text"], headers.get("Job-UUID"))]
    return without_colon(body)


def words(*said):
    return " ".join(word for word in said if word)


def headers_of(text):
    head, _, _ = text.partition("\n\n")
    return dict(line.split(": ", 1) for line in head.split("\n") if ": " in line)


def body_of(frame):
    return frame.partition("\n\n")[2]


def without_colon(text):
    return [line for line in full_lines(text) if ":" not in line]


def full_lines(text):
    return [line for line in text.split("\n") if line]


def whole_lines(text):
    """A last line that does not end is told to be one."""
    *lines, last = text.split("\n")
    return [*lines, last, "(no line end)"] if last else lines
