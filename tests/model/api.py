"""The api commands: how each is written, and what it answers.

A command answers a text, or None where its answer is owed by a job.
"""

import re
from dataclasses import dataclass
from functools import partial
from typing import Callable

import bridges
from applications import is_route, may_be_routed, transfer
from dialing import DialFault, read_dial_string
from dialplan import Action
from frames import header_lines, variable_headers
from hangups import by_slot, hang_up, leave
from jobs import MOST_JOBS, Dial, Job, Sleep
from originations import SECOND, USUAL_SECONDS, Order, Route, originate
from reloads import Reload
from tables import State, cause_or, words_of
from variables import LONGEST_NAME, ExpansionTooLong, expand, read_milliseconds, read_seconds, split_pair


class WrongUsage(Exception):
    """A needed word is missing, or a word is out of its range."""


class Refused(Exception):
    """The answer is an error with this text."""


@dataclass(frozen=True)
class Command:
    usage: str
    run: Callable
    takes_text: bool = False


COMMANDS = {}

# what the program does not know yet
COMING = {}


def command(name, usage="", takes_text=False, commands=COMMANDS):
    """Makes a function the api command of this name, with the words behind the name or the whole text."""

    def register(run):
        commands[name] = Command(usage, run, takes_text)
        return run

    return register


def known(switch, name):
    """The command of this name. What is still to come is known to some switches alone."""
    coming = COMING if switch.coming else {}
    return COMMANDS.get(name) or coming.get(name)


def answer(switch, text):
    """What the api command answers that this text is."""
    name, rest = first_word(text)
    asked = known(switch, name)
    if asked is None:
        return f"-ERR {name} Command not found!\n"
    try:
        return asked.run(switch, rest if asked.takes_text else words_of(rest))
    except WrongUsage:
        return f"-USAGE: {asked.usage}\n"
    except Refused as refusal:
        return f"-ERR {refusal}\n"


@dataclass(frozen=True)
class Run:
    """The task of a job that is to run an api command. The command may go on in the same job."""

    text: str

    def due(self, now):
        return now

    def work(self, switch, number):
        job = switch.jobs[number]
        switch.job_in_hand = number
        said = answer(switch, self.text)
        switch.job_in_hand = None
        if said is not None:
            switch.jobs.pop(number, None)
            switch.give_answer(job, said)


def headers_of_job(name, text):
    """By these an event tells of a job that ran the text."""
    command, behind = first_word(text)
    return ("Job-UUID", name), ("Job-Command", command), ("Job-Command-Arg", behind.lstrip(" "))


def run_in_background(switch, text, name):
    """A job of this name runs the text as an api command."""
    number = switch.begin_job(headers_of_job(name, text))
    switch.jobs[number].task = Run(text)


def first_word(text):
    """The first word of a text, and all that stands behind it."""
    name = (words_of(text) or [""])[0]
    return name, text.lstrip(" ")[len(name) :]


def need(words, least):
    if len(words) < least:
        raise WrongUsage
    return words


def need_job(switch):
    """A command that a job runs goes on in that job."""
    if switch.job_in_hand is None and len(switch.jobs) == MOST_JOBS:
        raise Refused("too many jobs")


def begin_task(switch, make_task):
    """The command goes on in the job that runs it, or else in a new one."""
    number = switch.job_in_hand or switch.begin_job()
    switch.jobs[number].task = make_task(number)


def find(switch, name):
    channel = switch.find(name)
    if channel is None:
        raise Refused("No such channel!")
    return channel


def find_ready(switch, name):
    channel = find(switch, name)
    if not channel.ready():
        raise Refused("Channel not ready!")
    return channel


@command("echo", takes_text=True)
def echo(_switch, text):
    return text.lstrip(" ")


@command("expand", "[uuid:U ]text*", takes_text=True)
def expand_and_run(switch, text):
    """What the text comes to is run as an api command. It is no expand again."""
    text, identifier = text.lstrip(" "), None
    if text.startswith("uuid:") and " " in text:
        identifier, _, text = text.removeprefix("uuid:").partition(" ")
        text = text.lstrip(" ")
    if text == "":
        raise WrongUsage
    if identifier is None:
        look_up = partial(switch.globals.get, default="")
    else:
        look_up = switch.scope(find(switch, identifier))
    try:
        expanded = expand(text, look_up)
    except ExpansionTooLong:
        raise Refused("too long") from None
    if words_of(expanded)[:1] == ["expand"]:
        raise Refused("expand Command not found!")
    return answer(switch, expanded)


@command("create_uuid")
def create_uuid(switch, _words):
    return switch.draw_identifier()


@command("global_getvar")
def global_getvar(switch, words):
    if words:
        return switch.globals.get(words[0], "")
    return "".join(f"{name}={value}\n" for name, value in switch.globals.values.items())


@command("global_setvar", "<name>=<value>")
def global_setvar(switch, words):
    if not switch.globals.set(*split_pair(need(words, 1)[0])):
        raise Refused("variable limit passed")
    return "+OK\n"


@command("msleep", "<milliseconds>")
def msleep(switch, words):
    milliseconds = read_milliseconds(need(words, 1)[0])
    if milliseconds is None:
        raise WrongUsage
    need_job(switch)
    begin_task(switch, lambda _: Sleep(switch.now + milliseconds * 1000))


@command("hupall")
def hupall(switch, words):
    """All live channels are hung up in one hangup, each of the one cause."""
    cause = cause_or("NORMAL_CLEARING" if words else "MANAGER_REQUEST", words)
    hang_up(switch, dict.fromkeys(switch.live_channels(), cause))
    return f"+OK hangup all channels with cause {cause}\n"


@command("uuid_exists", "<uuid>")
def uuid_exists(switch, words):
    return "true" if switch.find(need(words, 1)[0]) else "false"


@command("uuid_getvar", "<uuid> <name>")
def uuid_getvar(switch, words):
    identifier, name = need(words, 2)[:2]
    return find(switch, identifier).variables.get(name, "_undef_")


@command("uuid_setvar", "<uuid> <name> [value*]", takes_text=True)
def uuid_setvar(switch, text):
    """The value is the rest of the line."""
    identifier, name = need(words_of(text), 2)[:2]
    _, behind = first_word(text)
    _, value = first_word(behind)
    if not find(switch, identifier).variables.set(name, value.lstrip(" ")):
        raise Refused("variable limit passed")
    return "+OK\n"


@command("uuid_dump", "<uuid>")
def uuid_dump(switch, words):
    channel = find(switch, need(words, 1)[0])
    return header_lines([*channel.headers(), *variable_headers(channel)])


@command("uuid_kill", "<uuid> [cause]")
def uuid_kill(switch, words):
    channel = find(switch, need(words, 1)[0])
    hang_up(switch, {channel: cause_or("NORMAL_CLEARING", words[1:])})
    return "+OK\n"


@command("uuid_park", "<uuid>")
def uuid_park(switch, words):
    channel = find_ready(switch, need(words, 1)[0])
    leave(switch, [channel])
    if channel.live():
        switch.park(channel)
    return "+OK\n"


SIDES = ("-both", "-bleg")


@command("uuid_transfer", "<uuid> [-both|-bleg] <exten> [dialplan] [context]")
def uuid_transfer(switch, words):
    """`-both` routes the channel and its peer, `-bleg` its peer alone. Behind one of them stands any extension."""
    identifier, *words = need(words, 2)
    side = words.pop(0) if words[0] in SIDES else None
    route = words[:3]
    if not (is_route(route) if side else may_be_routed(route)):
        raise WrongUsage
    channel = find_ready(switch, identifier)
    if side and channel.peer is None:
        raise Refused("Channel not bridged!")
    moved = {None: [channel], "-both": [channel, channel.peer], "-bleg": [channel.peer]}
    transfer(switch, moved[side], route)
    return "+OK\n"


@command("uuid_bridge", "<uuid> <other_uuid>")
def uuid_bridge(switch, words):
    """Both leave what they were in, bridges too. Where one died of that, the other one stays as it is then."""
    caller, other = bridgeable(switch, *need(words, 2)[:2])
    leave(switch, [caller, other])
    if not caller.live() or not other.live():
        raise Refused("No such channel!")
    bridges.join(switch, caller, other, bridges.Kind.JOINED)
    for channel in by_slot([caller, other]):
        switch.enter(channel, State.CS_EXCHANGE_MEDIA)
    return f"+OK {other.identifier}\n"


def bridgeable(switch, *identifiers):
    """The two channels, unless something stands in the way of joining them."""
    both = [find(switch, identifier) for identifier in identifiers]
    if both[0] is both[1]:
        raise Refused("Same channel!")
    if not all(channel.ready() for channel in both):
        raise Refused("Channel not ready!")
    if not all(channel.answered for channel in both):
        raise Refused("Channel not answered!")
    return both


@command("fsctl", "shutdown")
def fsctl(switch, words):
    """The one word `shutdown` is known."""
    if words != ["shutdown"]:
        raise WrongUsage
    switch.shut_down()
    return "+OK\n"


@dataclass(frozen=True)
class HangUp:
    """A task hangs up the live channel whose identifier its group is then, if there is one."""

    cause: str

    def do(self, switch, group):
        channel = switch.find(group)
        if channel:
            hang_up(switch, {channel: self.cause})


@dataclass(frozen=True)
class RunLater:
    """A task has a command run by a job in the background, whose name is drawn then."""

    text: str

    def do(self, switch, _group):
        name = switch.draw_identifier()
        if len(switch.jobs) == MOST_JOBS:
            switch.give_answer(Job(headers_of_job(name, self.text)), "-ERR too many jobs\n")
        else:
            run_in_background(switch, self.text, name)


def read_moment(switch, text):
    """`+S` is S seconds from now; S alone is so much less the time base, and not before the beginning."""
    found = re.fullmatch(r"(\+?)([0-9]{1,10})", text)
    if found is None:
        raise WrongUsage
    seconds = int(found.group(2))
    if found.group(1):
        return switch.now + seconds * SECOND
    return max(0, seconds - switch.document.time_base) * SECOND


def add_task(switch, moment, group, what):
    number = switch.tasks.add(moment, group, what)
    if number is None:
        raise Refused("too many tasks")
    return number


@command("sched_hangup", "[+]<time> <uuid> [cause]", commands=COMING)
def sched_hangup(switch, words):
    time, identifier, *rest = need(words, 2)
    moment = read_moment(switch, time)
    channel = find(switch, identifier)
    cause = cause_or("NORMAL_CLEARING" if rest else "ALLOTTED_TIMEOUT", rest)
    add_task(switch, moment, channel.identifier, HangUp(cause))
    return "+OK\n"


@command("sched_api", "[+]<time> <group> <command*>", takes_text=True, commands=COMING)
def sched_api(switch, text):
    """The command is the rest of the line."""
    time, group, *_ = need(words_of(text), 3)
    moment = read_moment(switch, time)
    _, behind = first_word(text)
    _, behind = first_word(behind)
    number = add_task(switch, moment, group, RunLater(behind.lstrip(" ")))
    return f"+OK Added: {number}\n"


@command("sched_del", "<group|number>", commands=COMING)
def sched_del(switch, words):
    return f"+OK Deleted: {switch.tasks.delete(need(words, 1)[0])}\n"


@command("reloadxml")
def reloadxml(switch, _words):
    """The file is read again by a job, where there is room for that in the journal."""
    need_job(switch)
    if not switch.journal.has_room_for_load():
        raise Refused("journal limit")
    begin_task(switch, lambda _: Reload())


@command("limit_usage", "hash <realm> <id>", commands=COMING)
def limit_usage(switch, words):
    backend, realm, name = need(words, 3)[:3]
    if backend != "hash":
        raise WrongUsage
    return str(len(switch.holds.of(realm, name)))


USAGE_OF_ORIGINATE = "<call url> <exten>|&<app>(<args>) [dialplan] [context] [cid_name] [cid_num] [timeout]"


@command("originate", USAGE_OF_ORIGINATE, takes_text=True)
def originate_by_command(switch, text):
    url, target, *rest = need(quoted_words(text), 2)
    defaults = ["XML", "default", "", "", ""]
    words = [target, *rest[:5], *defaults[len(rest) :]]
    target, dialplan, context, name, number, seconds = map(without_quotes, words)
    then = what_follows(target, dialplan, context)
    need_job(switch)
    try:
        dial_string = read_dial_string(url)
    except DialFault:
        raise Refused("INVALID_NUMBER_FORMAT") from None
    told = read_seconds(seconds) or read_seconds(dial_string.brace("originate_timeout")) or USUAL_SECONDS

    def dial(job):
        return Dial(originate(switch, Order(job, name, number, then), dial_string, told))

    begin_task(switch, dial)


def quoted_words(text):
    """Words are separated by spaces outside of single quotes. A quote that is not closed runs to the end."""
    return re.findall("(?:'[^']*'?|[^ '])+", text)


def without_quotes(word):
    """A word that is in quotes as a whole loses them."""
    return re.sub("^'([^']*)'$", r"\1", word)


def what_follows(target, dialplan, context):
    """An application that the leg runs, or where it is routed. Arguments go up to the last `)`."""
    measured = [dialplan, context] if target.startswith("&") else [target, dialplan, context]
    if max(map(len, measured)) > LONGEST_NAME:
        raise WrongUsage
    if not target.startswith("&"):
        return Route(target, dialplan, context)
    application, _, arguments = target[1:].partition("(")
    before, closing, _ = arguments.rpartition(")")
    return Action(application, before if closing else arguments)
