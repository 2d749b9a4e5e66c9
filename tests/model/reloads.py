"""Loads: how the file is read again, and what comes of it.

A job reads the file, in an entry whose cost has the bytes of the text. Where that is a document its contexts are
those that calls are hunted in from then on, and its globals are set over those that are there; where a limit of
these would be passed, nothing is changed. Settings stay, and so do the actions that channels have. Of a file that
is no document, or cannot be read, it is told what is wrong.
"""

from dataclasses import dataclass
from itertools import repeat

from dialplan import Document


@dataclass(frozen=True)
class Load:
    """What the file had: how many bytes, and a document, or else what is wrong with them."""

    length: int
    document: Document = None
    refusal: str = ""


def document_load(document):
    return Load(len(document.written()), document)


def refused_load(text, refusal):
    return Load(len(text), refusal=refusal)


NO_FILE = Load(0, refusal="cannot read")


def same_again(document):
    """The file has the same document whenever it is read."""
    yield from repeat(document_load(document))


@dataclass(frozen=True)
class Reload:
    """The task of a job that waits for a load."""

    def due(self, now):
        return now

    def work(self, switch, number):
        load = next(switch.loads)
        switch.journal.add_load(load.length)
        switch.end_job(number, outcome(switch, load))


def outcome(switch, load):
    if load.document is None:
        return f"-ERR {load.refusal}\n"
    changed = switch.globals.with_all(load.document.global_values)
    if changed is None:
        return "-ERR variable limit passed\n"
    switch.globals = changed
    switch.contexts = load.document.contexts
    return "+OK [Success]\n"
