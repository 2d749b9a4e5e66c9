"""Dial strings, and the faults that one may have."""

import re
from dataclasses import dataclass
from enum import Enum

MOST_LEGS = 64


class Fault(Enum):
    NOTHING = "the text is empty"
    UNCLOSED = "nothing ends the bracket"
    BAD_PAIR = "a pair is empty, or has no = or no name"
    EMPTY_LEG = "a leg has no endpoint"
    TOO_MANY = "there is a 65th leg"


class DialFault(Exception):
    """The first fault from the left, with the count of bytes before it."""

    def __init__(self, fault, place):
        super().__init__(f"{fault.value} at {place}")
        self.fault = fault
        self.place = place


@dataclass(frozen=True)
class DialledLeg:
    endpoint: str
    pairs: tuple


@dataclass(frozen=True)
class DialString:
    """The pairs of the braces, and the groups of legs that are tried one after another."""

    braces: tuple
    groups: tuple

    def brace(self, name):
        """The value of the last pair of this name in the braces."""
        return dict(self.braces).get(name)


def read_dial_string(text):
    if text == "":
        raise DialFault(Fault.NOTHING, 0)
    braces, place = read_brackets(text, 0, "{", "}")
    groups = [[]]
    while True:
        pairs, place = read_brackets(text, place, "[", "]")
        end = end_of_endpoint(text, place)
        if sum(map(len, groups)) == MOST_LEGS:
            raise DialFault(Fault.TOO_MANY, place)
        groups[-1].append(DialledLeg(text[place:end], pairs))
        if end == len(text):
            return DialString(braces, tuple(map(tuple, groups)))
        if text[end] == "|":
            groups.append([])
        place = end + 1


def end_of_endpoint(text, place):
    """An endpoint goes up to the next comma or bar, and is not empty."""
    end = re.compile("[^,|]*").match(text, place).end()
    if end == place:
        raise DialFault(Fault.EMPTY_LEG, place)
    return end


def read_brackets(text, place, opening, closing):
    """The pairs of all brackets that stand there one behind another, and the place behind them."""
    pairs = []
    while text.startswith(opening, place):
        more, place = read_bracket(text, place, closing)
        pairs += more
    return tuple(pairs), place


def read_bracket(text, opening, closing):
    """The pairs of one bracket, and the place behind it. That it has no end is told before its pairs."""
    separator, place = read_separator(text, opening + 1, closing)
    protected = protection(separator)
    begins = [place]
    while place < len(text) and text[place] != closing:
        run = protected.match(text, place)
        if run is None and text[place] == separator:
            begins.append(place + 1)
        place = run.end() if run else place + 1
    if place >= len(text):
        raise DialFault(Fault.UNCLOSED, opening)
    if begins == [place]:
        return [], place + 1
    ends = [begin - 1 for begin in begins[1:]] + [place]
    return [read_pair(text, begin, end, protected) for begin, end in zip(begins, ends)], place + 1


def read_separator(text, place, closing):
    """What separates pairs, and where they begin. Where it is a quote or a backslash nothing separates."""
    chosen = text[place + 2 : place + 3]
    if not text.startswith("^^", place) or chosen in ("", closing):
        return ",", place
    return "" if chosen in "'\\" else chosen, place + 3


def protection(separator):
    """What quotes protect, or a backslash: the separator, a quote, a bracket's end or a backslash."""
    return re.compile(rf"'([^']*)'?|\\([{re.escape(separator)}'\]}}\\])")


def read_pair(text, begin, end, protected):
    """A name that is not empty and taken as it is written, and a value without what protects it."""
    name, equals, value = text[begin:end].partition("=")
    if name == "" or equals == "":
        raise DialFault(Fault.BAD_PAIR, begin)
    return name, protected.sub(r"\1\2", value)
