"""Variables with their limits, the numbers that are read of them, and the expansion of texts.

A text has one character for each byte, as latin-1 reads it.
"""

import re
from dataclasses import dataclass

LONGEST_NAME = 256
LONGEST_VALUE = 16384
LONGEST_EXPANSION = 65536
LONGEST_WAIT = 3600

REFERENCE = re.compile(r"\\\$|\$\{([^}]*)\}")
PART = re.compile(r"([^:]*):(-?[0-9]{1,9})(?::(-?[0-9]{1,9}))?", re.DOTALL)


class ExpansionTooLong(Exception):
    """An expanded text would have over 65,536 bytes."""


@dataclass(frozen=True)
class Limits:
    """How many variables there may be, and how many bytes all names and values may have together."""

    most: int
    most_bytes: int
    uncounted: tuple = ()


# the switch itself sets four variables of a channel, which count to no sum
SET_BY_SWITCH = ("originate_disposition", "signal_bond", "bridge_hangup_cause", "hangup_cause")
OF_CHANNELS = Limits(512, 32768, SET_BY_SWITCH)
OF_GLOBALS = Limits(1024, 262144)


class Variables:
    """Names with their values, in the order in which they were first set."""

    def __init__(self, limits, values=()):
        self.limits = limits
        self.values = dict(values)

    def copy(self):
        return Variables(self.limits, self.values)

    def get(self, name, default=None):
        return self.values.get(name, default)

    def set(self, name, value):
        """Sets it and says whether the limits let it through. An empty value and `_undef_` remove it."""
        if name == "":
            return False
        if value in ("", "_undef_"):
            self.unset(name)
            return True
        if not self._within_limits(name, value):
            return False
        self.values[name] = value
        return True

    def unset(self, name):
        self.values.pop(name, None)

    def export(self, name, value):
        """Sets it and lists its name once among the exports. Where either is refused nothing changes."""
        changed = self.copy()
        if not changed.set(name, value):
            return
        listed = changed.exports()
        if name not in listed and not changed.set("export_vars", ",".join(listed + [name])):
            return
        self.values = changed.values

    def exports(self):
        """The names that `export_vars` lists, as they stand between the commas."""
        return self.values["export_vars"].split(",") if "export_vars" in self.values else []

    def with_all(self, values):
        """These and the ones that are set over them, or nothing where a limit would be passed in the end."""
        changed = self.copy()
        changed.values |= values
        return changed if all(changed._within_limits(*pair) for pair in values.items()) else None

    def _within_limits(self, name, value):
        """Counted are the variables as they would be afterwards."""
        if len(name) > LONGEST_NAME or len(value) > LONGEST_VALUE:
            return False
        if name in self.limits.uncounted:
            return True
        counted = {other: text for other, text in self.values.items() if other not in self.limits.uncounted}
        counted[name] = value
        total = sum(len(other) + len(text) for other, text in counted.items())
        return len(counted) <= self.limits.most and total <= self.limits.most_bytes


def split_pair(text):
    """`NAME=VALUE` is split at its first `=`. Without one the value is empty."""
    name, _, value = text.partition("=")
    return name, value


def read_number(text):
    """A number has 1 to 20 digits and is below 2^64. Anything else is none."""
    if text is None or not re.fullmatch("[0-9]{1,20}", text):
        return None
    return int(text) if int(text) < 2**64 else None


def read_seconds(text):
    """A time is 1 to 3,600 seconds. Anything else is none."""
    number = read_number(text)
    return number if number is not None and 1 <= number <= LONGEST_WAIT else None


def read_milliseconds(text):
    """A wait is at most 3,600,000 milliseconds. Anything else is none."""
    number = read_number(text)
    return number if number is not None and number <= LONGEST_WAIT * 1000 else None


def expand(text, look_up):
    """The text with its references replaced. What a reference gives is not expanded again."""
    expanded = REFERENCE.sub(lambda found: referred(found, look_up), text)
    if len(expanded) > LONGEST_EXPANSION:
        raise ExpansionTooLong
    return expanded


def referred(found, look_up):
    """What one reference, or an escaped dollar sign, becomes."""
    name = found.group(1)
    if name is None:
        return "$"
    if "(" in name or "$" in name:
        return found.group()
    asked = PART.fullmatch(name)
    if asked is None:
        return look_up(name)
    return part(look_up(asked.group(1)), int(asked.group(2)), int(asked.group(3) or 0))


def part(value, offset, length):
    """A negative offset counts from the end. A length of 0 or less means up to the end."""
    first = max(0, len(value) + offset) if offset < 0 else offset
    rest = value[first:]
    return rest[:length] if length > 0 else rest
