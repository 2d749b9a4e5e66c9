"""Times at which conditions hold: what a minute is called, and the lists of values that an attribute has.

A minute is counted from the beginning of 1970, in universal time. It is the minute of the moment, and as many
more as the settings `time-base`, in seconds, and `time-offset`, in minutes, say. Before 1969-12-31 00:01 and
behind the year 9998 a minute has no name, and no time holds there.

An attribute has a comma list of values and of ranges, both of whose ends are meant. A range whose first value is
the greater goes round the end of the field. Values are read as all numbers are; days have names, too, and Sunday
is 1.
"""

from datetime import datetime, timedelta

from variables import read_number

FIELDS = {"hour": (0, 23), "minute": (0, 59), "mon": (1, 12), "mday": (1, 31), "wday": (1, 7)}
DAYS = ("sun", "mon", "tue", "wed", "thu", "fri", "sat")

# what a condition may have elsewhere and is refused here
REFUSED = ("year", "yday", "mweek", "week", "minute-of-day", "time-of-day", "date-time", "tz-offset", "dst")

FIRST_MINUTE, LAST_MINUTE = -1439, 4222846079
BEGINNING = datetime(1970, 1, 1)
MINUTE = 60000000


class Malformed(Exception):
    """An attribute has something else than a list of values and ranges."""


def minute_at(document, moment):
    return moment // MINUTE + int(document.time_base) // 60 + int(document.time_offset)


def names_of(minute):
    """The value of each field, or nothing where the minute has no name."""
    if not FIRST_MINUTE <= minute <= LAST_MINUTE:
        return None
    day = BEGINNING + timedelta(minutes=minute)
    weekday = day.isoweekday() % 7 + 1
    return {"hour": day.hour, "minute": day.minute, "mon": day.month, "mday": day.day, "wday": weekday}


def hold(times, minute):
    """Whether all of these attributes, with their texts, hold at the minute, which needs no name where there is none.

    An attribute that is not known is ignored, as everywhere.
    """
    known = [(field, text) for field, text in times if field in FIELDS]
    if not known:
        return True
    names = names_of(minute)
    return names is not None and all(names[field] in values(field, text) for field, text in known)


def values(field, text):
    """All values that the list of an attribute means."""
    return {value for part in text.split(",") for value in values_of_part(field, part)}


def values_of_part(field, part):
    least, greatest = FIELDS[field]
    first, *last = (read_value(field, end) for end in part.split("-"))
    if len(last) > 1:
        raise Malformed
    if not last:
        return [first]
    if first <= last[0]:
        return range(first, last[0] + 1)
    return [*range(first, greatest + 1), *range(least, last[0] + 1)]


def read_value(field, text):
    least, greatest = FIELDS[field]
    value = DAYS.index(text) + 1 if field == "wday" and text in DAYS else read_number(text)
    if value is None or not least <= value <= greatest:
        raise Malformed
    return value
