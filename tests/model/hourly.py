"""Plays of calls whose extensions have times, on clocks that begin near the ends of hours, days, months and years."""

from dialplan import Action, Document, Extension
from hours import DAYS, FIELDS, REFUSED, names_of
from random_plays import ANSWER, PARK, Kind

# seconds at which a day, a month, a year, a leap day or the last year ends soon, or has just begun
BASES = (
    0, 86340, 82800, 32400, 205200, 2678340, 5097540, 31535940, 951782340, 951868740, 951868800, 4107542340,
    4102444740, 1709164740, 1709251140, 1830297540, 253369999980, 253370764740 - 86400 * 12,
)


def some_times(random, minute):
    """Up to three attributes, mostly such as hold about the minute, where there is one."""
    fields = random.sample(list(FIELDS), random.choice((1, 1, 2, 3)))
    return tuple((field, some_values(random, field, minute)) for field in fields)


def some_values(random, field, minute):
    return ",".join(some_range(random, field, minute) for _ in range(random.choice((1, 1, 2, 3))))


def some_range(random, field, minute):
    """A value or a range, which may go round the end."""
    least, greatest = FIELDS[field]
    names = names_of(minute) if minute is not None else None
    ends = [random.randint(least, greatest) for _ in range(2)]
    if names and random.random() < 0.7:
        ends[random.randrange(2)] = names[field] + random.choice((0, 0, 0, 1, -1))
    ends = [written_value(random, field, min(max(end, least), greatest)) for end in ends]
    return "-".join(ends[: random.choice((1, 2, 2))])


def written_value(random, field, value):
    """Days have names, too, and numbers may have zeros in front."""
    if field == "wday" and random.random() < 0.5:
        return DAYS[value - 1]
    return random.choice(("", "", "", "0", "00000000000")) + str(value)


def odd_time(random):
    """An attribute that a condition may not have, or with a text that it may not have."""
    odd = {
        "hour": ("24", "", "1-", "-1", "1-2-3", "1,,2", ",", "1 ", "1- 2", "x", "+1", "000000000000000000001", "sun"),
        "minute": ("60", "59-60", "1;2", "0x1"),
        "mon": ("0", "13", "jan", "0-3"),
        "mday": ("0", "32", "31-32", "1-0"),
        "wday": ("0", "8", "Sun", "sunday", "sun-", "sun-sat-mon", "sun,", "s", "7-8"),
    }
    fine = {"hour": "0-23", "minute": "59-0", "mon": "12-1", "mday": "31", "wday": "sat-sun", "Hour": "99"}
    field = random.choice([*odd, *REFUSED, *fine])
    return field, random.choice(odd[field]) if field in odd else fine.get(field, "1")


class Hourly(Kind):
    """Calls by the hour, and the clock that goes on between them."""

    fewest_commands = 8
    most_commands = 40

    def document(self):
        self.numbers = ["n1", "n2", "n3"]
        base, offset = self.one_of(*BASES), self.one_of(0, 0, 0, 1, -1, 59, 60, -60, 720, 1439, -1439)
        minute = base // 60 + offset
        made = [self.extension(minute) for _ in range(self.random.randint(4, 10))]
        made += [Extension(number, (Action("hangup", "USER_BUSY"),)) for number in self.numbers if self.chance(0.5)]
        made.append(Extension("again", (ANSWER, Action("sleep", self.pause()), Action("transfer", self.number()))))
        return Document({"default": made}, time_base=base, time_offset=offset)

    def extension(self, minute):
        """Now and then one without times, or one that is taken and has nothing to do."""
        times = some_times(self.random, minute) if self.chance(0.9) else ()
        otherwise = self.some(self.action, 1, 2) if self.chance(0.4) else ()
        actions = self.some(self.action, 1, 1, 2, 2, 3, 3, 0)
        return Extension(self.one_of(*self.numbers), tuple(actions), self.chance(0.3), times, tuple(otherwise))

    def action(self):
        return self.weighed(
            (3, lambda: Action("set", f"a=${{a}}{self.one_of('x', 'y', 'z')}", inline=self.chance(0.4))),
            (3, lambda: Action("log", "${a}")),
            (2, ANSWER),
            (1, PARK),
            (1, lambda: Action("sleep", self.pause())),
            (1, lambda: Action("transfer", self.number())),
            (1, lambda: Action("hangup", self.cause())),
            (1, lambda: Action("bridge", f"loopback/{self.number()}")),
        )

    def pause(self):
        return self.one_of("1000", "59999", "60000", "600000", "3599999", "3600000")

    def command(self, session):
        few = len(session.switch.live_channels()) < 6
        return self.weighed(
            (7 if few else 2, self.originate),
            (5, lambda: f"api msleep {self.pause()}"),
            (1, lambda: "\n\n".join(["api msleep 3600000"] * self.random.randint(2, 30))),
            (2, lambda: f"api uuid_transfer {self.channel(session)} {self.one_of('again', *self.numbers)}"),
            (0.5, lambda: f"api uuid_kill {self.channel(session)}"),
            (0.3, "api hupall"),
        )

    def originate(self):
        number = self.one_of("again", *self.numbers)
        target = self.one_of("&park()", "&park()", self.one_of(*self.numbers))
        return f"{self.one_of('api', 'bgapi')} originate loopback/{number} {target}"
