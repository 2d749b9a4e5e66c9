"""Plays whose blocks are written in every way, and whole inputs with odd words and odd bytes in them."""

import api
from blocks import LONGEST_BLOCK
from commands import COMMANDS
from dialplan import USUAL_PASSWORD
from limits import Limits
from random_plays import ODD_NUMBERS
from tables import CAUSES, EVENTS


class Blocks(Limits):
    """Calls, by commands whose blocks have odd line ends, empty lines in front, headers and bodies."""

    HEADERS = (
        "X: y", "X:", ":", ": v", " ", "\t", "x:y:z", "no colon", "api echo no", "\x00:\xff", "Job-UUID: q",
    )
    LENGTH_NAMES = ("content-length", "CONTENT-LENGTH", "cOnTeNt-LeNgTh")
    NO_LENGTH_NAMES = (
        "Content-Length ", " Content-Length", "Content_Length", "Content-Lengt", "\r\rContent-Length",
        "\xc3ontent-Length",
    )
    BAD_LENGTHS = (
        "", "-0", "+1", "0x1", "1.0", "1 2", "1,", "'1'", "\xb2", "1\x00", "\xa01", "\x0b1", "10000000000",
        "00000000000",
    )

    faults = 0.004

    def block(self, line):
        """A block as it may be written. Of a few the head ends elsewhere, or the length is bad."""
        if self.chance(self.faults):
            return self.long_block(line)
        ends = self.weighed((9, ("\n",)), (9, ("\r\n",)), (4, ("\n", "\r\n")), (0.3, ("\n", "\r\r\n")))
        body = self.body() if self.chance(0.4) else ""
        headers = self.some(self.header, 0, 0, 0, 1, 3)
        if body or self.chance(0.2):
            headers.insert(self.random.randint(0, len(headers)), self.length_header(len(body)))
        empty = [""] * self.one_of(0, 0, 0, 1, 2, 5)
        return "".join(text + self.one_of(*ends) for text in (*empty, line, *headers, "")) + body

    def body(self):
        count = self.one_of(1, 2, 7, 20, 300)
        filling = self.one_of("b", "\n", "\r\n", "api echo no\n\n", self.any_bytes(5))
        return (filling * count)[:count]

    def any_bytes(self, count):
        return "".join(chr(self.random.randrange(256)) for _ in range(count))

    def header(self):
        return self.weighed(
            (12, lambda: self.one_of(*self.HEADERS)),
            (3, lambda: f"{self.one_of(*self.NO_LENGTH_NAMES)}: {self.one_of(*self.BAD_LENGTHS)}"),
            (self.faults * 12, lambda: f"Content-Length:{self.one_of(*self.BAD_LENGTHS)}"),
        )

    def length_header(self, count):
        """A further header of the name has no effect behind it."""
        name = self.one_of("Content-Length", *self.LENGTH_NAMES)
        before, behind = (self.one_of("", " ", "\t", "  ", " \r\t") for _ in range(2))
        header = f"{name}:{before}{str(count).zfill(self.one_of(0, 0, 3, 10))}{behind}"
        return header + "\n" + self.one_of(*self.LENGTH_NAMES) + ": x" if self.chance(0.2) else header

    def long_block(self, line):
        """A block near the largest length."""
        length = LONGEST_BLOCK + self.one_of(-1, 0, 0, 1, 2)
        return self.weighed(
            (2, lambda: self.long_head(line, length)),
            (1, lambda: self.long_body(f"{line}\nContent-Length: 00000", length)),
        )

    def long_head(self, line, length):
        """It is long by its empty lines, its line, a header or its headers."""
        before, filling, behind = self.one_of(
            ("", self.one_of("\n", "\r\n"), line + "\n\n"),
            (line + " ", "y", self.one_of("\n\n", "\r\n\r\n")),
            (line + "\nX:", "z", "\n\n"),
            (line + "\nContent-Length:", " ", "0\n\n"),
            (line, "\nA: b", "\n\n"),
        )
        room = length - len(before) - len(behind)
        return before + (filling * room)[:room] + behind

    def long_body(self, head, length):
        """The body is there, or all but its last byte, or nothing of it."""
        count = length - len(head) - 7
        return f"{head}{count:05}\n\n" + "w" * self.one_of(count, count - 1, 0)


class Streams(Blocks):
    """Whole inputs: commands with odd words, before the password too, odd bytes, and faults in the blocks."""

    PASSWORDS = ("secret", "two words", " lead", "trail ", "p" * 256, "\xff\x01\t", "x\r", "\r")
    UNKNOWN = (
        "nosuch", "Api echo x", "API echo x", " api echo x", "\tapi", "apix", "exitt", "Exit", ":", "\x00",
        " ", "\r", "Content-Length: 5", "bgapix", "sendmsg", "sendmsg x", "connect x", "Noevents",
    )
    UNKNOWN_API = ("", "Echo hi", "\techo x", "'echo' x", "status", "uuid_dumps")
    EVENT_WORDS = (
        *EVENTS, "ALL", "CUSTOM", "all", "custom", "plain", "xml", "json", "CHANNEL", "channel_create",
        "fifo::info", "CHANNEL_CREATE,CHANNEL_STATE", "CHANNEL_HANGUP\t",
    )
    FILTER_WORDS = (
        "Event-Name", "Unique-ID", "H", "h", "delete", "Delete", "CHANNEL_CREATE", "v", "a b", " v ", "",
    )

    faults = 0.015

    def __init__(self, seed):
        super().__init__(seed)
        self.password = self.weighed((3, USUAL_PASSWORD), (1, lambda: self.one_of(*self.PASSWORDS)))

    def document(self):
        document = super().document()
        document.password = self.password
        if self.chance(0.5):
            document.global_values = {"g": "echo 1234567890", "a b": " two  words ", "line": "p\nq\r\n"}
        return document

    def pieces(self, session):
        """All is one piece, so that no command waits for the one before it."""
        yield self.damaged("".join(super().pieces(session)))

    def damaged(self, text):
        """A few bytes are changed, taken out or put in, or the end is missing."""
        for _ in range(self.one_of(0, 0, 0, 1, 2, 8)):
            place = self.random.randint(0, len(text))
            put = self.one_of("", "\n", "\r", "\n\n", " ", ":", "\x00", lambda: self.any_bytes(1))
            text = text[:place] + put + text[place + self.one_of(0, 1) :]
        return text[: self.random.randint(0, len(text))] if self.chance(0.2) else text

    def first_commands(self):
        auth = "auth " + self.password
        wrong = ("auth", "auth x", "auth  " + self.password, auth + " ", "auth cluecon", "exit x")
        before = self.some(self.odd_command, 0, 0, 0, 1, 3)
        if self.chance(0.1):
            before.append(self.one_of(*wrong))
        return [*before, self.one_of("Auth x", auth), auth, "event plain ALL"]

    def command(self, session):
        usual = super().command
        return self.weighed((1, lambda: usual(session)), (2, self.odd_command))

    def odd_command(self):
        return self.weighed(
            (10, self.odd_api_command),
            (3, lambda: self.spaced(self.one_of("event", "nixevent"), *self.some_of(self.EVENT_WORDS))),
            (3, lambda: self.spaced("filter", *self.some_of(self.FILTER_WORDS))),
            (2, lambda: self.one_of(*self.UNKNOWN)),
            (1, lambda: self.one_of(*COMMANDS) + self.one_of("", " ", "\t", " x")),
            (0.5, lambda: "exit" + self.one_of("", " ", "\t", " x")),
            (1, lambda: self.any_bytes(12)),
        )

    def odd_api_command(self):
        name = self.one_of(*api.COMMANDS, *api.COMMANDS, *self.UNKNOWN_API)
        expanded = ["expand"] if self.chance(0.1) else []
        return self.spaced("api", *expanded, name, *self.some(self.odd_word, 0, 1, 2, 2, 3, 4, 7))

    def some_of(self, words):
        return self.some(lambda: self.one_of(*words, lambda: self.any_bytes(4)), 0, 1, 2, 3, 4)

    def spaced(self, *words):
        """Words with mostly one space between them, and now and then a blank behind the last."""
        between = ((30, " "), (3, "  "), (1, "\t"), (1, ""))
        return "".join(word + self.weighed(*between) for word in words).removesuffix(" ")

    def odd_word(self):
        return self.weighed(
            (2, lambda: self.one_of("-both", "'a b'", "''", "'", "&park()", "&", "-", "XML", "default")),
            (2, lambda: self.one_of("g=1", "=1", "=", "g", "g==", "a\xff=\x00", "a=_undef_", "g=${g}")),
            (2, lambda: self.one_of("${g}", "${g:5}", "${g:-3:2}", "${a b}", "${line}", "\\${g}", "${")),
            (2, lambda: self.one_of("error/USER_BUSY", "error/x|sofia/x", "loopback/e1", "{a=1", "[a]")),
            (1, lambda: self.one_of(*CAUSES)),
            (1, lambda: self.one_of(*ODD_NUMBERS)),
            (1, lambda: self.one_of(*"w'&-") + "w" * self.one_of(254, 255, 256, 257)),
            (1, lambda: self.any_bytes(5)),
        )
