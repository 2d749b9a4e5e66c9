"""How the bytes that a client sends are cut into blocks."""

import re
from dataclasses import dataclass

LONGEST_BLOCK = 65536

BLANKS = " \t\r"
EMPTY_LINE = r"\r?\n"
HEAD = re.compile(rf"(?:{EMPTY_LINE})*((?:(?!{EMPTY_LINE})[^\n]*\n)+){EMPTY_LINE}")


class BlockFault(Exception):
    """A block is too long, or says no proper length. Nothing is looked for behind it."""


@dataclass(frozen=True)
class Block:
    """The command, its header lines, its body, and how many bytes all of the block has."""

    line: str
    header_lines: tuple
    body: str
    length: int

    @property
    def rest(self):
        """The line behind the first space."""
        return self.line.partition(" ")[2]

    def header(self, name):
        """The value of the first header of this name, which is compared without case."""
        return first_header(self.header_lines, name)


class Stream:
    """What was sent and is not cut yet. A rest that is no whole block is dropped at the end of the input."""

    def __init__(self):
        self.rest = ""

    def feed(self, text):
        self.rest += text

    def next_block(self):
        """The block in front, or nothing where it is not whole yet."""
        block = self.block_in_front()
        if block is None or block.length > len(self.rest):
            return None
        self.rest = self.rest[block.length :]
        return block

    def block_in_front(self):
        """The block as soon as its head is there: that it is too long is told before its body is there."""
        head = HEAD.match(self.rest[:LONGEST_BLOCK])
        if head is None and len(self.rest) > LONGEST_BLOCK:
            raise BlockFault(f"block too long {LONGEST_BLOCK + 1}")
        if head is None:
            return None
        line, *header_lines = lines_of(head.group(1))
        length = head.end() + body_length(header_lines)
        if length > LONGEST_BLOCK:
            raise BlockFault(f"block too long {length}")
        return Block(line, tuple(header_lines), self.rest[head.end() : length], length)


def lines_of(text):
    """A line ends with LF. One CR before it is no part of the line."""
    return [line.removesuffix("\r") for line in text.split("\n")[:-1]]


def body_length(header_lines):
    """The first `Content-Length` counts, which is 1 to 10 digits. Without one there is no body."""
    length = first_header(header_lines, "Content-Length", "0")
    if not re.fullmatch("[0-9]{1,10}", length):
        raise BlockFault("bad length")
    return int(length)


def first_header(lines, name, default=None):
    named = (value for other, value in headers_of(lines) if other.lower() == name.lower())
    return next(named, default)


def headers_of(lines):
    """A header is split at its first colon, without the blanks round its value. Other lines are ignored."""
    for line in lines:
        name, colon, value = line.partition(":")
        if colon:
            yield name, value.strip(BLANKS)
