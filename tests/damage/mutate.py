"""Bytes that are damaged: some flipped, cut out, doubled, moved or put in, or the pieces of two joined."""

import re

WORDS = (
    b"<", b">", b"/>", b"</", b"<!--", b"-->", b"<?", b"]]>", b"&amp;", b"&#0;", b"&", b'"', b"'", b"=", b"$", b"${",
    b"$${", b"}", b"$1", b"(", b"|", b")", b"[", b"]", b"{", b"^^:", b"\\", b",", b"*", b"+?", b"{9,99}", b"(?i)",
    b"\\p{L}", b"\n", b"\r\n", b"\n\n", b"\0", b"\xff", b"\xc3\xa9", b" ", b"\t", b":", b"%0A", b"=_undef_",
    b"Content-Length: 4\n", b"content-length: 99999\n", b"api ", b"bgapi ", b"exit\n\n", b"auth ClueCon\n\n",
    b"event plain ALL\n\n", b"sendmsg 1\n", b"loopback/", b"error/", b"&park()", b' inline="true"', b' break="never"',
    b' regex="xor"', b' continue="true"', b"<condition>", b"</condition>", b"<section>", b"<document>", b"</document>",
)

NUMBERS = (
    b"0", b"1", b"-1", b"00", b"255", b"256", b"65535", b"65536", b"1048576", b"3600001", b"4294967296",
    b"18446744073709551615", b"18446744073709551616", b"99999999999999999999999",
)

# The longest piece that is doubled or moved.
PIECE = 400


def place(random, data):
    return random.randrange(len(data) + 1)


def piece(random, data):
    """Where a piece begins and ends, which is mostly short."""
    begin = place(random, data)
    return begin, min(len(data), begin + random.choice((1, 2, 4, 8, 30, 100, PIECE)))


def flipped(random, data):
    """A byte has a bit that is another one, or is another byte."""
    if not data:
        return data
    at = random.randrange(len(data))
    byte = data[at] ^ (1 << random.randrange(8)) if random.random() < 0.5 else random.randrange(256)
    return data[:at] + bytes((byte,)) + data[at + 1 :]


def cut(random, data):
    """A piece is left out."""
    begin, end = piece(random, data)
    return data[:begin] + data[end:]


def ended(random, data):
    """It ends early."""
    return data[: place(random, data)]


def doubled(random, data):
    """A piece stands twice, or often."""
    begin, end = piece(random, data)
    return data[:end] + data[begin:end] * random.choice((1, 1, 1, 2, 10)) + data[end:]


def moved(random, data):
    """A piece stands elsewhere."""
    begin, end = piece(random, data)
    rest = data[:begin] + data[end:]
    at = place(random, rest)
    return rest[:at] + data[begin:end] + rest[at:]


def filled(random, data):
    """A word stands there that means something, or some bytes that do not."""
    at = place(random, data)
    word = random.choice(WORDS) if random.random() < 0.8 else random.randbytes(random.choice((1, 2, 5)))
    return data[:at] + word + data[at:]


def numbered(random, data):
    """A number is another one."""
    numbers = list(re.finditer(rb"\d+", data))
    if not numbers:
        return filled(random, data)
    found = random.choice(numbers)
    return data[: found.start()] + random.choice(NUMBERS) + data[found.end() :]


WAYS = (flipped, flipped, cut, cut, ended, doubled, doubled, moved, filled, filled, numbered)


def damaged(random, data, other):
    """Data that is damaged in one to four ways; now and then it ends as another one does."""
    if random.random() < 0.1:
        data = data[: place(random, data)] + other[place(random, other) :]
    for _ in range(random.choice((1, 1, 1, 2, 2, 3, 4))):
        data = random.choice(WAYS)(random, data)
    return data
