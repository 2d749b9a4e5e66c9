"""The statuses that the program ends with, each with its line, as docs/reference/program.md tells."""

import re

KINDS = (
    b"TooLarge", b"Truncated", b"BadTag", b"BadAttribute", b"BadEntity", b"Nested", b"TextContent", b"TimeAttribute",
    b"ExpressionVariable", b"UnknownBreak", b"UnknownElement", b"BadSetting",
)

USAGE = b"usage: fsw check FILE | hunt FILE CONTEXT DEST | play FILE | load COUNT START | serve FILE"

WANT_OF_MEMORY = b"fsw: out of memory\n"

LINES = {
    0: b"",
    1: re.escape(WANT_OF_MEMORY),
    2: re.escape(USAGE) + b"\n",
    3: b"fsw: (" + b"|".join(KINDS) + rb") at \d+\n|fsw: pattern (refused|too large) in extension \d+ condition \d+\n",
    4: rb"fsw: cannot read [^\n]*\n|fsw: read fault\n",
    5: rb"fsw: write fault\n",
    7: rb"fsw: door fault\n",
    8: rb"fsw: journal full \d+ \d+\n",
    9: rb"fsw: runaway 100000\n",
    10: rb"fsw: block too long \d+\n|fsw: bad length\n",
}


def is_told(status, line):
    """Whether the program may end with this status, and this line on its error output."""
    return status in LINES and re.fullmatch(LINES[status], line) is not None
