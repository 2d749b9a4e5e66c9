#!/usr/bin/env python3
"""What the parts of a value are, worked out byte by byte.

A reference `${x:offset:length}` asks for a part of the value of x. This prints, for offsets and lengths of every sign and size,
what it gives where x is 1234567890: the cases of a group in crates/cases/stdout, with their answers. It knows nothing of the
code: it asks of each byte of the value by itself whether it belongs to the part.

    python3 tests/part_cases.py            prints the cases and answers
    python3 tests/part_cases.py --check    says whether the group has just these
"""

import pathlib
import sys

VALUE = "1234567890"
OFFSETS = ["0", "-0", "1", "4", "9", "10", "11", "000000003", "999999999", "-1", "-4", "-9", "-10", "-11", "-999999999"]
LENGTHS = [None, "0", "-0", "1", "2", "10", "-3", "999999999"]
ANSWERS = pathlib.Path(__file__).parent.parent / "crates/cases/stdout"
GROUP = "# Parts of a value, for offsets and lengths of every sign and size."


def belongs(place, offset, length):
    """Whether the byte at a place, counted from 0, belongs to the part."""
    # a minus in front of something counts from the end; minus nothing is nothing
    first = len(VALUE) + offset if offset < 0 else offset
    if place < first:
        return False
    # no length, a length of 0 or less, and one past the end all mean to the end; clamped to the start, a part counts from there
    if length is None or length <= 0:
        return True
    return place < max(first, 0) + length


def part(offset, length):
    return "".join(byte for place, byte in enumerate(VALUE) if belongs(place, int(offset), None if length is None else int(length)))


def rows():
    for offset in OFFSETS:
        for length in LENGTHS:
            asked = offset if length is None else f"{offset}:{length}"
            yield f"vars expand ${{x:{asked}}}"
            yield f"  {part(offset, length)}"


def group():
    """The cases of the group with their answers, behind the lines that set the value."""
    behind = ANSWERS.read_text().partition(f"{GROUP}\n")[2]
    lines = behind.partition("\n\n")[0].splitlines()
    first = next((n for n, line in enumerate(lines) if line.startswith("vars expand ")), len(lines))
    return lines[first:]


if __name__ == "__main__":
    if sys.argv[1:] == ["--check"]:
        sys.exit(0 if group() == list(rows()) else "the group has other cases or answers")
    print("\n".join(rows()))
