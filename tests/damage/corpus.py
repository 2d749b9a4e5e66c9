"""What is damaged: documents and inputs of the examples, of cases, and of the model's plays."""

import pathlib
import re
import sys
from dataclasses import dataclass

TOP = pathlib.Path(__file__).resolve().parents[2]
sys.path.append(str(TOP / "tests/model"))

# What is longer is left out: the sizes have checks of their own.
LONGEST = 12_000

ENTERS = b"auth ClueCon\n\n"


@dataclass(frozen=True)
class Play:
    """A document, and what a connection gives."""

    document: bytes
    given: bytes


def of_examples():
    """Each document with each input whose name begins as its own does, or with an echo."""
    examples = TOP / "examples"
    for path in sorted(examples.glob("*.xml")):
        inputs = [examples / "echo", examples / path.stem]
        inputs += [examples / name for name in ("jobs", "end") if path.stem == "events"]
        for given in inputs:
            if given.is_file():
                yield Play(path.read_bytes(), given.read_bytes())


TURNS = b"""<document><section name="configuration"><configuration name="switch.conf"><settings>
<param name="journal-limit" value="%d"/></settings></configuration></section>
<section name="dialplan"><context name="default"><extension><condition field="destination_number" expression="^turn$">
%s<action application="transfer" data="turn"/>
</condition></extension></context></section></document>"""

EVAL = b'<action application="eval"/>'


def of_ends():
    """A journal that gets full, and legs that do not come to rest."""
    call = b"bgapi originate loopback/turn &park()\n\n"
    yield Play(TURNS % (1 << 20, EVAL * 20), ENTERS + call * 20)
    legs = b",".join([b"loopback/turn"] * 14)
    yield Play(TURNS % (1 << 26, EVAL * 130), ENTERS + b"api originate " + legs + b" &park()\n\n")


def text_of(escaped):
    return re.sub(rb"%([0-9A-Fa-f]{2})", lambda found: bytes((int(found[1], 16),)), escaped)


class Desk:
    """What lines of cases lay out, as crates/case_desk tells."""

    def __init__(self):
        self.parts = {b"front": b"", b"back": b"", b"file": b"", b"input": b""}

    def counted(self, rest):
        count, _, text = rest.partition(b" ")
        return text_of(text) * int(count)

    def again(self, rest):
        count, place = map(int, rest.split())
        return self.parts[b"input"][place:] * count

    def takes(self, verb, rest):
        """Whether the line lays something out."""
        parts = self.parts
        if verb in (b"file", b"front", b"back"):
            parts[verb] = text_of(rest)
        elif verb == b"between":
            parts[b"file"] = parts[b"front"] + text_of(rest) + parts[b"back"]
        elif verb in (b"more", b"times"):
            parts[b"file"] += text_of(rest) if verb == b"more" else self.counted(rest)
        elif verb in (b"input", b"command"):
            parts[b"input"] += text_of(rest) + (b"\n\n" if verb == b"command" else b"")
        elif verb in (b"inputs", b"again"):
            parts[b"input"] += self.counted(rest) if verb == b"inputs" else self.again(rest)
        else:
            return False
        return True

    def taken(self):
        """What is laid out, of which the document stays."""
        play = Play(self.parts[b"file"], self.parts[b"input"])
        self.parts[b"input"] = b""
        return play


# What a connection may give for the text of a case of values.
GIVEN = {
    b"block": b"%s",
    b"api": b"api %s\n\n",
    b"dial": b"api originate %s &park()\n\n",
    b"plans": b"api originate %s &park()\n\n",
    b"endpoint": b"bgapi originate %s &park()\n\n",
    b"expanded": b"api expand echo %s\n\n",
}


def of_line(desk, verb, rest):
    """The play of a line that is a case, if it has one."""
    if verb == b"document":
        return Play(text_of(rest), ENTERS)
    if verb in GIVEN:
        return Play(desk.parts[b"file"], ENTERS + GIVEN[verb] % text_of(rest))
    if verb == b"entries":
        said = re.findall(rb"say \d+ ([^;]*)", rest)
        return Play(desk.parts[b"file"], b"".join(text_of(line) + b"\n\n" for line in said))
    return desk.taken()


def of_cases(name):
    desk = Desk()
    for line in (TOP / "crates" / name / "stdin").read_bytes().splitlines():
        verb, _, rest = line.partition(b" ")
        if verb == b"long":
            count, _, text = rest.partition(b" ")
            verb, _, rest = text.replace(b"~", b"1" * int(count)).partition(b" ")
        if verb not in (b"", b"#") and not desk.takes(verb, rest):
            yield of_line(desk, verb, rest)


def of_model(seeds):
    """Plays of each kind of the model, some seconds for each seed."""
    import plays

    for name, make in plays.makers(False).items():
        for seed in seeds if name != "load" else ():
            play = make(seed)
            yield Play(play.document.encode("latin-1"), play.given.encode("latin-1"))


def corpus(seeds):
    """All of them that are not too long, each once, in an order of their own."""
    found = [*of_examples(), *of_ends(), *of_cases("plays"), *of_cases("cases"), *of_cases("serves"), *of_model(seeds)]
    short = [play for play in found if len(play.document) + len(play.given) <= LONGEST]
    return list(dict.fromkeys(short))
