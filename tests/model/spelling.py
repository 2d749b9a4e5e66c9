"""Plays of dial strings and words as they may be spelt."""

from dialplan import Action, Document, Extension
from random_plays import ANSWER, PARK, Kind


class Spelling(Kind):
    """Dial strings and the words of originate, of tokens in and out of order."""

    TOKENS = (
        "{ } [ ] , | ' \\ ^^: ^^ ^^' ^^\\ ^^= ^^] ^^} : = a b x=1 y='p,q' a=b loopback/a loopback/b "
        "error/USER_BUSY / {x=1} [y=2] [] {} \\, \\' \\\\ \\} \\] leg_timeout=1 origination_uuid=Q "
        "park_after_bridge=true ${g} error"
    ).split()
    ENDPOINTS = (
        "loopback/a loopback/b error/17 error/USER_BUSY loopback/a/default loopback/n loopback/a// sofia/a "
        "loopback/a/b/c/d"
    ).split()
    TARGETS = (
        "&park()", "&park", "&park(", "&log(a b)", "'&log(a b)'", "&log(x)y)z", "&log'a b'", "&", "&()",
        "a", "'a'", "'a", "a'b c'd", "''",
        "b XML default", "a '' default", "a XML '' cn", "a 'X ML'", "b XML default 'c n' 5 1",
        "b XML default c  6   x", "b  XML  default '' '' 2 more", "&log('q')", "&set(z=1)",
    )

    def text(self):
        if self.chance(0.45):
            return "".join(self.some(lambda: self.one_of(*self.TOKENS), *range(1, 8)))
        text = "".join(self.some(lambda: self.bracket("{", "}"), 0, 1, 1, 2)) + self.legs(self.leg, 1, 1, 2)
        place = self.random.randint(0, len(text))
        before, behind = text[:place], text[place:]
        return self.weighed((5, text), (2, before + self.one_of(*self.TOKENS) + behind), (1, before))

    def leg(self):
        return "".join(self.some(lambda: self.bracket("[", "]"), 0, 0, 1, 2)) + self.one_of(*self.ENDPOINTS)

    def bracket(self, opening, closing):
        separator = self.one_of(",", ",", ",", *":'\\=^]}{|")
        chosen = "" if separator == "," and self.chance(0.8) else f"^^{separator}"
        pairs = self.some(lambda: self.pair(separator, closing), 0, 1, 1, 2, 3)
        return opening + chosen + separator.join(pairs) + closing

    def pair(self, separator, closing):
        pieces = ["1", "'q,w'", *"'|[=s", *("\\" + protected for protected in separator + closing + "'\\]}n")]
        value = "".join(self.some(lambda: self.one_of(*pieces), 0, 1, 2, 3, 4))
        return self.one_of("a", "b", "k", "'n", "x\\", "leg_timeout") + "=" + value

    def document(self):
        goes_on = Action("set", "continue_on_fail=true")
        is_set = Action("set", "g=" + self.text().replace("${", "$"))
        return Document({"default": [
            Extension("a", (ANSWER, PARK)),
            Extension("b", (ANSWER, Action("sleep", "1000"))),
            Extension("f", (Action("bridge", self.text()), PARK)),
            Extension("g", (goes_on, is_set, Action("bridge", self.text() + "${g}"), ANSWER, PARK)),
        ]})

    def command(self, session):
        text = self.text()
        quoted = f"'{text}'" if "'" not in text and self.chance(0.3) else text
        return self.weighed(
            (14, f"api originate {quoted}{self.one_of(' ', '  ')}{self.one_of(*self.TARGETS)}"),
            (3, f"api originate loopback/{self.one_of('f', 'g')} &park()"),
            (5, "api hupall"),
        )
