"""What a connection reads: replies, event texts, and which events it has subscribed."""

from dataclasses import dataclass, replace

from tables import EVENTS, SWITCH_IDENTIFIER

ESCAPED = set(' "#%&+:;<=>?@[\\]^`{|}')

ESCAPED_IN_STRINGS = {chr(code): f"\\u{code:04x}" for code in range(32)} | {
    '"': '\\"', "\\": "\\\\", "\b": "\\b", "\f": "\\f", "\n": "\\n", "\r": "\\r", "\t": "\\t",
}

AUTH_REQUEST = "Content-Type: auth/request\n\n"

GOODBYE = "Disconnected, goodbye.\nSee you at ClueCon! http://www.cluecon.com/\n"


def escape(text):
    """Percent-encoding of every byte that is not printable or means something in an address."""
    return "".join(
        f"%{ord(character):02X}" if character in ESCAPED or not " " <= character <= "~" else character
        for character in text
    )


def command_reply(text, further=""):
    """A reply may have further lines behind its text."""
    return f"Content-Type: command/reply\nReply-Text: {text}\n{further}\n"


def notice(further=""):
    return f"Content-Type: text/disconnect-notice\n{further}Content-Length: {len(GOODBYE)}\n\n{GOODBYE}"


def api_response(text):
    """An empty answer is sent as an error."""
    body = text or "-ERR no reply\n"
    return f"Content-Type: api/response\nContent-Length: {len(body)}\n\n{body}"


def event_headers(event, sequence, moment):
    """All headers of an event in their order. One whose value is empty is left out."""
    headers = [
        ("Event-Name", event.name),
        ("Event-Subclass", event.subclass),
        ("Core-UUID", SWITCH_IDENTIFIER),
        ("Event-Sequence", str(sequence)),
        ("Event-Date-Timestamp", str(moment)),
        *(event.channel.headers() if event.channel else ()),
        *event.further,
        *(variable_headers(event.channel) if event.with_variables else ()),
    ]
    return with_values(headers)


def variable_headers(channel):
    return [(f"variable_{escape(name)}", value) for name, value in channel.variables.values.items()]


def with_values(headers):
    return [(name, value) for name, value in headers if value != ""]


def header_lines(headers):
    return "".join(f"{name}: {escape(value)}\n" for name, value in with_values(headers))


def event_frame(headers, body="", form="plain"):
    text = FORMS[form](headers, body)
    return f"Content-Length: {len(text)}\nContent-Type: text/event-{form}\n\n{text}"


def plain_text(headers, body):
    length = f"Content-Length: {len(body)}\n" if body else ""
    return f"{header_lines(headers)}{length}\n{body}"


def json_text(headers, body):
    """One object, its names in the order of their bytes. A body is one value more, and its length is another."""
    of_body = [("Content-Length", str(len(body))), ("_body", body)] if body else []
    pairs = sorted([*with_values(headers), *of_body])
    return "{" + ",".join(f"{quoted(name)}:{quoted(as_unicode(value))}" for name, value in pairs) + "}"


def as_unicode(text):
    """What is no UTF-8 is escaped as in a plain event."""
    try:
        text.encode("latin-1").decode("utf-8")
    except UnicodeDecodeError:
        return escape(text)
    return text


def quoted(text):
    """A string of JSON, in which a quote, a backslash and whatever is below the space are escaped."""
    return '"' + "".join(ESCAPED_IN_STRINGS.get(character, character) for character in text) + '"'


FORMS = {"plain": plain_text, "json": json_text}


@dataclass(frozen=True)
class Names:
    """Names of events, and subclasses of CUSTOM: some by their names, or every one."""

    events: frozenset = frozenset()
    subclasses: frozenset = frozenset()
    every_subclass: bool = False

    def has(self, event):
        """A CUSTOM event goes by its subclass alone."""
        if event.name == "CUSTOM":
            return self.every_subclass or event.subclass in self.subclasses
        return event.name in self.events

    def with_more(self, named):
        return Names(
            self.events | named.events,
            self.subclasses | named.subclasses,
            self.every_subclass or named.every_subclass,
        )

    def without(self, named):
        """CUSTOM alone takes all subclasses out. Of every subclass none goes by its name."""
        events = self.events - named.events
        if named.every_subclass or "CUSTOM" in named.events and not named.subclasses:
            return Names(events)
        return replace(self, events=events, subclasses=self.subclasses - named.subclasses)


def known_names(words):
    """All words behind CUSTOM are subclasses, and ALL in front of it is all there is."""
    before = words[: words.index("CUSTOM") + 1] if "CUSTOM" in words else words
    if "ALL" in before:
        return Names(frozenset(EVENTS), every_subclass=True)
    return Names(frozenset(before) & frozenset(EVENTS), frozenset(words[len(before) :]))


@dataclass(frozen=True)
class Subscription:
    """What a connection is sent, and in which form, and its filters, of which one is enough."""

    names: Names = Names()
    filters: tuple = ()
    form: str = "plain"

    def lets_through(self, headers):
        return not self.filters or any(wanted in headers for wanted in self.filters)
