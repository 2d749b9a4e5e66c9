"""Plays of events as JSON."""

from kinds import Everything
from random_plays import any_channel


class Json(Everything):
    """The plays of all kinds, whose events are told as JSON, and now and then plain, and odd bytes in values."""

    FORMS = ("json", "json", "json", "plain", "xml", "JSON", "json json", "plain json", "")
    NAMES_OF_FORMS = (
        "ALL", "ALL", "ALL", "ALL", "BACKGROUND_JOB", "CHANNEL_HANGUP_COMPLETE CHANNEL_BRIDGE",
        "CHANNEL_EXECUTE SHUTDOWN", "CUSTOM fifo::info", "CUSTOM", "CUSTOM ALL", "frob", "", "xml",
        "CHANNEL_STATE json",
    )
    ODD_BYTES = (
        '"', "\\", "/", "\t", "\0", "\x01", "\x1f", "\x7f", "\x08", "\x0c", "\x0b", "%", "{", "}", "a", "b c", "&#0;",
        "\\u0041", "\xc3\xa9", "\xe2\x82\xac", "\xf0\x9f\x98\x80", "\xc2\x80", "\xef\xbf\xbd", "\xe2\x80\xa8",
        "\xff", "\xc3", "\xa9", "\xc0\xaf", "\xed\xa0\x80", "\xf4\x90\x80\x80",
    )

    def first_commands(self):
        names = self.weighed((5, "ALL"), (1, lambda: self.one_of(*self.NAMES_OF_FORMS)))
        return ["auth ClueCon", f"event json {names}"]

    def odd_text(self):
        return "".join(self.some(lambda: self.one_of(*self.ODD_BYTES), 1, 2, 3, 5))

    def event_command(self):
        usual = super().event_command
        form = f"event {self.one_of(*self.FORMS)} {self.one_of(*self.NAMES_OF_FORMS)}"
        others = ("event json", "noevents", "nixevent CHANNEL_STATE")
        return self.weighed((2, usual), (5, form), (1.5, lambda: self.one_of(*others)))

    def odd_value(self, session):
        """Odd bytes in variables, in what is run, in what jobs run and answer, and in what is filtered."""
        channel, text = self.channel(session, any_channel), self.odd_text()
        return self.one_of(
            f"api uuid_setvar {channel} {self.one_of('a', 'b', text.replace(' ', ''))} {text}",
            f"bgapi echo {text}",
            f"bgapi {text}",
            f"bgapi echo\nJob-UUID: {text.strip()}",
            f"sendmsg {channel}\ncall-command: execute\nexecute-app-name: log\nexecute-app-arg: {text}",
            f"bgapi originate {{origination_caller_id_name='{text.replace(chr(39), '')}'}}loopback/stays &park()",
            f"filter Job-Command-Arg {text}",
            f"bgapi uuid_dump {channel}",
        )

    def command(self, session):
        usual = super().command
        return self.weighed(
            (6, lambda: usual(session)),
            (2, lambda: self.odd_value(session)),
            (1.5, self.event_command),
        )
