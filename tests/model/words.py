"""Plays with odd words in them."""

from dialplan import INLINE, Action, Extension
from layers import Layers
from random_plays import LONGEST_SLEEP, ODD_CAUSE_LISTS, brackets
from tables import EVENTS, identifier


class Words(Layers):
    """All applications, pairs and commands, with odd words among them and extensions in any order."""

    def sleep(self):
        return Action("sleep", self.one_of("500", "1000", "2000", "3000", "0", "007", "x", LONGEST_SLEEP))

    def extension(self, layer):
        actions = self.some(self.pause, 0, 1, 2) + self.some(self.action, 1, 2, 3, 4)
        return Extension(self.numbers[layer], (*actions, *self.some(self.later_action, 0, 1)))

    def action(self):
        made = self.weighed(
            (4, lambda: Action("set", self.assignment())),
            (2, lambda: Action("export", self.one_of("nolocal:", "") + self.pair().replace("'", ""))),
            (7, lambda: Action("bridge", self.dial_string())),
            (2, lambda: Action("hangup", self.one_of("", "USER_BUSY x", " CALL_REJECTED", self.cause))),
            (2, lambda: Action("transfer", self.route())),
            (0.3, lambda: Action("unset", self.one_of("a", "hangup_after_bridge", "export_vars"))),
            (1, lambda: self.one_of(Action("log", "hi ${a}"), Action("eval", "${x:1}"), Action("frob", "z"))),
            (0.3, Action("bridge", "loopback/${destination_number}")),
            (0.3, Action("export", "nolocal:=v")),
            (0.3, lambda: Action("set_global", "g=" + self.seconds())),
        )
        inline = made.application in INLINE and self.chance(0.1)
        return Action(made.application, made.data, inline)

    def assignment(self):
        return self.weighed(
            (8, lambda: self.pair().replace("'", "")),
            (3, lambda: "continue_on_fail=" + self.one_of(*ODD_CAUSE_LISTS)),
            (1, "a=${destination_number}"),
            (1, "b=${a}x"),
            (1, lambda: self.one_of("c", "=v", "a=_undef_", "hangup_after_bridge=")),
        )

    def route(self):
        return self.weighed(
            (8, self.number),
            (1, lambda: self.number() + self.one_of(" XML", " foo", "  XML   default  more", " XML other")),
            (0.5, lambda: self.one_of("-both e1", "")),
        )

    def pair(self):
        return self.weighed(
            (9, super().pair),
            (2, lambda: "origination_caller_id_name=" + self.one_of("'Bob B'", "", "x+y")),
            (1, lambda: "origination_caller_id_number=" + self.one_of("100", "")),
            (1, lambda: "origination_uuid=" + self.one_of("", identifier(3), identifier(16**11))),
            (2, lambda: self.one_of("continue_on_fail=true", "call_timeout=1", "export_vars=a", "a=")),
            (2, lambda: self.one_of("b='p,q'", "b=x\\,y", "park_after_bridge=false", "leg_timeout=x")),
        )

    def endpoint(self):
        odd = ("/nix", "/", "/default/foo", "//XML", "/other/XML/x")
        return self.weighed(
            (14, super().endpoint),
            (1, lambda: f"loopback/{self.number()}{self.one_of(*odd)}"),
            (1, lambda: self.one_of("sofia/x", "error", "loopback", "loopback//default")),
            (0.3, "error/USER_BUSY/x"),
        )

    def dial_string(self):
        text = super().dial_string()
        if self.chance(0.1):
            text = brackets(self.some(self.pair, 1, 2, 3), separator=";").replace(" ", "") + text
        if self.chance(0.02):
            text = self.one_of("", text + ",", text + "|", "{a}" + text, "[x=1" + text, "{" + text)
        return text

    def first_commands(self):
        subscribed = " ".join(self.random.sample(EVENTS, 4)) if self.chance(0.1) else "ALL"
        return ["auth ClueCon", "event plain " + subscribed]

    def originate(self):
        line = super().originate()
        if self.chance(0.3) and line.count(" ") == 3:
            dialplan, seconds = self.one_of("XML", "foo", "''"), self.one_of("1", "2", "30", "x")
            line += f" {dialplan} {self.one_of('default', 'other')} 'Al ice' 55 {seconds}"
        return line

    def target(self):
        odd = ("&frob", "'&hangup(USER_BUSY)'", "&transfer(e2)", "&set(a=b=c)", "''", "&")
        return self.weighed((10, super().target), (2, lambda: self.one_of(*odd)))

    def command(self, session):
        channel = self.channel(session)
        odd = (
            "api uuid_kill",
            "api uuid_bridge x",
            "api nosuch y",
            "api",
            "nosuch",
            "api msleep 3600001",
            "api uuid_park",
            "api create_uuid",
            "api originate x",
            f"api  uuid_exists   {channel}",
            f"api uuid_kill {channel}  CALL_REJECTED x",
            f"api uuid_transfer {channel} -both e1",
            f"api uuid_transfer {channel} e1 XML other",
            f"api uuid_transfer {channel} e1  xml",
            "api hupall frob",
            f"api uuid_setvar {channel} a  {self.one_of('b  c', '_undef_', '')}",
            f"api uuid_setvar {channel}",
            f"api uuid_dump {channel}",
            "api uuid_dump",
        )
        usual = super().command
        return self.weighed((20, lambda: usual(session)), (1, lambda: self.one_of(*odd)))
