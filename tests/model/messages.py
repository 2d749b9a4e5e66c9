"""Kinds of plays of messages to channels, and of what channels have."""

from further import Further
from limits import Bytes, Limits


class Messages(Further):
    """Messages to channels in each state and each wait, and commands that move the same channels."""

    def command(self, session):
        usual = super().command
        return self.chosen(
            session,
            (6, lambda: usual(session)),
            (8, lambda: self.message(session)),
            (0.5, lambda: self.channel_command(session)),
        )


class Variables(Further):
    """Variables and texts of channels, with odd names and values at their limits."""

    LARGEST = Limits.LARGEST
    def command(self, session):
        usual = super().command
        return self.chosen(
            session,
            (5, lambda: usual(session)),
            (8, lambda: self.channel_command(session)),
            (2, lambda: self.variable_at_limits(session)),
            (1, lambda: self.in_background(self.channel_command(session))),
            (1, lambda: self.message(session)),
        )

    def variable_at_limits(self, session):
        channel = self.channel(session)
        name = self.one_of(*Bytes.NAMES, "n" * 256, "n" * 257, "hangup_cause", "export_vars", "uuid")
        return self.one_of(
            f"api uuid_setvar {channel} {name} {self.one_of(*Bytes.VALUES, '', 'a,b')}",
            f"api uuid_setvar {channel} {name} {self.LARGEST}",
            f"api uuid_setvar {channel} a {self.LARGEST}",
            f"api uuid_setvar {channel} b {self.LARGEST[:self.random.randint(16370, 16384)]}",
            f"api uuid_setvar {channel} {name} {self.LARGEST}x",
            f"api expand uuid:{channel} echo ${{a}}${{a}}${{a}}${{a}}",
            f"api expand uuid:{channel} echo ${{a}}${{a}}${{a}}${{a}}1",
            f"api expand uuid:{channel} uuid_setvar {channel} b ${{a}}",
            f"api expand uuid:{channel} ${{a}}",
            f"api uuid_dump {channel}",
            f"sendmsg {channel}\ncall-command: execute\nexecute-app-name: log\nexecute-app-arg: {'${a}' * 5}",
        )
