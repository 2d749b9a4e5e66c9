"""A kind of plays that end by a shutdown."""

from further import Further


class Shutdowns(Further):
    """Calls, jobs and messages, and a shutdown in their midst. What is behind it is not read."""

    def commands(self, session):
        commands = super().commands(session)
        yield from (next(commands, "api echo x") for _ in range(self.random.randint(2, 20)))
        if self.chance(0.1):
            yield self.one_of(*self.NO_SHUTDOWNS)
        last = self.one_of("exit", "api echo no", *self.SHUTDOWNS)
        yield self.one_of(*self.SHUTDOWNS) + self.one_of("", f"\n\n{last}")

    def command(self, session):
        usual = super().command
        return self.chosen(
            session,
            (6, lambda: usual(session)),
            (4, lambda: self.job(session)),
            (3, lambda: self.message(session)),
            (1, lambda: self.channel_command(session)),
            (1, self.event_command),
        )
