"""A controller: the connection that a dial opens, which holds the channel that asked for it.

It is asked for no password, and has subscribed nothing at first. `connect` tells it of its channel. A message
without an identifier goes there. Where the channel did not ask for one that may do all, api commands are
refused, and nothing is done. It ends once its channel is hung up or leaves it, and its notice names that
channel. Where it ends by itself the channel goes on: if it waits for its controller, what it runs is over,
and it rests; anything else it finishes first.
"""

from channels import Wait
from commands import Connection
from frames import command_reply, header_lines, notice, variable_headers


class Controller(Connection):
    def __init__(self, switch, channel):
        super().__init__(switch)
        self.accepted = True
        self.channel = channel
        self.full = channel.target.full
        channel.controller = self
        channel.rest()

    @property
    def own_channel(self):
        return self.channel.identifier

    def frames_for(self, block):
        word = block.line.partition(" ")[0]
        if word in ("api", "bgapi") and not self.full:
            return [command_reply("-ERR permission denied")]
        if word == "connect":
            return [self.connect()]
        return super().frames_for(block)

    def connect(self):
        """The channel's headers, its variables, and what the connection may do."""
        told = header_lines([*self.channel.headers(), *variable_headers(self.channel)])
        control = "full" if self.full else "single-channel"
        return command_reply("+OK", f"{told}Socket-Mode: async\nControl: {control}\n")

    def lost(self):
        return super().lost() or self.channel.controller is not self

    def end(self):
        """It lets its channel go, if it still holds it."""
        super().end()
        if self.channel.controller is self:
            self.channel.controller = None
            if self.channel.wait is Wait.CONTROLLER:
                go_on(self.switch, self.channel)

    def notice(self):
        return notice(f"Controlled-Session-UUID: {self.channel.identifier}\nContent-Disposition: disconnect\n")


def go_on(switch, channel):
    """That `socket` is over is told, unless a message has taken its place meanwhile."""
    if channel.running:
        switch.complete(channel)
    else:
        channel.rest()
