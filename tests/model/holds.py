"""Holds: how many channels at a time have to do with one thing, which a realm and a name in it tell.

A channel holds a thing once, and until it is hung up. It may hold 64 things.
"""

MOST_HOLDS = 64


class Holds:
    def __init__(self):
        self.holders = {}

    def of(self, realm, name):
        """The channels that hold it, all of which are live."""
        return self.holders.get((realm, name), [])

    def count(self, channel):
        return sum(channel in holders for holders in self.holders.values())

    def add(self, realm, name, channel):
        self.holders.setdefault((realm, name), []).append(channel)

    def release(self, channel):
        """A channel that is hung up holds nothing."""
        for holders in self.holders.values():
            if channel in holders:
                holders.remove(channel)
