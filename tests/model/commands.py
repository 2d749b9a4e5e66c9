"""A connection: the commands of the event socket that it gives, and the frames that reply to each."""

import re
from dataclasses import replace

import api
from dialplan import Action
from deliveries import Outbox
from frames import Names, Subscription, api_response, command_reply, known_names, notice
from hangups import hang_up
from jobs import MOST_JOBS
from tables import cause_or, words_of

NO_KEYWORDS = "-ERR no keywords supplied"
UNKNOWN_COMMAND = "-ERR command not found"

MOST_MESSAGES = 1000
GIVEN_NAME_OF_JOB = re.compile("[!-~]{1,64}")


class Connection:
    """A client that came by itself. It has no channel of its own."""

    own_channel = ""

    def __init__(self, switch):
        self.switch = switch
        self.outbox = Outbox()
        self.accepted = False
        self.ended = False
        self.left = False
        self.listening = False
        self.subscription = Subscription()

    def frames_for(self, block):
        """The frames that reply to a command at once: none where its answer is owed."""
        self.switch.asking = self
        word = block.line.partition(" ")[0]
        if word == "exit":
            return [self.exit()]
        if not self.accepted:
            return [self.auth(block.rest) if word == "auth" else command_reply(UNKNOWN_COMMAND)]
        if word == "api":
            answer = api.answer(self.switch, block.rest)
            return [] if answer is None else [api_response(answer)]
        do = COMMANDS.get(word)
        return [command_reply(do(self, block) if do else UNKNOWN_COMMAND)]

    def end(self):
        """What a connection subscribed ends with it."""
        self.ended = True
        self.subscription = Subscription()

    def leave(self):
        """The end of its input."""
        self.left = True
        self.end()

    def lost(self):
        """It ends with the switch."""
        return self.switch.stopping

    def notice(self):
        return notice()

    def exit(self):
        self.end()
        return command_reply("+OK bye")

    def auth(self, password):
        if password != self.switch.document.password:
            self.end()
            return command_reply("-ERR invalid")
        self.accepted = True
        return command_reply("+OK accepted")

    def bgapi(self, block):
        """A job runs the command. It has the name that it is given, or the next identifier.

        Behind the text of the reply stands a further header.
        """
        if len(self.switch.jobs) == MOST_JOBS:
            return "-ERR too many jobs"
        given = block.header("Job-UUID") or ""
        name = given if GIVEN_NAME_OF_JOB.fullmatch(given) else self.switch.draw_identifier()
        api.run_in_background(self.switch, block.rest, name)
        return f"+OK Job-UUID: {name}\nJob-UUID: {name}"

    def sendmsg(self, block):
        """A channel is told to run an application before its next action, or is hung up at once."""
        named = (words_of(block.rest) or [self.own_channel])[0]
        channel = self.switch.find(named)
        if channel is None:
            return f"-ERR invalid session id [{named}]"
        called = block.header("call-command")
        if called == "hangup":
            cause = cause_or("NORMAL_CLEARING", [block.header("hangup-cause")])
            hang_up(self.switch, {channel: cause})
            return "+OK"
        if called != "execute":
            return "-ERR invalid call-command"
        if len(channel.messages) == MOST_MESSAGES:
            return "-ERR message queue full"
        argument = block.header("execute-app-arg")
        data = block.body if argument is None else argument
        channel.messages.append(Action(block.header("execute-app-name") or "", data))
        return "+OK"

    def event(self, block):
        """All events are told in the form of the last of these that was accepted. JSON is still to come."""
        words = words_of(block.rest)
        form = words[0] if words[:1] in (["json"], ["xml"]) else "plain"
        if form == "xml" or form == "json" and not self.switch.coming:
            return "-ERR event format not supported"
        named = known_names(words)
        if not named.events:
            return NO_KEYWORDS
        names = self.subscription.names.with_more(named)
        self.subscription = replace(self.subscription, names=names, form=form)
        self.listening = True
        return f"+OK event listener enabled {form}"

    def nixevent(self, block):
        named = known_names(words_of(block.rest))
        if not named.events:
            return NO_KEYWORDS
        self.subscription = replace(self.subscription, names=self.subscription.names.without(named))
        return "+OK event listener disabled"

    def noevents(self, _block):
        """The filters stay."""
        if not self.listening:
            return "-ERR not listening for events"
        self.listening = False
        self.subscription = replace(self.subscription, names=Names())
        return "+OK no longer listening for events"

    def filter(self, block):
        """A first word `delete` is always the verb."""
        header, value = header_and_value(block.rest)
        if value == "":
            return "-ERR invalid syntax"
        if header == "delete":
            return self.filter_delete(*header_and_value(value))
        kept = [one for one in self.subscription.filters if one != (header, value)]
        self.subscription = replace(self.subscription, filters=(*kept, (header, value)))
        return f"+OK filter added. [{header}]=[{value}]"

    def filter_delete(self, header, value):
        """All filters of the header go, or the one with this value."""
        filters = self.subscription.filters
        kept = tuple(one for one in filters if one[0] != header or value not in ("", one[1]))
        if kept == filters:
            return "-ERR filter not found"
        self.subscription = replace(self.subscription, filters=kept)
        return f"+OK filter deleted. [{header}]=[{value}]"


def header_and_value(text):
    """The first word, and the rest of the line behind the spaces that follow it."""
    header, _, value = text.lstrip(" ").partition(" ")
    return header, value.lstrip(" ")


COMMANDS = {
    "event": Connection.event,
    "nixevent": Connection.nixevent,
    "noevents": Connection.noevents,
    "filter": Connection.filter,
    "sendmsg": Connection.sendmsg,
    "bgapi": Connection.bgapi,
}
