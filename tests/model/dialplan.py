"""Small dialplans as data, the document that is written of one, and the hunt through it."""

from dataclasses import dataclass, field

from hours import hold, minute_at
from variables import ExpansionTooLong, expand, split_pair

WRITTEN = {
    "&": "&amp;",
    "<": "&lt;",
    ">": "&gt;",
    '"': "&quot;",
    "\t": "&#9;",
    "\n": "&#10;",
    "\r": "&#13;",
}

USUAL_PASSWORD = "ClueCon"
USUAL_CONNECTIONS = 16

INLINE = ("set", "unset", "export", "set_global", "log", "eval")


@dataclass(frozen=True)
class Action:
    application: str
    data: str = ""
    inline: bool = False


@dataclass(frozen=True)
class Extension:
    """Its actions are for calls to just this number. Where it continues, the hunt goes on behind it.

    It may have times, as attributes of its condition. Where they do not hold, a call has the other actions that
    the extension may have for that; without these it is not taken.
    """

    number: str
    actions: tuple
    continues: bool = False
    times: tuple = ()
    otherwise: tuple = ()


@dataclass
class Document:
    """A dialplan, and the settings that a play depends on."""

    contexts: dict
    slots: int = 32
    journal_limit: int = 67108864
    global_values: dict = field(default_factory=dict)
    password: str = USUAL_PASSWORD
    time_base: int = 0
    time_offset: int = 0
    connections: int = USUAL_CONNECTIONS

    def written(self):
        inside = [*self._globals(), *self._settings(), *self._dialplan()]
        return "\n".join(["<document>", *inside, "</document>", ""])

    def _globals(self):
        for name, value in self.global_values.items():
            yield f'<X-PRE-PROCESS cmd="set" data="{attribute(name)}={attribute(value)}"/>'

    def _settings(self):
        yield '<section name="configuration">'
        if self.password != USUAL_PASSWORD or self.connections != USUAL_CONNECTIONS:
            yield '<configuration name="event_socket.conf"><settings>'
            yield f'<param name="password" value="{attribute(self.password)}"/>'
            yield f'<param name="max-connections" value="{self.connections}"/></settings></configuration>'
        yield '<configuration name="switch.conf"><settings>'
        yield f'<param name="max-sessions" value="{self.slots}"/>'
        yield f'<param name="journal-limit" value="{self.journal_limit}"/>'
        if self.time_base != 0:
            yield f'<param name="time-base" value="{self.time_base}"/>'
        if self.time_offset != 0:
            yield f'<param name="time-offset" value="{self.time_offset}"/>'
        yield "</settings></configuration></section>"

    def _dialplan(self):
        yield '<section name="dialplan">'
        for name, extensions in self.contexts.items():
            yield f'<context name="{attribute(name)}">'
            for extension in extensions:
                yield from written_extension(extension)
            yield "</context>"
        yield "</section>"


def attribute(text):
    return "".join(WRITTEN.get(character, character) for character in text)


def written_extension(extension):
    number = attribute(extension.number)
    goes_on = ' continue="true"' if extension.continues else ""
    times = "".join(f' {field}="{attribute(text)}"' for field, text in extension.times)
    yield f'<extension name="{number}"{goes_on}>'
    if extension.otherwise:
        yield f'<condition field="destination_number" expression="^{number}$"/>'
        yield f"<condition{times}>"
    else:
        yield f'<condition field="destination_number" expression="^{number}$"{times}>'
    yield from (written_action("action", action) for action in extension.actions)
    yield from (written_action("anti-action", action) for action in extension.otherwise)
    yield "</condition></extension>"


def written_action(element, action):
    application, data = attribute(action.application), attribute(action.data)
    inline = ' inline="true"' if action.inline else ""
    return f'<{element} application="{application}" data="{data}"{inline}/>'


def hunt(switch, channel):
    """The actions that the channel gets. Of a hunt with a text that is too long nothing that it set stays."""
    before = channel.variables.copy(), switch.globals.copy()
    try:
        return list(found_actions(switch, channel))
    except ExpansionTooLong:
        channel.variables, switch.globals = before
        raise


def found_actions(switch, channel):
    """Inline actions act at once, and are not among those given."""
    for extension in switch.contexts.get(channel.profile.context, ()):
        if extension.number != channel.profile.destination_number:
            continue
        in_time = hold(extension.times, minute_at(switch.document, switch.now))
        if not in_time and not extension.otherwise:
            continue
        for action in extension.actions if in_time else extension.otherwise:
            if action.inline:
                assign(switch, channel, action.application, expand(action.data, switch.scope(channel)))
            else:
                yield action
        if not extension.continues:
            return


def assign(switch, channel, application, argument):
    """What the applications that may stand inline do to variables. What a limit refuses is passed over."""
    name, value = split_pair(argument)
    if application == "set":
        channel.variables.set(name, value)
    elif application == "unset":
        channel.variables.unset(argument)
    elif application == "export":
        channel.variables.export(name, value)
    elif application == "set_global":
        switch.globals.set(name, value)
