"""A channel, its profile, and the headers by which events show it."""

from dataclasses import dataclass, field
from enum import Enum

from tables import State
from variables import Variables


class Wait(Enum):
    """What a channel waits for before its next action."""

    NOTHING = 0
    SLEEP = 1
    LEGS = 2
    BRIDGE = 3
    COMMANDS = 4
    QUEUE = 5
    CALLER = 6
    DIAL = 7
    CONTROLLER = 8


@dataclass(frozen=True)
class Target:
    """Whom a channel asks for, and whether that controller may do all."""

    host: str
    port: int
    full: bool


@dataclass
class Profile:
    destination_number: str
    context: str
    caller_id_name: str
    caller_id_number: str
    uuid: str
    chan_name: str
    ani: str
    rdnis: str = ""
    dialplan: str = "XML"
    source: str = "mod_loopback"
    network_addr: str = ""
    username: str = ""

    def route(self, destination_number, dialplan=None, context=None):
        """What is not given stays."""
        self.destination_number = destination_number
        self.dialplan = self.dialplan if dialplan is None else dialplan
        self.context = self.context if context is None else context


@dataclass(eq=False, repr=False)
class Channel:
    slot: int
    direction: str
    profile: Profile
    variables: Variables
    partner: "Channel" = None
    leg: object = None
    bridge: object = None
    state: State = State.CS_NEW
    wait: Wait = Wait.NOTHING
    wakes: int = 0
    dialed: object = None
    queue: str = None
    answered: bool = False
    cause: str = ""
    routed: int = 0
    actions: list = field(default_factory=list)
    messages: list = field(default_factory=list)
    running: tuple = None
    target: Target = None
    controller: object = None

    @property
    def identifier(self):
        return self.profile.uuid

    @property
    def peer(self):
        """The other leg of its bridge, while it is bridged."""
        return self.bridge.other(self) if self.bridge else None

    def live(self):
        return self.state < State.CS_HANGUP

    def ready(self):
        """Commands can move a channel that has been set up and is no leg that is not decided yet."""
        return self.state not in (State.CS_NEW, State.CS_INIT) and self.leg is None

    def wait_for(self, wait, wakes=0, dialed=None, queue=None, target=None):
        """A taker waits for a caller of a queue, and who asks for a controller for a dial."""
        self.wait = wait
        self.wakes = wakes
        self.dialed = dialed
        self.queue = queue
        self.target = target

    def rest(self):
        """Who is held waits for its controller, who is parked for commands, anyone else for nothing."""
        if self.controller:
            self.wait_for(Wait.CONTROLLER)
        else:
            self.wait_for(Wait.COMMANDS if self.state is State.CS_PARK else Wait.NOTHING)

    def drop_actions(self):
        self.actions = []
        self.running = None

    def sought(self, name, globals_of_switch):
        """A name is looked for in the variables, then in the profile, then in the globals."""
        value = self.variables.get(name)
        if value is None:
            value = vars(self.profile).get(name)
        return globals_of_switch.get(name, "") if value is None else value

    def answer_state(self):
        if not self.live():
            return "hangup"
        return "answered" if self.answered else "ringing"

    def headers(self):
        profile = self.profile
        return [
            ("Channel-State", self.state.name),
            ("Channel-State-Number", str(self.state.value)),
            ("Channel-Name", profile.chan_name),
            ("Unique-ID", profile.uuid),
            ("Call-Direction", self.direction),
            ("Answer-State", self.answer_state()),
            ("Caller-Caller-ID-Name", profile.caller_id_name),
            ("Caller-Caller-ID-Number", profile.caller_id_number),
            ("Caller-Destination-Number", profile.destination_number),
            ("Caller-Context", profile.context),
            ("Other-Leg-Unique-ID", self.peer.identifier if self.peer else ""),
        ]
