"""The kinds of plays of what is still to come."""

from everything import Everything
from held import Held
from hourly import Hourly
from json_events import Json
from scheduled import Scheduled

ALL = (Hourly, Scheduled, Json, Held, Everything)
COMING_KINDS = {kind.__name__.lower(): kind for kind in ALL}
