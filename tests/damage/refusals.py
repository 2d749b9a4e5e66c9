"""Each call for memory is refused in turn."""

import itertools

import refused_entries
import refused_journals
import refused_runs
import refused_servers
from refusing import Refuser


def tallies(programs):
    refuser = Refuser()
    return itertools.chain(
        refused_runs.all_tried(refuser, programs.program),
        map(refused_entries.tried, [refuser], [programs.plays]),
        refused_journals.all_tried(refuser, programs),
        (refused_servers.tried(refuser, programs.program, dials) for dials in (False, True)),
    )


def refusals(programs):
    """Prints a line for each row, and says how many failed."""
    failed = 0
    for tally in tallies(programs):
        print(tally.line(), flush=True)
        failed += bool(tally.wrong)
    return failed
