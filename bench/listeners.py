"""What 10,000 events cost by how many connections they are told: python3 bench/listeners.py PLAYS"""

import re
import shutil
import subprocess
import sys

EVENTS = 10_000
CONNECTIONS = 16
DOCUMENT = f"""file <document><section name='dialplan'><context name='default'>
more <extension><condition field='destination_number' expression='^many$'>
times {EVENTS} <action application='eval'/>
more </condition></extension></context></section></document>
"""

# Runs the program that its arguments name, and says on standard error how much memory it took at most, in kilobytes.
WATCHED = """
import resource, subprocess, sys
subprocess.run(sys.argv[1:], check=True)
print(resource.getrusage(resource.RUSAGE_CHILDREN).ru_maxrss, file=sys.stderr)
"""


def lines(listeners):
    steps = ["arrive"] * CONNECTIONS
    steps += [f"say {conn} auth ClueCon" for conn in range(1, CONNECTIONS + 1)]
    steps += ["say 1 bgapi originate loopback/many &park()", "job 1", "work 1 1 2 2 2"]
    steps += [f"say {conn} event plain CHANNEL_EXECUTE" for conn in range(1, listeners + 1)]
    steps += [f"churn {EVENTS} 2 1 0", "ring"]
    return DOCUMENT + "entries " + "; ".join(steps) + "\n"


def memory(program, given):
    """Kilobytes at most, and whether the events are held as they are to be."""
    run = subprocess.run([sys.executable, "-c", WATCHED, program], input=given, capture_output=True, text=True, check=True)
    return int(run.stderr), run.stdout


def instructions(program, given):
    if not shutil.which("valgrind"):
        return None
    words = ["valgrind", "--tool=callgrind", "--callgrind-out-file=/dev/null", program]
    found = re.search(r"Collected : (\d+)", subprocess.run(words, input=given, capture_output=True, text=True).stderr)
    return int(found[1]) if found else None


def main():
    program = sys.argv[1]
    costs = {}
    for listeners in (0, 1, CONNECTIONS):
        given = lines(listeners)
        kilobytes, told = memory(program, given)
        held = EVENTS if listeners else 0
        if f"  {held} events in " not in told:
            sys.exit(f"bench/listeners: {held} events are not held for {listeners} connections")
        costs[listeners] = kilobytes, instructions(program, given)
    none, one, all_ = (costs[listeners] for listeners in (0, 1, CONNECTIONS))
    first, last = one[0] / 1024, all_[0] / 1024
    print(f"memory of the program: {first:.1f} MB for one connection, {last:.1f} for {CONNECTIONS}, {last / first:.2f} times")
    if none[1] is not None:
        first, last = ((cost[1] - none[1]) / EVENTS for cost in (one, all_))
        print(f"instructions of an event: {first:.0f} for one connection, {last:.0f} for {CONNECTIONS}, {last / first:.2f} times")


main()
