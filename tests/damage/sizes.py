"""The time for inputs of one shape by their size: for ten times the input it is about ten times as long."""

import resource
import subprocess
import tempfile

from told import is_told

SIZES = (10_000, 100_000, 1_000_000)

# For ten times the size a run may take this many times as long as one of so many seconds, or as one that took longer.
MOST = 16
COUNTS = 0.02

# Behind a run of so many seconds a larger one is not tried.
TOO_LONG = 0.5

# A number that stands in a piece is one of so many.
NUMBERS = 1 << 30


def shape(piece, front=b"", back=b"", most=1 << 20, numbers=NUMBERS):
    """What is made of a size: so many pieces, though not more than the most, between what stands before and behind."""

    def made(size):
        count = min(size // len(piece), most)
        if b"%d" not in piece:
            return front + piece * count + back
        return front + b"".join(piece % (number % numbers) for number in range(count)) + back

    return made


def within(tags, piece, **how):
    """A document that has the pieces in these elements."""
    front = b"".join(b"<%s>" % tag for tag in tags)
    back = b"".join(b"</%s>" % tag.split()[0] for tag in reversed(tags))
    return shape(piece, front, back, **how)


FOREIGN = (b"document", b"section name='x'")
DIALPLAN = (b"document", b"section name='dialplan'")
CONTEXT = (*DIALPLAN, b"context name='default'")
EXTENSION = (*CONTEXT, b"extension")
CONDITION = (*EXTENSION, b"condition field='destination_number' expression='^1'")
PATTERN = b"<extension><condition field='destination_number' expression='%s'></condition></extension>"
GLOBAL = b"<X-PRE-PROCESS cmd='set' data='%s'/>"


def deep(size):
    """Foreign elements, each in the one before."""
    return within(FOREIGN, b"<a>" * (size // 7) + b"</a>" * (size // 7), most=1)(size)


DOCUMENTS = {
    "blanks": within(CONTEXT, b" "),
    "a comment": within(CONTEXT, b"<!--" + b"x" * 9_993 + b"-->"),
    "comments": within(CONTEXT, b"<!---->"),
    "an attribute": shape(b"y", b"<document x='", b"'/>"),
    "attributes": shape(b" attribute%d='v'", b"<document", b"/>"),
    "an attribute twice": shape(b" attribute%d='v'", b"<document", b" attribute0='v'/>"),
    "entities": shape(b"&amp;", b"<document x='", b"'/>"),
    "foreign elements": within(FOREIGN, b"<a>b</a>"),
    "foreign elements in each other": deep,
    "open elements": shape(b"<a>", b"<document><section name='x'>"),
    "globals": within(DIALPLAN[:1], GLOBAL % b"g%d=v", most=1000),
    "one global": within(DIALPLAN[:1], GLOBAL % b"g=v"),
    "globals used": within(DIALPLAN[:1], GLOBAL % b"g=v" + GLOBAL % b"h=$${g}$${g}$${g}$${g}"),
    "contexts": within(DIALPLAN, b"<context name='c%d'></context>", most=256),
    "one context": within(DIALPLAN, b"<context name='c'></context>"),
    "extensions": within(CONTEXT, b"<extension></extension>", most=4096),
    "conditions": within(EXTENSION, b"<condition/>"),
    "actions": within(CONDITION, b"<action application='x'/>", most=32768),
    "patterns": within(CONTEXT, PATTERN % b"^1%d$", most=4096),
    "classes": within(CONTEXT, PATTERN % b"[%d-9]+x{2,9}", most=4096, numbers=9),
    "an end that is missing": shape(b"<section name='x'></section>", b"<document>"),
    "bytes": shape(b"\xff"),
    "open tags": shape(b"<"),
}

CALL = b"api originate {origination_uuid=A}loopback/ans &park()\n\n"
CALLED = b"api originate loopback/ans &park()\n\napi hupall\n\n"
EXECUTE = b"sendmsg A\ncall-command: execute\nexecute-app-name: eval\n\n"

INPUTS = {
    "echoes": shape(b"api echo hi\n\n"),
    "echoes of 9 KB": shape(b"api echo " + b"x" * 9_000 + b"\n\n"),
    "one line": shape(b"x"),
    "lines": shape(b"x\n"),
    "empty lines": shape(b"\n"),
    "empty lines and commands": shape(b"\n" * 50 + b"api echo hi\n\n"),
    "headers": shape(b"api echo hi\n" + b"a: b\n" * 1_900 + b"\n"),
    "bodies": shape(b"api echo hi\nContent-Length: 9000\n\n" + b"y" * 9_000),
    "unknown commands": shape(b"frob\n\n"),
    "globals set": shape(b"api global_setvar g%d=v\n\n", numbers=100),
    "expansions": shape(b"api expand echo " + b"${x}" * 2_000 + b"\n\n"),
    "filters": shape(b"filter Name value%d\n\n"),
    "subscriptions": shape(b"event plain ALL\n\n"),
    "subclasses": shape(b"event plain CUSTOM x%d\n\n"),
    "calls": shape(CALLED),
    "calls that are heard": shape(CALLED, b"event plain ALL\n\n"),
    "calls that fail": shape(b"api originate error/USER_BUSY &park()\n\n"),
    "long dial strings": shape(b"api originate {" + b"a=b," * 2_000 + b"c=d}error/USER_BUSY &park()\n\n"),
    "jobs": shape(b"bgapi echo hi\n\n"),
    "variables": shape(b"api uuid_setvar A v%d x\n\n", CALL, numbers=100),
    "messages": shape(EXECUTE, CALL),
}

# What the inputs are given to, once the password was: a journal that takes them, and an extension that is answered.
DOCUMENT = b"""<document><section name="configuration"><configuration name="switch.conf"><settings>
<param name="journal-limit" value="1073741824"/></settings></configuration></section>
<section name="dialplan"><context name="default"><extension><condition field="destination_number" expression="^ans$">
<action application="answer"/><action application="park"/></condition></extension></context></section></document>"""

ENTERS = b"auth ClueCon\n\n"


def measured(program, words, document, given):
    """The seconds of the processor, the status, and the line on the error output."""
    with tempfile.TemporaryDirectory() as folder:
        with open(f"{folder}/f", "wb") as file:
            file.write(document)
        how = {"input": given, "stdout": subprocess.DEVNULL, "stderr": subprocess.PIPE, "cwd": folder, "check": False}
        before = resource.getrusage(resource.RUSAGE_CHILDREN)
        ran = subprocess.run([program, *words], **how)
        after = resource.getrusage(resource.RUSAGE_CHILDREN)
    seconds = after.ru_utime + after.ru_stime - before.ru_utime - before.ru_stime
    return seconds, ran.returncode, ran.stderr


def grows_as_it_should(name, run):
    """Measures a shape while it is not too slow, prints a line, and says whether the time grows as it should."""
    rows = []
    for size in SIZES:
        rows.append(run(size))
        if rows[-1][0] > TOO_LONG:
            break
    times = [seconds for seconds, _, _ in rows]
    steep = any(later > MOST * max(earlier, COUNTS) for earlier, later in zip(times, times[1:]))
    told = all(is_told(status, line) for _, status, line in rows)
    _, status, line = rows[-1]
    figures = ", ".join(f"{size // 1000} KB {seconds:.3f} s" for size, seconds in zip(SIZES, times))
    word = "FAILED" if steep or not told else "ok"
    print(f"{word} {name}: {figures}; status {status} {line.decode('latin-1').strip()}", flush=True)
    return word == "ok"


def sizes(program):
    """Says how many shapes fail."""
    failed = 0
    for name, made in DOCUMENTS.items():
        check = lambda size, made=made: measured(program, ("check", "f"), made(size), b"")
        failed += not grows_as_it_should(f"document of {name}", check)
    for name, made in INPUTS.items():
        play = lambda size, made=made: measured(program, ("play", "f"), DOCUMENT, ENTERS + made(size))
        failed += not grows_as_it_should(f"input of {name}", play)
    return failed
