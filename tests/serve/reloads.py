"""The file of a server changes, and is loaded again under calls."""

import os
import pathlib
import threading

from server import Server

LOADS = 100
RELOADED = "+OK [Success]\n"
CAUSES = ("USER_BUSY", "CALL_REJECTED")

# The cause is told by one action and used by the next, in a variable of each document's own.
EXTENSION = """    <extension name="told"><condition field="destination_number" expression="^told$">
      <action application="set" data="told_{cause}={cause}"/>
      <action application="hangup" data="${{told_{cause}}}"/>
    </condition></extension>"""


def put(server, text):
    """The file has this text from one moment on."""
    beside = pathlib.Path(server.document.name + ".new")
    beside.write_text(text)
    os.replace(beside, server.document.name)


def calls(server, is_over, answers):
    client = server.client()
    while not is_over.is_set():
        answers.append(client.api("originate loopback/told &park()"))
    client.close()


def whole(program):
    """One client has the file loaded a hundred times, another one calls: each call gets the actions of one document."""
    with Server(program, extensions=EXTENSION.format(cause=CAUSES[0])) as server:
        first = pathlib.Path(server.document.name).read_text()
        texts = [first.replace(CAUSES[0], cause) for cause in CAUSES]
        is_over, answers = threading.Event(), []
        caller = threading.Thread(target=calls, args=(server, is_over, answers), daemon=True)
        caller.start()
        loader = server.client()
        for number in range(LOADS):
            put(server, texts[(number + 1) % 2])
            if (answer := loader.api("reloadxml")) != RELOADED:
                raise AssertionError(f"load {number}: {answer}")
            told = loader.api("originate loopback/told &park()")
            if told != f"-ERR {CAUSES[(number + 1) % 2]}\n":
                raise AssertionError(f"behind load {number}: {told}")
        is_over.set()
        caller.join()
        if others := set(answers) - {f"-ERR {cause}\n" for cause in CAUSES}:
            raise AssertionError(f"answers of no document: {others}")
        loader.close()
        server.ends_well()
    return f"{LOADS} loads, {len(answers)} calls beside"


def gone(program):
    """A file that is gone, or no document, leaves what was there."""
    with Server(program) as server:
        client = server.client()
        text = pathlib.Path(server.document.name).read_text()
        os.rename(server.document.name, server.document.name + ".gone")
        answers = [client.api("reloadxml")]
        for given in ("<document", text.replace("^ans$", "("), text):
            put(server, given)
            answers.append(client.api("reloadxml"))
            if not client.api("originate loopback/ans &park()").startswith("+OK "):
                raise AssertionError(f"no call behind {answers[-1]}")
        pathlib.Path(server.document.name + ".gone").unlink()
        refused = "-ERR pattern refused in extension 1 condition 1\n"
        if answers != ["-ERR cannot read\n", "-ERR Truncated at 9\n", refused, RELOADED]:
            raise AssertionError(answers)
        client.close()
        server.ends_well()
    return "four loads"
