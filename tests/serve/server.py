"""The program `fsw serve` over a document of its own, at a free port of the loopback."""

import os
import pathlib
import resource
import socket
import subprocess
import tempfile
import time

from client import Client

DOCUMENT = """<document type="freeswitch/xml">
  <section name="configuration">
    <configuration name="switch.conf"><settings>
      <param name="max-sessions" value="256"/>
      <param name="journal-limit" value="{journal}"/>
    </settings></configuration>
    <configuration name="event_socket.conf"><settings>
      <param name="listen-port" value="{port}"/>
      <param name="max-connections" value="{connections}"/>
    </settings></configuration>
  </section>
  <section name="dialplan"><context name="default">
    <extension name="answered"><condition field="destination_number" expression="^ans$">
      <action application="answer"/><action application="park"/>
    </condition></extension>
    <extension name="late"><condition field="destination_number" expression="^late$">
      <action application="sleep" data="100"/><action application="answer"/><action application="park"/>
    </condition></extension>
    <extension name="rings"><condition field="destination_number" expression="^rings$">
      <action application="sleep" data="60000"/>
    </condition></extension>
    <extension name="through"><condition field="destination_number" expression="^through$">
      <action application="bridge" data="loopback/late"/>
    </condition></extension>
    <extension name="held"><condition field="destination_number" expression="^held$">
      <action application="socket" data="127.0.0.1:{controller} full"/>
      <action application="answer"/><action application="park"/>
    </condition></extension>
{extensions}
  </context></section>
</document>
"""

DESCRIPTORS = 1024

MOST_JOURNAL = 1 << 30
LEAST_JOURNAL = 1 << 20


def free_port():
    with socket.socket() as probe:
        probe.bind(("127.0.0.1", 0))
        return probe.getsockname()[1]


def few_descriptors():
    resource.setrlimit(resource.RLIMIT_NOFILE, (DESCRIPTORS, DESCRIPTORS))


class Server:
    def __init__(self, program, connections=16, journal=MOST_JOURNAL, controller=1, extensions=""):
        """Calls of `loopback/held` dial the controller at this port; at port 1 nobody listens. Some extensions may be added."""
        self.port = free_port()
        self.document = tempfile.NamedTemporaryFile("w", suffix=".xml")
        self.document.write(DOCUMENT.format(
            port=self.port, connections=connections, journal=journal, controller=controller, extensions=extensions,
        ))
        self.document.flush()
        self.process = subprocess.Popen(
            [program, "serve", self.document.name], stdin=subprocess.DEVNULL, stderr=subprocess.PIPE,
            preexec_fn=few_descriptors, text=True,
        )
        self.wait_until_it_listens()

    def __enter__(self):
        return self

    def __exit__(self, *_):
        self.process.kill()
        self.process.wait()
        self.document.close()

    def wait_until_it_listens(self):
        for _ in range(400):
            if self.process.poll() is not None:
                raise AssertionError(f"the program ended with status {self.process.returncode} at once")
            try:
                return socket.create_connection(("127.0.0.1", self.port)).close()
            except ConnectionRefusedError:
                time.sleep(0.05)
        raise AssertionError("the program does not listen")

    def client(self, **how):
        return Client(self.port, **how)

    def said(self):
        """What stands on standard error, once the program has ended."""
        return self.process.stderr.read()

    def sockets(self):
        """How many sockets the program holds, that at which it listens included."""
        folder = f"/proc/{self.process.pid}/fd"
        return sum(link_of(f"{folder}/{name}").startswith("socket:") for name in os.listdir(folder))

    def comes_to_sockets(self, count, seconds):
        """Whether the program holds so many sockets before the time is up."""
        end = time.monotonic() + seconds
        while self.sockets() != count:
            if time.monotonic() > end:
                return False
            time.sleep(0.02)
        return True

    def most_memory(self):
        """The most memory that the program has held, in KB."""
        status = pathlib.Path(f"/proc/{self.process.pid}/status").read_text()
        return int(status.partition("VmHWM:")[2].split()[0])

    def processor_seconds(self):
        fields = pathlib.Path(f"/proc/{self.process.pid}/stat").read_text().rpartition(")")[2].split()
        return (int(fields[11]) + int(fields[12])) / os.sysconf("SC_CLK_TCK")

    def shut_down(self, seconds=10):
        """Ends the switch, and gives the status of the program."""
        client = self.client()
        client.command("api fsctl shutdown")
        status = self.process.wait(seconds)
        client.close()
        return status

    def ends_well(self):
        """Sees that a shutdown ends the program with status 0."""
        status = self.shut_down()
        if status != 0:
            raise AssertionError(f"the program ended with status {status} and {self.said()!r}")


def link_of(path):
    try:
        return os.readlink(path)
    except OSError:
        return ""
