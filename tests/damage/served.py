"""`fsw serve` over a document, at a free port of the loopback, and ends of connections to it."""

import contextlib
import re
import select
import socket
import subprocess
import tempfile
import time

from told import is_told

GREETING = b"Content-Type: auth/request\n\n"


def free_port():
    with socket.socket() as probe:
        probe.bind(("127.0.0.1", 0))
        return probe.getsockname()[1]


SECTION = b"""<section name="configuration"><configuration name="switch.conf"><settings>
<param name="journal-limit" value="1073741824"/></settings></configuration>
<configuration name="event_socket.conf"><settings><param name="listen-port" value="%d"/></settings></configuration>
</section>"""


def with_port(document, port):
    """The document with a section behind its first tag by which it listens at the port."""
    whole = document if b"<document" in document else b"<document></document>"
    return re.sub(rb"<document[^>]*>", lambda tag: tag[0] + SECTION % port, whole, count=1)


class Served:
    """A server. With `surroundings` these stand in its environment."""

    def __init__(self, program, document, port=None, surroundings=None):
        self.port = port or free_port()
        self.document = tempfile.NamedTemporaryFile(suffix=".xml")
        self.document.write(with_port(document, self.port))
        self.document.flush()
        self.process = subprocess.Popen(
            [program, "serve", self.document.name], env=surroundings, stdin=subprocess.DEVNULL, stderr=subprocess.PIPE,
        )

    def __enter__(self):
        return self

    def __exit__(self, *_):
        self.process.kill()
        self.process.wait()
        self.process.stderr.close()
        self.document.close()

    def listens(self, seconds=20):
        """Whether it comes to listen before it ends."""
        until = time.monotonic() + seconds
        while self.process.poll() is None and time.monotonic() < until:
            with contextlib.suppress(ConnectionRefusedError):
                return socket.create_connection(("127.0.0.1", self.port))
            time.sleep(0.002)
        return None

    def end(self):
        """A connection, or none where nobody listens any more."""
        with contextlib.suppress(ConnectionRefusedError, ConnectionResetError):
            return socket.create_connection(("127.0.0.1", self.port), timeout=5)
        return None

    def ends(self, seconds):
        """The status with which it ends, or None where it does not in time."""
        try:
            return self.process.wait(seconds)
        except subprocess.TimeoutExpired:
            return None

    def fault(self, statuses):
        """What is wrong with how it ended, if anything is."""
        line = self.process.stderr.read()
        status = self.process.returncode
        if status in statuses and is_told(status, line):
            return None
        return f"the server ended with status {status} and {line!r}"


def give(end, data):
    """Sends data, as far as the other end takes it, and then the end of the input."""
    with contextlib.suppress(OSError):
        end.sendall(data)
        end.shutdown(socket.SHUT_WR)


def read_all(end, seconds, silence=None):
    """What comes until the connection ends, and whether it did in time; or until nothing has come for so long."""
    got, until = b"", time.monotonic() + seconds
    while True:
        left = until - time.monotonic()
        if left <= 0 or not select.select([end], [], [], min(left, silence or left))[0]:
            return got, False
        try:
            more = end.recv(262144)
        except ConnectionResetError:
            return got, True
        if not more:
            return got, True
        got += more
