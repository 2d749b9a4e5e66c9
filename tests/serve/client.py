"""A client of the event socket: it reads frames, gives commands, and keeps the events that come between their answers."""

import collections
import select
import socket
import struct

Frame = collections.namedtuple("Frame", "headers body")


class Ended(Exception):
    """The connection is at its end."""


class Peer:
    """An end of a connection to the program."""

    def __init__(self, connected, seconds=30):
        self.socket = connected
        self.socket.setsockopt(socket.IPPROTO_TCP, socket.TCP_NODELAY, 1)
        self.socket.settimeout(seconds)
        self.rest = b""
        self.events = []

    def send(self, data):
        self.socket.sendall(data)

    def give(self, *commands):
        """Sends commands, and waits for nothing."""
        self.send("".join(command + "\n\n" for command in commands).encode())

    def frame(self):
        """The next frame, of whatever kind."""
        while b"\n\n" not in self.rest:
            self.more()
        head, _, self.rest = self.rest.partition(b"\n\n")
        headers = dict(line.split(": ", 1) for line in head.decode().split("\n"))
        length = int(headers.get("Content-Length", 0))
        while len(self.rest) < length:
            self.more()
        body, self.rest = self.rest[:length], self.rest[length:]
        return Frame(headers, body)

    def more(self):
        try:
            got = self.socket.recv(262144)
        except ConnectionResetError:
            raise Ended("reset") from None
        if not got:
            raise Ended("closed")
        self.rest += got

    def answer(self):
        """The next frame that is no event; the events in front of it are kept."""
        while True:
            frame = self.frame()
            if frame.headers["Content-Type"] != "text/event-plain":
                return frame
            self.events.append(frame)

    def command(self, command):
        self.give(command)
        return self.answer()

    def api(self, command):
        return text_of(self.command("api " + command))

    def event(self):
        """The headers of the next event."""
        return headers_of(self.event_frame())

    def event_body(self):
        """The body of the next event."""
        return self.event_frame().body.decode().partition("\n\n")[2]

    def event_frame(self):
        if self.events:
            return self.events.pop(0)
        frame = self.frame()
        if frame.headers["Content-Type"] != "text/event-plain":
            raise AssertionError(f"{frame} in place of an event")
        return frame

    def has_more(self, seconds):
        """Whether something comes in so many seconds."""
        return bool(self.rest) or bool(select.select([self.socket], [], [], seconds)[0])

    def close(self):
        self.socket.close()

    def reset(self):
        """Ends the connection without its farewell."""
        self.socket.setsockopt(socket.SOL_SOCKET, socket.SO_LINGER, struct.pack("ii", 1, 0))
        self.socket.close()


class Client(Peer):
    def __init__(self, port, password="ClueCon", seconds=30, receive_buffer=None):
        """Connects, and gives the password where there is one."""
        connecting = socket.socket()
        if receive_buffer:
            connecting.setsockopt(socket.SOL_SOCKET, socket.SO_RCVBUF, receive_buffer)
        connecting.settimeout(seconds)
        connecting.connect(("127.0.0.1", port))
        super().__init__(connecting, seconds)
        if password:
            self.greet(password)

    def greet(self, password):
        kind = self.frame().headers["Content-Type"]
        answer = text_of(self.command("auth " + password))
        if (kind, answer) != ("auth/request", "+OK accepted"):
            raise AssertionError(f"the password was answered {kind} and {answer}")


def text_of(frame):
    """What a command was answered."""
    if frame.headers["Content-Type"] == "api/response":
        return frame.body.decode()
    return frame.headers.get("Reply-Text", frame.headers["Content-Type"])


def headers_of(event):
    """The headers of an event."""
    head = event.body.decode().partition("\n\n")[0]
    return dict(line.split(": ", 1) for line in head.split("\n"))


def is_notice(frame):
    return frame.headers["Content-Type"] == "text/disconnect-notice"
