#!/usr/bin/env python3
"""A controller: it answers each call that dials it, says so in a line, and leaves. It may be given its port as a word."""

import socketserver
import sys


class Call(socketserver.StreamRequestHandler):
    def handle(self):
        channel = self.command("connect")
        self.command("sendmsg\ncall-command: execute\nexecute-app-name: answer")
        self.command("exit")
        notice = self.frame()
        sys.stdout.write(f"{channel['Unique-ID']} {channel['Channel-Name']} {notice['Controlled-Session-UUID']}\n")
        sys.stdout.flush()

    def command(self, text):
        self.wfile.write(f"{text}\n\n".encode())
        return self.frame()

    def frame(self):
        lines = list(iter(lambda: self.rfile.readline().decode().rstrip("\n"), ""))
        if not lines:
            sys.exit("the connection is at its end")
        headers = dict(line.split(": ", 1) for line in lines)
        self.rfile.read(int(headers.get("Content-Length", 0)))
        return headers


class Controller(socketserver.ThreadingTCPServer):
    allow_reuse_address = True
    request_queue_size = 128


if __name__ == "__main__":
    with Controller(("127.0.0.1", int(sys.argv[1]) if sys.argv[1:] else 8084), Call) as controller:
        controller.serve_forever()
