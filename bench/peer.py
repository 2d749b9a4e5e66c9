"""The replies of a server that knows `auth` and `api echo` alone, with a thread for each client. It prints its port."""

import socket
import threading

GREETING = b"Content-Type: auth/request\n\n"
ACCEPTED = b"Content-Type: command/reply\nReply-Text: +OK accepted\n\n"
ANSWER = b"Content-Type: api/response\nContent-Length: %d\n\n%s"


def answer(command):
    if command.startswith(b"api echo "):
        text = command[len(b"api echo ") :]
        return ANSWER % (len(text), text)
    return ACCEPTED


def serve(client):
    client.setsockopt(socket.IPPROTO_TCP, socket.TCP_NODELAY, 1)
    client.sendall(GREETING)
    rest = b""
    while got := client.recv(16384):
        *commands, rest = (rest + got).split(b"\n\n")
        client.sendall(b"".join(map(answer, commands)))


with socket.create_server(("127.0.0.1", 0)) as door:
    print(door.getsockname()[1], flush=True)
    while True:
        threading.Thread(target=serve, args=door.accept()[:1], daemon=True).start()
