"""Destinations that harm who sends to them: for house.py."""
import contextlib
import json
import socket
import threading
import time

import chaos
from houses import url_to


class Harmful:
    """A destination that takes a connection, and then does as `call` says with it."""

    def __init__(self, call, backlog=64):
        self.call, self.count = call, 0
        self.listener = socket.create_server(("127.0.0.1", 0), backlog=backlog)
        self.url = url_to(self.listener.getsockname()[1])
        if call:
            threading.Thread(target=self.accept, daemon=True).start()

    def accept(self):
        while True:
            try:
                connection = self.listener.accept()[0]
            except OSError:
                return
            self.count += 1
            threading.Thread(target=self.one, args=(connection,), daemon=True).start()

    def one(self, connection):
        with connection, contextlib.suppress(OSError):
            connection.settimeout(60)
            self.call(connection, chaos.one_request(connection))

    def __enter__(self):
        return self

    def __exit__(self, *fault):
        with contextlib.suppress(OSError):
            self.listener.shutdown(socket.SHUT_RDWR)
        self.listener.close()


@contextlib.contextmanager
def takes_no_connection():
    """The URL of an address at which a connection is never made: its backlog is full."""
    with Harmful(None, backlog=0) as full, contextlib.ExitStack() as stack:
        for _ in range(4):
            client = stack.enter_context(socket.socket())
            client.setblocking(False)
            client.connect_ex(full.listener.getsockname())
        time.sleep(0.2)
        yield full


def drips(connection, _):
    """A byte of a response each second."""
    for byte in b"HTTP/1.1 200 OK\r\nContent-Length: 5\r\n" + 100 * b"A: b\r\n":
        connection.sendall(bytes([byte]))
        time.sleep(1)


def is_silent(connection, _):
    connection.recv(1)


def answers_with(given):
    return lambda connection, _: connection.sendall(given)


def responds(body, status="200 OK"):
    text = json.dumps(body) if not isinstance(body, str) else body
    return f"HTTP/1.1 {status}\r\nContent-Length: {len(text)}\r\n\r\n{text}".encode()


def answers_for_another(connection, given):
    """An answer that tells of another spawn, of which its receiver knows nothing."""
    command = json.loads(given.partition(b"\r\n\r\n")[2])["JMF"]
    connection.sendall(responds({"JMF": {
        "ReceiverID": command["SenderID"], "SenderID": command["ReceiverID"],
        "TimeStamp": 1, "Version": "1.5", "Response": {
            "ID": "Q.S77.a", "QueueEntry": {"QueueEntryID": "S77", "Status": "Running"},
            "Reason": 0, "ReturnCode": 0, "Type": "SubmitQueueEntry", "refID": "Q.S77"}}}))


HARMS = {
    "drips": drips,
    "is silent": is_silent,
    "closes": lambda connection, _: None,
    "garbage": answers_with(bytes(range(128, 256)) * 40),
    "no message": answers_with(responds("{}")),
    "half a message": answers_with(responds('{"JMF":{"ReceiverID":"job-1"')),
    "an endless head": lambda connection, _: [connection.sendall(1000 * b"A: b\r\n")
                                              for _ in range(100)],
    "a larger body than it takes": answers_with(
        b"HTTP/1.1 200 OK\r\nContent-Length: 999999999\r\n\r\n"),
    "503": answers_with(responds("", "503 Service Unavailable")),
    "404": answers_with(responds("no controller", "404 Not Found")),
    "the answer of another": answers_for_another,
}
