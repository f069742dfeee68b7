"""A log in NATS's JetStream, by a client that does just what this example needs.

A stream has texts at places that are counted from 1. Who stores a text names its place, and a place is
taken once. So a call that no server answered is made again until one does.
"""

import base64
import itertools
import json
import secrets
import socket
import time

ANSWER_WITHIN = 1  # seconds, and then the next server is tried
AGAIN_AFTER = 0.1  # seconds
NO_MESSAGE = 10037  # the error's code in JetStream


class Log:
    def __init__(self, ports):
        self.ports, self.socket, self.count = itertools.cycle(ports), None, 0

    def create(self, stream, replicas):
        config = {"name": stream, "subjects": [stream], "num_replicas": replicas, "storage": "file"}
        self.ask(f"STREAM.CREATE.{stream}", config, lambda answer: "config" in answer)

    def leader(self, stream):
        """The name of the server that leads a stream."""
        known = lambda answer: answer.get("cluster", {}).get("leader")
        return known(self.ask(f"STREAM.INFO.{stream}", {}, known))

    def get(self, stream, place, patience=0):
        """The text at a place, or None if the stream's leader has said for so many seconds that there is none."""
        known = lambda answer: "message" in answer or answer.get("error", {}).get("err_code") == NO_MESSAGE
        while "message" not in (answer := self.ask(f"STREAM.MSG.GET.{stream}", {"seq": place}, known)):
            if patience <= 0:
                return None
            patience -= AGAIN_AFTER
            time.sleep(AGAIN_AFTER)
        return base64.b64decode(answer["message"].get("data", ""))

    def put(self, stream, place, text):
        """Stores a text at the next place, and returns what is there: this text, or what was stored there before."""
        while True:
            if self.request(stream, text, f"Nats-Expected-Last-Sequence: {place - 1}\r\n").get("seq") == place:
                return text
            if (there := self.get(stream, place)) is not None:
                return there
            time.sleep(AGAIN_AFTER)

    def ask(self, call, body, settles):
        """The answer to a call of JetStream, which is made again while errors come, or nothing, as in an election."""
        while not settles(answer := self.request(f"$JS.API.{call}", json.dumps(body).encode())):
            time.sleep(AGAIN_AFTER)
        return answer

    def request(self, subject, text, header=""):
        """The answer to one message, or an empty one if none came in time."""
        try:
            if not self.socket:
                self.connect()
            self.count += 1
            to, head = f"{self.inbox}.{self.count}", f"NATS/1.0\r\n{header}\r\n"
            line = f"HPUB {subject} {to} {len(head)} {len(head) + len(text)}\r\n"
            self.socket.sendall((line + head).encode() + text + b"\r\n")
            return self.receive(to)
        except OSError:
            self.socket = None
            return {}

    def connect(self):
        self.socket = socket.create_connection(("127.0.0.1", next(self.ports)), ANSWER_WITHIN)
        self.reader, self.inbox = self.socket.makefile("rb"), f"_INBOX.{secrets.token_hex(8)}"
        options = json.dumps({"headers": True, "no_responders": True, "verbose": False})
        self.socket.sendall(f"CONNECT {options}\r\nSUB {self.inbox}.* 1\r\n".encode())

    def receive(self, inbox):
        """What comes whole to an inbox. What comes late to another is passed over: two servers may answer one request."""
        while (line := self.reader.readline()).endswith(b"\n"):
            word, *rest = line.decode().split()
            if word == "PING":
                self.socket.sendall(b"PONG\r\n")
            elif word in ("MSG", "HMSG"):
                text = self.reader.read(int(rest[-1]) + 2)
                if rest[0] == inbox and text.endswith(b"\r\n"):
                    return json.loads(text[int(rest[-2]) if word == "HMSG" else 0 :].strip() or "{}")
        raise ConnectionError("the server closed the connection")
