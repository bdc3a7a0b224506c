"""Live servers, relays that cut what passes, and servers that answer what a test has put down."""

import os
import queue
import random
import socket
import subprocess
import threading

import xarm

LIMIT = 30
NEVER = 1e9
WHOLE = None


def free_port():
    """A port on which nobody listens, below those that systems take for outgoing connections."""
    while True:
        port = random.randrange(10000, 32000)
        with socket.socket() as probe:
            try:
                probe.bind(("127.0.0.1", port))
                return port
            except OSError:
                pass


class Server:
    """A live `xarm serve`, which is started again at the same port, or Unix socket, and log."""

    def __init__(self, program, room, name="bank", path=None, options=()):
        self.name, self.port, self.path = name, free_port(), path
        where = ["--socket", path] if path else ["--port", str(self.port)]
        self.words = [program, "serve", "--log", os.path.join(room, f"log{self.port}"), "--name", name, "--tick", "0", *where, *options]
        self.start()

    def start(self):
        self.process = subprocess.Popen(self.words, stdout=subprocess.PIPE)
        assert self.process.stdout.readline() == b"ready\n", "the server isn't ready"

    def kill(self):
        self.process.kill()
        self.process.wait(LIMIT)
        self.process.stdout.close()

    def restart(self):
        self.kill()
        self.start()

    def connection(self, **settings):
        settings = {"timeout": LIMIT, "name": self.name, **settings}
        return xarm.Connection("127.0.0.1", self.port, path=self.path, **settings).connect()

    def __enter__(self):
        return self

    def __exit__(self, *_):
        if self.process.poll() is None:
            self.kill()


class Relay:
    """Stands before a server, and lets one request or one reply come in part or not at all: `cut["request"]` or `cut["reply"]` is of how
    many bytes."""

    def __init__(self, port):
        self.listener = socket.create_server(("127.0.0.1", 0))
        self.port, self.cut = self.listener.getsockname()[1], {"request": WHOLE, "reply": WHOLE}
        self.to = port
        in_thread(self.accept)

    def accept(self):
        while True:
            client, _ = self.listener.accept()
            server = socket.create_connection(("127.0.0.1", self.to))
            for one, other, what in ((client, server, "request"), (server, client, "reply")):
                one.setsockopt(socket.IPPROTO_TCP, socket.TCP_NODELAY, 1)
                in_thread(self.passes, one, other, what)

    def passes(self, one, other, what):
        try:
            while frame := frame_of(one):
                part, self.cut[what] = self.cut[what], WHOLE
                other.sendall(frame if part is WHOLE else frame[:part])
                if part is not WHOLE:
                    break
        finally:
            for each in (one, other):
                try:
                    each.shutdown(socket.SHUT_RDWR)
                except OSError:
                    pass

    def connection(self, **settings):
        return xarm.Connection("127.0.0.1", self.port, **{"timeout": LIMIT, "name": "bank", "idle": NEVER, **settings}).connect()

    def close(self):
        self.listener.close()


def frame_of(one):
    """The next frame, None if it ended."""
    came = take(one, 4)
    return came and came + take(one, int.from_bytes(came, "big"))


def take(one, count):
    came = b""
    while len(came) < count:
        more = one.recv(count - len(came))
        if not more:
            return b""
        came += more
    return came


def in_thread(what, *words):
    def run():
        try:
            what(*words)
        except OSError:
            pass  # a socket was closed

    threading.Thread(target=run, daemon=True).start()


def reply(code, detail=0, body=b"\0", place=None):
    """A reply's content; without a place it gets the next one."""
    number = code.to_bytes(4, "big", signed=True)
    return lambda next_place: b"\1" + number + bytes([detail]) + (next_place if place is None else place).to_bytes(8, "big") + body


class Fake:
    """Answers an Open with XA_OK, and each other frame with what was put down; once that is over, with `always`, if it is there."""

    def __init__(self):
        self.listener = socket.create_server(("127.0.0.1", 0))
        self.port, self.answers, self.asked, self.always, self.place = self.listener.getsockname()[1], queue.Queue(), [], None, 0
        in_thread(self.accept)

    def accept(self):
        while True:
            in_thread(self.serve, self.listener.accept()[0])

    def serve(self, client):
        while frame := frame_of(client):
            answer = reply(0)
            if frame[5] != 1:
                self.asked.append(frame[5])
                answer = self.always or self.answers.get()
            self.place += 1
            content = answer(self.place)
            client.sendall(len(content).to_bytes(4, "big") + content)
        client.close()

    def put(self, *answers):
        for answer in answers:
            self.answers.put(answer)

    def connection(self, **settings):
        return xarm.Connection("127.0.0.1", self.port, **{"timeout": LIMIT, "name": "fake", "idle": NEVER, **settings}).connect()

    def close(self):
        self.listener.close()
