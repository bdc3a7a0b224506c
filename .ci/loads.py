"""A server that is started for .ci/history, and clients that keep it busy: many connections of one process, each with one call under way.
When each call was asked and answered is noted by the monotonic clock."""
import functools
import os
import select
import socket
import subprocess
import time

import frames
from callers import World, calls
from frames import LIMIT, free_port, request, timeless

# How often, in a thousand calls, a client hangs up instead where it may connect anew, and how many do so at once.
HANGS_UP, AT_ONCE = 15, 2
# How likely it is that a late client comes, each time that replies were taken.
COMES = 0.1
# The same of a quiet one that asks.
ASKS = 0.05


class Mistake(Exception):
    """What was wrong, and what to look at."""


@functools.lru_cache(20_000)
def frame(line):
    """The frame of a line without session. A put's is not kept: none comes twice."""
    return request(f"1 {line}")


class Server:
    """A server on the files of a folder. Its port, or socket, is another one each time."""

    def __init__(self, program, room, words, uses_port=True, environment=None, handles=(), waits=True):
        self.room, self.words = room, words
        self.uses_port, self.is_ready = uses_port, waits
        for _ in range(10):
            self.address = ("127.0.0.1", free_port()) if self.uses_port else os.path.join(room, "s")
            where = ["--port", str(self.address[1])] if self.uses_port else ["--socket", self.address]
            # appended to: a server that is started again goes on
            with open(os.path.join(room, "told"), "ab") as told:
                self.ran = subprocess.Popen(
                    [program, "serve", "--open-to-all", "--log", "l", "--name", "n", *where, *timeless(*words), *words], stdout=subprocess.PIPE, stderr=told, cwd=room,
                    env={**os.environ, **(environment or {})}, pass_fds=handles,
                )
            if not waits or self.ran.stdout.readline() == b"ready\n":
                return
            self.kill()
            if "cannot listen" not in self.has_told():
                break
        raise Mistake(f"the server didn't start: {self.has_told()}")

    def has_told(self):
        with open(os.path.join(self.room, "told"), encoding="utf-8") as told:
            return told.read()

    def connect(self):
        until = time.monotonic() + LIMIT
        while True:
            made = socket.socket(socket.AF_INET if self.uses_port else socket.AF_UNIX)
            if self.uses_port:
                made.setsockopt(socket.IPPROTO_TCP, socket.TCP_NODELAY, 1)
            made.settimeout(LIMIT)
            try:
                made.connect(self.address)
                return made
            except OSError:
                # one that isn't ready may not listen yet
                if self.is_ready or time.monotonic() > until or self.ran.poll() is not None:
                    raise
                made.close()

    def kill(self):
        self.ran.kill()
        self.ran.wait()
        self.ran.stdout.close()

    def ends(self):
        """What it printed, once it has ended by itself."""
        printed, _ = self.ran.communicate(timeout=LIMIT)
        return [line for line in printed.decode().splitlines() if line != "ready"]


class Asked:
    """A call: its connection, its line, when it was asked and answered, and the reply's content."""

    __slots__ = ("connection", "line", "sent", "received", "content")

    def __init__(self, connection, line, sent):
        self.connection, self.line, self.sent, self.received, self.content = connection, line, sent, None, None


class Connection:
    """A connection of a client, which is one session."""

    def __init__(self, number, server, world, client, is_quiet=False):
        self.number, self.client, self.world, self.is_quiet = number, client, world, is_quiet
        self.began, self.closed, self.ended = time.monotonic_ns(), None, False
        self.socket = server.connect()
        self.calls, self.came, self.all = calls(world, client, is_quiet), bytearray(), []
        self.waiting = []
        self.code, self.was_killed = None, False

    def ask(self):
        """Sends its next call, or some at once."""
        # a manager that is down helps nobody: now and then somebody restarts it
        is_down = self.code == -7 and self.world.random.random() < 0.2
        lines = "restart" if is_down else self.calls.send(self.code)
        lines = (lines,) if isinstance(lines, str) else lines
        content = b"".join(frame(line) if line[:3] != "put" else request(f"1 {line}") for line in lines)
        now = time.monotonic_ns()
        self.waiting = [Asked(self, line, now) for line in lines]
        self.all += self.waiting
        try:
            self.socket.sendall(content)
        except OSError:
            self.ended = True

    def receive(self):
        """Takes what came. Whether all replies are there, or the connection has ended."""
        try:
            more = self.socket.recv(65_536)
        except OSError:
            more = b""
        if not more:
            self.ended = True
            return True
        self.came += more
        now = time.monotonic_ns()
        while len(self.came) >= 4 and len(self.came) >= (end := int.from_bytes(self.came[:4], "big") + 4):
            if not self.waiting:
                raise Mistake(f"more than a reply came to: {self.all[-1].line}")
            asked = self.waiting.pop(0)
            asked.received, asked.content = now, bytes(self.came[4:end])
            self.code = int.from_bytes(self.came[5:9], "big", signed=True)
            del self.came[:end]
        return not self.waiting

    def is_answered(self):
        return not self.waiting

    def close(self):
        self.closed = time.monotonic_ns()
        self.socket.close()


class Load:
    """Clients of a server, each with one connection at a time. So many times one may hang up, and connect anew.

    They connect at once, or one after the other; so many come late, while the others are busy. Where some are quiet, every second one
    asks seldom: since connections are handed to the loops in turn, some loops have then done much and others little.
    """

    def __init__(self, server, seed, clients, again=0, at_once=True, late=0, some_quiet=False, may_lose=False, **mix):
        self.server, self.world, self.again, self.may_lose = server, World(seed, clients, **mix), again, may_lose
        self.poll, self.all, self.by_handle, self.lost = select.epoll(), [], {}, 0
        self.late, self.resting, self.some_quiet = list(range(clients - late, clients)), [], some_quiet
        for client in range(clients - late):
            connection = self.connect(client)
            while not (at_once or connection.is_answered() or connection.ended):
                self.turn(goes_on=False)

    def connect(self, client):
        connection = Connection(len(self.all), self.server, self.world, client, self.some_quiet and client % 2 == 1)
        self.all.append(connection)
        self.by_handle[connection.socket.fileno()] = connection
        self.poll.register(connection.socket, select.EPOLLIN)
        connection.ask()
        return connection

    def disconnect(self, connection):
        handle = connection.socket.fileno()
        self.poll.unregister(handle)
        del self.by_handle[handle]
        connection.close()

    def run(self, seconds, most):
        """Keeps all of them busy for so long from the first reply on, or for so many calls."""
        while not any(connection.all[0].content for connection in self.all):
            self.turn()
        for connection in list(self.by_handle.values()):
            if connection.is_answered() and not connection.is_quiet:
                self.step(connection)
        until, left = time.monotonic() + seconds, most
        while time.monotonic() < until and left > 0:
            left -= self.turn()
            if self.late and self.world.random.random() < COMES:
                self.connect(self.late.pop())
            if self.resting and self.world.random.random() < ASKS:
                self.resting.pop(0).ask()

    def turn(self, goes_on=True):
        """Takes what came to any of them, and then has these ask. How many."""
        ready = [self.by_handle[handle] for handle, _ in self.poll.poll(0.05)]
        whole = [connection for connection in ready if connection.receive()]
        for connection in whole:
            if connection.ended:
                self.loses(connection, goes_on)
            elif connection.is_quiet:
                self.resting.append(connection)
            elif goes_on:
                self.step(connection)
        return len(whole)

    def loses(self, connection, goes_on):
        """The server has closed one: its client connects anew."""
        if not self.may_lose:
            raise Mistake(f"the server closed a connection, and didn't answer: {connection.all[-1].line}")
        self.lost += 1
        self.disconnect(connection)
        if goes_on:
            self.connect(connection.client)

    def step(self, connection):
        """One asks, or hangs up and connects anew; it may have asked before, and not wait for the reply."""
        if self.again and self.world.random.random() * 1000 < HANGS_UP and self.are_settled():
            self.again -= 1
            if self.world.random.random() < 0.4:
                connection.ask()
            self.disconnect(connection)
            self.connect(connection.client)
        else:
            connection.ask()

    def are_settled(self):
        """Whether all but a few connections had a reply."""
        return sum(not it.all[0].content for it in self.by_handle.values()) < AT_ONCE

    def drain(self):
        """Waits for the reply of each call under way."""
        until = time.monotonic() + LIMIT
        while late := [it for it in self.by_handle.values() if not it.is_answered()]:
            self.turn(goes_on=False)
            if time.monotonic() > until:
                raise Mistake(f"no reply came within {LIMIT} seconds to: {', '.join(it.all[-1].line for it in late)}")

    def hang_up(self):
        """All hang up; nothing more may come to any of them."""
        for connection in list(self.by_handle.values()):
            connection.closed = time.monotonic_ns()
            connection.socket.settimeout(LIMIT)
            connection.socket.shutdown(socket.SHUT_WR)
        for connection in list(self.by_handle.values()):
            if connection.socket.recv(1):
                raise Mistake(f"something came after the last reply to: {connection.all[-1].line}")
            self.poll.unregister(connection.socket)
            connection.socket.close()
        self.by_handle.clear()

    def kill(self):
        """Kills the server, and takes the replies that it had sent."""
        self.server.kill()
        for connection in list(self.by_handle.values()):
            while not connection.ended and not connection.is_answered():
                connection.receive()
            self.disconnect(connection)
            connection.was_killed = True

    def calls(self):
        return [asked for connection in self.all for asked in connection.all]


def use_own_ports():
    """This process, which another one began, takes ports for itself, once."""
    if OWNER[0] != os.getpid():
        OWNER[0], frames.PORTS = os.getpid(), frames.own_ports()


# Who has the ports.
OWNER = [os.getpid()]
