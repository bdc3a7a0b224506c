"""Frames over a connection to a server, beside the Rattle code: a request as a script's line spells it, and the line that shows a reply
(docs/PROTOCOL.md, docs/SCRIPT.md)."""
import fcntl
import itertools
import os
import re
import socket
import tempfile

# How long a reply may take, in seconds; and where servers have their files: in memory, where there are such folders.
LIMIT = 60
ROOM = "/dev/shm" if os.access("/dev/shm", os.W_OK) else None
# The ports of these scripts, below those that a connection is given by itself, and how many of them a process has for itself.
LEAST_PORT, MOST_PORT, BLOCK = 10_000, 32_000, 100
FLAGS = {
    "TMNOFLAGS": 0,
    "TMONEPHASE": 0x40000000,
    "TMFAIL": 0x20000000,
    "TMRESUME": 0x08000000,
    "TMSUCCESS": 0x04000000,
    "TMSUSPEND": 0x02000000,
    "TMSTARTRSCAN": 0x01000000,
    "TMENDRSCAN": 0x00800000,
    "TMJOIN": 0x00200000,
    "TMMIGRATE": 0x00100000,
}
DETAILS = ("Nothing", "Memory", "Device", "Busy", "Late", "Limit", "Frame", "LogFull", "Access")
STATES = ("", "working", "prepared", "committed", "rolledback")
# The operation of each call, and what its words are; a number is that many bytes.
CALLS = {
    "open": (1, "flags", "name"),
    "close": (2, "flags"),
    "start": (3, "flags", "xid"),
    "end": (4, "flags", "xid"),
    "prepare": (5, "flags", "xid"),
    "commit": (6, "flags", "xid"),
    "rollback": (7, "flags", "xid"),
    "recover": (8, "flags", 4),
    "forget": (9, "flags", "xid"),
    "get": (10, "key"),
    "put": (11, "key", "value"),
    "delete": (12, "key"),
    "decide": (13, "direction", "xid"),
    "doom": (14, "xid"),
    "restart": (15,),
    "timeout": (16, 4),
    "tick": (17, 8),
    "trim": (65,),
    "branches": (66, 4, "cursor"),
    "status": (67,),
}
# The frame that asks a server to end, and has no reply.
SHUTDOWN = bytes([0, 0, 0, 2, 1, 69])
# An option of servers whose events are counted: the loops tell the manager no time.
TIMELESS = "--tick", "0"
NUMBERS = ("boot", "end", "bytes", "branches", "prepared", "completed", "sessions", "versions", "calls", "seconds")
# Each call of a session.
SESSION = """1 open TMNOFLAGS n
1 timeout 600
1 start TMNOFLAGS 1:aa:bb
1 put 6b 7677
1 get 6b
1 delete 6c
1 get 6c
1 end TMSUSPEND 1:aa:bb
1 start TMRESUME 1:aa:bb
1 end TMSUCCESS 1:aa:bb
1 branches 10
1 prepare TMNOFLAGS 1:aa:bb
1 recover TMSTARTRSCAN|TMENDRSCAN 10
1 commit TMNOFLAGS 1:aa:bb
1 start TMNOFLAGS 1:ac:
1 put 6d -
1 end TMSUCCESS 1:ac:
1 prepare TMNOFLAGS 1:ac:
1 decide commit 1:ac:
1 forget TMNOFLAGS 1:ac:
1 start TMNOFLAGS 1:ad:
1 doom 1:ad:
1 end TMSUCCESS 1:ad:
1 rollback TMNOFLAGS 1:ad:
1 tick 7
1 start TMNOFLAGS 1:ae:
1 put 6e 01
1 end TMSUCCESS 1:ae:
1 commit TMONEPHASE 1:ae:
1 trim
1 restart
1 close TMNOFLAGS""".splitlines()


def own_ports():
    """A block of ports that no other process has that asks for one, as long as it lives: a server that has ended leaves its clients' port to
    no other script's server. Without end, in turn."""
    count = (MOST_PORT - LEAST_PORT) // BLOCK
    for number in range(count):
        first = LEAST_PORT + (os.getpid() + number) % count * BLOCK
        try:
            file = open(os.path.join(tempfile.gettempdir(), f"xarm-ports-{os.getuid()}-{first}"), "ab")
            fcntl.flock(file, fcntl.LOCK_EX | fcntl.LOCK_NB)
        except OSError:
            continue
        HELD.append(file)
        return itertools.cycle(range(first, first + BLOCK))
    raise OSError("no block of ports is free")


# The files whose locks tell which blocks this process has.
HELD = []
PORTS = own_ports()


def free_port():
    """A port where nobody listens, another one each time."""
    for port in PORTS:
        with socket.socket() as probe:
            probe.setsockopt(socket.SOL_SOCKET, socket.SO_REUSEADDR, 1)
            try:
                probe.bind(("127.0.0.1", port))
                return port
            except OSError:
                pass


def placeless(told):
    """What a server told, from whichever port an order came."""
    return re.sub(r"127\.0\.0\.\d:\d+: ", "PEER: ", told)


def but_orders(told):
    """What a server told beside an operator's orders."""
    return re.sub(r"(?m)^xarm: (127\.0\.0\.\d:\d+|PEER|socket|port): (decide|disconnect|doom|restart|shutdown|trim)\b.*\n", "", told)


def timeless(*words):
    """That option, where it is none of these, and not what they mean anyway."""
    return () if "--tick" in words or "--workers" in words else TIMELESS


def xid(text):
    number, *parts = text.split(":")
    first, second = (bytes.fromhex(part) for part in parts)
    return int(number).to_bytes(4, "big", signed=True) + bytes([len(first), len(second)]) + first + second


def field(kind, word):
    """The bytes of one word of a line, None where the line has no such word."""
    if isinstance(kind, int):
        return int(word).to_bytes(kind, "big")
    if kind == "flags":
        bits = int(word, 16) if word.startswith("0x") else sum(FLAGS[name] for name in word.split("|"))
        return bits.to_bytes(4, "big")
    if kind == "xid":
        return xid(word)
    if kind == "cursor":
        return b"\1" + xid(word) if word else b"\0"
    if kind == "direction":
        return b"\1" if word == "commit" else b"\2"
    text = word.encode() if kind == "name" else bytes.fromhex(word.strip("-"))
    return len(text).to_bytes(2 if kind == "value" else 1, "big") + text


def request(line):
    """The frame of a line 'N CALL WORD..'."""
    _, call, *words = line.split()
    number, *kinds = CALLS[call]
    words += [None] * (len(kinds) - len(words))
    content = bytes([1, number]) + b"".join(field(kind, word) for kind, word in zip(kinds, words))
    return len(content).to_bytes(4, "big") + content


class Reading:
    """A content that is read from left to right."""

    def __init__(self, content):
        self.rest = content

    def take(self, count):
        front, self.rest = self.rest[:count], self.rest[count:]
        assert len(front) == count
        return front

    def number(self, count, signed=False):
        return int.from_bytes(self.take(count), "big", signed=signed)

    def xid(self):
        number, first, second = self.number(4, True), self.number(1), self.number(1)
        return f"{number}:{self.take(first).hex()}:{self.take(second).hex()}"

    def branch(self):
        words = [self.xid(), STATES[self.number(1)], self.number(4, True), self.number(8), *(self.number(2) for _ in range(3))]
        return "".join(f" {word}" for word in words)

    def body(self):
        kind = self.number(1)
        if kind == 1:
            return f" number {self.number(8)}"
        if kind == 2:
            return f" value {self.take(self.number(2)).hex() or '-'}"
        if kind == 4:
            return " xids" + "".join(f" {self.xid()}" for _ in range(self.number(2)))
        if kind == 5:
            return " branches" + "".join(self.branch() for _ in range(self.number(2)))
        if kind == 6:
            return " status" + "".join(f" {name} {self.number(8)}" for name in NUMBERS)
        if kind == 8:
            return f" hello {self.number(4)} {self.number(8)}"
        if kind in (9, 10):
            return (" metrics", " sessions")[kind - 9] + "".join(f" {self.number(8)}" for _ in range(self.number(2)))
        assert kind in (0, 3)
        return " absent" if kind else ""


def shown(content):
    """The place of a reply, and its line."""
    reading = Reading(content)
    assert reading.take(1) == b"\1"
    code, detail, place = reading.number(4, True), DETAILS[reading.number(1)], reading.number(8)
    line = f"{code} {detail}{reading.body()}"
    assert not reading.rest
    return place, line


class Peer:
    """A connection to a server, by a port, or by a socket's path."""

    def __init__(self, port, receives=None):
        is_path = not str(port).isdigit()
        self.socket = socket.socket(socket.AF_UNIX if is_path else socket.AF_INET)
        self.socket.settimeout(LIMIT)
        if receives:
            self.socket.setsockopt(socket.SOL_SOCKET, socket.SO_RCVBUF, receives)
        if not is_path:
            self.socket.setsockopt(socket.IPPROTO_TCP, socket.TCP_NODELAY, 1)
        self.socket.connect(port if is_path else ("127.0.0.1", int(port)))

    def send(self, line):
        self.socket.sendall(request(line))

    def take(self, count, piece=65536):
        """So many bytes, in pieces of at most so many, fewer if it ended before."""
        came = bytearray()
        while len(came) < count:
            more = self.socket.recv(min(piece, count - len(came)))
            if not more:
                break
            came += more
        return bytes(came)

    def reply(self, piece=65536):
        """The content of the next frame; nothing if it was closed."""
        try:
            length = self.take(4, piece)
            content = self.take(int.from_bytes(length, "big"), piece)
        except ConnectionError:
            return None
        return content or None

    def ask(self, line):
        """What a line is answered; nothing if it was closed."""
        try:
            self.send(line)
        except ConnectionError:
            return None
        content = self.reply()
        return shown(content)[1] if content else None

    def rest(self):
        """What comes until it is closed."""
        came = bytearray()
        while more := self.socket.recv(65536):
            came += more
        return bytes(came)

    def ends(self):
        """It sends no more."""
        self.socket.shutdown(socket.SHUT_WR)

    def close(self):
        self.socket.close()


def contents(came):
    """The contents of frames that came, each whole."""
    found, at = [], 0
    while at < len(came):
        end = at + 4 + int.from_bytes(came[at : at + 4], "big")
        assert len(came) >= end
        found.append(came[at + 4 : end])
        at = end
    return found
