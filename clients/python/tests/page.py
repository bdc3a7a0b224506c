"""The bytes of docs/CLIENT.md: this client sends what the page says is sent, and takes what it says is answered."""

import os
import re
import socket

import xarm
from expect import equal, refuses
from servers import Server, frame_of, in_thread
from xarm import Code, Flags

LINE = re.compile(r" {4}([<>!]) ((?:(?:[0-9a-f]{2})+ )*(?:[0-9a-f]{2})+(?= {2}|$))?")
PAGE = os.path.join(os.path.dirname(os.path.abspath(__file__)), "../../../docs/CLIENT.md")


def dumps():
    """The page's bytes, one direction after the other: '>' is sent, '<' answered, '!' a break."""
    found = []
    with open(PAGE, encoding="utf-8") as page:
        for line in page:
            match = LINE.match(line.rstrip())
            if match:
                content = bytes.fromhex((match[2] or "").replace(" ", ""))
                if found and found[-1][0] == match[1]:
                    found[-1][1] += content
                else:
                    found.append([match[1], content])
    return [(direction, content) for direction, content in found]


def work(one, server):
    """What the page does."""
    of = xarm.xid(1, b"\xaa", b"\xbb")

    def begin():
        one.xa_start(of)
        one.put(b"k", b"v")

    begin()
    equal(one.get(b"k"), b"v")
    one.xa_end(of)
    one.xa_prepare(of)
    one.xa_commit(of)
    one.xa_start(of)
    one.xa_end(of, Flags.TMFAIL)
    equal(one.xa_rollback(of), Code.XA_RBROLLBACK)
    begin()
    one.xa_end(of)
    one.xa_prepare(of)
    server.restart()
    one._disconnect()
    equal(one.xa_recover(256, Flags.TMSTARTRSCAN), [of])
    one.xa_commit(of)
    with refuses(Code.XAER_NOTA):
        one.xa_commit(of)
    equal(one.xa_recover(256), [])


def tests(program, room):
    def same():
        """the bytes of docs/CLIENT.md are what is sent and answered"""
        passed = []
        with Server(program, room) as server:
            with Recorder(server.port, passed) as recorder:
                one = xarm.connect("127.0.0.1", recorder.port, "bank", idle=1e9)
                work(one, server)
        wanted = [dump for dump in dumps() if dump[0] != "!"]
        equal(len(wanted) >= 38, True)
        equal(merged(passed), wanted)

    yield same.__doc__, same


def merged(passed):
    found = []
    for direction, content in passed:
        if found and found[-1][0] == direction:
            found[-1] = direction, found[-1][1] + content
        else:
            found.append((direction, content))
    return found


class Recorder:
    """Stands before a server, and writes down what passes. The client doesn't send before it has the last reply."""

    def __init__(self, port, passed):
        self.listener, self.to, self.passed = socket.create_server(("127.0.0.1", 0)), port, passed
        self.port = self.listener.getsockname()[1]
        in_thread(self.accept)

    def accept(self):
        while True:
            client, _ = self.listener.accept()
            server = socket.create_connection(("127.0.0.1", self.to))
            in_thread(self.passes, client, server)

    def passes(self, client, server):
        while frame := frame_of(client):
            self.passed.append((">", frame))
            server.sendall(frame)
            answer = frame_of(server)
            if not answer:
                break
            self.passed.append(("<", answer))
            client.sendall(answer)
        for each in (client, server):
            each.close()

    def __enter__(self):
        return self

    def __exit__(self, *_):
        self.listener.close()
