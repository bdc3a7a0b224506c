"""Of .ci/loops: an operator has the connection of a session ended. That one is, whatever it was doing, and no other one; who asked is told once it
has been hung up."""
import time

from clients import OK, OPEN, Server, asks, begin, is_answered, is_closed
from frames import request

# How long the sync is slow for which a commit waits, in seconds.
SLOW = 1
SOON = 5
DONE = "0 Nothing"
NOBODY = "-5 Nothing"


def disconnects(session):
    """The frame that asks for the end of the connection of a session."""
    return bytes([0, 0, 0, 10, 1, 71]) + session.to_bytes(8, "big")


def shown_code(content):
    """The code and the detail of an answer that carries nothing."""
    if content is None or len(content) != 15 or content[6:] != bytes(9):
        return repr(content)
    return f"{int.from_bytes(content[1:5], 'big', signed=True)} {('Nothing', 'Memory')[content[5]]}"


def cut(peer, session):
    peer.socket.sendall(disconnects(session))
    return shown_code(peer.reply())


def opened(server, count):
    """So many connections, whose sessions have the numbers 1, 2 and so on, as each is connected after the one before."""
    peers = []
    for _ in range(count):
        peer = server.peer()
        assert peer.ask(OPEN) == OK
        peers.append(peer)
    return peers


def at_work(loops):
    """One that is at work: its keys are held, and are free once it has ended."""
    title = f"cuts, {loops} loops"
    with Server("--loops", loops) as server:
        operator, one, other, idle = opened(server, 4)
        asks(one, ["1 start TMNOFLAGS 1:aa:", "1 put 6b 76"])
        asks(other, ["1 start TMNOFLAGS 1:bb:"])
        yield f"{title}: a key of a branch at work", other.ask("1 get 6b"), "4 Busy"
        yield f"{title}: nobody has that session", [cut(operator, it) for it in (0, 5, 2**64 - 1)], [NOBODY] * 3
        yield f"{title}: the session at work", cut(operator, 2), DONE
        yield f"{title}: its connection is closed", is_closed(one, SOON), True
        yield f"{title}: its branch is there still", other.ask("1 get 6b"), "4 Busy"
        yield f"{title}: its branch can be rolled back", operator.ask("1 rollback TMNOFLAGS 1:aa:"), "101 Nothing"
        yield f"{title}: its key is free", other.ask("1 get 6b"), f"{OK} absent"
        yield f"{title}: it has ended", cut(operator, 2), NOBODY
        newcomer = server.peer()
        yield f"{title}: a newcomer", newcomer.ask(OPEN), OK
        yield f"{title}: the others go on", [it.ask("1 open TMNOFLAGS n") is not None for it in (operator, other, idle, newcomer)], [True] * 4
        idle.socket.sendall(request(OPEN)[:5])
        time.sleep(0.1)
        yield f"{title}: inside a frame", (cut(operator, 4), is_closed(idle, SOON)), (DONE, True)
        # no answer is sent over a connection that has ended
        operator.socket.sendall(disconnects(1))
        yield f"{title}: its own", is_closed(operator, SOON), True
        yield f"{title}: who is left goes on", [it.ask("1 get 6b") is not None for it in (other, newcomer)], [True] * 2


def reused(loops):
    """The number is a newcomer's right after an order."""
    title = f"cuts, {loops} loops"
    with Server("--loops", loops) as server:
        operator, one = opened(server, 2)
        operator.socket.sendall(disconnects(2) + request(OPEN))
        newcomer = server.peer()
        newcomer.send(OPEN)
        found = shown_code(operator.reply()), operator.reply() is not None, is_closed(one, SOON)
        # whichever number it has, it is served
        yield f"{title}: a newcomer right after an order", (*found, is_answered(newcomer, SOON)), (DONE, True, True, True)
    with Server("--loops", loops) as server:
        operator, one = opened(server, 2)
        found = cut(operator, 2)
        newcomer = server.peer()
        # a number that is reused is another connection's
        yield f"{title}: who has the number then", (found, newcomer.ask(OPEN), cut(operator, 2), is_closed(newcomer, SOON)), (DONE, OK, DONE, True)


def behind_a_sync(library, loops):
    """One whose commit waits for a slow sync is ended once its loop comes to it."""
    title = f"cuts, {loops} loops"
    with Server("--loops", loops, library=library) as server:
        operator, one, other = opened(server, 3)
        begin(one, "1:aa:", "6b")
        server.fault(f"slow 1+ {SLOW * 1000}")
        one.send("1 commit TMONEPHASE 1:aa:")
        time.sleep(SLOW / 4)
        server.fault()
        began = time.monotonic()
        found = cut(operator, 2)
        yield f"{title}: a commit waits for a sync", (found, time.monotonic() - began < SLOW + SOON), (DONE, True)
        # the commit is answered before, or not any more
        yield f"{title}: its connection is closed", len(one.rest()) in (0, 19), True
        yield f"{title}: others go on", [it.ask("1 start TMNOFLAGS 1:cc:") is not None for it in (operator, other)], [True] * 2
