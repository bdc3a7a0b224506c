"""Of .ci/loops: whose turn it is. What comes over connections while their loop waits for a sync, or while a commit of their own waits for that
of another loop, is answered to each after it, once, all of it and in order; and whoever has sent all is closed."""
import select
import threading
import time

from clients import OK, OPEN, Server, asks, begin, replies, rests, took, until
from frames import request

# How many gets one connection sends without waiting for the first one's reply.
GETS = 1_500
# For how long the sync is slow beside which all of it comes, in seconds.
SLOW = 1
# How many connections ask something meanwhile: more than a loop looks for before it syncs.
MANY = 150
# Puts that are more than the longest frame has, and that a socket holds whole; and gets of what is put.
PUTS = [f"1 put {at:02x} {at:02x}{'76' * 14_000}" for at in range(7)]


def commit(xid):
    return f"1 commit TMONEPHASE {xid}"


def beside_a_sync(server, peer, sends):
    """Has a commit of a connection wait for a slow sync, and meanwhile others send, with pauses. What it is answered."""
    begin(peer, "1:51:", "73")
    server.fault(f"slow 1+ {SLOW * 1000}")
    peer.send(commit("1:51:"))
    time.sleep(SLOW / 4)
    server.fault()
    for send in sends:
        send()
        time.sleep(SLOW / 20)
    return next(replies([peer], 1))


def behind_a_sync(library):
    """Of the loop that makes it."""
    with Server("--loops", "1", library=library) as server:
        slow, *many = (server.peer() for _ in range(MANY + 1))
        halves = [server.peer() for _ in range(4)]
        names = [f"{at:04x}" for at in range(MANY)]
        for peer, name in zip(many, names):
            begin(peer, f"1:{name}:", name)

        def all_ask():
            for peer, name in zip(many, names):
                lines = commit(f"1:{name}:"), "1 start TMNOFLAGS 1:{name}01:", f"1 get {name}"
                peer.socket.sendall(b"".join(request(line.format(name=name)) for line in lines))
            for peer in halves:
                peer.send(OPEN)
                peer.ends()

        found = beside_a_sync(server, slow, [all_ask])
        yield "turns: a commit whose sync is slow", found, [OK]
        found = list(replies(many, 3))
        yield f"turns: each of {MANY} that asked meanwhile has three replies", found, [[OK, OK, f"{OK} value 76"]] * MANY
        yield "turns: each that sent no more after its request is closed", [*replies(halves, 1), *rests(halves)], [[OK]] * 4 + [b""] * 4
    with Server("--loops", "1", library=library, by_socket=True) as server:
        slow, long = server.peer(), server.peer()
        asks(long, [OPEN, "1 start TMNOFLAGS 1:aa:"])
        found = beside_a_sync(server, slow, [lambda: long.socket.sendall(b"".join(map(request, PUTS)))]) + next(replies([long], len(PUTS)))
        yield "turns: more than the longest frame has, all there", found, [OK] * (1 + len(PUTS))


def behind_another(library):
    """Of the loops beside it, where commits wait for that sync."""
    with Server("--loops", "2", library=library) as server:
        # both have begun: each gets every second connection
        time.sleep(SLOW / 4)
        slow, one, asker, half, _, gone = (server.peer() for _ in range(6))
        for peer, xid, key in ((one, "1:01:", "6b"), (half, "1:02:", "6c"), (gone, "1:03:", "6d")):
            begin(peer, xid, key)
        sends = [
            lambda: one.socket.sendall(request(commit("1:01:")) + request(OPEN)),
            lambda: (half.send(commit("1:02:")), gone.send(commit("1:03:"))),
            lambda: (half.ends(), gone.close(), one.send("1 start TMNOFLAGS 1:04:")),
            lambda: one.socket.sendall(request("1 get 6b")[:5]),
            lambda: one.socket.sendall(request("1 get 6b")[5:] + request("1 recover TMSTARTRSCAN|TMENDRSCAN 10")),
        ]
        found = beside_a_sync(server, slow, sends)
        yield "turns, beside another loop: a commit whose sync is slow", found, [OK]
        yield "turns, beside another loop: all that came after a commit", next(replies([one], 5)), [OK, OK, OK, f"{OK} value 76", f"{OK} xids"]
        yield "turns, beside another loop: one that sent no more", [*replies([half], 1), *rests([half])], [[OK], b""]
        is_left = until(lambda: " sessions 4 " in asks(asker, ["1 status"])[0]) is not None
        found = is_left, asks(asker, [OPEN, "1 start TMNOFLAGS 1:05:", "1 get 6d"])[2]
        yield "turns, beside another loop: one that went", found, (True, f"{OK} value 76")


def beside_a_commit(server, peer, send):
    """Has a commit of a connection come together with what others send, while the loop makes another sync. It is slow, too."""
    first, slow = server.peer(), server.peer()
    begin(first, "1:51:", "73")
    begin(slow, "1:52:", "74")
    asks(peer, [OPEN, "1 start TMNOFLAGS 1:53:"])
    server.fault(f"slow 1+ {SLOW * 1000}")
    first.send(commit("1:51:"))
    time.sleep(SLOW / 4)
    slow.send(commit("1:52:"))
    send()
    return first, slow


def behind_one_another(library):
    """Requests of one connection that come at once, beside a commit of their round that waits for its sync."""
    with Server("--loops", "1", library=library) as server:
        asker = server.peer()
        first, slow = beside_a_commit(server, asker, lambda: asker.socket.sendall(request("1 get 6b") * 2))
        found = next(replies([asker], 2))
        waits = not select.select([slow.socket], [], [], SLOW / 4)[0]
        yield "turns: two gets beside a commit of their round are answered before it", (found, waits), ([f"{OK} absent"] * 2, True)
        yield "turns: the commits", [*replies([first, slow], 1)], [[OK], [OK]]
    with Server("--loops", "1", library=library) as server:
        long = server.peer()
        asking = threading.Thread(target=lambda: long.socket.sendall(request("1 get 6b") * GETS))
        found = []
        reading = threading.Thread(target=lambda: found.extend(next(replies([long], GETS))))
        first, slow = beside_a_commit(server, long, asking.start)
        reading.start()
        spent, answers = took(lambda: [*replies([first, slow], 1)])
        is_first = reading.is_alive()
        asking.join()
        reading.join()
        yield f"turns: commits beside {GETS} gets of one connection", (answers, spent < 3 * SLOW, is_first), ([[OK], [OK]], True, True)
        yield f"turns: the {GETS} gets", (len(found), set(found)), (GETS, {f"{OK} absent"})
