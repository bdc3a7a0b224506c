"""Of .ci/loops: what a server tells when its manager goes down, by whichever call and over whichever loop, and that it ends then where that
is asked. Each time it is told once, with the cause, and again only once a Restart has helped."""
import contextlib
import fcntl
import os
import re
import time

from clients import OK, PATIENCE, Server, asks, begin, replies, rests, until

LOST, FAILED = "it is unknown whether a record reached the log", "a device call failed during a Restart"
# The calls on files that fail so that a record of a commit, and one that seals a trim, is lost; a Restart helps after those of writes alone.
RECORD, SEAL, ALL = "pwrite 1-2 28", "pwrite 3-4 28", "pwrite 1+ 28"
DEVICE, DOWN = "-7 Device", "-7 Nothing"


def causes(server):
    """Why the manager went down, each time that this was told."""
    return re.findall("xarm: manager down until a Restart or a restart of the server: (.*)", server.has_told())


def two_loops(server, loops):
    """A connection of each of two loops, where there are two."""
    time.sleep(0.2)
    peers = server.peer(), server.peer()
    for peer in peers:
        asks(peer, ["1 open TMNOFLAGS n"])
    return peers


def lost_commit(server, peer, xid, fault=RECORD):
    """What a commit is answered whose record is lost."""
    begin(peer, xid)
    return lost(server, peer, f"1 commit TMONEPHASE {xid}", fault)


def lost(server, peer, line, fault):
    server.fault(fault)
    found = asks(peer, [line])
    server.fault()
    return found


def told(loops, library):
    """By commits, a Trim and a Restart, each asked over another loop than the one before; so are the Restarts that help."""
    title = f"down, {loops} loops"
    with Server("--loops", loops, "--connections", "2", library=library) as server:
        one, other = two_loops(server, loops)
        steps = (
            ("a commit", lambda: lost_commit(server, one, "1:aa:"), [LOST]),
            ("another commit", lambda: lost_commit(server, one, "1:bb:"), [LOST] * 2),
            ("a Trim", lambda: lost(server, one, "1 trim", SEAL), [LOST] * 3),
            ("a Restart", lambda: lost(server, one, "1 restart", ALL), [LOST] * 3 + [FAILED]),
        )
        for name, step, wanted in steps:
            yield f"{title}: {name} whose record is lost", (step(), until(lambda: causes(server) == wanted) is not None), ([DEVICE], True)
            # what is answered while it is down tells nothing new
            found = [asks(peer, ["1 close TMNOFLAGS", "1 open TMNOFLAGS n", "1 recover TMSTARTRSCAN 10"]) for peer in (one, other)]
            found += [lost(server, one, "1 restart", ALL), asks(other, ["1 trim"])]
            yield f"{title}: after {name}", found, [[OK, OK, DOWN]] * 2 + [[DEVICE], [DOWN]]
            yield f"{title}: after {name} it is told once", causes(server), wanted
            one, other = other, one
            yield f"{title}: after {name} a Restart helps", asks(one, ["1 restart"]), [OK]
        begin(other, "1:cc:")
        yield f"{title}: it is up", asks(other, ["1 commit TMONEPHASE 1:cc:"]), [OK]
        one.close()
        other.close()
        status, _, text = server.end_and_print()
        yield f"{title}: its end", (status, text.count("manager down")), (0, 4)


def ended(loops, library):
    """With --exit-when-down, by each of these, and by a trim that the server makes itself."""
    title = f"down, {loops} loops, --exit-when-down"

    def trims(server, peer):
        # it looks where the log ends after four calls that may have moved that
        for at in range(4):
            begin(peer, f"1:{at:02x}:", "6b" * 64)
            server.fault("fdatasync 4 5" if at == 3 else "")
            found = asks(peer, [f"1 commit TMONEPHASE 1:{at:02x}:"])
        return found

    for name, words, step, wanted in (
        ("a commit", (), lambda server, peer: lost_commit(server, peer, "1:aa:", "fdatasync 1 5"), ([DEVICE], LOST)),
        ("a Trim", (), lambda server, peer: lost(server, peer, "1 trim", SEAL), ([DEVICE], LOST)),
        ("a Restart", (), lambda server, peer: lost(server, peer, "1 restart", ALL), ([DEVICE], FAILED)),
        ("a trim of its own", ("--trim", "1"), trims, ([OK], LOST)),
    ):
        with Server("--loops", loops, "--exit-when-down", *words, library=library) as server:
            one, other = two_loops(server, loops)
            answered, why = step(server, other), lambda: (server.end_and_print()[0], causes(server))
            yield f"{title}: {name} whose record is lost ends it", (answered, is_ended(server) and why()), (wanted[0], (1, [wanted[1]]))
            yield f"{title}: {name}: all are closed", list(rests([one, other])), [b""] * 2


def audited(library):
    """With --exit-when-down and an audit."""
    with Server("--loops", "2", "--exit-when-down", "--audit", library=library) as server:
        _, other = two_loops(server, "2")
        found = lost_commit(server, other, "1:aa:", "fdatasync 1 5")
        status, printed, _ = server.end_and_print()
        found = found, status, bool(re.fullmatch(r"calls \d+\naudit ok\n", printed)), causes(server)
        yield "down, --exit-when-down --audit: what was answered is audited", found, ([DEVICE], 1, True, [LOST])


def helped(library):
    """With --exit-when-down, where a Restart comes in one round with the commit whose record is lost, while the loop waits for a sync."""
    with Server("--loops", "1", "--exit-when-down", library=library) as server:
        slow, one, other = (server.peer() for _ in range(3))
        for at, peer in enumerate((slow, one, other)):
            begin(peer, f"1:{at:02x}:", f"{at:02x}")
        server.fault("slow 1 1000")
        slow.send("1 commit TMONEPHASE 1:00:")
        time.sleep(0.2)
        server.fault(RECORD)
        one.send("1 commit TMONEPHASE 1:01:")
        time.sleep(0.1)
        other.send("1 restart")
        found = list(replies([slow, one, other], 1))
        yield "down: a Restart in the same round helps", found, [[OK], [DEVICE], [OK]]
        yield "down: that it was down is told all the same", until(lambda: causes(server) == [LOST]) is not None, True
        yield "down: it goes on", (server.is_up(), asks(one, ["1 recover TMSTARTRSCAN 10"])), (True, ["0 Nothing xids"])


def helped_late(library):
    """With --exit-when-down, where another loop has begun a Restart, which helps, by when the server is to end: a loop that tells of it first
    waits until a pipe that is full has room."""
    reads, writes = os.pipe()
    fcntl.fcntl(writes, fcntl.F_SETPIPE_SZ, 4096)
    with Server("--loops", "2", "--exit-when-down", library=library, stderr=writes) as server:
        one, other = two_loops(server, "2")
        # of a file the first call that fails is told, too
        lost_commit(server, one, "1:aa:", "pwrite 1 28")
        fills = os.open(f"/proc/self/fd/{writes}", os.O_WRONLY | os.O_NONBLOCK)
        with contextlib.suppress(BlockingIOError):
            while True:
                os.write(fills, b" ")
        found = lost_commit(server, one, "1:bb:")
        server.fault("slow 1 1500")
        other.send("1 restart")
        time.sleep(0.5)
        os.read(reads, 4096)
        found += next(replies([other], 1))
        yield "down: a Restart that was begun by then helps", (found, is_ended(server)), ([DEVICE, OK], True)
        yield "down: it ends as one that was down", server.ran.wait(PATIENCE), 1
    for file in (reads, writes, fills):
        os.close(file)


def is_ended(server):
    return until(lambda: not server.is_up(), PATIENCE) is not None
