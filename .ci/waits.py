"""Of .ci/loops: the longest that somebody waits, where the machine isn't to blame: beside loops that look for more requests before a sync,
beside one that makes a sync, and for handles; and that no client starves on few cores."""
import collections
import os
import re
import resource
import select
import shutil
import statistics
import subprocess
import sys
import time

from clients import OK, OPEN, PATIENCE, PROGRAM, Server, asks, begin, is_answered, replies, status, took, until
from frames import shown

LOAD = """
import itertools, sys
sys.path.append(sys.argv[1])
from frames import Peer
peer = Peer(sys.argv[2])
peer.ask("1 open TMNOFLAGS n")
for count in itertools.count():
    xid = f"{sys.argv[3]}:{count % 200:02x}:"
    for line in ("start TMNOFLAGS {0}", "put 6b{1} 76", "end TMSUCCESS {0}", "commit TMONEPHASE {0}"):
        peer.ask("1 " + line.format(xid, f"{int(sys.argv[3]):04x}"))
"""
# Within how many seconds whoever connects is answered, however busy the machine is: one who is overlooked waits for the next one.
SOON = 2


class Loaded(Server):
    """A server beside which so many clients commit, one branch after the other."""

    def __init__(self, clients, *words, **how):
        super().__init__(*words, **how)
        self.clients, self.load = clients, []

    def __enter__(self):
        super().__enter__()
        words = [sys.executable, "-c", LOAD, os.path.dirname(os.path.abspath(__file__)), str(self.port)]
        self.load = [subprocess.Popen([*words, str(at + 1)]) for at in range(self.clients)]
        time.sleep(1)
        return self

    def __exit__(self, *_):
        self.end_load()
        super().__exit__()

    def end_load(self):
        for it in self.load:
            it.kill()
            it.wait()

    def committed(self):
        """How many branches each client has committed, by a copy of the log."""
        copy = os.path.join(self.room.name, "copy")
        shutil.copyfile(os.path.join(self.room.name, "l"), copy)
        scanned = subprocess.run([PROGRAM, "scan", copy], capture_output=True, text=True, check=False).stdout
        return collections.Counter(re.findall(r"^\d+ committed (\d+):", scanned, re.M))


def longest_connect(server, count, pause):
    """The longest of some connects that come one after the other, each until it is answered."""
    peers, times = [], []
    for _ in range(count):
        time.sleep(pause)
        began = time.monotonic()
        peers.append(server.peer())
        found = asks(peers[-1], [OPEN])
        times.append(time.monotonic() - began if found == [OK] else PATIENCE)
        if times[-1] >= PATIENCE:
            break
    return max(times)


def connects(library):
    """Of who connects beside clients that keep loops at work: those look for more requests while a sync is made, and before one."""
    for title, loops, slow in (("before a sync", "1", ""), ("while another loop syncs", "2", "slow 1+ 20")):
        with Loaded(6, "--loops", loops, library=library) as server:
            server.fault(slow)
            yield f"waits: the longest connect beside loops that look for more {title}", longest_connect(server, 30, 0.01) < SOON, True


def syncs(library):
    """How late who waits for a loop's sync is answered after it, and how much of a processor that takes. One that isn't woken looks again each
    tenth of a second, so the syncs end at different times after it asked."""
    late, seconds = [], 0
    with Server("--loops", "2", library=library) as server:
        # both have begun: each gets every second connection
        time.sleep(0.2)
        one, other = server.peer(), server.peer()
        asks(other, [OPEN])
        for at in range(9):
            begin(one, f"1:{at:02x}:")
            server.fault(f"slow 1 {300 + 11 * at}")
            before = server.processor_seconds()
            one.send(f"1 commit TMONEPHASE 1:{at:02x}:")
            time.sleep(0.05)
            # it names the commit's branch
            other.send(f"1 start TMJOIN 1:{at:02x}:")
            assert [*replies([one], 1)] == [[OK]]
            late.append(took(lambda: list(replies([other], 1)))[0])
            seconds += server.processor_seconds() - before
    yield "waits: who waits for another loop's sync is woken at its end", statistics.median(late) < 0.02, True
    yield "waits: who waits for another loop's sync sleeps", seconds < 0.9, True


# How many branches a client commits at most for one of another, where all ask as often as they can: how they share a machine is up to that.
SHARE = 20


def cores():
    """That no client starves, and who connects is served soon, where there are fewer cores than loops, as many, and more."""
    free = sorted(os.sched_getaffinity(0))
    for count in (1, 2, 4):
        for loops in ("1", "4"):
            with Loaded(6, "--loops", loops, cores=free[:count]) as server:
                yield f"waits: the longest connect beside {loops} loops on {count} cores", longest_connect(server, 20, 0.01) < SOON, True
                server.end_load()
                found = server.committed()
                is_fair = len(found) == 6 and max(found.values()) < SHARE * min(found.values())
                yield f"waits: no client of {loops} loops on {count} cores starves", (is_fair, "" if is_fair else found), (True, "")


# For how long the sync is slow beside which others are answered, in seconds.
SLOW = 3
# What touches neither the commit's branch, whose limit are 5 seconds, nor its session.
BESIDE = [
    (OPEN, OK),
    ("1 timeout 5", OK),
    ("1 tick 4", OK),
    ("1 doom 1:cc:", OK),
    ("1 close TMNOFLAGS", OK),
]


def is_waiting(*peers):
    """Whether none has its reply yet."""
    return not select.select([peer.socket for peer in peers], [], [], SLOW / 20)[0]


def beside(library):
    """What others are answered while a commit waits for a slow sync of another loop: only what would mark its branch waits."""
    with Server("--loops", "2", library=library) as server:
        # both have begun: each gets every second connection
        time.sleep(SLOW / 10)
        slow, asker, works, ended = (server.peer() for _ in range(4))
        found = asks(slow, [OPEN, "1 timeout 5"])
        begin(slow, "1:aa:")
        for peer, xid in ((ended, "1:bb:"), (works, "1:cc:")):
            found += asks(peer, [OPEN, f"1 start TMNOFLAGS {xid}", f"1 put {xid[2:4]} 76"])
        assert found == [OK] * 8, found
        connected = status(asker)["sessions"]
        server.fault(f"slow 1 {SLOW * 1000}")
        slow.send("1 commit TMONEPHASE 1:aa:")
        time.sleep(SLOW / 10)
        found = [next(replies([asker], 1))[0] for line, _ in BESIDE if not asker.send(line)]
        yield "waits: others beside another loop's slow sync", (found, is_waiting(slow)), ([answer for _, answer in BESIDE], True)
        # one of the two is of the loop that makes the sync
        two = [server.peer(), server.peer()]
        for peer in two:
            peer.send(OPEN)
        ready = select.select([peer.socket for peer in two], [], [], PATIENCE)[0]
        came = next(peer for peer in two if peer.socket in ready)
        found = [*replies([came], 1)][0] + asks(came, ["1 start TMNOFLAGS 1:dd:", "1 get 6e", "1 end TMSUCCESS 1:dd:"])
        yield "waits: one who connects beside it", (found, is_waiting(slow)), ([OK, OK, f"{OK} absent", OK], True)
        ended.close()
        # one came, and one went
        gone = until(lambda: status(asker)["sessions"] == connected) is not None
        found = asks(came, ["1 start TMJOIN 1:bb:"])
        yield "waits: one who is gone beside it", (gone, found, is_waiting(slow)), (True, ["101 Nothing"], True)
        asker.send("1 tick 9")
        yield "waits: a tick that would mark the commit's branch waits", is_waiting(asker, slow), True
        yield "waits: it and the commit are answered", [shown(peer.reply())[1] for peer in (slow, asker)], [OK, f"{OK} number 0"]


# What waits for the end of another loop's prepare, and what it is answered then.
HELD_UP = [
    ("a Recover", "1 recover TMSTARTRSCAN|TMENDRSCAN 10", "1 Nothing xids 1:aa:"),
    ("a Branches", "1 branches 10", f"{OK} branches 1:aa: prepared 0"),
    ("a Start that joins its branch", "1 start TMJOIN 1:aa:", "-6 Nothing"),
]


def held_up(library):
    """What others of its loop are answered while a call waits for a slow sync of another loop: it waits alone."""
    for title, line, answer in HELD_UP:
        with Server("--loops", "2", library=library) as server:
            # both have begun: each gets every second connection
            time.sleep(SLOW / 10)
            slow, waits, _, asker = (server.peer() for _ in range(4))
            begin(slow, "1:aa:")
            found = asks(waits, [OPEN]) + asks(asker, [OPEN, "1 start TMNOFLAGS 1:bb:"])
            assert found == [OK] * 3, found
            server.fault(f"slow 1 {SLOW * 1000}")
            slow.send("1 prepare TMNOFLAGS 1:aa:")
            time.sleep(SLOW / 10)
            waits.send(line)
            time.sleep(SLOW / 30)
            times, found = zip(*(took(lambda: asks(asker, ["1 get 6e"])) for _ in range(10)))
            quick = statistics.median(times) < 0.02 and max(times) < SLOW / 4
            got = set(sum(found, [])), quick, is_waiting(slow, waits)
            yield f"waits: others beside {title} that waits for another loop's sync", got, ({f"{OK} absent"}, True, True)
            found = [next(replies([peer], 1))[0] for peer in (slow, waits)]
            yield f"waits: {title} after it", (found[0], found[1][: len(answer)]), (OK, answer)


def handles():
    """Where a server lacks handles accepting pauses, and goes on once it has some, though no connection was closed."""
    with Server("--loops", "1", handles=20) as server:
        peers = [server.peer() for _ in range(20)]
        for peer in peers:
            peer.send(OPEN)
        answered = sum(is_answered(peer, 0.5) for peer in peers[:10]), is_answered(peers[-1], 0.5)
        resource.prlimit(server.ran.pid, resource.RLIMIT_NOFILE, (60, resource.getrlimit(resource.RLIMIT_NOFILE)[1]))
        yield "waits: who waits for a handle", (answered[1], is_answered(peers[-1], SOON)), (False, True)
