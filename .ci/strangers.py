"""Connections of those that haven't logged in, for .ci/logins: random and mutated frames before, inside and after a login, and a thousand
connections that stop in its midst."""
import concurrent.futures
import contextlib
import os
import random
import threading
import time

from clients import OPEN, Server, begin, took, until
from frames import CALLS, LIMIT, SESSION, SHUTDOWN, request
from scram import ACCESS, CHALLENGE, FINAL, FIRST, FRAME, HELLO, Caller, Login, body, final, first, framed

# Connections with mutated frames, the frames of each, and how many of these may be parts of a login: five end the connection.
CONNECTIONS, FRAMES, TRIES = 200, 50, 3
# How many are open at once that haven't logged in.
AT_ONCE = 40
PHASES = "before", "inside", "after"


def mutated(rng, whole):
    """A request's content that was changed, or random bytes."""
    content = bytearray(rng.choice(whole))
    at, kind = rng.randrange(len(content)), rng.randrange(8)
    if kind == 0:
        return rng.randbytes(rng.randrange(200))
    if kind == 1:
        content[at] ^= 1 << rng.randrange(8)
    elif kind == 2:
        content[at] = rng.randrange(256)
    elif kind == 3:
        del content[at:]
    elif kind == 4:
        del content[at]
    elif kind == 5:
        content.insert(at, rng.randrange(256))
    elif kind == 6:
        content += rng.randbytes(rng.randrange(1, 9))
    return bytes(content)


def is_login(content):
    return content[:1] == b"\1" and content[1:2] in (bytes([FIRST]), bytes([FINAL]))


def some(rng, whole, logins):
    """Contents of frames, of which few are parts of a login."""
    left = TRIES
    for _ in range(FRAMES):
        content = mutated(rng, logins if left and rng.random() < 3 / FRAMES else whole)
        while is_login(content) and not left:
            content = mutated(rng, whole)
        left -= is_login(content)
        yield content


def passed(server, number, asked):
    """What a connection is answered that sends these, in its phase of a login, and whether a login after it is let in."""
    phase, login = PHASES[number % len(PHASES)], Login("ada", "pencil")
    # four loops count failures of each address by themselves
    with contextlib.closing(Caller(server, number // 4 % 64 + 1)) as peer:
        if phase == "inside":
            peer.challenge(login)
        elif phase == "after":
            assert peer.log_in("ada", "pencil")
        peer.socket.sendall(framed(*asked))
        found = [peer.reply() for _ in asked]
        return found, phase == "after" or peer.log_in("ada", "pencil")


def is_refusal(content):
    """Whether a reply does nothing: it is a refusal without a place, a hello, or a challenge."""
    return content in (ACCESS, FRAME) or body(content, 8) is not None or body(content, CHALLENGE) is not None


class Steady(threading.Thread):
    """A user who goes on with a call, again and again; how long the longest took, and the places of what was answered."""

    def __init__(self, server, name="ada"):
        super().__init__(daemon=True)
        self.peer, self.longest, self.places, self.is_over = Caller(server), 0, [], False
        self.is_well = self.peer.log_in(name, "pencil")
        begin(self.peer, "9:99:", "6b6b")

    def run(self):
        while not self.is_over:
            seconds, (place, line) = took(lambda: self.peer.line("1 timeout 7"))
            self.longest, self.is_well = max(self.longest, seconds), self.is_well and line == "0 Nothing"
            self.places.append(place)
            time.sleep(0.002)

    def __enter__(self):
        self.start()
        return self

    def __exit__(self, *_):
        self.is_over = True
        self.join(LIMIT)


# The users of the servers; .ci/logins puts the file there.
FILE = None


def frames():
    """10,000 random and mutated frames."""
    rng = random.Random(5802)
    login = Login("ada", "pencil", "rOprNGfwEbeRWgbNEkqO")
    answer = login.answer(b"r=rOprNGfwEbeRWgbNEkqO%hvYDpWUa2RaTCAfuxFIlj,s=W22ZaJ0SNY7soEsUEjb6gQ==,i=4096")[0]
    logins = [first(login.opening), final(answer), first(b"y,,n=ada,r=x"), first(b"n" * 256), final(b"c" * 256)]
    whole = [request(line)[4:] for line in [*SESSION, "1 status"]] + [SHUTDOWN[4:], HELLO, b"\1\x48", bytes([1, 71]) + bytes(7) + b"\1"]
    whole += [bytes.fromhex("01 49 00000001 01 01 aa bb")]
    sent = [list(some(rng, whole, logins)) for _ in range(CONNECTIONS)]
    with Server("--users", FILE, "--loops", "4", "--audit-out", "h") as server, concurrent.futures.ThreadPoolExecutor(AT_ONCE) as pool:
        with Steady(server) as steady:
            found = list(pool.map(lambda number: passed(server, number, sent[number]), range(CONNECTIONS)))
        yield "frames: all of them", sum(map(len, sent)), CONNECTIONS * FRAMES
        yield "frames: each has a reply", [number for number, (replies, _) in enumerate(found) if None in replies], []
        yield "frames: who sent them can still log in", [number for number, (_, is_in) in enumerate(found) if not is_in], []
        # a third of the connections each
        outside, inside = [its for number, its in enumerate(found) if number % 3 < 2], found[2::3]
        yield "frames: before and inside a login each is refused", [it for its, _ in outside for it in its if not is_refusal(it)][:3], []
        print(f"frames: the longest that another one waited: {steady.longest * 1000:.0f} ms", flush=True)
        yield "frames: others are served meanwhile", (steady.is_well, steady.longest < 1), (True, True)
        late = Caller(server, 64)
        yield "frames: the server lives", (late.log_in("duty", "pencil"), server.is_up()), (True, True)
        late.socket.sendall(SHUTDOWN)
        ended, printed, _ = server.end_and_print()
        with open(os.path.join(server.room.name, "h"), encoding="utf-8", errors="replace") as history:
            lines = history.read().splitlines()
        yield "frames: the audit", (ended, printed), (0, f"calls {len(lines)}\naudit ok\n")
        # a Status, what was counted and a session's end are answered without a place; all that is refused is, too
        replies = [content for replies, _ in inside for content in replies if content]
        places = [place for place in (int.from_bytes(content[6:14], "big") for content in replies) if place]
        made = [line for line in lines if line != "connect" and not line.endswith(" hangup")]
        yield "frames: each place is of one call", len(set(places) | set(steady.places)), len(places) + len(steady.places)
        # of a steady user four calls went before
        yield "frames: nothing else is in the history", len(made), len(places) + len(steady.places) + 4
        asked = [(content, it) for contents, (replies, _) in zip(sent[2::3], inside) for content, it in zip(contents, replies)]
        kinds = {content[1] for content, it in asked if it == ACCESS}
        yield "frames: each of an operator's calls is among those refused", kinds >= {CALLS[name][0] for name in OPERATORS}, True


OPERATORS = "decide", "doom", "restart", "tick", "trim"
# How many connections stop inside a login, and the longest that a known user may wait meanwhile, in seconds.
STOPPED, SOON = 1_000, 0.5


def storm():
    """Connections that stop inside a login, each while few others are open, and then more than may be, while a known user goes on."""
    with Server("--users", FILE, "--loops", "2", "--frame-seconds", "2") as server:
        with Steady(server) as steady:
            time.sleep(0.2)
            before, stopped = server.resident(), []
            for number in range(2 * STOPPED):
                stopped.append(stop(server, number))
                if number < STOPPED and len(stopped) > 48:
                    stopped.pop(0).close()
            grown = server.resident() - before
            is_served = until(lambda: can_log_in(server)) is not None
        print(f"storm: the longest that a known user waited: {steady.longest * 1000:.1f} ms", flush=True)
        yield "storm: a known user goes on", (steady.is_well, steady.longest < SOON, len(steady.places) > 100), (True, True, True)
        yield "storm: others log in once these are closed", is_served, True
        yield "storm: memory stays", grown < 24_576, True
        for peer in stopped:
            peer.close()


def stop(server, number):
    """A connection that has begun a login, or a part of its frame."""
    peer, whole = Caller(server, number % 64 + 1), framed(first(Login("ada", "pencil").opening))
    with contextlib.suppress(ConnectionError):
        peer.socket.sendall(whole[: len(whole) - number % 2 * 9])
    time.sleep(0.001)
    return peer


def can_log_in(server):
    with contextlib.suppress(AssertionError), contextlib.closing(Caller(server)) as peer:
        return peer.log_in("ada", "pencil") and peer.ask(OPEN) is not None
    return False
