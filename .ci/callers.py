"""Random calls of the clients of .ci/history: mostly useful branches over a few shared keys, and now and then a call that meddles with the
branches of others. Lines are those of docs/SCRIPT.md without the session's number."""
import collections
import random

KEYS = [f"6b{number:02x}" for number in range(8)]
# How many XIDs a client has. They are used again and again, so that calls that come late find another branch.
OWN = 3
# What is asked of others' XIDs, and how often.
MEDDLING = {
    "commit TMONEPHASE {0}": 3,
    "commit TMNOFLAGS {0}": 3,
    "rollback TMNOFLAGS {0}": 3,
    "prepare TMNOFLAGS {0}": 3,
    "doom {0}": 1,
    "decide commit {0}": 1,
    "decide rollback {0}": 1,
    "forget TMNOFLAGS {0}": 2,
    "end TMSUCCESS {0}": 1,
    "branches 3 {0}": 1,
    "recover TMSTARTRSCAN|TMENDRSCAN 256": 2,
    "recover TMSTARTRSCAN 2": 1,
    "recover TMNOFLAGS 2": 1,
}
# What is asked seldom, of nobody's XIDs.
RARE = {"status": 3, "timeout 1": 1, "timeout 0": 2, "close TMNOFLAGS": 1, "branches 256": 2}


class World:
    """What the clients of one server share. In a hundred calls so many meddle, and so many are rare; in a thousand so many are Trims, and
    Restarts."""

    def __init__(self, seed, clients, meddles=12, rare=2, trims=3, restarts=1, longest=3, joined=0.0):
        self.random = random.Random(seed)
        self.xids = [[f"1:{client:02x}:{branch:02x}" for branch in range(OWN)] for client in range(clients)]
        self.meddles, self.rare, self.trims, self.restarts = meddles, rare, trims, restarts
        self.value, self.moment, self.longest = 0, 0, longest
        self.joined = joined
        self.recent = collections.deque(maxlen=max(2, clients // 2))

    def some(self, weights):
        return self.random.choices(list(weights), list(weights.values()))[0]

    def other(self):
        """An XID of anybody, mostly one that is likely to be known."""
        if self.recent and self.random.random() < 0.7:
            return self.random.choice(self.recent)
        return self.random.choice(self.random.choice(self.xids))

    def new_value(self):
        """A value that nobody wrote before, so that a read tells who wrote it; a few are long."""
        self.value += 1
        return f"{self.value:08x}" * (150 if self.random.random() < 0.01 else 1)

    def record(self):
        """A call that reads or writes a record."""
        chance, key = self.random.random(), self.random.choice(KEYS)
        if chance < 0.45:
            return f"put {key} {self.new_value()}"
        return f"get {key}" if chance < 0.92 else f"delete {key}"

    def records(self):
        """One of them, or some at once."""
        return self.record() if self.random.random() >= self.joined else tuple(self.record() for _ in range(6))

    def rare_call(self):
        if self.random.random() < 0.3:
            self.moment += self.random.random() < 0.2
            return f"tick {self.moment}"
        return self.some(RARE)


def calls(world, client, is_quiet=False):
    """The calls of a session, without end. It is sent the code of each reply. One that is quiet only meddles."""
    while is_quiet:
        yield world.some(MEDDLING).format(world.other())
    while world.random.random() < 0.3:
        yield world.some(MEDDLING).format(world.other())
    yield "open TMNOFLAGS n"
    while True:
        chance = world.random.random() * 100
        if chance < world.meddles:
            yield from meddles(world)
        elif chance < world.meddles + world.rare:
            line = world.rare_call()
            yield line
            if line.startswith("close"):
                yield "open TMNOFLAGS n"
        elif chance > 100 - world.trims / 10:
            yield "trim"
        elif chance > 100 - (world.trims + world.restarts) / 10:
            yield "restart"
        else:
            yield from branch(world, client, world.random.choice(world.xids[client]))


def meddles(world):
    """A call on any XID, or some work for it."""
    if world.random.random() < 0.25:
        yield from works(world, f"start TMJOIN {world.other()}")
    else:
        yield world.some(MEDDLING).format(world.other())


def works(world, begin):
    """Work for a branch, from a Start that may be refused to an End. The code of whichever was last."""
    code = yield begin
    if code:
        return code
    xid = begin.split()[-1]
    world.recent.append(xid)
    for _ in range(world.random.randrange(world.longest) + 1):
        yield world.records()
        if world.random.random() < 0.04:
            yield from suspends(world, xid)
    fails = world.random.random() < 0.02
    return (yield f"end {'TMFAIL' if fails else 'TMSUCCESS'} {xid}")


def suspends(world, xid):
    """It suspends its work, and asks something else before it goes on."""
    yield f"end {world.random.choice(('TMSUSPEND', 'TMSUSPEND|TMMIGRATE'))} {xid}"
    if world.random.random() < 0.5:
        yield world.some(MEDDLING).format(xid)
    yield f"start TMRESUME {world.other() if world.random.random() < 0.1 else xid}"


def branch(world, client, xid):
    """A whole branch; where it can't begin, what is left of the one before is cleared away."""
    code = yield from works(world, f"start TMNOFLAGS {xid}")
    if code:
        yield f"end TMSUCCESS {xid}"
        yield f"rollback TMNOFLAGS {xid}"
        yield f"forget TMNOFLAGS {xid}"
        return
    if world.random.random() < 0.1:
        yield world.some(MEDDLING).format(world.other())
    yield from completes(world, client, xid)


def completes(world, client, xid):
    """A branch's completion, in one phase or in two, where it may be left in doubt for a while, or for others."""
    chance = world.random.random()
    if chance < 0.45:
        yield f"commit TMONEPHASE {xid}"
    elif chance < 0.5:
        yield f"rollback TMNOFLAGS {xid}"
    elif not (yield f"prepare TMNOFLAGS {xid}") and chance < 0.97:
        world.recent.append(xid)
        if world.random.random() < 0.2:
            yield from works(world, f"start TMNOFLAGS {world.random.choice(world.xids[client])}")
        yield f"{'commit' if chance < 0.9 else 'rollback'} TMNOFLAGS {xid}"
