"""Scripts at limits, which are long, with what they print: words, keys, values, sessions and branches (docs/PROTOCOL.md), time limits, and how
many versions stay, by what a status tells (docs/OPERATING.md).
"""
from parts import (
    OK, LOST, NUMBER, BOOT, P1, WRITTEN, PREPARED, COMMITTED, RESTART, LISTED, NONE_LISTED, BEGUN, numbered, REOPENED, CRASHED, played,
)

WRITES, LOOSE, SESSIONS, BRANCHES, KEY, PART, VALUE = 256, 64, 1024, 4096, 64, 64, 16384


def status(**told):
    """How the manager is doing: with one session, and what is told apart from that."""
    numbers = {"boot": 1, "end": 49, "bytes": 1 << 30, "branches": 0, "prepared": 0, "completed": 0, "sessions": 1, "versions": 0}
    return [("1 status", "0 Nothing status" + "".join(f" {name} {it}" for name, it in {**numbers, **told, "seconds": 0}.items()))]


def limits():
    """The 257th key of a branch, the 1,025th session, the 4,097th branch, and the 65th loose association of one."""
    start = [("1 start TMNOFLAGS 1:aa:", NUMBER)]
    puts = [(f"1 put {key:04x} 76", OK) for key in range(WRITES)]
    # No further key is written, but those again. Of each there are two versions, and of one that is refused none.
    last = [("1 put 0100 76", "-5 Limit"), ("1 put 0000 77", OK), ("1 delete 0100", "-5 Limit"), ("1 delete 0001", OK)]
    yield "the keys that a branch writes", numbered(P1, start, puts, last)
    told = status(branches=1, versions=2 * WRITES, calls=len(P1) + 1 + WRITES + len(last))
    yield "the versions of the keys that a branch writes", numbered(P1, start, puts, last, told)
    connects = [("connect", f"0 Nothing number {number}") for number in range(1, SESSIONS + 1)]
    again = [("connect", "-3 Limit"), ("700 hangup", OK), ("700 hangup", OK), ("connect", "0 Nothing number 700"), ("connect", "-3 Limit")]
    yield "sessions", connects + again
    branches = [row for k in range(BRANCHES) for row in ((f"1 start TMNOFLAGS 1:{k:04x}:", NUMBER), (f"1 end TMSUCCESS 1:{k:04x}:", OK))]
    last = [("1 start TMNOFLAGS 1:ffff:", "-3 Limit"), ("1 start TMNOFLAGS 1:0000:", "-8 Nothing")]
    yield "known branches", numbered(P1, branches, last)
    moves = [("1 end TMSUSPEND|TMMIGRATE 1:aa:", OK), ("1 start TMJOIN 1:aa:", f"{NUMBER} {BOOT + 1}")] * LOOSE
    last = [("1 end TMSUSPEND|TMMIGRATE 1:aa:", "-3 Limit"), ("1 end TMSUCCESS 1:aa:", OK)]
    yield "loose associations", numbered(P1, start, moves, last)


# How many branches have a time limit.
LIMITED = [("one branch runs out of time, of the most there are", 1), ("as many branches run out of time as there are", BRANCHES)]


def timed():
    """Branches that begin at moment 0, so many of them with a limit of 10 seconds: those are marked at moment 10, once, and no others."""
    for title, limited in LIMITED:
        lines = [("1 timeout 10", OK)]
        for k in range(BRANCHES):
            lines += [("1 timeout 0", OK)] * (k == limited)
            lines += [(f"1 start TMNOFLAGS 1:{k:04x}:", NUMBER), (f"1 end TMSUCCESS 1:{k:04x}:", OK)]
        lines += [("1 tick 9", f"{NUMBER} 0"), ("1 tick 10", f"{NUMBER} {limited}"), ("1 tick 10", f"{NUMBER} 0")]
        for first in range(0, BRANCHES, 256):
            marks = ((k, 106 if k < limited else 0) for k in range(first, first + 256))
            listed = "".join(f" 1:{k:04x}: working {mark} {BOOT + 1 + k} 0 0 0" for k, mark in marks)
            lines.append((f"1 branches 256 1:{first - 1:04x}:" if first else "1 branches 256", f"{OK} branches{listed}"))
        yield title, numbered(P1, lines)


def in_turn(what, count):
    """Branches, each of which does something and is committed."""
    for k in range(count):
        yield f"1 start TMNOFLAGS 1:{k:04x}:", NUMBER
        yield from what(k)
        yield f"1 end TMSUCCESS 1:{k:04x}:", OK
        yield f"1 commit TMONEPHASE 1:{k:04x}:", OK


def versions():
    """How many versions are left where one branch after another writes a key, with and without an older branch at work; and where each
    reads a key of its own. The record of one that wrote has 61 bytes."""
    writes = [*in_turn(lambda k: [("1 put 6b 76", OK)], 300)]
    yield "a key that is written in turn", numbered(P1, writes, status(end=49 + 300 * 61, versions=1, calls=1202))
    old = [("connect", "0 Nothing number 2"), ("2 open TMNOFLAGS xarm", OK), ("2 start TMNOFLAGS 1:ff:", NUMBER)]
    kept = status(end=49 + 300 * 61, branches=1, sessions=2, versions=301, calls=1205)
    gone = [("2 end TMSUCCESS 1:ff:", OK), ("2 rollback TMNOFLAGS 1:ff:", OK)]
    gone += status(end=49 + 300 * 61, sessions=2, versions=1, calls=1207)
    yield "a key that is written in turn, beside an older branch", numbered(P1, old, writes, kept, gone)
    reads = [*in_turn(lambda k: [(f"1 get {k:04x}", f"{OK} absent")], 2000)]
    yield "keys that are read in turn", numbered(P1, reads, status(calls=8002))


# How many versions are kept, as a status tells it. A record of a branch that wrote one key of a byte, with a value of a byte, has 63 bytes
# with an XID of 10; a snapshot's base has 53.

P2 = P1 + [("connect", "0 Nothing number 2"), ("2 open TMNOFLAGS xarm", OK)]


def branches(numbers, asked):
    """Branches of the first session with these numbers, one after another, which ask something and commit in one phase."""
    for number in numbers:
        xid = f"1:{number:08x}:"
        yield from [(f"1 start TMNOFLAGS {xid}", NUMBER), asked(number), (f"1 end TMSUCCESS {xid}", OK), (f"1 commit TMONEPHASE {xid}", OK)]


def written(first, after):
    return [*branches(range(first, after), lambda number: ("1 put 6b 76", OK))]


def read(first, after):
    """Each reads a key of its own, which nobody writes."""
    return [*branches(range(first, after), lambda number: (f"1 get {number:08x}", "0 Nothing absent"))]


def told(versions, boot, end, branches=0, prepared=0):
    state = f"boot {boot} end {end} bytes {1 << 30} branches {branches} prepared {prepared} completed 0"
    return [("1 status", f"0 Nothing status {state} sessions 2 versions {versions}")]


def counted(lines):
    """The lines, of which each status tells how many calls there were before it."""
    calls = 0
    for line, reply in lines:
        if line == "1 status":
            reply += f" calls {calls} seconds 0"
        elif reply:
            calls += 1
        yield line, reply


# The branch of the second session, which can read what it could read when it began.
BESIDE, LEFT, ROLLED_BACK = [("2 start TMNOFLAGS 2:6f:", NUMBER)], [("2 end TMSUCCESS 2:6f:", OK)], [("2 rollback TMNOFLAGS 2:6f:", OK)]
KEPT = [
    ("one of a key, after a restart", [written(0, 3), RESTART, told(1, 2, 102), written(3, 6), told(1, 2, 102 + 3 * 63)]),
    # While the older branch is open, a write of its own would be late where a later branch has read.
    (
        "none of a key that was only read",
        [read(0, 100), told(0, 1, 49), BESIDE, read(100, 200), told(100, 1, 49, branches=1), LEFT, ROLLED_BACK, told(0, 1, 49)],
    ),
    # It writes another key, and is prepared: its record, and what a snapshot holds of it, have 60 bytes, and its completion 45.
    (
        "those that a branch in doubt may read, over a restart",
        [
            *(written(0, 1), BESIDE, [("2 put 70 76", OK)], LEFT, [("2 prepare TMNOFLAGS 2:6f:", OK)], told(3, 1, 172, branches=1, prepared=1)),
            *(RESTART, told(3, 2, 162, branches=1, prepared=1), written(1, 6), told(8, 2, 162 + 5 * 63, branches=1, prepared=1)),
            *([("2 commit TMNOFLAGS 2:6f:", OK)], told(2, 2, 162 + 5 * 63 + 45)),
        ],
    ),
]


def kept_versions():
    """Each key keeps its newest committed version, and those that somebody may read yet."""
    for title, parts in KEPT:
        yield f"versions that are kept: {title}", [*counted(numbered(P2, *parts))]


def long_words():
    """Words at their limits, asked of a session that isn't connected, so that the request itself is refused as such; and one byte longer."""
    rows = [("9 get ", KEY, ""), ("9 put 61 ", VALUE, ""), ("9 start TMNOFLAGS 1:", PART, ":"), ("9 start TMNOFLAGS 1:61:", PART, "")]
    lines = [(before + "61" * (count + more) + after, reply) for before, count, after in rows for more, reply in ((0, "-6 Nothing"), (1, "-5 Frame"))]
    lines += [("9 open TMNOFLAGS a" + "61" * 127, "-6 Nothing"), ("9 open TMNOFLAGS aa" + "61" * 127, "-5 Frame")]
    calls = ["close TMNOWAIT|TMFAIL", "rollback TMNOFLAGS 1:aabb:cc", "doom -2:aa:", "recover TMSTARTRSCAN|TMENDRSCAN 0", "recover TMNOFLAGS 4294967295"]
    calls += ["decide rollback 1:aa:", "forget TMNOFLAGS 1:aa:", "restart", "trim", "branches 4294967295", "branches 0 1:aa:", "get 61"]
    lines += [(f"{session} {call}", "-6 Nothing") for session in (9, (1 << 64) - 1) for call in calls]
    plans = [("fail 1000 kept", ""), ("fail other 7 lost", ""), ("stop 1000", ""), ("stop other 1", "")]
    # A session that isn't connected may hang up.
    yield "words at their limits", [*lines, ("9 hangup", OK), ("18446744073709551615 hangup", OK), *plans]
    for keeps in ("", " 0", " 16777216", " other 9"):
        yield f"words at their limits: crash{keeps}", [(f"crash{keeps}", OK)]


def put(byte, count):
    """A value of so many bytes is put under a key that consists of the same byte."""
    return [(f"1 put {byte * KEY} {byte * count}", OK)]


def got(byte, count):
    return [(f"1 get {byte * KEY}", f"0 Nothing value {byte * count}")]


# What is played between a branch that wrote as much as one may and a look at its keys, and whether they have its values then: it is
# committed or prepared; its append is cut off at each device call; it is held by a checkpoint, and by one more.
CUT_OFF = [("1 prepare TMNOFLAGS 1:aa:bb", LOST)]
LONGEST = [
    ("committed in one phase", [("1 commit TMONEPHASE 1:aa:bb", OK)] + REOPENED + NONE_LISTED, True),
    ("committed in two phases", PREPARED + COMMITTED + REOPENED + NONE_LISTED, True),
    ("its write is cut off", [("stop 1", "")] + CUT_OFF + CRASHED + NONE_LISTED, False),
    ("its sync is cut off", [("stop 2", "")] + CUT_OFF + CRASHED + NONE_LISTED, False),
    ("nothing is cut off", [("stop 3", "")] + PREPARED + CRASHED + LISTED + COMMITTED, True),
    ("held by two checkpoints", PREPARED + RESTART + RESTART + LISTED + COMMITTED, True),
    ("held by a checkpoint, and opened again", PREPARED + RESTART + REOPENED + LISTED + COMMITTED, True),
]


def long_values():
    """A value is read by its branch, and again once it is committed and the manager was opened anew; and the longest values under all the
    keys that one branch may write."""
    start, end = WRITTEN[:1], WRITTEN[-1:]
    for count in (1, 1024, 1025, VALUE):
        commit = [("1 commit TMONEPHASE 1:aa:bb", OK)]
        yield f"a value of {count} bytes", numbered(P1, start, put("6b", count), got("6b", count), end, commit, REOPENED, BEGUN, got("6b", count))
    keys = [f"{byte:02x}" for byte in range(256)]
    puts, gets = (sum((what(byte, VALUE) for byte in keys), []) for what in (put, got))
    absent = [(f"1 get {byte * KEY}", "0 Nothing absent") for byte in ("00", "ff")]
    for title, then, is_there in LONGEST:
        yield f"a branch that wrote as much as one may: {title}", numbered(P1, start, puts, end, then, BEGUN, gets if is_there else absent)


def plays():
    """Each script's title, the options of `xarm play`, its lines, and what it prints."""
    for made in (limits, timed, versions, kept_versions, long_words, long_values):
        for title, lines in made():
            yield title, [], *played(lines)
