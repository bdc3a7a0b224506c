"""What an opening makes of two files of a log: a record stands with what it does, so that what a server reads, lists and checkpoints follows from
the records that it finds, and whether it opens the files from their bytes alone (docs/LOG.md, docs/MODEL.md).
"""
from typing import NamedTuple

import logs
from logs import BOOT, CLEARED, CLOSED, FIRST, OK, P1, Body, Serve, over

# Records, and what they come to.

KEYS = [b"a", b"b", b"c", b"d"]


class Record(NamedTuple):
    """A record's body, and what it says."""

    body: Body
    kind: str
    name: str = ""
    stamp: int = 0
    writes: tuple = ()
    direction: str = ""


def opened(boot):
    return Record(logs.opened(boot), "opened", stamp=boot)


def branch(kind, name, stamp, *writes):
    return Record(logs.branch(kind, name, stamp, *writes), kind, name, stamp, writes)


def base(stamp, *writes):
    return Record(logs.base(stamp, *writes), "base", "", stamp, writes)


def ended(kind, name, direction):
    return Record(logs.ended(kind, name, direction), kind, name, direction=direction)


def forgotten(name):
    return Record(logs.forgotten(name), "forgotten", name)


class State:
    """What records come to: the boot, the writes of each committed timestamp, the prepared branches, and the XIDs that the operator completed."""

    def __init__(self, records):
        self.boot, self.committed, self.prepared, self.known = 0, {}, {}, {}
        for it in records:
            if it.kind == "opened":
                self.boot = it.stamp
            elif it.kind in ("base", "committed"):
                self.committed[it.stamp] = it.writes
            elif it.kind in ("prepared", "held"):
                self.prepared[it.name] = it.stamp, it.writes
            elif it.kind == "known":
                self.known[it.name] = it.direction
            elif it.kind == "forgotten":
                del self.known[it.name]
            else:
                self.complete(it)

    def complete(self, it):
        stamp, writes = self.prepared.pop(it.name)
        if it.direction == "commit":
            self.committed[stamp] = writes
        if it.kind == "decided":
            self.known[it.name] = it.direction

    def lasting(self):
        """The writes of each committed timestamp that are the last of their keys."""
        lasts = {key: stamp for stamp in sorted(self.committed) for key, _ in self.committed[stamp]}
        for stamp in sorted(self.committed):
            writes = [it for it in self.committed[stamp] if lasts[it[0]] == stamp]
            if writes:
                yield stamp, writes

    def snapshot(self, boot):
        """A checkpoint's records."""
        bases = [base(stamp, *writes) for stamp, writes in self.lasting()]
        held = sorted((stamp, name, writes) for name, (stamp, writes) in self.prepared.items())
        known = [ended("known", name, self.known[name]) for name in sorted(self.known)]
        return [opened(boot), *bases, *(branch("held", name, stamp, *writes) for stamp, name, writes in held), *known]

    def value(self, key):
        """What a read of a key is answered."""
        found = {stamp: dict(writes)[key] for stamp, writes in self.committed.items() if key in dict(writes)}
        undecided = {stamp: None for stamp, writes in self.prepared.values() if key in dict(writes)}
        if not found and not undecided:
            return f"{OK} absent"
        last = max([*found, *undecided])
        if last in undecided:
            return "4 Busy"
        return f"{OK} absent" if found[last] is None else f"{OK} value {found[last].hex() or '-'}"

    def asked(self):
        """Lines for a server that opened a log of this state, each with its reply: what is listed, and each key's value."""
        listed = sorted([*self.prepared, *self.known])
        lists = "1 recover TMSTARTRSCAN|TMENDRSCAN 99", " ".join([f"{len(listed)} Nothing xids", *listed])
        starts = "1 start TMNOFLAGS 9:99:", f"{OK} number {(self.boot + 1) * BOOT + 1}"
        return [*P1, lists, starts, *((f"1 get {key.hex()}", self.value(key)) for key in KEYS)]


def bytes_of(records, name=b"XARMLOG2"):
    return logs.log(*(it.body for it in records), name=name)


def taken(title, files, records, most=None, is_asked=False):
    """What a server does with two files of at most so many bytes: it tells why it doesn't open them, or makes a log in two empty ones, or opens
    the log in the current one, whose records are among these, by their bodies, and makes a checkpoint in the other one."""
    words = [] if most is None else ["--log-bytes", str(most), "--trim", "0"]
    told, there = fault_of(*files), [file or b"" for file in files]
    if told:
        return Serve(title, files, words, f"xarm: {told}\n", [], logs.left_of(files, told))
    state, tells = State([]), ""
    if any(there):
        current = logs.current_of(*files)
        tells = logs.passed_over(there[current], ("l", "l.2")[current])
        state = State([records[body] for body in logs.chained(there[current])[0]])
        there[1 - current] = over(there[1 - current], (bytes_of(state.snapshot(state.boot + 1)) + CLEARED)[:most])
    else:
        there[0] = bytes_of([opened(1)]) + CLOSED
    return Serve(title, files, words, tells, state.asked() if is_asked else [], tuple(there))


def stands_as(file):
    """What a file is by its beginning: a log, one of a later format, nothing, or else a stray."""
    remnants = (b"XARMLOG1" + CLOSED, b"XARMLOG2" + CLOSED)
    if file[:FIRST] in logs.MOST:
        return "log"
    if file[:7] == b"XARMLOG" and file[7:FIRST] in [bytes([digit]) for digit in b"3456789"]:
        return "later"
    is_nothing = len(file) <= 12 and all(byte in (0, *(it[at] for it in remnants)) for at, byte in enumerate(file))
    return "nothing" if is_nothing else "stray"


def fault_of(first, second):
    """What is told of two files that aren't opened, None of others, and of two empty ones."""
    files = first or b"", second or b""
    stand = [stands_as(file) for file in files]
    if None in (first, second) and "log" in stand:
        return logs.NO_FIRST if first is None else logs.NO_SECOND
    if "later" in stand:
        return "log too new"
    if "stray" in stand:
        return (logs.STRAY_FIRST, logs.STRAY_SECOND)[stand.index("stray")]
    if stand == ["nothing", "log"]:
        return logs.NO_FIRST
    if stand == ["log", "nothing"] and logs.generation(logs.chained(files[0])[0]) >= 2:
        return logs.NO_SECOND
    if "log" not in stand:
        return "not a log" if any(files) else None
    return logs.damage_of(*files)


def printed(title, file, records):
    """What a scan prints and tells of a file, whose records are among these, by their bodies."""
    stands = stands_as(file)
    if stands == "later":
        return logs.Scan(title, file, 1, logs.TOO_NEW)
    if stands != "log":
        return logs.Scan(title, file, 1, logs.NOT_A_LOG)
    return logs.scan_of(title, file, 0, logs.lines(*(records[body].body for body in logs.chained(file)[0])))


def each_kind():
    """The records of three generations, what is appended to each included, with each kind of record."""
    first = [opened(1)]
    first += [branch("prepared", f"1:a{at}:", BOOT + at, (KEYS[at % 4], bytes([at]))) for at in range(1, 9)]
    first += [ended("completed", "1:a1:", "commit"), ended("completed", "1:a2:", "commit"), ended("decided", "1:a3:", "commit")]
    first += [ended("decided", "1:a4:", "rollback"), ended("completed", "1:a5:", "rollback"), branch("committed", "1:b1:", BOOT + 9, (KEYS[0], None))]
    second = State(first).snapshot(2)
    appended = [branch("prepared", "1:b2:", 2 * BOOT + 1, (KEYS[1], b"22")), branch("committed", "1:b3:", 2 * BOOT + 2, (KEYS[2], b""))]
    appended += [ended("completed", "1:a6:", "commit"), ended("decided", "1:a7:", "rollback"), forgotten("1:a3:")]
    third = State(second + appended).snapshot(3)
    more = [branch("prepared", "1:b4:", 3 * BOOT + 1, (KEYS[3], b"4")), forgotten("1:a4:"), ended("completed", "1:a8:", "commit")]
    return first, (second, appended), (third, more)
