"""The files of logs, put together apart from the program by what docs/LOG.md says of their bytes, and what comes of them: what `xarm scan`
prints of one, and what `xarm serve` tells of two, what it answers, and which bytes stand in both afterwards. `.ci/logs` asks the program.

A body stands with the line that a scan prints of it. What is expected of a file that is cut, or of which a bit is changed, follows from
where its records end; what an opening leaves, from the records that it found: a checkpoint of them, of the next boot, in the other file.
"""
import hashlib
import itertools
import json
import re
from typing import NamedTuple

from frames import xid

OK = "0 Nothing"
# The longest bodies of format 1 and of format 2.
MOST_OF_ONE, MOST_BODY = 524_288, 8_388_608
# The bytes of a record beside its body, where the first one begins, and what stands after the last one: of an append, of a checkpoint.
AROUND, FIRST = 36, 8
CLOSED, CLEARED = bytes(4), bytes(5)


class Body(NamedTuple):
    """A record's body, what a scan prints of it, and the members of its object after its kind and its offset."""

    bytes: bytes
    line: str
    members: dict = {}


class Scan(NamedTuple):
    """A file, the status of its scan, and what that prints and tells."""

    title: str
    file: bytes
    status: int
    shown: str


class Serve(NamedTuple):
    """The two files that a server is given, None where there is none; its further words; what it tells, where it doesn't serve; lines that it
    is sent, each with its reply; and the two files once it was killed."""

    title: str
    before: tuple
    words: list
    told: str
    asked: list
    after: tuple

    @property
    def is_refused(self):
        """What is told of records that an opening passed over comes from a server that goes on."""
        return bool(self.told) and not self.told.endswith("left out: a torn write, or damage\n")


# Bodies.


def number(value, count=4):
    return value.to_bytes(count, "big")


def wrote(stamp, writes):
    """Stamped writes. A value that is None stands for a delete."""
    each = (bytes([len(key)]) + key + (b"\0" if value is None else b"\1" + number(len(value), 2) + value) for key, value in writes)
    return number(stamp, 8) + number(len(writes), 2) + b"".join(each)


def stamped(stamp, writes):
    """The members of stamped writes."""
    each = [{"key": key.hex(), "value": None if value is None else value.hex()} for key, value in writes]
    return {"timestamp": stamp, "writes": each}


def opened(boot):
    return Body(b"\1" + number(boot), f"opened {boot}", {"boot": boot})


def branch(kind, name, stamp, *writes):
    """Of a branch that is prepared, committed in one phase, or held."""
    kinds = {"prepared": b"\2", "committed": b"\3", "held": b"\10"}
    content = kinds[kind] + xid(name) + wrote(stamp, writes)
    return Body(content, f"{kind} {name} {stamp} {len(writes)}", {"xid": name, **stamped(stamp, writes)})


def base(stamp, *writes):
    return Body(b"\7" + wrote(stamp, writes), f"base {stamp} {len(writes)}", stamped(stamp, writes))


def ended(kind, name, direction):
    """Of a branch that is completed, or completed by the operator: as that is logged, and as a snapshot has it."""
    kinds, directions = {"completed": b"\4", "decided": b"\5", "known": b"\11"}, {"commit": b"\1", "rollback": b"\2"}
    members = {"xid": name, "direction": direction}
    return Body(kinds[kind] + xid(name) + directions[direction], f"{kind} {name} {direction}", members)


def forgotten(name):
    return Body(b"\6" + xid(name), f"forgotten {name}", {"xid": name})


def other(*content):
    """A body that is no record."""
    return Body(bytes(content), "malformed")


def filled(byte, size):
    return Body(bytes([byte]) * size, "malformed")


BOOT = 1 << 32
# The first boots, and branch 1:aa:bb, which wrote 76 under 6b: prepared, held, completed either way, as a base, and by the operator.
OPENED, AGAIN, THIRD, FOURTH = [opened(boot) for boot in (1, 2, 3, 4)]
PUT = (b"k", b"v")
PREPARED, HELD = branch("prepared", "1:aa:bb", BOOT + 1, PUT), branch("held", "1:aa:bb", BOOT + 1, PUT)
COMPLETED, COMPLETED_BACK = ended("completed", "1:aa:bb", "commit"), ended("completed", "1:aa:bb", "rollback")
BASE, FORGOTTEN = base(BOOT + 1, PUT), forgotten("1:aa:bb")
DECIDED = ended("decided", "1:aa:bb", "commit")
KNOWN, KNOWN_BACK = ended("known", "1:aa:bb", "commit"), ended("known", "1:aa:bb", "rollback")
# 1:cc: deletes 6b, in one phase.
AT_ONCE = branch("committed", "1:cc:", BOOT + 2, (b"k", None))


# Files.


def log(*bodies, name=b"XARMLOG2"):
    """A log, up to its end."""
    pieces, digest = [name], hashlib.sha256(name).digest()
    for body in bodies:
        record = number(len(body.bytes)) + body.bytes
        digest = hashlib.sha256(digest + record).digest()
        pieces += record, digest
    return b"".join(pieces)


def old_log(*bodies):
    """One of format 1, with its closing length."""
    return log(*bodies, name=b"XARMLOG1") + CLOSED


def new_log(*bodies):
    """One that calls appended to."""
    return log(*bodies) + CLOSED


def checkpoint(*bodies):
    return log(*bodies) + CLEARED


def over(older, new):
    """What is written over an older file."""
    return new + older[len(new) :]


def ends(bodies):
    """Where each record ends, after where the first one begins."""
    return [*itertools.accumulate((AROUND + len(body.bytes) for body in bodies), initial=FIRST)]


def lines(*bodies):
    """What a scan prints of a log."""
    at = ends(bodies)
    return "".join(f"{offset} {body.line}\n" for offset, body in zip(at, bodies)) + f"end {at[-1]}\n"


def objects(*bodies):
    """The same by JSON objects."""
    at = ends(bodies)
    each = [{"record": body.line.split()[0], "offset": offset, **body.members} for offset, body in zip(at, bodies)]
    return "".join(f"{json.dumps(it, separators=(',', ':'))}\n" for it in [*each, {"end": at[-1]}])


# What is read of two files, by the rules alone.

MOST = {b"XARMLOG1": MOST_OF_ONE, b"XARMLOG2": MOST_BODY}
# The kinds of records that calls append.
APPENDED = range(2, 7)


def chain_from(file, at, before):
    """The bodies that chain from a place on after a digest, where the last one ends, and its digest."""
    digest, bodies = before, []
    while True:
        size = int.from_bytes(file[at : at + 4], "big")
        end = at + 4 + size
        if not 0 < size <= MOST[file[:FIRST]] or len(file) < end + 32:
            return bodies, at, digest
        its = hashlib.sha256(digest + file[at:end]).digest()
        if file[end : end + 32] != its:
            return bodies, at, digest
        bodies.append(file[at + 4 : end])
        at, digest = end + 32, its


def chained(file):
    """The bodies of a log that chain, and where the last one ends."""
    return chain_from(file, FIRST, hashlib.sha256(file[:FIRST]).digest())[:2]


def generation(bodies):
    return int.from_bytes(bodies[0][1:5], "big") if bodies and len(bodies[0]) >= 5 else 0


def current_of(first, second):
    """Which of two files is current, None where none is a log. One that is absent is as one that is empty."""
    logs = [at for at, file in enumerate((first, second)) if file and file[:FIRST] in MOST]
    each = {at: chained((first, second)[at])[0] for at in logs}
    return min(logs, key=lambda at: (-generation(each[at]), not each[at], at), default=None)


def is_headless(file):
    """No record chains, but the first one of a checkpoint is there: its length, a byte that no append begins with, and a generation. Not where
    it chains after the other format's name."""
    if not file or file[:FIRST] not in MOST or len(file) < 17 or chained(file)[0]:
        return False
    length, kind, number_there = int.from_bytes(file[8:12], "big"), file[12], int.from_bytes(file[13:17], "big")
    (other_name,) = MOST.keys() - {file[:FIRST]}
    whole = hashlib.sha256(hashlib.sha256(other_name).digest() + file[8:17]).digest()
    return length != 0 and kind not in APPENDED and number_there >= 2 and not (length == 5 and file[17:49] == whole)


def is_cut(file):
    """Nothing was appended to a log of format 2, of generation 2 or more, and what stands after it is neither its end nor begins as an append
    does. A checkpoint of format 1 ended in four zero bytes, before what stood after it."""
    bodies, end = chained(file)
    if file[:FIRST] != b"XARMLOG2":
        return False
    rest = file[end:]
    begins_well = len(rest) == 4 or (len(rest) > 4 and rest[4] in (0, *APPENDED))
    return generation(bodies) >= 2 and not any(body[0] in APPENDED for body in bodies) and not begins_well


# The most bytes of a group of several records. What chains farther after a break was synced later.
MOST_GROUP = 262_144


def as_written(file, at, before):
    """The length with which a record was written that doesn't chain after this digest: the first of those that differ from the one there in a
    bit with which it does, of at most 524,288 bytes. Else it is the one there; and also where that is 0, or shows a longer record."""
    size = int.from_bytes(file[at : at + 4], "big")
    if size == 0 or MOST_OF_ONE < size <= MOST[file[:FIRST]] and len(file) >= at + AROUND + size:
        return size
    for tried in (size ^ 1 << bit for bit in reversed(range(32))):
        end = at + 4 + tried
        if 0 < tried <= MOST_OF_ONE and len(file) >= end + 32:
            if file[end : end + 32] == hashlib.sha256(before + number(tried) + file[at + 4 : end]).digest():
                return tried
    return size


def left_out(file):
    """Behind a log's records, of which there is one at least: how far after their end records chain, after one that is shown there with the
    length with which it was written, and their bodies."""
    bodies, at, before = chain_from(file, FIRST, hashlib.sha256(file[:FIRST]).digest())
    if not bodies:
        return 0, []
    size = as_written(file, at, before)
    end = at + 4 + size
    if not 0 < size <= MOST[file[:FIRST]] or len(file) < end + 32:
        return 0, []
    for digest in (file[end : end + 32], hashlib.sha256(before + number(size) + file[at + 4 : end]).digest()):
        left = chain_from(file, end + 32, digest)[0]
        if left:
            return end + 32 - at, left
    return 0, []


def passed_over(file, name):
    """What a server tells that opens a log with such records."""
    many = len(left_out(file)[1])
    which = "1 record that chains" if many == 1 else f"{many} records that chain"
    told = f"xarm: {name}: {which} after byte {chained(file)[1]} {'is' if many == 1 else 'are'} left out: a torn write, or damage\n"
    return told if many else ""


def is_own(body, number):
    """It is a branch's that was prepared or committed in one phase, and has a stamp of the boot that is the log's generation, or of a later
    one."""
    at = 7 + body[5] + body[6] if len(body) > 6 else len(body)
    return body[0] in (2, 3) and len(body) >= at + 4 and int.from_bytes(body[at : at + 4], "big") >= number


def stops_short(file):
    """Far after a record that doesn't chain stands one of the log's own that does."""
    at, left = left_out(file)
    places = itertools.accumulate((AROUND + len(body) for body in left), initial=at)
    return any(place >= MOST_GROUP and is_own(body, generation(chained(file)[0])) for place, body in zip(places, left))


def damage_of(first, second):
    """Which record of two files isn't as it was written, as it is told, None where none is: the first one of either, or else the one at which the
    current one's snapshot is cut, or at which it stops short."""
    current = current_of(first, second)
    for name, file in (("l", first), ("l.2", second)):
        if is_headless(file):
            return f"log damaged: {name}: record 1 at byte 8"
    if current is not None and (is_cut((first, second)[current]) or stops_short((first, second)[current])):
        bodies, end = chained((first, second)[current])
        return f"log damaged: {('l', 'l.2')[current]}: record {len(bodies) + 1} at byte {end}"
    return None


# The writer.

# SHA-256 of that of XARMLOG2, the length 5 and OPENED, by sha256sum; and of both old files with each kind of record, as a server left them
# while logs were made in format 1.
DIGEST = "05fe3b57891420265e4d92f87dd019b0b17c5c16c2eaedd3203bbd5f07fbab34"
OLD_DIGESTS = (
    "4c04a3322eb843d42792c7103ec41919768ba0a024c5c51cac67ddc80998c304",
    "dea2767062815f6b22daf822f5d4903bbf599ca4cb024434d66713bf4996e435",
)


def documented(page):
    """The two logs whose bytes docs/LOG.md has: the whole one, and what a checkpoint makes of it."""
    whole, _, after = page.partition("\n### The same log after a checkpoint")
    files, file = [], bytearray()
    for part in (whole.partition("\n### A whole log")[2], after):
        for at, text in re.findall(r"^ +(\d+)  ((?:(?:[0-9a-f]{2})+ )*(?:[0-9a-f]{2})+)(?:  |$)", part, re.M):
            piece = bytes.fromhex(text)
            file[int(at) : int(at) + len(piece)] = piece
        files.append(bytes(file))
    return tuple(files)


def writer(page):
    """Each check of what is written here: a title, what was found, and what is wanted."""
    yield "the writer: both logs of docs/LOG.md", (old_log(OPENED, PREPARED), checkpoint(AGAIN, HELD)), documented(page)
    yield "the writer: a digest by sha256sum", log(OPENED)[17:].hex(), DIGEST
    found = tuple(hashlib.sha256(file).hexdigest() for file in (OLD_FIRST, OLD_SECOND))
    yield "the writer: old files with each kind of record", found, OLD_DIGESTS


# Scans.

NOT_A_LOG, TOO_NEW, TOO_LONG, IN_USE = (f"xarm: {it}\n" for it in ("not a log", "log too new", "log too long", "log in use"))
TWO = new_log(OPENED, PREPARED)

SCANS = [
    ("no byte", b"", 1, NOT_A_LOG),
    ("a name that is cut", b"XARMLOG", 1, NOT_A_LOG),
    ("another name", b"XARMLOGx", 1, NOT_A_LOG),
    ("another name before a log", b"x" + TWO[1:], 1, NOT_A_LOG),
    ("a digit below", b"XARMLOG0", 1, NOT_A_LOG),
    ("a later format", b"XARMLOG3", 1, TOO_NEW),
    ("the last later format, before a log", b"XARMLOG9" + TWO[8:], 1, TOO_NEW),
    ("a name after the digits", b"XARMLOG:", 1, NOT_A_LOG),
    ("a name alone", b"XARMLOG2", 0, "end 8\n"),
    ("the old name alone", b"XARMLOG1", 0, "end 8\n"),
    ("a log that is closed at once", b"XARMLOG2" + CLOSED, 0, "end 8\n"),
    ("a boot", new_log(OPENED), 0, "8 opened 1\nend 49\n"),
    ("a branch", TWO, 0, "8 opened 1\n49 prepared 1:aa:bb 4294967297 1\nend 110\n"),
    ("the same in format 1", old_log(OPENED, PREPARED), 0, "8 opened 1\n49 prepared 1:aa:bb 4294967297 1\nend 110\n"),
    ("a log of which the name is another format's", b"XARMLOG1" + TWO[8:], 0, "end 8\n"),
    ("a body that is no record", new_log(OPENED, other(0, 7), OPENED), 0, "8 opened 1\n49 malformed\n87 opened 1\nend 128\n"),
    ("a later boot's record", new_log(opened(0xFFFFFFFF)), 0, "8 opened 4294967295\nend 49\n"),
    ("the boot 0", new_log(other(1, 0, 0, 0, 0)), 0, "8 malformed\nend 49\n"),
    ("what follows the closing length", TWO + log(AGAIN), 0, "8 opened 1\n49 prepared 1:aa:bb 4294967297 1\nend 110\n"),
    ("a record after a length of 0", new_log() + log(OPENED)[8:], 0, "end 8\n"),
]


def format_limits():
    """A body of the longest size of each format, and one byte more; and the last ones that are in the first window of 1 MiB."""
    for name, size, is_read in [
        (b"XARMLOG1", MOST_OF_ONE, True),
        (b"XARMLOG1", MOST_OF_ONE + 1, False),
        (b"XARMLOG2", MOST_OF_ONE + 1, True),
        (b"XARMLOG2", 1_048_491, True),
        (b"XARMLOG2", 1_048_492, True),
        (b"XARMLOG2", 1_572_811, True),
        (b"XARMLOG2", 1_572_812, True),
        (b"XARMLOG2", MOST_BODY, True),
        (b"XARMLOG2", MOST_BODY + 1, False),
    ]:
        bodies = OPENED, filled(7, size)
        yield f"{name.decode()}: a body of {size} bytes", log(*bodies, name=name), 0, lines(*bodies[: 1 + is_read])


def sizes():
    """Logs of so many bodies of one size, up to the longest of format 1, and past the window."""
    for count, size in [(0, 1), (1, 1), (12, 100_000), (300, 4), (1, MOST_OF_ONE), (3, MOST_OF_ONE)]:
        bodies = [filled(index % 256, size) for index in range(count)]
        yield f"{count} bodies of {size} bytes", new_log(*bodies), 0, lines(*bodies)


def long_cuts():
    """A record of 2,000,000 bytes at 49 that is cut: its body ends at 2,000,053, its digest at 2,000,085."""
    bodies = OPENED, filled(9, 2_000_000)
    for cut in (49, 52, 53, 1_048_576, 1_048_577, 2_000_053, 2_000_084, 2_000_085):
        yield f"a long record cut to {cut}", log(*bodies)[:cut], 0, lines(*bodies[: 1 + (cut == 2_000_085)])


def front(file, bodies, least):
    """What a scan prints of a file that is changed at a byte, or cut there, whose records up to there stay."""
    return lines(*bodies[: sum(end <= least for end in ends(bodies)[1:])])


def cuts():
    """A log of three records that is cut at each byte."""
    bodies = OPENED, PREPARED, COMPLETED
    file = new_log(*bodies)
    for cut in range(len(file)):
        yield f"cut to {cut}", file[:cut], *((0, front(file, bodies, cut)) if cut >= FIRST else (1, NOT_A_LOG))


def bits():
    """A log of which each single bit is changed. Of its name the last byte is a digit: 2 becomes 3 or 6, later formats, or none. Where its first
    record isn't a first boot's any more, its loss is told."""
    bodies = OPENED, PREPARED
    for at, bit in itertools.product(range(len(TWO)), range(8)):
        file = bytearray(TWO)
        file[at] ^= 1 << bit
        if at >= FIRST:
            came = 0, front(file, bodies, at)
        else:
            came = 1, TOO_NEW if at == 7 and file[7] in b"3456789" else NOT_A_LOG
        yield f"bit {bit} of byte {at} is changed", bytes(file), *came


def scan_of(title, file, status, shown):
    """A row of a file, of which a scan prints this; after it, where it is a damaged log, it tells the record that isn't as it was written."""
    if file[:FIRST] in MOST and (is_headless(file) or is_cut(file) or stops_short(file)):
        bodies, end = chained(file)
        return Scan(title, file, 1, f"{shown}xarm: log damaged: record {len(bodies) + 1} at byte {end}\n")
    return Scan(title, file, status, shown)


def scans():
    for row in SCANS:
        yield scan_of(*row)
    for title, _, first, second, shown in LEFT:
        yield scan_of(f"after {title}", (first, second)[shown[0]], 0, shown[1])
    yield scan_of("each kind of record", OLD_FIRST, 0, OLD_LINES[0])
    yield scan_of("each kind of record of a snapshot", OLD_SECOND, 0, OLD_LINES[1])
    for rows in (format_limits, sizes, long_cuts):
        yield from (scan_of(*row) for row in rows())


def each_scan():
    yield from (scan_of(*row) for rows in (cuts, bits) for row in rows())


# What calls leave in the files.

P1 = [("connect", "0 Nothing number 1"), ("1 open TMNOFLAGS n", OK)]
BEGIN = [("1 start TMNOFLAGS 1:aa:bb", f"{OK} number {BOOT + 1}"), ("1 put 6b 76", OK), ("1 end TMSUCCESS 1:aa:bb", OK)]
VOTED = [*P1, *BEGIN, ("1 prepare TMNOFLAGS 1:aa:bb", OK)]
COMMIT, ROLLBACK, FORGET = [(call, OK) for call in ("1 commit TMNOFLAGS 1:aa:bb", "1 rollback TMNOFLAGS 1:aa:bb", "1 forget TMNOFLAGS 1:aa:bb")]
DECIDE, DECIDE_BACK, RESTART = ("1 decide commit 1:aa:bb", OK), ("1 decide rollback 1:aa:bb", OK), ("1 restart", OK)
BEGIN_DELETE = [("1 start TMNOFLAGS 1:cc:", f"{OK} number {BOOT + 2}"), ("1 delete 6b", OK)]
END_DELETE = [("1 end TMSUCCESS 1:cc:", OK), ("1 commit TMONEPHASE 1:cc:", OK)]


def trim(end):
    return "1 trim", f"{OK} number {end}"


# What is asked after the prepare of a branch; both files then; and what a scan prints of the one that is current.
LEFT = [
    ("a prepare", [], TWO, b"", (0, "8 opened 1\n49 prepared 1:aa:bb 4294967297 1\nend 110\n")),
    ("a restart", [RESTART], TWO, checkpoint(AGAIN, HELD), (1, "8 opened 2\n49 held 1:aa:bb 4294967297 1\nend 110\n")),
    (
        "a restart and a commit",
        [RESTART, COMMIT],
        TWO,
        new_log(AGAIN, HELD, COMPLETED),
        (1, "8 opened 2\n49 held 1:aa:bb 4294967297 1\n110 completed 1:aa:bb commit\nend 156\n"),
    ),
    (
        "a commit between restarts",
        [RESTART, COMMIT, RESTART],
        over(TWO, checkpoint(THIRD, BASE)),
        new_log(AGAIN, HELD, COMPLETED),
        (0, "8 opened 3\n49 base 4294967297 1\nend 102\n"),
    ),
    (
        "a decision",
        [DECIDE],
        new_log(OPENED, PREPARED, DECIDED),
        b"",
        (0, "8 opened 1\n49 prepared 1:aa:bb 4294967297 1\n110 decided 1:aa:bb commit\nend 156\n"),
    ),
    (
        "a decision and a restart",
        [DECIDE, RESTART],
        new_log(OPENED, PREPARED, DECIDED),
        checkpoint(AGAIN, BASE, KNOWN),
        (1, "8 opened 2\n49 base 4294967297 1\n102 known 1:aa:bb commit\nend 148\n"),
    ),
    (
        "a decision to roll back, and a restart",
        [DECIDE_BACK, RESTART],
        new_log(OPENED, PREPARED, ended("decided", "1:aa:bb", "rollback")),
        checkpoint(AGAIN, KNOWN_BACK),
        (1, "8 opened 2\n49 known 1:aa:bb rollback\nend 95\n"),
    ),
    (
        "a decision that is forgotten",
        [DECIDE, FORGET],
        new_log(OPENED, PREPARED, DECIDED, FORGOTTEN),
        b"",
        (0, "8 opened 1\n49 prepared 1:aa:bb 4294967297 1\n110 decided 1:aa:bb commit\n156 forgotten 1:aa:bb\nend 201\n"),
    ),
    (
        "a rollback",
        [ROLLBACK],
        new_log(OPENED, PREPARED, COMPLETED_BACK),
        b"",
        (0, "8 opened 1\n49 prepared 1:aa:bb 4294967297 1\n110 completed 1:aa:bb rollback\nend 156\n"),
    ),
    ("a rollback and a restart", [ROLLBACK, RESTART], new_log(OPENED, PREPARED, COMPLETED_BACK), checkpoint(AGAIN), (1, "8 opened 2\nend 49\n")),
    (
        "a commit in one phase",
        [*BEGIN_DELETE, *END_DELETE],
        new_log(OPENED, PREPARED, AT_ONCE),
        b"",
        (0, "8 opened 1\n49 prepared 1:aa:bb 4294967297 1\n110 committed 1:cc: 4294967298 1\nend 167\n"),
    ),
    ("a trim", [trim(110)], TWO, checkpoint(AGAIN, HELD), (1, "8 opened 2\n49 held 1:aa:bb 4294967297 1\nend 110\n")),
    (
        "two trims",
        [trim(110), trim(110)],
        over(TWO, checkpoint(THIRD, HELD)),
        checkpoint(AGAIN, HELD),
        (0, "8 opened 3\n49 held 1:aa:bb 4294967297 1\nend 110\n"),
    ),
    (
        "a trim and a commit",
        [trim(110), COMMIT],
        TWO,
        new_log(AGAIN, HELD, COMPLETED),
        (1, "8 opened 2\n49 held 1:aa:bb 4294967297 1\n110 completed 1:aa:bb commit\nend 156\n"),
    ),
    (
        "a commit between trims",
        [trim(110), COMMIT, trim(102)],
        over(TWO, checkpoint(THIRD, BASE)),
        new_log(AGAIN, HELD, COMPLETED),
        (0, "8 opened 3\n49 base 4294967297 1\nend 102\n"),
    ),
    (
        "a decision and a trim",
        [DECIDE, trim(148)],
        new_log(OPENED, PREPARED, DECIDED),
        checkpoint(AGAIN, BASE, KNOWN),
        (1, "8 opened 2\n49 base 4294967297 1\n102 known 1:aa:bb commit\nend 148\n"),
    ),
    (
        "a trim beside work",
        [*BEGIN_DELETE, trim(110), *END_DELETE],
        TWO,
        new_log(AGAIN, HELD, AT_ONCE),
        (1, "8 opened 2\n49 held 1:aa:bb 4294967297 1\n110 committed 1:cc: 4294967298 1\nend 167\n"),
    ),
    (
        "a decision, a trim and a restart",
        [DECIDE, trim(148), RESTART],
        over(new_log(OPENED, PREPARED, DECIDED), checkpoint(THIRD, BASE, KNOWN)),
        checkpoint(AGAIN, BASE, KNOWN),
        (0, "8 opened 3\n49 base 4294967297 1\n102 known 1:aa:bb commit\nend 148\n"),
    ),
]


def left():
    for title, asked, first, second, _ in LEFT:
        yield Serve(title, (None, None), [], "", VOTED + asked, (first, second))


# What an opening finds.

# A log without a record, beside which a log of any generation is taken.
EMPTY = new_log()
SECOND_PREPARED, SECOND_HELD = (branch(kind, "1:cc:", BOOT + 2, (b"k", None)) for kind in ("prepared", "held"))
NEW_KIND, SHORT = other(10, 0, 0, 0, 1), other(1, 0, 0, 0)
LAST, NEXT_TO_LAST = opened(0xFFFFFFFF), opened(0xFFFFFFFE)
# At a timestamp of the second boot, and at one that no boot gives.
LATER, NONE_GAVE = branch("prepared", "1:aa:bb", 2 * BOOT + 1, PUT), branch("prepared", "1:aa:bb", BOOT, PUT)

# The records of a log; the most bytes of a file, where they are limited; and the records of the checkpoint that an opening makes, or what it
# tells. Of records that are none any goes before one that is out of order, and of either the first is told.
FOUND = [
    ([], None, [OPENED]),
    ([OPENED], 64, [AGAIN]),
    ([OPENED, PREPARED], 457, [AGAIN, HELD]),
    ([OPENED, PREPARED], 456, "log full"),
    ([OPENED, PREPARED], 113, "log too long"),
    ([OPENED, PREPARED, COMPLETED], None, [AGAIN, BASE]),
    ([OPENED, PREPARED, COMPLETED_BACK], None, [AGAIN]),
    ([OPENED, PREPARED, DECIDED], None, [AGAIN, BASE, KNOWN]),
    ([OPENED, PREPARED, DECIDED, FORGOTTEN], None, [AGAIN, BASE]),
    ([OPENED, AGAIN, PREPARED], None, [THIRD, HELD]),
    ([AGAIN, BASE, KNOWN], None, [THIRD, BASE, KNOWN]),
    ([AGAIN, PREPARED], None, [THIRD, HELD]),
    ([AGAIN, HELD, SECOND_PREPARED], None, [THIRD, HELD, SECOND_HELD]),
    ([NEXT_TO_LAST], None, [LAST]),
    ([LAST], None, "boots used up"),
    ([OPENED, LAST], None, "boots used up"),
    ([NEW_KIND], None, "record 0 malformed"),
    ([OPENED, NEW_KIND], None, "record 1 malformed"),
    ([OPENED, SHORT, NEW_KIND], None, "record 1 malformed"),
    ([PREPARED, SHORT], None, "record 1 malformed"),
    ([SHORT, PREPARED], None, "record 0 malformed"),
    ([PREPARED, OPENED, NEW_KIND], None, "record 2 malformed"),
    ([PREPARED, COMPLETED, OPENED, NEW_KIND, SHORT], None, "record 3 malformed"),
    ([PREPARED], None, "record 0 out of order"),
    ([PREPARED, OPENED], None, "record 0 out of order"),
    ([OPENED, PREPARED, PREPARED], None, "record 2 out of order"),
    ([OPENED, PREPARED, PREPARED, OPENED], None, "record 2 out of order"),
    ([OPENED, OPENED], None, "record 1 out of order"),
    ([OPENED, LATER], None, "record 1 out of order"),
    ([AGAIN, NONE_GAVE], None, "record 1 out of order"),
    ([AGAIN, BASE, PREPARED], None, "record 2 out of order"),
]


def found():
    for bodies, most, came in FOUND:
        before = new_log(*bodies), EMPTY
        title = f"an opening of {', '.join(body.line for body in bodies) or 'no record'}, {most or 'any number of'} bytes"
        words = ["--log-bytes", str(most)] if most else []
        if isinstance(came, str):
            yield Serve(title, before, words, f"xarm: {came}\n", [], before)
        else:
            yield Serve(title, before, words, "", [], (before[0], checkpoint(*came)))


def left_of(before, told):
    """Two files that weren't opened. One that is absent is created, empty, unless it is missed."""
    return before if told in (NO_FIRST, NO_SECOND) else tuple(file or b"" for file in before)


# What stands in a file: none or another one, a later format, and a log without a record, without a length and with one that is 0.
NOTHING, NAMED, STRANGE, NEWER, BARE, BARE_NEW = b"", b"XARMLOG", b"XARMLOGx", b"XARMLOG3", b"XARMLOG1", b"XARMLOG2"
# Logs of a generation: that is the number in the bytes 1 to 4 of the first body, or 0 where it is shorter. What an opening tells, or the boot
# that it begins, shows which of two it took: of ZERO and ONES the first record is none, of the others with a record that is none the second.
ZERO, ZEROS = new_log(other(9, 9, 9, 9)), new_log(forgotten("0:aa:"), other(2))
BOOT_ONE, ONES = new_log(OPENED), new_log(other(2, 0, 0, 0, 1, 7), opened(9))
BOOT_TWO = new_log(AGAIN, other(3), other(4))
BYTE, PAST = new_log(opened(255)), new_log(opened(256), other(5))
HALF, TOP = new_log(opened(0x7FFFFFFF)), new_log(opened(0x80000000), other(5))
# What an opening of each comes to: the record of the next boot, or what is told.
BEGINS = {ZERO: 0, ZEROS: 1, BOOT_ONE: AGAIN, ONES: 0, BOOT_TWO: 1, BYTE: opened(256), PAST: 1, HALF: opened(0x80000000), TOP: 1}
BEGINS |= {EMPTY: OPENED, BARE: OPENED, BARE_NEW: OPENED}

NO_FIRST, NO_SECOND = (f"log file missing or empty: {file}" for file in ("l", "l.2"))
STRAY_FIRST, STRAY_SECOND = (f"{file}: not a log, and not empty" for file in ("l", "l.2"))

# Two files, and which of them is current, or what is told.
PAIRS = [
    # the greater generation
    (BOOT_ONE, BOOT_TWO, 1),
    (BOOT_TWO, BOOT_ONE, 0),
    (BOOT_TWO, ONES, 0),
    (BYTE, PAST, 1),
    (PAST, BYTE, 0),
    (HALF, TOP, 1),
    (TOP, HALF, 0),
    (ZEROS, BOOT_ONE, 1),
    (BOOT_ONE, EMPTY, 0),
    (EMPTY, BOOT_ONE, 1),
    # of two with records the first
    (BOOT_ONE, ONES, 0),
    (ONES, BOOT_ONE, 0),
    (ZERO, ZEROS, 0),
    (ZEROS, ZERO, 0),
    # the one with records
    (EMPTY, ZERO, 1),
    (ZERO, EMPTY, 0),
    (BARE, ZEROS, 1),
    # of two without the first
    (EMPTY, BARE, 0),
    (BARE, EMPTY, 0),
    # of two formats
    (BARE_NEW, BARE, 0),
    (BARE, BARE_NEW, 0),
    (BARE_NEW, BOOT_ONE, 1),
    # the first, of which the second generation wasn't written yet
    (EMPTY, NOTHING, 0),
    (BOOT_ONE, NOTHING, 0),
    (ZEROS, NOTHING, 0),
    # none is
    (NOTHING, NAMED, "not a log"),
    (NAMED, NOTHING, "not a log"),
    (NAMED, NAMED, "not a log"),
    # either is of a later format
    (NEWER, NOTHING, "log too new"),
    (NEWER, BOOT_TWO, "log too new"),
    (BOOT_TWO, NEWER, "log too new"),
    (NEWER, STRANGE, "log too new"),
    (NOTHING, NEWER, "log too new"),
    (STRANGE, NEWER, "log too new"),
    # the second one is missing: it isn't there, or it is empty beside the second generation or a later one
    (BOOT_ONE, None, NO_SECOND),
    (EMPTY, None, NO_SECOND),
    (BOOT_TWO, NOTHING, NO_SECOND),
    (BOOT_TWO, NAMED, NO_SECOND),
    (BOOT_TWO, bytes(12), NO_SECOND),
    (PAST, None, NO_SECOND),
    # the first one is missing, beside any log
    (NOTHING, BOOT_TWO, NO_FIRST),
    (NAMED, BOOT_TWO, NO_FIRST),
    (NOTHING, TOP, NO_FIRST),
    (None, TOP, NO_FIRST),
    (NOTHING, BOOT_ONE, NO_FIRST),
    (NAMED, BOOT_ONE, NO_FIRST),
    (NOTHING, ZEROS, NO_FIRST),
    (NOTHING, EMPTY, NO_FIRST),
    (None, EMPTY, NO_FIRST),
    (NAMED, BARE, NO_FIRST),
    # something else stands in one
    (STRANGE, NOTHING, STRAY_FIRST),
    (NOTHING, STRANGE, STRAY_SECOND),
    (None, STRANGE, STRAY_SECOND),
    (STRANGE, NAMED, STRAY_FIRST),
    (STRANGE, STRANGE, STRAY_FIRST),
    (STRANGE, BARE, STRAY_FIRST),
    (STRANGE, BOOT_ONE, STRAY_FIRST),
    (STRANGE, BOOT_TWO, STRAY_FIRST),
    (EMPTY, STRANGE, STRAY_SECOND),
    (BOOT_ONE, STRANGE, STRAY_SECOND),
    (BOOT_TWO, STRANGE, STRAY_SECOND),
]
# What an interrupted write of a log's first 12 bytes leaves of an empty file, each byte written or 0; and what it doesn't leave.
REMNANTS = [b"X", b"XARML", b"\0", bytes(8), bytes(12), b"XARM\0\0\0\0", b"\0\0RM", b"XARMLOG\0\0\0\0\0", b"\0\0\0\0\0\0\x001\0", b"\0\0\0\0\0\0\x002\0"]
STRAYS = [b"x", b"XBRML", b"\1", bytes(13), b"XARMLOG\0\0\0\0\1", b"XARMLOG" + bytes(6), b"\0\0\0\0\0\0\x003", b"XARMLOG:", b"\n", b"a letter, and no log\n"]
# Two files, the most bytes of one, and which is current, or what is told: PAST has 90 bytes, and the last ones 65.
LONG_OTHER, LONG_NEWER = STRANGE + bytes(57), NEWER + bytes(57)
LONG_PAIRS = [
    (PAST, BOOT_ONE, 90, 0),
    (BOOT_ONE, PAST, 90, 1),
    (PAST, BOOT_ONE, 89, "log too long"),
    (BOOT_ONE, PAST, 89, "log too long"),
    (PAST, NEWER, 89, "log too long"),
    (NEWER, PAST, 89, "log too long"),
    (STRANGE, LONG_OTHER, 65, STRAY_FIRST),
    (NOTHING, LONG_OTHER, 65, STRAY_SECOND),
    (STRANGE, LONG_OTHER, 64, "log too long"),
    (LONG_OTHER, STRANGE, 64, "log too long"),
    (LONG_NEWER, NEWER, 65, "log too new"),
    (LONG_NEWER, NEWER, 64, "log too long"),
]


def taken(title, before, words, current):
    """A row of two files of which one is current, or none is."""
    if isinstance(current, str):
        # a file that was none was made
        return Serve(title, before, words, f"xarm: {current}\n", [], left_of(before, current))
    begins, after = BEGINS[before[current]], [*before]
    if isinstance(begins, int):
        return Serve(title, before, words, f"xarm: record {begins} malformed\n", [], before)
    after[1 - current] = over(before[1 - current] or b"", checkpoint(begins))
    return Serve(title, before, words, "", [], tuple(after))


def pairs():
    yield Serve("two files that are none", (None, None), [], "", [], (new_log(OPENED), b""))
    yield Serve("two empty files", (b"", b""), [], "", [], (new_log(OPENED), b""))
    for at, (first, second, current) in enumerate(PAIRS):
        yield taken(f"row {at} of two files", (first, second), [], current)
    for at, (first, second, most, current) in enumerate(LONG_PAIRS):
        yield taken(f"row {at} of two files in {most} bytes", (first, second), ["--log-bytes", str(most)], current)
    for at, file in enumerate(REMNANTS):
        yield taken(f"remnant {at} beside the first boot", (BOOT_ONE, file), [], 0)
        yield taken(f"remnant {at} beside a later one", (BOOT_TWO, file), [], NO_SECOND)
        yield taken(f"remnant {at} before a log", (file, BOOT_ONE), [], NO_FIRST)
        yield taken(f"remnant {at} alone", (file, None), [], "not a log")
    for at, file in enumerate(STRAYS):
        yield taken(f"stray {at} beside the first boot", (BOOT_ONE, file), [], STRAY_SECOND)
        yield taken(f"stray {at} beside a later one", (BOOT_TWO, file), [], STRAY_SECOND)
        yield taken(f"stray {at} before a log", (file, BOOT_TWO), [], STRAY_FIRST)
        yield taken(f"stray {at} alone", (file, None), [], STRAY_FIRST)


def cut_openings():
    """A log that is cut at each byte, beside an empty file: what was made of it by then, and what is left of it."""
    for cut in range(len(TWO)):
        file = TWO[:cut]
        if cut == 0:
            yield Serve("an opening of a log cut to 0", (b"", b""), [], "", [], (new_log(OPENED), b""))
        elif cut < FIRST:
            yield Serve(f"an opening of a log cut to {cut}", (file, b""), [], NOT_A_LOG, [], (file, b""))
        else:
            found = [OPENED] if cut < 49 else [AGAIN] if cut < 110 else [AGAIN, HELD]
            yield Serve(f"an opening of a log cut to {cut}", (file, b""), [], "", [], (file, checkpoint(*found)))


# Files of format 1, in which no log is made any more.

# As a server left them while logs were made in it. Branch 1:aa:01 was committed, 1:aa:02 prepared, 1:aa:03 and 1:aa:04 decided, and a restart
# went on in the second file; there 1:aa:05 was prepared, 1:aa:06 committed in one phase, 1:aa:02 completed, 1:aa:07 decided, and 1:aa:04
# forgotten. Each wrote a byte under a key, its number under 61 and so on.
KEYS = {count: (bytes([0x60 + count]), bytes([count])) for count in range(1, 8)}
OLD_BODIES = (
    OPENED,
    branch("prepared", "1:aa:01", BOOT + 1, KEYS[1]),
    ended("completed", "1:aa:01", "commit"),
    branch("prepared", "1:aa:02", BOOT + 2, KEYS[2]),
    branch("prepared", "1:aa:03", BOOT + 3, KEYS[3]),
    ended("decided", "1:aa:03", "commit"),
    branch("prepared", "1:aa:04", BOOT + 4, KEYS[4]),
    ended("decided", "1:aa:04", "rollback"),
)
OLD_SNAPSHOT = (
    AGAIN,
    base(BOOT + 1, KEYS[1]),
    base(BOOT + 3, KEYS[3]),
    branch("held", "1:aa:02", BOOT + 2, KEYS[2]),
    ended("known", "1:aa:03", "commit"),
    ended("known", "1:aa:04", "rollback"),
    branch("prepared", "1:aa:05", 2 * BOOT + 1, KEYS[5], (KEYS[6][0], None)),
    branch("committed", "1:aa:06", 2 * BOOT + 2, KEYS[6]),
    ended("completed", "1:aa:02", "commit"),
    branch("prepared", "1:aa:07", 2 * BOOT + 3, KEYS[7]),
    ended("decided", "1:aa:07", "commit"),
    forgotten("1:aa:04"),
)
OLD_FIRST, OLD_SECOND = old_log(*OLD_BODIES), old_log(*OLD_SNAPSHOT)
OLD_LINES = (
    """8 opened 1
49 prepared 1:aa:01 4294967297 1
110 completed 1:aa:01 commit
156 prepared 1:aa:02 4294967298 1
217 prepared 1:aa:03 4294967299 1
278 decided 1:aa:03 commit
324 prepared 1:aa:04 4294967300 1
385 decided 1:aa:04 rollback
end 431
""",
    """8 opened 2
49 base 4294967297 1
102 base 4294967299 1
155 held 1:aa:02 4294967298 1
216 known 1:aa:03 commit
262 known 1:aa:04 rollback
308 prepared 1:aa:05 8589934593 2
372 committed 1:aa:06 8589934594 1
433 completed 1:aa:02 commit
479 prepared 1:aa:07 8589934595 1
540 decided 1:aa:07 commit
586 forgotten 1:aa:04
end 631
""",
)
# What an opening makes of both, and the next one of that: 1:aa:05 is in doubt. What stands in the other file stays after it.
MOVED = (
    base(BOOT + 1, KEYS[1]),
    base(BOOT + 2, KEYS[2]),
    base(BOOT + 3, KEYS[3]),
    base(2 * BOOT + 2, KEYS[6]),
    base(2 * BOOT + 3, KEYS[7]),
    branch("held", "1:aa:05", 2 * BOOT + 1, KEYS[5], (KEYS[6][0], None)),
    ended("known", "1:aa:03", "commit"),
    ended("known", "1:aa:07", "commit"),
)
MOVED_FIRST = over(OLD_FIRST, checkpoint(THIRD, *MOVED))


def old_files():
    lists = [*P1, ("1 recover TMSTARTRSCAN|TMENDRSCAN 10", "3 Nothing xids 1:aa:03 1:aa:05 1:aa:07")]
    yield Serve("old files with each kind of record", (OLD_FIRST, OLD_SECOND), [], "", lists, (MOVED_FIRST, OLD_SECOND))
    again = over(OLD_SECOND, checkpoint(FOURTH, *MOVED))
    yield Serve("the same, opened again", (MOVED_FIRST, OLD_SECOND), [], "", lists, (MOVED_FIRST, again))
    begins = [("1 commit TMNOFLAGS 1:aa:05", OK), ("1 forget TMNOFLAGS 1:aa:03", OK), ("1 start TMNOFLAGS 1:cc:", f"{OK} number {4 * BOOT + 1}")]
    reads = [(f"1 get {key.hex()}", f"{OK} value {value.hex()}" if value != b"\4" else f"{OK} absent") for key, value in KEYS.values()]
    ended_log = over(OLD_SECOND, new_log(FOURTH, *MOVED, ended("completed", "1:aa:05", "commit"), forgotten("1:aa:03")))
    yield Serve("the same, read", (MOVED_FIRST, OLD_SECOND), [], "", P1 + begins + reads, (MOVED_FIRST, ended_log))
    one = old_log(OPENED, PREPARED)
    reads = [("1 start TMNOFLAGS 1:cc:", f"{OK} number {2 * BOOT + 1}"), ("1 get 6b", f"{OK} value 76")]
    yield Serve("an old log", (one, b""), [], "", [], (one, checkpoint(AGAIN, HELD)))
    yield Serve("an old log, committed", (one, b""), [], "", [*P1, COMMIT, *reads], (one, new_log(AGAIN, HELD, COMPLETED)))
    yield Serve("an old log's name", (one[:8], b""), [], "", [], (one[:8], checkpoint(OPENED)))
    yield Serve("an old log's boot", (one[:49], b""), [], "", [], (one[:49], checkpoint(AGAIN)))


# Checkpoints that are cut at each byte: the front with a length 0, all after it, and the first length.


def torn(older, new, cut):
    """The other file once so many bytes of a checkpoint were written."""
    file = bytearray(older)
    for at, piece in ((0, new[:8] + CLOSED), (12, new[12:]), (8, new[8:12])):
        file[at : at + len(piece[:cut])] = piece[:cut]
        cut -= len(piece[:cut])
    return bytes(file)


# What stood in the current file; what in the other one; the checkpoint that is torn; and what an opening then writes: over the torn one, or
# over the current file once the first length is there.
IMAGES = [
    ("an older log", new_log(AGAIN, HELD), TWO, [THIRD, BASE], [THIRD, HELD], [FOURTH, BASE]),
    ("a longer log", new_log(AGAIN, HELD), new_log(OPENED, PREPARED, DECIDED), [THIRD, BASE], [THIRD, HELD], [FOURTH, BASE]),
    ("nothing", TWO, b"", [AGAIN, HELD], [AGAIN, HELD], [THIRD, HELD]),
    ("nothing, beside an old log", old_log(OPENED, PREPARED), b"", [AGAIN, HELD], [AGAIN, HELD], [THIRD, HELD]),
    # torn after the name, the older log's first record doesn't chain after it, but isn't lost
    ("an old log, beside an old one", old_log(THIRD, HELD), old_log(AGAIN, HELD), [FOURTH, HELD], [FOURTH, HELD], [opened(5), HELD]),
]


def images():
    for title, current, older, new, then, sealed in IMAGES:
        whole = checkpoint(*new)
        for cut in range(len(whole) + 5):
            image = torn(older, whole, cut)
            is_sealed = cut == len(whole) + 4
            after = (over(current, checkpoint(*sealed)), image) if is_sealed else (current, over(image, checkpoint(*then)))
            yield Serve(f"a checkpoint over {title}, torn at {cut}", (current, image), [], "", [], after)
            # the first file is a log when a checkpoint to it begins
            is_log = len(image) >= FIRST
            told, left = ("", after[::-1]) if is_log else (f"xarm: {NO_FIRST}\n", (image, current))
            yield Serve(f"one to the first file over {title}, torn at {cut}", (image, current), [], told, [], left)


def torn_lengths():
    """A first length of 00 01 02 03, of which no part is the whole. Its body is no record."""
    current, whole = new_log(AGAIN, HELD), checkpoint(filled(3, 66_051))
    for cut in range(len(whole) - 1, len(whole) + 4):
        image = torn(TWO, whole, cut)
        yield Serve(f"a long first record, torn at {cut}", (current, image), [], "", [], (current, over(image, checkpoint(THIRD, HELD))))
    image = torn(TWO, whole, len(whole) + 4)
    yield Serve("a long first record, whole", (current, image), [], "xarm: record 0 malformed\n", [], (current, image))


def strays():
    """A file that was no log, whose bytes after the first eight chain to a log of a later generation: refused, until its name is written; with
    no length 0 after it yet, it is then the current one, or, where no closing length follows, a damaged one."""
    current, whole = new_log(AGAIN, HELD), checkpoint(THIRD, BASE)
    for closing, cut in itertools.product((CLOSED, b""), range(15)):
        image = torn(b"XARMLOGx" + log(opened(9))[8:] + closing, whole, cut)
        told, after = "", (current, over(image, checkpoint(THIRD, HELD)))
        if cut < FIRST:
            told, after = f"xarm: {STRAY_SECOND}\n", (current, image)
        elif cut < 12 and damage_of(current, image):
            told, after = f"xarm: {damage_of(current, image)}\n", (current, image)
        elif cut < 12:
            after = over(current, checkpoint(opened(10))), image
        yield Serve(f"a file that was no log, before {len(closing)} bytes, torn at {cut}", (current, image), [], told, [], after)


# Long records.


def writes_of(size, first=0):
    """Writes for a body of so many bytes, of a branch whose XID has two. Values are as long as may be, but for the last ones."""
    rest, writes = size - 19, []
    while rest:
        count = min(16_384, rest - 6)
        count -= 6 if 0 < rest - 6 - count < 6 else 0
        writes.append((number(len(writes), 2), bytes([(first + len(writes)) % 256]) * count))
        rest -= 6 + count
    return writes


def branches_of(kind, boot, sizes):
    """Branches 1:0001: and so on of a boot, whose bodies have these sizes."""
    return [branch(kind, f"1:{at:04x}:", boot * BOOT + at, *writes_of(size, at)) for at, size in enumerate(sizes, 1)]


def calls(boot, sizes):
    """What is asked for them to be prepared."""
    asked = []
    for at, size in enumerate(sizes, 1):
        asked += [(f"1 start TMNOFLAGS 1:{at:04x}:", f"{OK} number {boot * BOOT + at}")]
        asked += [(f"1 put {key.hex()} {value.hex() or '-'}", OK) for key, value in writes_of(size, at)]
        asked += [(f"1 end TMSUCCESS 1:{at:04x}:", OK), (f"1 prepare TMNOFLAGS 1:{at:04x}:", OK)]
    return asked


def extended(file, length):
    """A file with zeros after it, up to a length."""
    return file + bytes(length - len(file))


# The bodies of branches that are prepared, the most bytes of a file, and how long it is then: an append that reaches into a new piece of
# 262,144 bytes writes zeros to its end. The boot's record ends at 49, and each takes 36 bytes more, and 4 after it. At the end are the
# longest body of format 1 and one byte more, and those with just as much left behind the first window as goes through one.
LENGTHS = [
    ([100_000], 1 << 30, 100_089),
    ([100_000] * 3, 1 << 30, 524_288),
    ([100_000] * 3, 400_000, 400_000),
    ([262_054], 1 << 30, 262_143),
    ([262_055], 1 << 30, 524_288),
    ([524_288], 1 << 30, 786_432),
    ([524_289], 1 << 30, 786_432),
    ([1_572_811], 1 << 30, 1_835_008),
    ([1_572_812], 1 << 30, 1_835_008),
]


def long_records():
    for sizes, most, length in LENGTHS:
        words = ["--log-bytes", str(most), "--trim", "0"]
        file = extended(new_log(OPENED, *branches_of("prepared", 1, sizes)), length)
        title = f"{len(sizes)} records of {sizes[0]} bytes in {most}"
        yield Serve(title, (None, None), words, "", P1 + calls(1, sizes), (file, b""))
        yield Serve(f"{title}, read again", (file, b""), words, "", [], (file, checkpoint(AGAIN, *branches_of("held", 1, sizes))))


def many_records():
    """So many records of a size, as an opening reads and writes them."""
    for count, size in [(1, 26), (2, 26), (2000, 26), (12, 100_000), (1, 524_288), (3, 524_288)]:
        prepared, held = (branches_of(kind, 1, [size] * count) for kind in ("prepared", "held"))
        file = new_log(OPENED, *prepared)
        yield Serve(f"an opening of {count} records of {size} bytes", (file, b""), [], "", [], (file, checkpoint(AGAIN, *held)))


# By which call a log that was longer goes back to its first file, which has 786,432 bytes, how many records of 300,000 bytes are appended then,
# and whether zeros are written after the last: not as far as the file is known to reach. That is the closing length of its last record, at
# 750,295; after a restart, which measures it, its end.
LONGER = [("1 trim", 1, False), ("1 trim", 2, True), ("1 restart", 1, False), ("1 restart", 2, False)]


def longer_files():
    sizes = [250_000] * 3
    rolled = [ended("completed", f"1:{at:04x}:", "rollback") for at in (1, 2, 3)]
    older = extended(new_log(OPENED, *branches_of("prepared", 1, sizes), *rolled), 786_432)
    begun = P1 + calls(1, sizes) + [(f"1 rollback TMNOFLAGS 1:{at:04x}:", OK) for at in (1, 2, 3)] + [trim(49)]
    for call, count, has_zeros in LONGER:
        file = new_log(THIRD, *branches_of("prepared", 3, [300_000] * count))
        first = extended(file, 786_432) if has_zeros else over(older, file)
        asked = [*begun, trim(49) if call == "1 trim" else RESTART, *calls(3, [300_000] * count)]
        yield Serve(f"{count} records in a longer file, after {call}", (None, None), ["--trim", "0"], "", asked, (first, checkpoint(AGAIN)))


# And two more of what is asked.


def listings():
    """A branch that the operator committed, and one in doubt."""
    file = new_log(OPENED, SECOND_PREPARED, PREPARED, DECIDED)
    asked = [
        ("1 recover TMSTARTRSCAN|TMENDRSCAN 5", "2 Nothing xids 1:aa:bb 1:cc:"),
        ("1 recover TMSTARTRSCAN 1", "1 Nothing xids 1:aa:bb"),
        ("1 recover TMENDRSCAN 5", "1 Nothing xids 1:cc:"),
        ("1 branches 5", f"{OK} branches 1:aa:bb committed 0 0 0 0 0 1:cc: prepared 0 {BOOT + 2} 0 0 0"),
        ("1 branches 5 1:aa:bb", f"{OK} branches 1:cc: prepared 0 {BOOT + 2} 0 0 0"),
    ]
    yield Serve("what is listed of a log", (file, b""), [], "", P1 + asked, (file, checkpoint(AGAIN, BASE, SECOND_HELD, KNOWN)))


def last_trims():
    """A trim is refused once 2,147,483,648 boots are logged: the others are kept for restarts."""
    first, refused = new_log(opened(0x7FFFFFFE)), ("1 trim", "-3 Limit")
    after = over(first, checkpoint(opened(0x80000000))), checkpoint(opened(0x80000001))
    yield Serve("the last trim", (first, EMPTY), [], "", [*P1, trim(49), refused, RESTART], after)
    first = new_log(opened(0x7FFFFFFF))
    after = over(first, checkpoint(opened(0x80000001))), checkpoint(opened(0x80000000))
    yield Serve("none after it", (first, EMPTY), [], "", [*P1, refused, RESTART], after)


def servings():
    for rows in (left, found, pairs, old_files, torn_lengths, strays, long_records, many_records, longer_files, listings, last_trims):
        yield from rows()


def each_serving():
    for rows in (cut_openings, images):
        yield from rows()
