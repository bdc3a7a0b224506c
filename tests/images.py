"""What crashes leave of the two files of a log: a model of the calls that write them, each device call by itself (docs/LOG.md), over disks of
which some calls fail. At each device call a crash leaves any pieces of what wasn't synced. `.ci/damage` has such images served: none is
refused, and each has what was synced.
"""
import collections
import itertools
import random
from typing import NamedTuple

import logs
from logs import BOOT, CLEARED, CLOSED, FIRST, over
from outcomes import KEYS, State, base, branch, bytes_of, each_kind, ended, fault_of, forgotten, opened, taken

# How a torn write comes apart: in pieces of so many bytes, as sectors lie, each of which is written or isn't.
PIECES = (1, 1, 1, 4, 16, 64, 512)


class Disk:
    """A file: what a crash is sure to leave, the writes since then, and what a read gives."""

    def __init__(self, file=b""):
        self.stable, self.writes, self.seen = file, [], file

    def write(self, at, some):
        self.writes.append((at, some))
        self.seen = self.seen[:at].ljust(at, b"\0") + some + self.seen[at + len(some) :]

    def sync(self):
        self.stable, self.writes = self.seen, []

    def fail_write(self, rng, at, some):
        """Some pieces of it are written."""
        self.writes.append((at, some))
        self.seen = torn(rng, self.seen, [(at, some)])

    def fail_sync(self, rng):
        """Some pieces of what was written are stable."""
        self.stable = torn(rng, self.stable, self.writes)

    def image(self, rng):
        return torn(rng, self.stable, self.writes)


def torn(rng, file, writes):
    """A file over which some pieces of writes were written, each over those before it; it may have grown by any part of what was written."""
    if not writes:
        return file
    size, left = rng.choice(PIECES), bytearray(file)
    how = rng.choice(("any", "few", "most", "front", "back"))
    for at, some in writes:
        end = at + len(some)
        left += bytes(max(0, end - len(left)))
        pieces = range(at - at % size, end, size)
        for piece, is_written in zip(pieces, chosen(rng, how, len(pieces))):
            if is_written:
                begin, stop = max(at, piece), min(end, piece + size)
                left[begin:stop] = some[begin - at : stop - at]
    grown = len(left) - len(file)
    return bytes(left[: len(file) + rng.choice((grown, grown, 0, rng.randint(0, grown)))])


def chosen(rng, how, count):
    """Which pieces of a write are written."""
    if how in ("front", "back"):
        edge = rng.randint(0, count)
        return [(piece < edge) == (how == "front") for piece in range(count)]
    chance = {"any": rng.random(), "few": 1 / count, "most": 1 - 1 / count}[how]
    return [rng.random() < chance for _ in range(count)]


class Crash(Exception):
    """The system failed, and left two files."""


class NotOpened(Exception):
    """The files aren't opened any more: their creation was interrupted."""


class Image(NamedTuple):
    """Two files that a crash left, what was done meanwhile, and what they may have: lists of records, each of which has all that was synced."""

    doing: str
    files: tuple
    may_have: list


class History:
    """One log, as calls, failing devices, crashes and openings change it, each device call by itself. At each of them images are taken of what
    a crash leaves."""

    def __init__(self, rng, files, records, most):
        self.rng, self.disks, self.most = rng, [Disk(file) for file in files], most
        # the records of the current file's log, which it is, and where it ends
        self.records, self.current, self.end = [*records], 0, 0
        # what a crash may leave, and whether a call's outcome is unknown
        self.may_have, self.is_lost = [self.records], False
        self.images, self.known, self.doing, self.names = [], {it.body.bytes: it for it in records}, "", 0

    # The device.

    def look(self):
        """Images of this moment; or the system fails now."""
        rng = self.rng
        for _ in range(rng.choice((0, 1, 3))):
            self.images.append(Image(self.doing, self.left(), self.may_have))
        if rng.random() < 0.04:
            files = self.left()
            self.images.append(Image(self.doing, files, self.may_have))
            raise Crash(files)

    def left(self):
        return tuple(disk.image(self.rng) for disk in self.disks)

    def write(self, disk, at, some, is_failing=False):
        """Whether it succeeded."""
        if is_failing:
            disk.fail_write(self.rng, at, some)
        else:
            disk.write(at, some)
        self.look()
        return not is_failing

    def sync(self, disk, is_failing=False):
        if is_failing:
            disk.fail_sync(self.rng)
        self.look()
        if not is_failing:
            disk.sync()
        return not is_failing

    # The calls.

    def create(self):
        first, second = self.disks
        self.doing, self.may_have = "creation", [[]]
        self.sync(second)
        self.write(first, 0, b"XARMLOG2" + CLOSED)
        self.sync(first)
        self.current, self.records, self.end = 0, [], FIRST
        self.doing = "the first boot"
        self.append([opened(1)])

    def append(self, group, step=0, repair=0):
        """Appends a group. Its write fails, or its sync; then that of the repair, too."""
        disk, name, stood = self.disks[self.current], self.disks[self.current].seen[:FIRST], self.records
        self.known |= {it.body.bytes: it for it in group}
        pending = bytes_of(stood + group, name)[self.end :] + CLOSED
        self.may_have = [stood + group[:count] for count in range(len(group) + 1)]
        if self.write(disk, self.end, pending, step == 1) and self.sync(disk, step == 2):
            self.records, self.end = stood + group, self.end + len(pending) - len(CLOSED)
            self.may_have = [self.records]
        else:
            self.mend(disk, self.end, len(pending), repair)

    def checkpoint(self, boot, step=0, repair=0):
        """Writes a snapshot of this boot to the other file, whether that was kept. One of its steps fails, from 1 on; then the repair's write or
        sync, too."""
        disk, stood, doing = self.disks[1 - self.current], self.records, self.doing
        new = State(stood).snapshot(boot)
        self.known |= {it.body.bytes: it for it in new}
        whole = (bytes_of(new) + CLEARED)[: self.most]
        front, seal = b"XARMLOG2" + CLOSED, whole[FIRST : FIRST + 4]
        writes = [lambda fails: self.write(disk, 0, front, fails), lambda fails: self.pieces(disk, new, whole, fails)]
        writes += [lambda fails: self.write(disk, FIRST, seal, fails)]
        self.may_have = [stood]
        for at, call in enumerate(call for write in writes for call in (write, lambda fails: self.sync(disk, fails))):
            self.doing = f"{doing}, step {at + 1}"
            if at == 4:
                self.may_have = [stood, new]
            if not call(at + 1 == step):
                if at >= 4:
                    self.mend(disk, FIRST, len(seal), repair)
                return False
        self.records, self.current, self.end, self.may_have = new, 1 - self.current, len(bytes_of(new)), [new]
        return True

    def pieces(self, disk, new, whole, is_failing):
        """A write for each record, the first without its length, the last with five zeros after it. One of them fails."""
        begins = [12, *logs.ends([it.body for it in new])[1:-1]]
        last = self.rng.randrange(len(begins)) if is_failing else None
        return all(self.write(disk, begin, whole[begin:end], at == last) for at, (begin, end) in enumerate(zip(begins, [*begins[1:], len(whole)])))

    def mend(self, disk, at, count, repair):
        """Zeros over what a failed call wrote. If that fails, it is unknown what the log is."""
        self.doing += ", repaired"
        if self.write(disk, at, bytes(count), repair == 1) and self.sync(disk, repair == 2):
            self.may_have = [self.records]
        else:
            self.is_lost = True

    def read(self):
        """What both files have is read, after a sync of each."""
        for disk in self.disks:
            self.sync(disk)
        self.current = logs.current_of(*(disk.seen for disk in self.disks))
        if self.current is None:
            raise NotOpened
        bodies, self.end = logs.chained(self.disks[self.current].seen)
        self.records, self.is_lost = [self.known[body] for body in bodies], False
        self.may_have = [self.records]

    def restart(self, doing):
        """It may fail, and then has to be asked again."""
        self.doing = f"{doing}: reading"
        self.read()
        self.doing = f"{doing}: checkpoint"
        self.is_lost = not self.checkpoint(State(self.records).boot + 1, *self.failing(6))

    def open(self):
        if any(disk.seen for disk in self.disks):
            self.restart("an opening")
        else:
            self.create()

    # What is asked.

    def records_next(self):
        """A record that may come next; of one branch each, where several are appended together."""
        rng, state, name = self.rng, State(self.records), f"1:{self.names:04x}:"
        free = self.most - self.end - 343 * (len(state.prepared) + 3) - 171 * (len(state.known) + 1) - 600
        keys = sorted(rng.sample(KEYS, rng.randint(1, 3)))
        writes = tuple((key, rng.choice((None, b"", bytes([self.names % 256]) * rng.randint(1, 40)))) for key in keys)
        self.names += 1
        stamp = state.boot * BOOT + self.names
        choices = [lambda: branch("prepared", name, stamp, *writes), lambda: branch("committed", name, stamp, *writes)] if free > 0 else []
        if state.prepared:
            it = rng.choice(sorted(state.prepared))
            choices += [lambda: ended(rng.choice(("completed", "completed", "decided")), it, rng.choice(("commit", "rollback")))] * 2
        if state.known:
            choices += [lambda: forgotten(rng.choice(sorted(state.known)))]
        return rng.choice(choices)() if choices else None

    def group(self):
        """Up to three records of branches that differ."""
        group = []
        for _ in range(self.rng.choice((1, 1, 2, 3))):
            it = self.records_next()
            if it and all(it.name != other.name for other in group):
                group.append(it)
        return group

    def failing(self, steps):
        """Which step of a call fails, 0 for none, and which of its repair."""
        return self.rng.choice((0, 0, self.rng.randint(1, steps))), self.rng.choice((0, 0, 1, 2))

    def call(self):
        """One call. A manager whose log is lost can only restart."""
        what, group = self.rng.random(), self.group()
        if self.is_lost or what < 0.1:
            self.restart("a restart")
        elif what < 0.6 and group:
            self.doing = "an append" if len(group) == 1 else "a group"
            self.append(group, *self.failing(2))
        else:
            self.doing = "a checkpoint"
            self.checkpoint(State(self.records).boot + 1, *self.failing(6))

    def run(self, count):
        """Opens the files, and makes so many calls, over crashes and openings."""
        is_open = False
        for _ in range(count):
            try:
                if not is_open:
                    self.open()
                    is_open = True
                self.call()
            except Crash as crash:
                self.disks, is_open = [Disk(file) for file in crash.args[0]], False
            except NotOpened:
                return


def begun():
    """What stands in two files when a log's history begins, by a title, with the current one's records, and the most bytes of a file: nothing, a
    log that was just made, logs of either format, over longer logs of older generations, and with no room after a checkpoint but for a length."""
    first, (second, appended), (third, more) = each_kind()
    last, old = second + appended, b"XARMLOG1"
    yield "nothing", (b"", b""), [], 2400
    yield "a log that was made", (b"XARMLOG2" + CLOSED, b""), [], 2400
    yield "a first boot", (bytes_of(first) + CLOSED, b""), first, 2400
    yield "a first boot in format 1", (bytes_of(first, old) + CLOSED, b""), first, 2400
    yield "format 1", (bytes_of(first, old) + CLOSED, bytes_of(last, old) + CLOSED), last, 2400
    third_of_old = over(bytes_of(first, old) + CLOSED, bytes_of(third, old) + CLOSED)
    yield "format 1, after two checkpoints", (third_of_old, bytes_of(last, old) + CLOSED), third, 2400
    yield "format 2 over format 1", (bytes_of(first, old) + CLOSED, bytes_of(last) + CLOSED), last, 2400
    longer = [opened(1), *(branch("committed", f"2:{at:02x}:", BOOT + at, (KEYS[at % 4], bytes([at]) * 20)) for at in range(1, 20))]
    longer = bytes_of(longer) + CLOSED
    yield "longer logs", (over(longer, bytes_of(third + more) + CLOSED), over(longer, bytes_of(last) + CLOSED)), third + more, 2400
    few = [opened(2), base(BOOT + 1, (KEYS[0], b"1"))]
    yield "no room", (bytes_of([opened(1)]) + CLOSED, bytes_of(few) + CLOSED), few, len(bytes_of(few)) + 4


def histories(count):
    """The images of so many histories, each with where it began, and the history."""
    begins = [*begun()]
    for seed in range(count):
        title, files, records, most = begins[seed % len(begins)]
        history = History(random.Random(seed), files, records, most)
        history.run(8)
        yield from ((title, image, history) for image in history.images)


def is_wrong(image):
    """What is wrong with an image by the rules alone: it is refused, unless nothing is logged yet, or what chains isn't what may be there."""
    told = fault_of(*image.files)
    if told:
        return None if told == "not a log" and image.may_have == [[]] else told
    current = logs.current_of(*image.files)
    found = [] if current is None else logs.chained(image.files[current])[0]
    return None if found in [[it.body.bytes for it in records] for records in image.may_have] else "other records"


def crashes(count):
    """Of some 25 times as many images those of which something is wrong by the rules alone, as checks; and rows of so many, no two the same, of
    all kinds of moments in turn."""
    moments, seen, wrong = collections.defaultdict(list), set(), [("images of crashes, by the rules alone", None, None)]
    for title, image, history in histories(count // 4):
        came = is_wrong(image)
        if came:
            wrong.append((f"{title}: a crash in {image.doing}, by the rules alone: {[file.hex() for file in image.files]}", came, None))
        kept = moments[title, image.doing]
        if hash(image.files) not in seen and len(kept) < count // 40:
            seen.add(hash(image.files))
            kept.append(taken(f"{title}: a crash in {image.doing} ({len(kept)})", image.files, history.known, history.most, is_asked=True))
    turns = (row for rows in itertools.zip_longest(*moments.values()) for row in rows if row)
    return wrong, [*itertools.islice(turns, count)]
