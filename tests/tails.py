"""Two files of a log to whose current one more was appended than a group takes, and that was damaged there: bits of some records, each sector,
cuts. What is told follows from the bytes (`logs.py`): damage, where a record of the log's own chains far enough after it; else what is left out.
`.ci/damage` has them scanned and served.
"""
import functools
import itertools

from damage import flipped, instead
from logs import AROUND, BOOT, CLEARED, CLOSED, MOST_BODY, MOST_GROUP, MOST_OF_ONE, ends, over, stops_short
from outcomes import KEYS, State, base, branch, bytes_of, ended, opened, printed, taken

# How many branches are committed in one phase or prepared, of each pair the second one completed, and the bytes of a value.
BRANCHES, VALUE = 300, 1_000


@functools.cache
def appended():
    """What was appended to the second generation: more than a group takes, each third record a completion."""
    records = []
    for at in range(BRANCHES):
        stamp, write = 2 * BOOT + 2 * at + 1, (KEYS[at % 4], bytes([at % 256]) * VALUE)
        records.append(branch("committed", f"1:cc{at:04x}:", stamp, write))
        records.append(branch("prepared", f"1:dd{at:04x}:", stamp + 1, write))
        records.append(ended("completed", f"1:dd{at:04x}:", "rollback"))
    return records


@functools.cache
def pair():
    """Both files, and all records by their bodies."""
    first = [opened(1), branch("committed", "1:aa:", BOOT + 1, (KEYS[0], b"1"))]
    second = State(first).snapshot(2)
    older, file = bytes_of(first) + CLOSED, over(bytes_of(second) + CLEARED, bytes_of(second + appended()) + CLOSED)
    return (older, file), {it.body.bytes: it for it in [*first, *second, *appended()]}, len(bytes_of(second))


@functools.cache
def places():
    """Where each appended record begins, and after them the end."""
    return [at - ends([])[0] + pair()[2] for at in ends([it.body for it in appended()])]


def is_told(at):
    """Whether a harm to the appended record with this index is told, by the rule: one that has a stamp begins so far after it."""
    far = places()[at] + MOST_GROUP
    return any(place >= far and it.kind != "completed" for place, it in zip(places(), appended()))


def some():
    """The records that are harmed: the first one, of each kind; the last one of which that is told, and the next; and the last one."""
    last = max(at for at in range(len(appended())) if is_told(at))
    return [0, 1, 2, last, last + 1, len(appended()) - 1]


def harmed():
    """The current file with each harm done to it, by a title."""
    _, file = pair()[0]
    for at in some():
        for place, bit in itertools.product(range(places()[at], places()[at + 1]), range(8)):
            yield f"appended record {at}: bit {bit} of byte {place} is changed", flipped(file, place, bit)
        for place in range(places()[at], places()[at + 1]):
            yield f"appended record {at}: byte {place} is zeroed", file[:place] + b"\0" + file[place + 1 :]
    for size, place in itertools.product((512, 4096), range(0, len(file), 512)):
        if place % size == 0:
            yield f"{size} bytes from {place} on are zeroed", file[:place] + bytes(min(size, len(file) - place)) + file[place + size :]
    for cut in range(0, len(file), 97):
        yield f"cut to {cut}", file[:cut]


def harms(each):
    """Each N-th harm to the current one."""
    files, records, _ = pair()
    yield taken("long: whole", files, records, is_asked=True)
    for title, file in itertools.islice(harmed(), 0, None, each):
        yield taken(f"long: {title}", instead(files, 1, file), records)


def scans(each):
    """The same of that file by itself."""
    files, records, _ = pair()
    yield printed("long: whole", files[1], records)
    yield from (printed(f"long: {title}", file, records) for title, file in itertools.islice(harmed(), 0, None, each))


def stale():
    """Records of an older log after a torn append, as long as those of the newer one, which chain on one another: no harm. The file of the
    third generation is written over that of the first, whose records were as long at the same places."""
    first = [opened(1)] + [branch("committed", f"1:cc{at:04x}:", BOOT + at + 1, (KEYS[at % 4], bytes([at % 256]) * VALUE)) for at in range(BRANCHES)]
    second = [opened(2), *State(first).snapshot(2)[1:]]
    third = [opened(3), *State(second).snapshot(3)[1:]]
    more = [branch("committed", f"1:ee{at:04x}:", 3 * BOOT + at + 1, (KEYS[at % 4], bytes([at]) * VALUE)) for at in range(3)]
    old, new = bytes_of(first) + CLOSED, bytes_of(third + more) + CLOSED
    records = {it.body.bytes: it for it in [*first, *second, *third, *more]}
    begins = len(bytes_of(third + more[:-1]))
    for written in range(1, AROUND + len(more[-1].body.bytes) + 4):
        file = over(old, new[: begins + written])
        yield taken(f"stale: {written} bytes of the last append are written", (file, bytes_of(second) + CLEARED), records)


def is_longer(place, bit, begin):
    """Whether a bit of the length at this byte makes the record a longer one than a window has room for, which the file has."""
    _, file = pair()[0]
    size = int.from_bytes(file[begin : begin + 4], "big") ^ 1 << 8 * (begin + 3 - place) + bit
    return MOST_OF_ONE < size <= MOST_BODY and begin + AROUND + size <= len(file)


def checks():
    """By the rules alone: of some records, which of their bits are changed untold: of one whose harms are told, those alone of its length that make
    it longer than a window has room for."""
    _, file = pair()[0]
    for at in some():
        begin, end = places()[at], places()[at + 1]
        tried = [*itertools.product([*range(begin, begin + 5), *range(begin + 5, end, 61), end - 1], range(8))]
        found = [(place, bit) for place, bit in tried if not stops_short(flipped(file, place, bit))]
        wanted = [(place, bit) for place, bit in tried if not is_told(at) or place < begin + 4 and is_longer(place, bit, begin)]
        yield f"long: appended record {at}: the bits that are changed untold", found, wanted
