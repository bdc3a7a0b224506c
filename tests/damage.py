"""Two files of a log that were damaged: each bit of them changed, each byte zeroed, each cut. What is told, or else opened, follows from their
bytes (`outcomes.py`), and which bits of a snapshot are changed untold, from the rules in docs/LOG.md. `.ci/damage` has them served.
"""
import itertools

import logs
from logs import CLEARED, CLOSED, FIRST, over
from outcomes import bytes_of, each_kind, fault_of, printed, taken


def whole_pairs():
    """Two files that are whole, by a title, with how many bytes the current one's snapshot has, which it is, and all records by their bodies:
    nothing was appended to the current one yet, or records of each kind were."""
    first, (second, appended), (third, more) = each_kind()
    records = {it.body.bytes: it for it in [*first, *second, *appended, *third, *more]}
    older = bytes_of(first) + CLOSED
    for after in ([], appended):
        file = over(bytes_of(second) + CLEARED, bytes_of(second + after) + CLOSED)
        yield f"generation 2 over 1, {len(after)} appended", (older, file), 1, len(bytes_of(second)), records
    older, file = file, over(over(older, bytes_of(third) + CLEARED), bytes_of(third) + CLEARED)
    yield "generation 3 over 2, 0 appended", (file, older), 0, len(bytes_of(third)), records
    yield f"generation 3 over 2, {len(more)} appended", (over(file, bytes_of(third + more) + CLOSED), older), 0, len(bytes_of(third)), records


def flipped(file, place, bit):
    return file[:place] + bytes([file[place] ^ 1 << bit]) + file[place + 1 :]


def instead(files, at, file):
    """Two files, with another one in place of one."""
    return (file, files[1]) if at == 0 else (files[0], file)


def harmed(file):
    """A file with each harm done to it, by a title."""
    for place, bit in itertools.product(range(len(file)), range(8)):
        yield f"bit {bit} of byte {place} is changed", flipped(file, place, bit)
    for place in range(len(file)):
        if file[place]:
            yield f"byte {place} is zeroed", file[:place] + b"\0" + file[place + 1 :]
    for size in (64, 512):
        for place in range(0, len(file), size):
            yield f"{size} bytes from {place} on are zeroed", over(file, file[:place] + bytes(min(size, len(file) - place)))
    for cut in range(len(file)):
        yield f"cut to {cut}", file[:cut]
    yield "absent", None


def harmed_pairs(each):
    """Each N-th harm to either file of each pair: a title, both files, which one is harmed, and the pair's records."""
    rows = (
        (f"{pair}: {name}: {title}", instead(files, at, file), at, records)
        for pair, files, _, _, records in whole_pairs()
        for at, name in enumerate(("the first file", "the second file"))
        for title, file in harmed(files[at])
    )
    return itertools.islice(rows, 0, None, each)


def harms(each):
    """Each N-th harm, and each pair as it was."""
    for pair, files, _, _, records in whole_pairs():
        yield taken(f"{pair}: whole", files, records, is_asked=True)
    yield from (taken(title, files, records) for title, files, _, records in harmed_pairs(each))


def scans(each):
    """The same of the harmed file by itself."""
    for title, files, at, records in harmed_pairs(each):
        if files[at] is not None:
            yield printed(title, files[at], records)


def untold(files, at, end):
    """The bits of the current file's snapshot, after its name, that are changed untold."""
    for place, bit in itertools.product(range(FIRST, end), range(8)):
        if fault_of(*instead(files, at, flipped(files[at], place, bit))) is None:
            yield place, bit


def silent(records):
    """The same by the rules, of each record: of a base's kind, 7, the bits that make it 6, 5 or 3, of a held record's, 8, the one that makes it
    0, of the first one's, 1, those that make it 3 or 5; of a known record's, 9, none. And the bit that makes the generation, 2 or 3, 0 or 1."""
    bits = {"opened": (1, 2), "base": (0, 1, 2), "held": (3,), "known": ()}
    for at, it in zip(logs.ends([it.body for it in records]), records):
        yield from ((at + 4, bit) for bit in bits[it.kind])
    yield FIRST + 8, 1


def untold_rows():
    """What a server makes of each of them."""
    for pair, files, at, end, records in whole_pairs():
        for place, bit in untold(files, at, end):
            file = flipped(files[at], place, bit)
            yield taken(f"{pair}: untold: bit {bit} of byte {place}", instead(files, at, file), records, is_asked=True)


def checks():
    """What is found by the rules alone: a title, what was found, and what is wanted."""
    _, (second, _), (third, _) = each_kind()
    for (pair, files, at, end, _), records in zip(whole_pairs(), (second, second, third, third)):
        yield f"{pair}: the bits of the snapshot that are changed untold", [*untold(files, at, end)], sorted(silent(records))
