"""Two files of a log, damaged or not, that `xarm check` tells and that `xarm serve --accept-damage` opens. What is told, which bytes are left out,
and what is opened then, follows from their bytes (`outcomes.py`, docs/LOG.md, docs/OPERATING.md). `.ci/damage` asks the program.
"""
import itertools
from typing import NamedTuple

import damage
import logs
from logs import CLEARED, FIRST
from outcomes import each_kind, fault_of, stands_as, taken

FILES = "l", "l.2"


class Check(NamedTuple):
    """Two files that are checked, further words, and the status and what is printed and told."""

    title: str
    files: tuple
    words: list
    status: int
    shown: str


class Accepting(NamedTuple):
    """How two files are served, what is told of that, which names are there before, and those of the copies."""

    serve: logs.Serve
    told: str
    before: list
    kept: list

    @property
    def title(self):
        return self.serve.title


def is_damaged(file):
    return logs.is_headless(file) or logs.is_cut(file) or logs.stops_short(file)


def behind(file):
    """What is told of the records that chain after a damaged one: how many, and of how many branches that are prepared in them none is
    completed there."""
    left = logs.left_out(file)[1]
    xids = [(body[0], body[1 : 7 + body[5] + body[6]]) for body in left if body[0] in (2, 4, 5)]
    prepared = {xid for kind, xid in xids if kind == 2} - {xid for kind, xid in xids if kind != 2}
    return f", {len(left)} records behind it, {len(prepared)} branches prepared in them" if left else ""


def line(name, file, most, is_current):
    """What is told of a file."""
    if len(file) > most:
        return f"{name}: log too long\n"
    stands = stands_as(file)
    if stands != "log":
        return f"{name}: {dict(later='log too new', nothing='nothing', stray='not a log')[stands]}\n"
    bodies, end = logs.chained(file)
    facts = f"{name}: format {file[7:8].decode()}, generation {logs.generation(bodies)}, {len(bodies)} records, end {end}"
    damaged = f", damaged: record {len(bodies) + 1} at byte {end}{behind(file)}" if is_damaged(file) else ""
    return f"{facts}{', current' if is_current else ''}{damaged}\n"


def check(title, files, most=None):
    """What a check does with two files of at most so many bytes."""
    words, bound = ([], 1 << 30) if most is None else (["--log-bytes", str(most)], most)
    missing = [name for name, file in zip(FILES, files) if file is None]
    if missing:
        return Check(title, files, words, 2, f"xarm: cannot open {missing[0]}: No such file or directory (os error 2)\n")
    is_long = any(len(file) > bound for file in files)
    is_read = not is_long and "later" not in map(stands_as, files)
    current = logs.current_of(*files) if is_read else None
    shown = "".join(line(name, file, bound, at == current) for at, (name, file) in enumerate(zip(FILES, files)))
    fault = None if is_long else fault_of(*files)
    if fault in (logs.STRAY_FIRST, logs.STRAY_SECOND, logs.NO_FIRST, logs.NO_SECOND):
        shown += f"{fault}\n"
    whole = is_read and current is not None and fault is None and not any(stands_as(it) == "log" and is_damaged(it) for it in files)
    return Check(title, files, words, 0 if whole else 1, shown)


def ended(files):
    """Two damaged files, ended where they are damaged, and the lines that tell what was left out."""
    files, lines = [*files], []
    while logs.damage_of(*files):
        headless = [at for at in (0, 1) if logs.is_headless(files[at])]
        at = headless[0] if headless else logs.current_of(*files)
        bodies, end = logs.chained(files[at])
        other = files[1 - at]
        is_early = not any(body[0] in logs.APPENDED for body in bodies)
        if is_early and stands_as(other) == "log" and logs.chained(other)[0]:
            place = FIRST
            lines.append(f"the snapshot of {FILES[at]} is left out, and what was logged after it; the older file is taken")
        else:
            place = end
            lines.append(f"{FILES[at]}: record {len(bodies) + 1} at byte {end} and all after it are left out")
        files[at] = files[at][:place] + CLEARED
    return tuple(files), lines


def accepting(title, files, records, before=(), number=1):
    """What a server does that is to open what stands of two files, where names are there by then, and copies have this number."""
    fault = fault_of(*files)
    if not (fault or "").startswith("log damaged"):
        row = taken(title, files, records, is_asked=True)
        return Accepting(row._replace(words=["--accept-damage"]), row.told, [*before], [])
    whole, lines = ended(files)
    row = taken(title, whole, records, is_asked=True)
    kept = [f"{name}.damaged-{number}" for name in FILES]
    told = "".join(f"xarm: damage accepted: {it}; both files are kept as {kept[0]} and {kept[1]}\n" for it in lines)
    return Accepting(row._replace(before=files, words=["--accept-damage"]), told + row.told, [*before], kept)


def pairs(each):
    """Two whole files, and each N-th harm to such, by a title, with their records."""
    for pair, files, _, _, records in damage.whole_pairs():
        yield f"{pair}: whole", files, records
    yield from ((title, files, records) for title, files, _, records in damage.harmed_pairs(each))


def checks(each):
    """Checks of two files with each N-th harm."""
    yield from (check(title, files) for title, files, _ in pairs(each))


def fits():
    """Checks of two files that don't fit, or are no log's, or are too long; each of a few kinds beside each."""
    first, (second, _), _ = each_kind()
    one, two = (logs.new_log(*(it.body for it in first)), logs.checkpoint(*(it.body for it in second)))
    kinds = dict(empty=b"", cut=two[:5], a_text=b"a letter, and no log\n", later=b"XARMLOG3", generation_1=one, generation_2=two, absent=None)
    kinds["without a record"] = b"XARMLOG2" + logs.CLOSED
    for (name, file), (other_name, other) in itertools.product(kinds.items(), repeat=2):
        yield check(f"{name} beside {other_name}", (file, other))
    for most in (len(one) - 1, len(one), len(two) - 1, len(two)):
        yield check(f"at most {most} bytes", (one, two), most)


def acceptings(each):
    """Servers that are to open what stands of files with each N-th harm."""
    yield from (accepting(title, files, records) for title, files, records in pairs(each))


def namings():
    """The copies' names where some are there."""
    files, records = next((files, records) for title, files, records in pairs(1) if (fault_of(*files) or "").startswith("log damaged"))
    yield accepting("both names are there", files, records, ["l.damaged-1", "l.2.damaged-1"], 2)
    yield accepting("the first file's name is there", files, records, ["l.damaged-1"], 2)
    yield accepting("the second file's name is there", files, records, ["l.2.damaged-1"], 2)
    yield accepting("one name of each number is there", files, records, ["l.damaged-1", "l.2.damaged-2", "l.damaged-4"], 3)
