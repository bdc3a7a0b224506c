"""Scans of files of a log, and servers on them, that are put together apart from the program (tests/logs.py, damage.py, images.py)."""
import concurrent.futures
import functools
import os
import signal
import subprocess
import tempfile

import plays
from frames import ROOM, TIMELESS, but_orders

# How long a program may take, in seconds: one that isn't proved takes many times as long.
LIMIT = 600
FILES = "l", "l.2"
SERVE = "serve", "--log", "l", "--name", "n", "--socket", "s", "--loops", "1", *TIMELESS


def put(room, files):
    for name, file in zip(FILES, files):
        if file is not None:
            with open(os.path.join(room, name), "wb") as to:
                to.write(file)


def stands(room):
    """What stands in both files, None for one that is none."""
    paths = [os.path.join(room, name) for name in FILES]
    return tuple(plays.read(path) if os.path.exists(path) else None for path in paths)


def told_apart(found, wanted):
    """How two texts or byte strings differ, in short."""
    if found is None or wanted is None:
        return f"{found and len(found)} bytes and not {wanted and len(wanted)}"
    at = next((at for at, (one, other) in enumerate(zip(found, wanted)) if one != other), min(len(found), len(wanted)))
    return f"of {len(found)} and not {len(wanted)} bytes, from {at} on {found[at : at + 40]!r} and not {wanted[at : at + 40]!r}"


def differ(pairs):
    """The first of these, a name with what was found and what is wanted, that differs; nothing where none does."""
    for name, found, wanted in pairs:
        if found != wanted:
            return f"{name}: {told_apart(found, wanted) if isinstance(wanted, (bytes, str)) else f'{found} and not {wanted}'}"
    return None


def ran(program, words, room, **how):
    it = subprocess.run([program, *words], capture_output=True, cwd=room, timeout=LIMIT, check=False, **how)
    return it.returncode, (it.stdout + it.stderr).decode()


def scanned(program, row):
    """What is wrong with a scan."""
    with tempfile.TemporaryDirectory(prefix="logs-", dir=ROOM) as room:
        put(room, [row.file])
        status, shown = ran(program, ["scan", "l"], room)
        return differ([("it prints", shown, row.shown), ("its status", status, row.status), ("the file then", stands(room)[0], row.file)])


def checked(program, row):
    """What is wrong with a check."""
    with tempfile.TemporaryDirectory(prefix="logs-", dir=ROOM) as room:
        put(room, row.files)
        status, shown = ran(program, ["check", "l", *row.words], room)
        return differ([("it prints", shown, row.shown), ("its status", status, row.status), ("the files then", stands(room), tuple(row.files))])


class Server:
    """A server in a folder, until it ends or is killed."""

    def __init__(self, program, room, words=(), **how):
        self.program, self.room = program, room
        self.ran = subprocess.Popen([program, *SERVE, *words], stdout=subprocess.PIPE, stderr=subprocess.PIPE, cwd=room, **how)

    def __enter__(self):
        self.is_ready = self.ran.stdout.readline() == b"ready\n"
        return self

    def __exit__(self, *_):
        self.end()

    def end(self):
        """Its status, where it ended by itself, and what it told beside orders."""
        if self.is_ready:
            self.ran.kill()
        _, told = self.ran.communicate(timeout=LIMIT)
        return self.ran.returncode, but_orders(told.decode())

    def answers(self, asked):
        """What lines are answered, one each."""
        script = "".join(f"{line}\n" for line, _ in asked).encode()
        return ran(self.program, ["talk", "--socket", "s"], self.room, input=script)[1]


def served(program, row):
    """What is wrong with a server."""
    with tempfile.TemporaryDirectory(prefix="logs-", dir=ROOM) as room:
        put(room, row.before)
        with Server(program, room, row.words) as server:
            answers = server.answers(row.asked) if server.is_ready and row.asked else ""
            status, told = server.end()
        wanted = "".join(f"{reply}\n" for _, reply in row.asked)
        ends = 1 if row.is_refused else -signal.SIGKILL
        firsts = [("it tells", told, row.told), ("its status", status, ends), ("it answers", answers, wanted)]
        return differ(firsts + [(f"in {name} stands", *file) for name, *file in zip(FILES, stands(room), row.after)])


def accepted(program, row):
    """What is wrong with a server that is to open what stands of a damaged log, and with the copies that it keeps."""
    with tempfile.TemporaryDirectory(prefix="logs-", dir=ROOM) as room:
        put(room, row.serve.before)
        for name in row.before:
            with open(os.path.join(room, name), "wb") as to:
                to.write(name.encode())
        with Server(program, room, row.serve.words) as server:
            answers = server.answers(row.serve.asked) if server.is_ready and row.serve.asked else ""
            status, told = server.end()
        wanted = "".join(f"{reply}\n" for _, reply in row.serve.asked)
        ends = 1 if row.serve.is_refused else -signal.SIGKILL
        copies = sorted(name for name in os.listdir(room) if ".damaged-" in name)
        kept = [plays.read(os.path.join(room, name)) for name in row.kept if name in copies]
        there = [plays.read(os.path.join(room, name)) for name in row.before]
        firsts = [("it tells", told, row.told), ("its status", status, ends)]
        firsts += [("it answers", answers, wanted), ("the copies", copies, sorted([*row.before, *row.kept]))]
        firsts += [("what they hold", kept, [file or b"" for file in row.serve.before] if row.kept else []), ("what was there", there, [name.encode() for name in row.before])]
        return differ(firsts + [(f"in {name} stands", *file) for name, *file in zip(FILES, stands(room), row.serve.after)])


def tried_one(how, program, row):
    try:
        return how(program, row)
    except subprocess.TimeoutExpired:
        return f"it didn't end within {LIMIT} seconds"


def tried(how, program, rows):
    """What each row is called, and what is wrong with it."""
    with concurrent.futures.ThreadPoolExecutor(os.cpu_count()) as pool:
        yield from zip([f"{how.__name__}: {row.title}" for row in rows], pool.map(functools.partial(tried_one, how, program), rows))


def told_of(name, program, checks):
    """Prints what is wrong with a program, and how many checks passed and failed; the status."""
    if not os.path.isfile(program):
        print(f"{name}: the program was not built: rt ci builds it, or rt run in crates/xarm\n0 passed, 1 failed")
        return 1
    failed = count = 0
    for what, wrong in checks(os.path.abspath(program)):
        count += 1
        if wrong:
            failed += 1
            print(f"{what} ... FAILED: {wrong}", flush=True)
    print(f"{count - failed} passed, {failed} failed")
    return 1 if failed else 0
