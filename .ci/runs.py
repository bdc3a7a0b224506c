"""The kinds of runs of .ci/history: a server, its clients, what goes wrong meanwhile, and what is compared afterwards."""
import os
import re
import subprocess

from callers import KEYS
from crashes import Aftermath, fail_power, tails
from frames import LIMIT, but_orders, request
from histories import History, Search
from loads import Load, Mistake, Server
from promises import check_promises

# The most calls of a run: a play makes all of them again.
MOST = 4000
TRIMMED = re.compile(r"xarm: log trimmed from \d+ to (\d+) bytes in \d+ ms")
EIO, ENOSPC = 5, 28
# Where a server that audits writes its history.
KEPT = "kept"


class Run:
    """A run in a folder of its own, by random numbers that its seed gives."""

    def __init__(self, program, library, room, rng):
        self.program, self.library, self.room, self.rng = program, library, room, rng
        self.server = self.load = None
        self.steps, self.lacks_memory = {}, False

    def serve(self, *words, waits=True, **environment):
        how = {"LD_PRELOAD": self.library, **environment} if environment else {}
        handles = [int(environment["JOURNAL"])] if "JOURNAL" in environment else []
        # a server by a socket drops who connects before it is ready
        self.server = Server(self.program, self.room, words, not waits or self.rng.random() < 0.5, how, handles, waits)

    def keep_busy(self, clients, seconds=0.5, most=MOST, again=0, **mix):
        self.load = Load(self.server, self.rng.random(), clients, again, **{"at_once": self.rng.random() < 0.7, **mix})
        self.load.run(seconds, most)

    def finish(self):
        """All calls under way are answered, all hang up, and the server prints how many events there were."""
        self.load.drain()
        self.load.hang_up()
        for _ in range(self.load.again + len(self.load.late)):
            self.server.connect().close()
        return self.server.ends()

    def compare(self, then=None, words=(), cut=None):
        """Compares with a play. The history. Where it is to be cut once the manager is down, the group whose record was lost is added."""
        trims = TRIMMED.findall(self.server.has_told())
        history = History(self.load.calls(), trims, self.lacks_memory)
        if cut is not None:
            cut += history.cut_at_down()
        search = Search(history, self.program, words)
        wrong, self.steps = search.find(then and (lambda steps: then(history, search, steps)))
        if wrong:
            raise Mistake(wrong)
        if not history.flights:
            check_promises(history)
        return history

    def close(self):
        if self.server:
            self.server.kill()


def count_events(run, history, printed, *audit):
    """The server counts what has a place, the hang-ups at the end too, and tells of nothing but trims and orders."""
    if rest := TRIMMED.sub("", but_orders(run.server.has_told())).strip():
        raise Mistake(f"the server told: {rest}")
    trims = len(TRIMMED.findall(run.server.has_told()))
    connects = len(run.load.all) + run.load.again + len(run.load.late)
    # a call that nobody saw answered may have been made
    may = sum(len(asked) for asked in history.flights.values())
    counts = [len(history.placed) + 2 * connects + 3 * trims + flights for flights in range(may + 1)]
    if printed not in [[f"calls {count}", *audit] for count in counts]:
        raise Mistake(f"the server printed {printed} and not calls {counts[0]} to {counts[-1]}, {audit}")


def compare_kept(run, history, words):
    """The history that an audited server wrote: each reply that a client was given is in it at its place, after the call that it had asked,
    and a play of the script prints the replies."""
    with open(os.path.join(run.room, KEPT), encoding="utf-8") as script, open(os.path.join(run.room, f"{KEPT}.out"), encoding="utf-8") as replies:
        asked, answered = script.read(), replies.read()
    rows = list(zip(asked.splitlines(), answered.splitlines(), strict=True))
    for place, call in history.placed.items():
        line, reply = rows[place - 1]
        if request(line) != request(f"1 {call.line}") or reply != history.replies[place]:
            raise Mistake(f"place {place}, {call.line}: it was answered {history.replies[place][:300]}, but {KEPT} has {line}: {reply[:300]}")
    played = subprocess.run([run.program, "play", "--name", "n", *words], input=asked.encode(), capture_output=True, timeout=4 * LIMIT, check=False)
    if played.returncode or played.stdout.decode() != answered:
        raise Mistake(f"the play of {KEPT} prints other replies than {KEPT}.out has: {played.stderr.decode()}")


def kept_near(run, wrong):
    """What the history that an audited server wrote has at the place that is told of, and around it."""
    place, path = re.search(r"place (\d+)", wrong), os.path.join(run.room, KEPT)
    if not place or not os.path.exists(path):
        return ""
    with open(path, encoding="utf-8") as script, open(f"{path}.out", encoding="utf-8") as replies:
        rows = list(enumerate(zip(script.read().splitlines(), replies.read().splitlines()), 1))
    at = int(place[1])
    return "".join(f"\n    {KEPT} has {number}: {line}: {reply[:100]}" for number, (line, reply) in rows[max(0, at - 4) : at + 3])


def load_and_compare(run, words, clients, again=0, audit=None, environment=None, play=(), waits=True, **how):
    """A run where nothing is killed. Unless it is said, its server has an audit, and writes its history, or none."""
    if audit is None and run.rng.random() < 0.5:
        words, audit = (*words, "--audit"), ("audit ok",)
    kept = ("--audit-out", KEPT) if audit else ()
    run.serve(*words, *kept, "--connections", str(clients + again), waits=waits, **(environment or {}))
    run.keep_busy(clients, again=again, **how)
    printed = run.finish()
    try:
        history = run.compare(words=play)
    except Mistake as mistake:
        raise Mistake(f"{mistake}{kept_near(run, str(mistake))}") from None
    count_events(run, history, printed, *(audit or ()))
    if audit:
        compare_kept(run, history, play)


def fresh(run):
    """A server that has just begun, whose first loop has the clients that didn't wait for it, and the other loops those that come late."""
    loops, clients = run.rng.choice((1, 2, 4, 4, 4)), run.rng.choice((8, 10, 12, 16))
    slow = run.rng.choice(({}, {"FAULT": "slow 1+1"}, {"FAULT": "slow 1+3"}))
    how = {"seconds": 2, "most": run.rng.choice((100, 300, 1000)), "late": run.rng.randrange(6), "waits": False, "at_once": True}
    load_and_compare(run, ("--loops", str(loops), "--trim", "0"), clients, environment=slow, **how)


def idle(run):
    """Few clients for four loops."""
    load_and_compare(run, ("--loops", "4", "--trim", "0"), run.rng.choice((2, 3, 4, 5)))


def uneven(run):
    """Loops of which some have done much and others little: answers that one gives to the other are counted by it."""
    loops, clients = run.rng.choice(("2", "2", "4")), run.rng.choice((8, 12, 16))
    mix = {"some_quiet": True, "longest": 8, "joined": run.rng.choice((0, 0, 0.3)), "at_once": True}
    load_and_compare(run, ("--loops", loops, "--trim", "0"), clients, seconds=4, most=run.rng.choice((150, 250)), **mix)


def crowd(run):
    """Many clients, most of whose calls log at once."""
    load_and_compare(run, ("--loops", run.rng.choice(("2", "4")), "--trim", "0"), 64, seconds=1, meddles=5, joined=0.1)


def workers(run):
    """Loops whose history is audited, of few clients and of many."""
    clients = run.rng.choice((4, 8, 16, 64))
    load_and_compare(run, ("--workers", str(run.rng.choice((4, 16)))), clients, audit=("audit ok",))


def trims(run):
    """A small log, which the server trims by itself."""
    size = ("--log-bytes", "65536")
    load_and_compare(run, ("--loops", run.rng.choice(("1", "2", "4")), "--trim", "6000", *size), 10, seconds=1, play=size)


def full_log(run):
    """A log without room for much, which only clients trim."""
    size = ("--log-bytes", str(run.rng.choice((3000, 6000, 12_000))))
    load_and_compare(run, ("--loops", run.rng.choice(("2", "4")), "--trim", "0", *size), 12, trims=20, play=size)


def reconnects(run):
    """Clients that hang up in the middle of anything, and connect anew."""
    load_and_compare(run, ("--loops", run.rng.choice(("2", "4")), "--trim", "0"), run.rng.choice((6, 12)), again=12)


def slow_syncs(run):
    """Some syncs, or all, are slow."""
    fault = run.rng.choice(("slow 5/20", "slow 3+2", "slow 13/60"))
    words = ("--loops", run.rng.choice(("2", "4")), "--trim", "0")
    load_and_compare(run, words, run.rng.choice((8, 16)), environment={"FAULT": fault}, seconds=0.8)


def serve_with_journal(run, *words, **environment):
    """Serves with a journal of what a power failure would leave. Its file."""
    path = os.path.join(run.room, "journal")
    with open(path, "ab") as journal:
        run.serve(*words, JOURNAL=str(journal.fileno()), **environment)
    return path


def fail_and_restart(run, path):
    """The power fails, and a new server is asked what lasts."""
    with open(path, "rb") as journal:
        fail_power(run.room, journal.read(), run.rng)
    run.server = Server(run.program, run.room, ["--loops", "2"])
    return Aftermath(run.server)


def kills(run):
    """The power fails under load. Of the calls that were under way any may have been done, in any order; else what a play's crash leaves
    is what the next server lists and reads."""
    path = serve_with_journal(run, "--loops", run.rng.choice(("2", "4")), "--trim", "0", FAULT=run.rng.choice(("slow 1+1", "slow 1+4")))
    run.keep_busy(run.rng.choice((3, 4, 5)), seconds=3, most=run.rng.randrange(20, 400), restarts=3, trims=10)
    run.load.kill()
    aftermath = fail_and_restart(run, path)

    def then(history, search, steps):
        done = {step.owner for step in steps.values() if step.kind == "flight"}
        return aftermath.is_wrong(search, steps, tails([asked for owner, (asked,) in history.flights.items() if owner not in done]))

    run.compare(then)


def failed_syncs(run):
    """A sync fails, and the manager is down: up to there all is as in a play, and from there on all is refused. Then the power fails. Of
    the group whose sync it was the first calls may have been done, or all, or none."""
    fault = f"fdatasync {run.rng.randrange(4, 40)} {EIO}"
    path = serve_with_journal(run, "--loops", run.rng.choice(("2", "4")), "--trim", "0", FAULT=fault)
    run.keep_busy(8, seconds=0.3, most=1500, restarts=0, trims=0)
    run.load.drain()
    run.server.kill()
    aftermath = fail_and_restart(run, path)
    group = []

    def then(_, search, steps):
        return aftermath.is_wrong(search, steps, [group[:count] for count in range(len(group) + 1)])

    run.compare(then, cut=group)


def refused_writes(run):
    """Writes fail, one now and then, or some in a row, so that the manager goes down: then a Restart finds that nothing was written."""
    first = run.rng.randrange(5, 60)
    fault = run.rng.choice((f"pwrite {run.rng.randrange(5, 12)}/{ENOSPC}", f"pwrite {first}-{first + 2} {ENOSPC}"))
    run.serve("--loops", run.rng.choice(("2", "4")), "--trim", "0", FAULT=fault)
    run.keep_busy(10, restarts=0, trims=0)
    run.load.drain()
    run.server.kill()
    run.compare()


def little_memory(run):
    """Each of so many allocations is refused: a call is told so and has no place, or its connection is closed, and it may have been
    done."""
    run.lacks_memory = True
    library = os.path.join(os.path.dirname(run.library), "refuse.so")
    each = {"LD_PRELOAD": library, "EACH": str(run.rng.choice((1009, 2003, 5003)))}
    run.serve("--loops", run.rng.choice(("1", "2", "4")), "--trim", "0", **each)
    run.keep_busy(8, seconds=0.3, most=1500, may_lose=True)
    run.load.drain()
    run.server.kill()
    run.compare()


KINDS = {
    "uneven": uneven,
    "fresh": fresh,
    "idle": idle,
    "crowd": crowd,
    "workers": workers,
    "trims": trims,
    "full log": full_log,
    "reconnects": reconnects,
    "slow syncs": slow_syncs,
    "kills": kills,
    "failed syncs": failed_syncs,
    "refused writes": refused_writes,
}
# Only where they are named: an instrumented build has an allocator of its own, which can't be made to refuse.
BY_HAND = {"little memory": little_memory}
