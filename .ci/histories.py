"""The history of a run, and whether it is one: each event has a place of its own, in an order that agrees with when calls were asked and
answered, and `xarm play` prints the same replies where the events are its lines in this order.

Connects and hang-ups have no reply, so theirs are the places that no reply has. Which is whose is searched for: a connect comes before
its connection's first call, a hang-up after its last and not before the connection was closed, and both not before what was answered
before the client began them. A trim that the server makes by itself takes three places, by a session of its own. A call that nobody saw
answered, since its connection ended, may have a place or not. Sessions are as good as one another, so of several connects that may have a
place it is enough to try one.
"""
import bisect
import heapq
import itertools
import re
import subprocess

from frames import LIMIT, shown
from loads import Mistake

LOGS = ("prepare", "commit", "rollback", "decide", "forget", "trim", "restart")
STATUS = re.compile(r"(-6 Nothing|0 Nothing status( [a-z]+ \d+){10})")
NEVER = 1 << 62
# How many plays may look for the places of what had no reply, and how many assignments of them that come to no play.
MOST_PLAYS, MOST_TRIES = 300, 20_000
DOWN = "-7 Device"


class Undecided(Exception):
    """It wasn't found out whether a run was right: there are too many orders of what had no reply."""


class Step:
    """An event without a reply: a place for it is above one bound, and below the other."""

    def __init__(self, kind, owner, low, high=NEVER, line=None, wanted=None):
        self.kind, self.owner, self.low, self.high, self.line, self.wanted = kind, owner, low, high, line, wanted
        self.may_lack = kind == "flight"


def check_times(placed):
    """A call that was answered before another was asked has the lower place. Answers the times, and up to each the greatest place."""
    answered = sorted((asked.received, place) for place, asked in placed.items())
    times = [time for time, _ in answered]
    greatest = list(itertools.accumulate((place for _, place in answered), max))
    for place, asked in placed.items():
        before = bisect.bisect_left(times, asked.sent)
        if before and greatest[before - 1] > place:
            other = placed[greatest[before - 1]]
            raise Mistake(f"{asked.line} was asked after {other.line} was answered, but has place {place} before {greatest[before - 1]}")
    return times, greatest


class History:
    """What the clients of a server were answered, by place."""

    def __init__(self, calls, trims=(), lacks_memory=False):
        self.placed, self.replies, self.flights, self.lacked = {}, {}, {}, 0
        for asked in calls:
            if asked.content is None:
                self.flights.setdefault(asked.connection, []).append(asked)
            else:
                self.add(asked, lacks_memory)
        self.last = max(self.placed, default=0)
        self.times, self.greatest = check_times(self.placed)
        self.missing = [place for place in range(1, self.last + 1) if place not in self.placed]
        self.actors = [self.actor(connection) for connection in {asked.connection: 0 for asked in calls}]
        self.actors.append([step for end in trims for step in trim_steps(end)])

    def add(self, asked, lacks_memory):
        place, line = shown(asked.content)
        if asked.line == "status":
            is_right = place == 0 and STATUS.fullmatch(line)
        elif line.endswith(" Memory"):
            is_right, self.lacked = place == 0 and lacks_memory, self.lacked + 1
        else:
            is_right = place > 0
            if place in self.placed:
                raise Mistake(f"two calls have place {place}: {self.placed[place].line} and {asked.line}")
            self.placed[place], self.replies[place] = asked, line
        if not is_right:
            raise Mistake(f"{asked.line} was answered {line}, with place {place}")

    def answered_before(self, time):
        """The greatest place of what was answered before."""
        before = bisect.bisect_left(self.times, time)
        return self.greatest[before - 1] if before else 0

    def cut_at_down(self):
        """Leaves out what came since the manager went down, by a record of which nobody knows whether it was logged. The calls of that
        record's group, in order. All that is asked later is refused."""
        lost = [place for place, reply in self.replies.items() if reply == DOWN and self.placed[place].line != "restart"]
        if not lost:
            return []
        first, group = min(lost), []
        for place in sorted(place for place in self.placed if place >= first):
            asked, reply = self.placed.pop(place), self.replies.pop(place)
            if reply == DOWN and place == first + len(group) and asked.line.split()[0] in LOGS:
                group.append(asked)
            elif not is_down_reply(asked.line, reply):
                raise Mistake(f"the manager is down, but {asked.line} was answered {reply} at place {place}")
        self.last, self.missing = first - 1, [place for place in self.missing if place < first]
        return group

    def actor(self, connection):
        """What a connection did without a reply, in order."""
        places = [place for place, asked in self.placed.items() if asked.connection is connection]
        first, last = min(places, default=NEVER), max(places, default=0)
        steps = [Step("connect", connection, self.answered_before(connection.began), first)]
        for asked in self.flights.get(connection, ()):
            steps.append(Step("flight", connection, max(last, self.answered_before(asked.sent)), line=asked.line))
        if connection.closed is not None and not connection.was_killed:
            since = connection.all[-1].sent if connection.ended else connection.closed
            steps.append(Step("hangup", connection, max(last, self.answered_before(since))))
        return steps


def is_down_reply(line, reply):
    """Whether a call may be answered so while the manager is down, and its device too."""
    if line == "restart":
        return reply == DOWN
    return reply == "-7 Nothing" or line.split()[0] in ("open", "close") and reply in ("0 Nothing", "-6 Nothing")


def trim_steps(end):
    """The events of a trim that the server made by itself, after which the log ended there."""
    session = object()
    yield Step("connect", session, 0)
    yield Step("call", session, 0, line="trim", wanted=f"0 Nothing number {end}")
    yield Step("hangup", session, 0)


class Search:
    """Looks for what had which of the places that no reply has."""

    def __init__(self, history, program, words=()):
        self.history, self.words = history, [program, "play", "--name", "n", *words]
        # how many plays there were, and where the last one went wrong
        self.plays, self.wrong_at = 0, 0

    def options(self, place, at):
        """Which steps may have a place, each with its actor and its number; none where one came too late."""
        found, connects = [], []
        for actor, steps in enumerate(self.history.actors):
            number = at[actor]
            while number < len(steps):
                step = steps[number]
                if step.kind == "connect" and step.high < place:
                    return []
                if step.low < place < step.high:
                    (connects if step.kind == "connect" else found).append((step.high, step.low, actor, number))
                if not step.may_lack:
                    break
                number += 1
        found.sort(key=lambda it: (self.is_flight(it), it))
        # the connect of a trim that the server made is no other's: its trim comes at once
        own = [it for it in connects if it[2] == len(self.history.actors) - 1]
        return found + sorted(set(connects) - set(own))[:1] + own

    def is_flight(self, option):
        return self.history.actors[option[2]][option[3]].kind == "flight"

    def assign(self, path):
        """Gives each place that no reply has to a step, by these choices, and by the first ones after them. The steps by place, from which
        options each was chosen, and the place for which there was none."""
        at, steps, chosen = [0] * len(self.history.actors), {}, []
        for index, place in enumerate(self.history.missing):
            options = self.options(place, at)
            if not options:
                return steps, chosen, place
            _, _, actor, number = options[path[index] if index < len(path) else 0]
            at[actor] = number + 1
            steps[place] = self.history.actors[actor][number]
            chosen.append(options)
        # a connection that is in no place yet, but asked something
        late = [acts[0].high for acts, number in zip(self.history.actors, at) if acts and not number and acts[0].high <= self.history.last]
        return steps, chosen, min(late, default=None)

    def with_flight(self, path, chosen):
        """The last of these choices, after where the last play went wrong, where a call that nobody saw answered is taken in place of what
        was. A place that is nobody's, since all that might have it is used up, becomes somebody's by one more such call alone, in whichever
        order the others are."""
        for index in range(len(chosen) - 1, -1, -1):
            if self.history.missing[index] <= self.wrong_at:
                return None
            for number in range(path[index] + 1, len(chosen[index])):
                if self.is_flight(chosen[index][number]):
                    return [*path[:index], number]
        return None

    def next_path(self, path, chosen, lacks):
        """The next choices, where these were wrong at a place. None where there are no others."""
        if len(chosen) < len(self.history.missing) and not self.is_overdue(chosen, path, lacks):
            return self.with_flight(path, chosen) or self.with_other(path, chosen, self.wrong_at)
        return self.with_other(path, chosen, lacks)

    def with_other(self, path, chosen, until):
        """The last of the choices up to a place of which there is another, and that one. None where there is none."""
        before = enumerate(self.history.missing[: len(chosen)])
        open_ones = [index for index, place in before if place <= until and path[index] + 1 < len(chosen[index])]
        return [*path[: open_ones[-1]], path[open_ones[-1]] + 1] if open_ones else None

    def is_overdue(self, chosen, path, place):
        """Whether a connection that asked something before a place isn't connected by these choices."""
        begun = {options[number][2] for options, number in zip(chosen, path)}
        return any(acts and acts[0].high < place and actor not in begun for actor, acts in enumerate(self.history.actors))

    def find(self, then=None):
        """Plays one assignment after the other until one agrees, and with it what comes then: a function of the steps that says nothing
        where that is well, and else what isn't. What was wrong, and with which steps, of the one that agreed up to the highest place."""
        path, furthest = [], (0, "nothing was tried", {})
        for _ in range(MOST_TRIES):
            steps, chosen, lacks = self.assign(path)
            path = path[: len(chosen)] + [0] * (len(chosen) - len(path))
            if lacks is None:
                lacks, wrong = self.play(steps)
                self.wrong_at = lacks or self.wrong_at
                if lacks is None and then and (wrong := then(steps)):
                    lacks = self.history.last + 1
                if lacks is None:
                    return None, steps
            else:
                wrong = f"place {lacks} is nobody's"
            furthest = max(furthest, (lacks, wrong, steps), key=lambda it: it[0])
            path = self.next_path(path, chosen, lacks)
            if path is None:
                return furthest[1:]
            if self.plays >= MOST_PLAYS:
                break
        raise Undecided(f"it is open, after {self.plays} plays: {furthest[1]}")

    def play(self, steps):
        """Plays the events. The first place where the reply is another one, and what is wrong there; nothing where all agree."""
        return self.played(self.script(steps))

    def script(self, steps):
        script = Script()
        for place in range(1, self.history.last + 1):
            if place in steps:
                script.step(place, steps[place])
            else:
                script.call(place, self.history.placed[place], self.history.replies[place])
        return script

    def played(self, script):
        self.plays += 1
        text = "".join(f"{line}\n" for line in script.lines).encode()
        ran = subprocess.run(self.words, input=text, capture_output=True, timeout=4 * LIMIT, check=False)
        printed = ran.stdout.decode().splitlines()
        if ran.returncode or len(printed) != len(script.wanted):
            raise Mistake(f"the play ended with {ran.returncode}, and {len(printed)} lines of {len(script.wanted)}: {ran.stderr.decode()}")
        before = ""
        for (place, line, wanted), found in zip(script.wanted, printed):
            # of a group whose record was lost each call is answered so, while in a play the first one has brought the manager down
            is_same = found == wanted or wanted is None or (wanted, before, found) == (DOWN, DOWN, "-7 Nothing")
            if not is_same:
                where = "" if place == NEVER else f"place {place}, "
                return place, f"{where}{line}: it was answered {wanted[:300]}, but a play prints {found[:300]}"
            before = wanted
        return None, None


class Script:
    """The lines of a play, and what each that prints is to print: its place, its line and its reply, none where that is open."""

    def __init__(self):
        self.lines, self.wanted = [], []
        self.free, self.most, self.numbers = [], 0, {}

    def connect(self, place, owner):
        if self.free:
            number = heapq.heappop(self.free)
        else:
            self.most += 1
            number = self.most
        self.numbers[owner] = number
        self.add(place, "connect", f"0 Nothing number {number}")

    def step(self, place, step):
        if step.kind == "connect":
            self.connect(place, step.owner)
        elif step.kind == "hangup":
            number = self.numbers.pop(step.owner)
            heapq.heappush(self.free, number)
            self.add(place, f"{number} hangup", "0 Nothing")
        else:
            self.add(place, f"{self.numbers[step.owner]} {step.line}", step.wanted)

    def call(self, place, asked, reply):
        """A call that was answered. Where the device refused its record, or lost it, the play's disk does."""
        if reply.endswith(" Device"):
            file = "other " if asked.line == "trim" else ""
            is_first = not (self.wanted and self.wanted[-1][2] == DOWN)
            faults = 1 if reply != DOWN or asked.line == "restart" else 2 * is_first
            self.lines += [f"fail {file}{number} lost" for number in range(1, faults + 1)]
        self.add(place, f"{self.numbers[asked.connection]} {asked.line}", reply)

    def add(self, place, line, wanted):
        self.lines.append(line)
        self.wanted.append((place, line, wanted))

    def maybe(self, asked):
        """A call that was done unseen, whatever it was answered."""
        if asked.connection not in self.numbers:
            self.connect(NEVER, asked.connection)
        self.add(NEVER, f"{self.numbers[asked.connection]} {asked.line}", None)

    def crash(self):
        """A crash, and the process begins anew: no session is connected."""
        self.free, self.most, self.numbers = [], 0, {}
        self.add(NEVER, "crash", "0 Nothing")
