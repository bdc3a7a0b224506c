"""What a power failure leaves of a server's files, by the journal that the library before the C library's calls (.ci/files.c) keeps: what
was synced, and of what was written since then the first so many writes. And the calls that may have been done unseen."""
import itertools
import os

from callers import KEYS
from frames import shown
from histories import LOGS, NEVER
from loads import Mistake, frame

FILES = ("l", "l.2")


def entries(journal):
    """Each entry's call, file, number and bytes; what the kill cut off is left out."""
    at = 0
    while (end := journal.find(b"\n", at)) >= 0:
        call, file, number, count = journal[at:end].decode().split()
        at = end + 1 + int(count)
        if at > len(journal):
            return
        yield call, file, int(number), journal[end + 1 : at]


class Image:
    """A file as it was synced, and the writes and cuts since then."""

    def __init__(self, content=b""):
        self.content, self.writes, self.begun = bytearray(content), [], {}

    def write(self, at, some):
        self.writes.append((at, some))

    def cut(self, to):
        self.writes.append((to, None))

    def begin(self, thread):
        """A thread's sync begins: what was written before it is covered."""
        self.begun[thread] = len(self.writes)

    def end(self, thread):
        covered = self.begun.pop(thread)
        self.keep(covered)
        self.begun = {other: max(0, count - covered) for other, count in self.begun.items()}

    def keep(self, count):
        """So many of the writes reach the medium."""
        for at, some in self.writes[:count]:
            if some is None:
                del self.content[at:]
                continue
            if len(self.content) < at:
                self.content += bytes(at - len(self.content))
            self.content[at : at + len(some)] = some
        del self.writes[:count]


def fail_power(room, journal, rng):
    """Leaves of the files of a folder what a power failure would."""
    images = {file: Image() for file in FILES}
    for call, file, number, some in entries(journal):
        if file in images:
            if call == "pwrite":
                images[file].write(number, some)
            else:
                getattr(images[file], call)(number)
    for file, image in images.items():
        image.keep(rng.choice((0, 0, rng.randrange(len(image.writes) + 1))))
        with open(os.path.join(room, file), "wb") as left:
            left.write(image.content)


class Aftermath:
    """What a new server on these files was asked, one call after the other, and how it answered."""

    def __init__(self, server):
        self.peer, self.lines = server.connect(), []
        self.ask("open TMNOFLAGS n")
        listed = self.ask("recover TMSTARTRSCAN|TMENDRSCAN 256").split()[3:]
        self.ask("branches 256")
        self.read("9:aa:")
        for number, xid in enumerate(listed):
            self.ask(f"{'rollback' if number % 3 == 0 else 'commit'} TMNOFLAGS {xid}")
            self.ask(f"forget TMNOFLAGS {xid}")
        self.read("9:ab:")
        self.ask("trim")
        self.peer.close()

    def ask(self, line):
        self.peer.sendall(frame(line))
        came = b""
        while len(came) < 4 or len(came) < 4 + int.from_bytes(came[:4], "big"):
            more = self.peer.recv(65_536)
            if not more:
                raise Mistake(f"the server that was started again didn't answer: {line}")
            came += more
        self.lines.append((line, shown(came[4:])[1]))
        return self.lines[-1][1]

    def read(self, xid):
        """Reads each key in a branch of its own, and gives that up."""
        self.ask(f"start TMNOFLAGS {xid}")
        for key in KEYS:
            self.ask(f"get {key}")
        self.ask(f"end TMSUCCESS {xid}")
        self.ask(f"rollback TMNOFLAGS {xid}")

    def is_wrong(self, search, steps, tails):
        """What is wrong, where nothing that may have been done unseen explains the answers."""
        wrong = None
        for tail in tails:
            script = search.script(steps)
            for asked in tail:
                script.maybe(asked)
            script.crash()
            script.connect(NEVER, self)
            for line, reply in self.lines:
                script.add(NEVER, f"{script.numbers[self]} {line}", reply)
            _, found = search.played(script)
            if not found:
                return None
            wrong = wrong or f"after the crash: {found}"
        return wrong


def tails(calls):
    """What may have been done of calls that were under way, in any order: none, one, and so on. Those that don't log leave nothing."""
    logged = [asked for asked in calls if asked.line.split()[0] in LOGS]
    for count in range(len(logged) + 1):
        yield from itertools.permutations(logged, count)
