"""An operator's commands and servers with branches in each state, for what looks at what they do."""
import subprocess
import time

from clients import PATIENCE, PROGRAM, Server
from frames import LIMIT

REFUSED = "error: nothing was done: this would "


def xarm(*words, given=""):
    """The status of a command, what it prints and what it tells."""
    ran = subprocess.run([PROGRAM, *words], input=given.encode(), capture_output=True, timeout=LIMIT)
    return ran.returncode, ran.stdout.decode(), ran.stderr.decode()


def lines(text):
    return "".join(line + "\n" for line in text)


def prepared(xid, key):
    """What prepares a branch."""
    return [f"1 start TMNOFLAGS {xid}", f"1 put {key} 76", f"1 end TMSUCCESS {xid}", f"1 prepare TMNOFLAGS {xid}"]


def until(holds):
    """Waits until something holds, but not for ever."""
    began = time.monotonic()
    while not holds() and time.monotonic() - began < PATIENCE:
        time.sleep(0.01)


class Served(Server):
    """A server named n with branches in each state: one that a client is at work for (1:01:), two whose client died (1:02: and -3:03:ff), one
    whose work has ended (1:04:), a marked one with a loose association (1:05:), two prepared ones (1:06: and 1:07:), and two that the
    operator completed (1:08: and 1:09:)."""

    def __enter__(self):
        super().__enter__()
        self.at = ("--socket" if "/" in str(self.port) else "--port", str(self.port))
        self.live = self.peer()
        for line in ("1 open TMNOFLAGS n", "1 start TMNOFLAGS 1:01:"):
            self.live.ask(line)
        dead = [f"{n} {line}" for n, xid in ((1, "1:02:"), (2, "-3:03:ff")) for line in ("open TMNOFLAGS n", f"start TMNOFLAGS {xid}", "hangup")]
        ended = ["1 start TMNOFLAGS 1:04:", "1 end TMSUCCESS 1:04:", "1 start TMNOFLAGS 1:05:", "1 end TMSUSPEND|TMMIGRATE 1:05:", "1 doom 1:05:"]
        both = [line for n in (6, 7, 8, 9) for line in prepared(f"1:0{n}:", f"0{n}")]
        decided = ["1 decide commit 1:08:", "1 decide rollback 1:09:"]
        self.talk("connect", "connect", *dead, "connect", "1 open TMNOFLAGS n", *ended, *both, *decided)
        # The server sees only then that a connection was closed.
        until(lambda: self.states() == AT_FIRST)
        return self

    def talk(self, *script):
        return xarm("talk", *self.at, given=lines(script))[1].splitlines()

    def run(self, command, *words):
        return xarm(command, *self.at, *words)

    def states(self):
        """Each branch's state, mark and associations."""
        words = self.talk("connect", "1 branches 256")[1].split()[3:]
        told = [words[n : n + 7] for n in range(0, len(words), 7)]
        return {xid: " ".join([state, mark, *counts]) for xid, state, mark, _, *counts in told}


AT_FIRST = {
    "-3:03:ff": "working 101 0 0 0",
    "1:01:": "working 0 1 0 0",
    "1:02:": "working 101 0 0 0",
    "1:04:": "working 0 0 0 0",
    "1:05:": "working 104 0 0 1",
    "1:06:": "prepared 0 0 0 0",
    "1:07:": "prepared 0 0 0 0",
    "1:08:": "committed 0 0 0 0",
    "1:09:": "rolledback 0 0 0 0",
}
# The words of a command after its name, which branches it changes, and how they are then; None of one that is gone.
ORDERS = [
    (("commit", "--name", "n", "--yes", "1:06:"), {"1:06:": None}),
    (("rollback", "--name", "n", "--yes", "1:07:"), {"1:07:": None}),
    (("rollback", "--name", "n", "--yes", "1:04:"), {"1:04:": None}),
    (("rollback", "--name", "n", "--yes", "1:02:"), {"1:02:": None}),
    (("forget", "--name", "n", "--yes", "1:09:"), {"1:09:": None}),
    (("decide", "--yes", "commit", "1:06:"), {"1:06:": "committed 0 0 0 0"}),
    (("decide", "--yes", "rollback", "1:06:"), {"1:06:": "rolledback 0 0 0 0"}),
    (("doom", "--yes", "1:01:"), {"1:01:": "working 104 1 0 0"}),
    (("doom", "--yes", "1:04:"), {"1:04:": "working 104 0 0 0"}),
    (("rollback", "--name", "n", "--yes", "--", "-3:03:ff"), {"-3:03:ff": None}),
    (("disconnect", "--yes", "1"), {"1:01:": "working 101 0 0 0"}),
    (("restart", "--yes"), {xid: None for xid in AT_FIRST if AT_FIRST[xid].startswith("working")}),
]


def changed(changes):
    return {xid: state for xid, state in {**AT_FIRST, **changes}.items() if state}
