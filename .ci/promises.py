"""Two promises of README.md, looked at in a history without a play, which would share a mistake of the resource manager: a read gives the
committed version with the greatest timestamp below its branch's own, or what its branch wrote itself; and what was answered as prepared is
listed until its completion is asked for."""
from loads import Mistake

LISTS_ALL = "recover TMSTARTRSCAN|TMENDRSCAN 256"


class Promises:
    """What the events so far have made of the branches and the records. A branch is known by its timestamp."""

    def __init__(self):
        self.at_work, self.branches, self.written = {}, {}, {}
        self.records, self.listed = {}, set()

    def see(self, asked, reply):
        """An event, in the order of their places."""
        call, *words = asked.line.split()
        code = reply.split()[0]
        if call == "get" and code == "0":
            self.read(asked, words[0], reply.removeprefix("0 Nothing "))
        elif call == "recover" and asked.line == LISTS_ALL and int(code) >= 0:
            self.recover(asked, reply.split()[3:])
        elif code == "0" and hasattr(self, f"on_{call}"):
            getattr(self, f"on_{call}")(asked, *words, reply)

    def on_start(self, asked, flags, xid, reply):
        timestamp = int(reply.split()[-1])
        self.at_work[asked.connection] = timestamp
        if flags == "TMNOFLAGS":
            self.branches[xid] = timestamp

    def on_put(self, asked, key, value, _):
        self.written.setdefault(self.at_work[asked.connection], {})[key] = f"value {value}"

    def on_delete(self, asked, key, _):
        self.written.setdefault(self.at_work[asked.connection], {})[key] = "absent"

    def on_prepare(self, _, __, xid, ___):
        self.listed.add(xid)

    def on_commit(self, _, __, xid, ___):
        self.listed.discard(xid)
        self.commit(xid)

    def on_rollback(self, _, __, xid, ___):
        self.listed.discard(xid)

    def on_decide(self, _, direction, xid, __):
        if direction == "commit":
            self.commit(xid)

    def on_forget(self, _, __, xid, ___):
        self.listed.discard(xid)

    def commit(self, xid):
        timestamp = self.branches[xid]
        for key, found in self.written.get(timestamp, {}).items():
            self.records.setdefault(key, {})[timestamp] = found

    def read(self, asked, key, found):
        own = self.at_work[asked.connection]
        versions = self.records.get(key, {})
        last = max((timestamp for timestamp in versions if timestamp < own), default=None)
        wanted = self.written.get(own, {}).get(key) or (versions[last] if last is not None else "absent")
        if found != wanted:
            raise Mistake(f"branch {own} read {found[:80]} at {key}, but what is committed below it, or its own, is {wanted[:80]}")

    def recover(self, asked, found):
        if found != sorted(self.listed):
            raise Mistake(f"{asked.line} listed {found}, but in doubt or to be forgotten are {sorted(self.listed)}")


def check_promises(history):
    """Looks at a history in which each call was answered."""
    promises = Promises()
    for place in sorted(history.placed):
        try:
            promises.see(history.placed[place], history.replies[place])
        except Mistake as mistake:
            raise Mistake(f"place {place}: {mistake}") from None
