"""Each call, its codes from a live server, and its limits."""

import xarm
from expect import equal, is_lost, is_no_value, name, raises, refuses, value, works
from servers import Fake, Server, reply
from xarm import Code, Detail, Flags, State

MOST_KEYS = 256


def tests(program, room):
    with Server(program, room) as server:
        calls = Calls(server)
        for test in (
            calls.one_phase,
            calls.two_phases,
            calls.read_only,
            calls.rolled_back,
            calls.records,
            calls.suspended,
            calls.migrated,
            calls.joined,
            calls.marked,
            calls.late,
            calls.busy,
            calls.too_many_keys,
            calls.unknown,
            calls.known,
            calls.out_of_order,
            calls.flags,
            calls.opened,
            calls.scanned,
            calls.decided,
            calls.doomed,
            calls.timed,
            calls.told,
            calls.restarted,
            calls.arguments,
            calls.unix_socket(program, room),
            calls.disconnected(program, room),
            calls.counted,
        ):
            yield test.__doc__, test


class Calls:
    def __init__(self, server):
        self.server = server
        self.one, self.two = server.connection(), server.connection()

    def one_phase(self):
        """a branch is committed in one phase"""
        equal(self.one.xa_start(name("one")) > 0, True)
        self.one.put(b"k1", b"v1")
        self.one.xa_end(name("one"))
        self.one.xa_commit(name("one"), Flags.TMONEPHASE)
        equal(value(self.two, b"k1"), b"v1")

    def two_phases(self):
        """a branch is committed in two phases, by another connection"""
        works(self.one, name("two"), b"k2")
        equal(self.one.xa_prepare(name("two")), Code.XA_OK)
        equal(self.two.recover(), [name("two")])
        self.two.xa_commit(name("two"))
        equal((self.one.recover(), value(self.one, b"k2")), ([], b"v"))

    def read_only(self):
        """a branch that only read is prepared as read-only, and gone"""
        self.one.xa_start(name("read"))
        self.one.get(b"k1")
        self.one.xa_end(name("read"))
        equal(self.one.xa_prepare(name("read")), Code.XA_RDONLY)
        with refuses(Code.XAER_NOTA):
            self.one.xa_commit(name("read"))

    def rolled_back(self):
        """a branch is rolled back, at work and prepared"""
        for is_prepared in (False, True):
            works(self.one, name("back"), b"k3")
            if is_prepared:
                self.one.xa_prepare(name("back"))
            equal(self.one.xa_rollback(name("back")), Code.XA_OK)
        equal(value(self.one, b"k3"), None)

    def records(self):
        """records are written, read and deleted, also the longest and the empty one"""
        self.one.xa_start(name("records"))
        for key, content in ((b"k" * 64, b"\xfe" * 16384), (b"\0", b""), (b"k4", b"v")):
            self.one.put(key, content)
            equal(self.one.get(key), content)
        self.one.delete(b"k4")
        self.one.delete(b"never")
        equal(self.one.get(b"k4"), None)
        self.one.xa_end(name("records"))
        self.one.xa_commit(name("records"), Flags.TMONEPHASE)
        equal(value(self.two, b"k" * 64), b"\xfe" * 16384)

    def suspended(self):
        """a branch is suspended and resumed"""
        self.one.xa_start(name("rest"))
        self.one.xa_end(name("rest"), Flags.TMSUSPEND)
        with refuses(Code.XAER_PROTO):
            self.one.get(b"k1")
        works(self.one, name("meanwhile"), b"k5")
        self.one.xa_rollback(name("meanwhile"))
        self.one.xa_start(name("rest"), Flags.TMRESUME)
        self.one.xa_end(name("rest"))
        self.one.xa_rollback(name("rest"))

    def migrated(self):
        """a branch is suspended by one connection, and resumed by another one"""
        self.one.xa_start(name("moves"))
        self.one.put(b"k6", b"v")
        self.one.xa_end(name("moves"), Flags.TMSUSPEND | Flags.TMMIGRATE)
        self.two.xa_start(name("moves"), Flags.TMRESUME)
        equal(self.two.get(b"k6"), b"v")
        self.two.xa_end(name("moves"))
        self.two.xa_rollback(name("moves"))

    def joined(self):
        """two connections in one branch read each other's writes"""
        self.one.xa_start(name("both"))
        self.one.put(b"k7", b"one")
        self.two.xa_start(name("both"), Flags.TMJOIN)
        equal(self.two.get(b"k7"), b"one")
        self.two.put(b"k7", b"two")
        equal(self.one.get(b"k7"), b"two")
        for each in (self.one, self.two):
            each.xa_end(name("both"))
        self.two.xa_commit(name("both"), Flags.TMONEPHASE)
        equal(value(self.one, b"k7"), b"two")

    def marked(self):
        """an end with TMFAIL marks the branch, which its rollback answers"""
        for is_prepared in (False, True):
            self.one.xa_start(name("fails"))
            self.one.xa_end(name("fails"), Flags.TMFAIL)
            if is_prepared:
                with raises(xarm.RolledBack, Code.XA_RBROLLBACK):
                    self.one.xa_prepare(name("fails"))
            else:
                equal(self.one.xa_rollback(name("fails")), Code.XA_RBROLLBACK)
            with refuses(Code.XAER_NOTA):
                self.one.xa_rollback(name("fails"))

    def late(self):
        """a late write marks its branch, with detail Late"""
        self.one.xa_start(name("early"))
        equal(value(self.two, b"late"), None)
        with raises(xarm.RolledBack, Code.XA_RBTRANSIENT, Detail.Late):
            self.one.put(b"late", b"v")
        with raises(xarm.RolledBack, Code.XA_RBTRANSIENT):
            self.one.xa_end(name("early"))
        with raises(xarm.RolledBack, Code.XA_RBTRANSIENT):
            self.one.xa_commit(name("early"), Flags.TMONEPHASE)

    def busy(self):
        """a busy read is a Retry, until the other branch is completed"""
        works(self.one, name("writer"), b"busy")
        self.one.xa_prepare(name("writer"))
        self.two.xa_start(name("waits"))
        with raises(xarm.Retry, Code.XA_RETRY, Detail.Busy):
            self.two.get(b"busy")
        self.one.xa_commit(name("writer"))
        equal(self.two.get(b"busy"), b"v")
        self.two.xa_end(name("waits"))
        self.two.xa_rollback(name("waits"))

    def too_many_keys(self):
        """a branch writes 256 keys, and goes on after one more"""
        self.one.xa_start(name("many"))
        for number in range(MOST_KEYS):
            self.one.put(b"many%d" % number, b"v")
        with refuses(Code.XAER_INVAL, Detail.Limit):
            self.one.put(b"one more", b"v")
        self.one.put(b"many0", b"w")
        self.one.xa_end(name("many"))
        self.one.xa_rollback(name("many"))

    def unknown(self):
        """of an unknown XID each call is XAER_NOTA"""
        of = name("unknown")
        for call in (
            lambda: self.one.xa_start(of, Flags.TMJOIN),
            lambda: self.one.xa_start(of, Flags.TMRESUME),
            lambda: self.one.xa_end(of),
            lambda: self.one.xa_prepare(of),
            lambda: self.one.xa_commit(of),
            lambda: self.one.xa_commit(of, Flags.TMONEPHASE),
            lambda: self.one.xa_rollback(of),
            lambda: self.one.xa_forget(of),
            lambda: self.one.decide(of, True),
            lambda: self.one.doom(of),
        ):
            with refuses(Code.XAER_NOTA):
                call()

    def known(self):
        """a known XID isn't begun again: XAER_DUPID"""
        works(self.one, name("known"), b"k8")
        for _ in range(2):
            with refuses(Code.XAER_DUPID):
                self.two.xa_start(name("known"))
            self.one.xa_prepare(name("known")) if self.one.branches()[0].state == State.working else None
        self.one.xa_rollback(name("known"))

    def out_of_order(self):
        """what doesn't fit is XAER_PROTO, and at once"""
        of = name("order")
        self.one.xa_start(of)
        for call in (
            lambda: self.one.xa_start(name("second")),
            lambda: self.one.xa_start(of, Flags.TMRESUME),
            lambda: self.two.xa_end(of),
            lambda: self.one.xa_prepare(of),
            lambda: self.two.xa_rollback(of),
            lambda: self.one.xa_close(),
            lambda: self.two.put(b"k", b"v"),
        ):
            with refuses(Code.XAER_PROTO):
                call()
        self.one.put(b"k9", b"v")
        self.one.xa_end(of)
        with refuses(Code.XAER_PROTO):
            self.one.xa_commit(of)
        self.one.xa_prepare(of)
        for call in (lambda: self.two.xa_prepare(of), lambda: self.one.doom(of), lambda: self.one.xa_forget(of)):
            with refuses(Code.XAER_PROTO):
                call()
        self.one.xa_rollback(of)

    def flags(self):
        """flags that can't be are XAER_INVAL, and TMASYNC is XAER_ASYNC"""
        of = name("flags")
        with refuses(Code.XAER_INVAL):
            self.one.xa_start(of, Flags.TMJOIN | Flags.TMRESUME)
        with refuses(Code.XAER_ASYNC):
            self.one.xa_start(of, Flags.TMASYNC)
        self.one.xa_start(of, Flags.TMNOWAIT)
        with refuses(Code.XAER_INVAL):
            self.one.xa_end(of, 0)
        self.one.xa_end(of)
        self.one.xa_rollback(of)

    def opened(self):
        """after a Close there is no call until an Open; another name is XAER_INVAL"""
        self.two.xa_close()
        with refuses(Code.XAER_PROTO):
            self.two.xa_start(name("closed"))
        self.two.xa_open()
        equal(value(self.two, b"k1"), b"v1")
        with refuses(Code.XAER_INVAL):
            self.server.connection(name="shop")

    def scanned(self):
        """a scan of more branches than one page lists all, and pages are of any size"""
        names = [name(f"page{number:03}") for number in range(300)]
        for of in names:
            works(self.one, of, of.gtrid)
            self.one.xa_prepare(of)
        equal(self.two.recover(), names)
        equal(self.two.xa_recover(2, Flags.TMSTARTRSCAN), names[:2])
        equal(self.two.xa_recover(1, Flags.TMENDRSCAN), names[2:3])
        with refuses(Code.XAER_INVAL):
            self.two.xa_recover(1, 0)
        with refuses(Code.XAER_INVAL):
            self.two.xa_recover(257)
        for of in names:
            self.one.xa_rollback(of)

    def decided(self):
        """what the operator decided is a Heuristic, until it is forgotten"""
        for is_commit, code in ((True, Code.XA_HEURCOM), (False, Code.XA_HEURRB)):
            works(self.one, name("decided"), b"k10")
            self.one.xa_prepare(name("decided"))
            self.server.connection(name=None).decide(name("decided"), is_commit)
            for call in (self.one.xa_commit, self.one.xa_rollback):
                with raises(xarm.Heuristic, code):
                    call(name("decided"))
            self.one.xa_forget(name("decided"))
            equal((self.one.recover(), value(self.one, b"k10")), ([], b"v"))

    def doomed(self):
        """a doomed branch is RolledBack"""
        self.one.xa_start(name("doomed"))
        self.two.doom(name("doomed"))
        for call in (lambda: self.one.get(b"k"), lambda: self.one.put(b"k", b"v"), lambda: self.one.delete(b"k")):
            with raises(xarm.RolledBack, Code.XA_RBOTHER):
                call()
        with raises(xarm.RolledBack, Code.XA_RBOTHER):
            self.one.xa_end(name("doomed"))
        equal(self.one.xa_rollback(name("doomed")), Code.XA_RBOTHER)

    def timed(self):
        """a branch runs out of its connection's time limit, also on a new connection"""
        self.one.timeout(10)
        equal(self.two.tick(100), 0)
        self.one.xa_start(name("timed"))
        self.one._disconnect()
        equal(self.one.xa_rollback(name("timed")), Code.XA_RBCOMMFAIL)
        self.one.xa_start(name("timed"))
        equal((self.two.tick(109), self.two.tick(110)), (0, 1))
        with refuses(Code.XAER_INVAL):
            self.two.tick(109)
        with raises(xarm.RolledBack, Code.XA_RBTIMEOUT):
            self.one.xa_end(name("timed"))
        equal(self.one.xa_rollback(name("timed")), Code.XA_RBTIMEOUT)
        self.one.timeout(0)

    def told(self):
        """status, and the branches above an XID"""
        works(self.one, name("a"), b"k11")
        self.one.xa_prepare(name("a"))
        self.one.xa_start(name("b"))
        found = self.two.branches()
        equal([it._replace(timestamp=0) for it in found[:1]], [xarm.Branch(name("a"), State.prepared, None, 0, 0, 0, 0)])
        self.two.doom(name("b"))
        at_work = xarm.Branch(name("b"), State.working, Code.XA_RBOTHER, 0, 1, 0, 0)
        equal([it._replace(timestamp=0) for it in self.two.branches(1, name("a"))], [at_work])
        status = self.two.status()
        equal((status.branches, status.prepared, status.completed, status.sessions >= 2), (2, 1, 0, True))
        self.one.xa_end(name("b"), Flags.TMFAIL)
        for each in ("a", "b"):
            self.one.xa_rollback(name(each))

    def restarted(self):
        """a trim ends no work; a restart ends all that isn't prepared"""
        self.one.xa_start(name("trimmed"))
        equal(self.two.trim() > 0, True)
        self.one.xa_end(name("trimmed"))
        works(self.one, name("lasts"), b"k12")
        self.one.xa_prepare(name("lasts"))
        self.two.restart()
        with refuses(Code.XAER_NOTA):
            self.one.xa_rollback(name("trimmed"))
        equal(self.one.recover(), [name("lasts")])
        self.one.xa_commit(name("lasts"))

    def arguments(self):
        """arguments beyond their limits are ValueErrors"""
        for call in (
            lambda: self.one.get(b""),
            lambda: self.one.put(b"k" * 65, b""),
            lambda: self.one.put(b"k", b"v" * 16385),
            lambda: xarm.xid(-1, b"a"),
            lambda: xarm.xid(1 << 31, b"a"),
            lambda: xarm.xid(1, b""),
            lambda: xarm.xid(1, b"a" * 65),
            lambda: xarm.xid(1, b"a", b"b" * 65),
            lambda: self.one.xa_start(xarm.Xid(1, b"", b"")),
        ):
            with is_no_value():
                call()
        equal(str(xarm.xid(-7, b"\0\xab")), "-7:00ab:")
        longest = xarm.xid(-(1 << 31), b"g" * 64, b"b" * 64)
        self.one.xa_start(longest)
        equal(self.one.branches()[0].xid, longest)
        self.one.xa_end(longest)
        self.one.xa_rollback(longest)

    @staticmethod
    def disconnected(program, room):
        def test():
            """a server tells what it speaks, and hangs a session up that another one names"""
            with Server(program, room) as server, server.connection() as one, server.connection() as two:
                told = two.hello()
                equal((told.revision, told.features & 1), (1, 1))
                one.xa_start(name("gone"))
                two.disconnect(1)
                with is_lost():
                    one.get(b"k")
                equal(two.xa_rollback(name("gone")), Code.XA_RBCOMMFAIL)
                with refuses(Code.XAER_INVAL):
                    two.disconnect(1 << 63)

        return test

    @staticmethod
    def counted():
        """a server tells what it has counted, by ids, and the sessions of a branch"""
        fake = Fake()
        one = fake.connection()

        def tells(kind, *numbers):
            fake.put(reply(0, body=bytes([kind, 0, len(numbers)]) + b"".join(it.to_bytes(8, "big") for it in numbers)))

        tells(9, 1, 7, 9, 1 << 40)
        tells(9)
        equal([one.metrics(), one.metrics()], [{1: 7, 9: 1 << 40}, {}])
        tells(10, 1, 1 << 63)
        tells(10)
        equal([one.sessions(name("a")), one.sessions(name("a"))], [[1, 1 << 63], []])
        fake.put(reply(-5, Detail.Frame))
        with refuses(Code.XAER_INVAL, Detail.Frame):
            one.sessions(name("a"))
        tells(9, 1)  # an id without a count
        with is_lost():
            one.metrics()
        tells(10, 1)  # no answer to this
        with is_lost():
            one.metrics()
        equal(fake.asked, [72, 72, 73, 73, 73, 72, 72])
        fake.close()

    @staticmethod
    def unix_socket(program, room):
        def test():
            """over a Unix socket a branch is committed"""
            with Server(program, room, path=f"{room}/socket") as server:
                with server.connection() as connection:
                    works(connection, name("unix"), b"k", b"v" * 16384)
                    connection.xa_commit(name("unix"), Flags.TMONEPHASE)
                    equal(value(connection, b"k"), b"v" * 16384)

        return test
