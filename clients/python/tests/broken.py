"""Connections that break, replies that are lost or are none, and threads that close."""

import threading
import time

import xarm
from expect import equal, is_lost, name, raises, refuses, value, works
from servers import LIMIT, NEVER, Fake, Relay, Server, reply
from xarm import Code, Detail, Flags

NUMBER = b"\1" + bytes(8)
STATUS = b"\6" + bytes(80)


def tests(program, room):
    with Server(program, room) as server:
        relay = Relay(server.port)
        broken = Broken(program, room, server, relay)
        for test in (
            broken.put_cut,
            broken.end_cut,
            broken.start_cut,
            broken.start_again,
            broken.start_of_others,
            broken.prepare_cut,
            broken.commit_cut,
            broken.one_phase_cut,
            broken.rollback_cut,
            broken.recover_cut,
            broken.idle,
            broken.idled_out,
            broken.hang_up,
            broken.hang_up_elsewhere,
            broken.thrown,
            broken.no_reply,
            broken.later,
            broken.places,
            broken.silent,
            broken.closed,
            broken.gone,
        ):
            yield test.__doc__, test
        relay.close()


class Broken:
    def __init__(self, program, room, server, relay):
        self.program, self.room, self.server, self.relay = program, room, server, relay
        self.one, self.direct = relay.connection(), server.connection()

    def put_cut(self):
        """a put whose request or reply is cut loses its branch's work"""
        for what, part in (("reply", 0), ("reply", 9), ("request", 0), ("request", 5)):
            self.one.xa_start(name("put"))
            self.relay.cut[what] = part
            with is_lost():
                self.one.put(b"b1", b"v")
            with is_lost():
                self.one.get(b"b1")
            with raises(xarm.RolledBack, Code.XA_RBCOMMFAIL):
                self.one.xa_prepare(name("put"))
            equal(value(self.one, b"b1"), None)

    def end_cut(self):
        """an end whose reply is cut is told by prepare: the work was ended"""
        self.one.xa_start(name("end"))
        self.one.put(b"b2", b"v")
        self.relay.cut["reply"] = 9
        with is_lost():
            self.one.xa_end(name("end"))
        equal(self.one.xa_prepare(name("end")), Code.XA_OK)
        self.one.xa_commit(name("end"))
        equal(value(self.one, b"b2"), b"v")

    def start_cut(self):
        """a lost start's branch is rolled back by the next connection of this process"""
        for is_same in (True, False):
            lost, other = self.relay.connection(), self.relay.connection()
            self.relay.cut["reply"] = 9
            with is_lost():
                lost.xa_start(name("lost"))
            equal([it.xid for it in self.direct.branches()], [name("lost")])
            until = time.monotonic() + LIMIT
            while self.direct.branches() and time.monotonic() < until:
                value(lost if is_same else other, b"b1")
                time.sleep(0.05)
            equal(self.direct.branches(), [])

    def start_again(self):
        """a start whose request or reply was lost is asked again"""
        for what in ("reply", "request"):
            self.relay.cut[what] = 9
            with is_lost():
                self.one.xa_start(name("again"))
            works(self.one, name("again"), b"b3", what.encode())
            self.one.xa_commit(name("again"), Flags.TMONEPHASE)
            equal(value(self.one, b"b3"), what.encode())

    def start_of_others(self):
        """a lost start whose XID another one began isn't rolled back"""
        self.relay.cut["request"] = 4
        with is_lost():
            self.one.xa_start(name("other's"))
        self.direct.xa_start(name("other's"))
        self.direct.put(b"b4", b"v")
        value(self.one, b"b1")
        self.direct.xa_end(name("other's"))
        value(self.one, b"b1")
        self.direct.xa_prepare(name("other's"))
        time.sleep(1.1)
        value(self.one, b"b1")
        equal(self.direct.recover(), [name("other's")])
        self.direct.xa_commit(name("other's"))

    def prepare_cut(self):
        """a prepare whose reply is cut is listed, and one whose request is cut is asked again"""
        for what, listed in (("reply", [name("prepare")]), ("request", [])):
            works(self.one, name("prepare"), b"b5")
            self.relay.cut[what] = 9
            with is_lost():
                self.one.xa_prepare(name("prepare"))
            equal(self.one.recover(), listed)
            if not listed:
                equal(self.one.xa_prepare(name("prepare")), Code.XA_OK)
            self.one.xa_rollback(name("prepare"))

    def commit_cut(self):
        """a commit whose reply is cut was done, and one whose request is cut is asked again"""
        for what in ("reply", "request"):
            works(self.one, name("commit"), b"b6", what.encode())
            self.one.xa_prepare(name("commit"))
            self.relay.cut[what] = 5
            with is_lost():
                self.one.xa_commit(name("commit"))
            if what == "reply":
                with refuses(Code.XAER_NOTA):
                    self.one.xa_commit(name("commit"))
            else:
                self.one.xa_commit(name("commit"))
            equal(value(self.one, b"b6"), what.encode())

    def one_phase_cut(self):
        """a commit in one phase whose reply is cut is XAER_NOTA from then on, and was done"""
        works(self.one, name("one phase"), b"b7")
        self.relay.cut["reply"] = 9
        with is_lost():
            self.one.xa_commit(name("one phase"), Flags.TMONEPHASE)
        for call in (lambda: self.one.xa_commit(name("one phase"), Flags.TMONEPHASE), lambda: self.one.xa_rollback(name("one phase"))):
            with refuses(Code.XAER_NOTA):
                call()
        equal(value(self.one, b"b7"), b"v")

    def rollback_cut(self):
        """a rollback whose reply is cut was done"""
        works(self.one, name("rollback"), b"b8")
        self.relay.cut["reply"] = 1
        with is_lost():
            self.one.xa_rollback(name("rollback"))
        with refuses(Code.XAER_NOTA):
            self.one.xa_rollback(name("rollback"))

    def recover_cut(self):
        """a scan whose reply is cut is asked again"""
        works(self.one, name("recover"), b"b9")
        self.one.xa_prepare(name("recover"))
        self.relay.cut["reply"] = 20
        with is_lost():
            self.one.recover()
        equal(self.one.recover(), [name("recover")])
        self.one.xa_rollback(name("recover"))

    def idle(self):
        """after a server was started anew, an idle connection begins and joins branches, and scans; one that isn't asked doesn't"""
        asked, joins, scans = (self.server.connection(idle=0) for _ in range(3))
        unasked = self.server.connection(idle=NEVER)
        self.server.restart()
        asked.xa_start(name("anew"))
        joins.xa_start(name("anew"), Flags.TMJOIN)
        joins.xa_end(name("anew"))
        equal(scans.recover(), [])
        with is_lost():
            unasked.xa_start(name("unasked"))
        asked.xa_end(name("anew"))
        asked.xa_rollback(name("anew"))
        self.direct = self.server.connection()
        self.one = self.relay.connection()

    def idled_out(self):
        """a connection that the server closed for being idle begins a branch"""
        with Server(self.program, self.room, options=["--idle-seconds", "1"]) as server:
            connection = server.connection()
            equal(value(connection, b"k"), None)
            time.sleep(2.2)
            equal(value(connection, b"k"), None)

    def hang_up(self):
        """if one of two connections in a branch breaks, a completion by any is asked until the hang-up"""
        fake = Fake()
        one, two, three = fake.connection(), fake.connection(), fake.connection()
        for completes in (one, three):
            of = name(f"shared{completes is one}")
            fake.put(reply(0, body=NUMBER), reply(0, body=NUMBER), lambda place: b"")
            one.xa_start(of)
            two.xa_start(of, Flags.TMJOIN)
            with is_lost():
                two.put(b"k", b"v")
            fake.put(reply(101), *[reply(-6)] * (2 if completes is one else 20), reply(101))  # 20 take more than a second
            with raises(xarm.RolledBack, Code.XA_RBCOMMFAIL):
                one.xa_end(of)
            with raises(xarm.RolledBack, Code.XA_RBCOMMFAIL):
                completes.xa_prepare(of)
        fake.close()

    def hang_up_elsewhere(self):
        """if another process's connection broke, a completion is asked again for a second"""
        fake = Fake()
        one = fake.connection()
        fake.put(reply(-6), reply(-6), reply(101))
        equal(one.xa_rollback(name("elsewhere")), Code.XA_RBCOMMFAIL)
        fake.always = reply(-6)
        begin = time.monotonic()
        with refuses(Code.XAER_PROTO):
            one.xa_rollback(name("elsewhere"))
        equal(0.9 < time.monotonic() - begin < LIMIT, True)
        fake.close()

    def thrown(self):
        """whatever is raised before the reply is read, the next call doesn't take it for its own"""
        self.one.xa_start(name("thrown"))
        take, self.one._take = self.one._take, stopped
        try:
            self.one.put(b"b10", b"v")
        except KeyboardInterrupt:
            pass
        self.one._take = take
        with is_lost():
            self.one.put(b"b10", b"v")
        with raises(xarm.RolledBack, Code.XA_RBCOMMFAIL):
            self.one.xa_prepare(name("thrown"))

    def no_reply(self):
        """what is no reply breaks the connection, and the next call connects anew"""
        fake = Fake()
        one = fake.connection()
        well = reply(0)(1)
        for content in (
            b"",
            b"\2" + well[1:],
            well[:-1] + b"\7",
            well + b"\0",
            reply(0, body=NUMBER)(1),
            reply(0, body=NUMBER[:-1])(1),
            reply(1, body=b"\4\0\1" + bytes(4) + b"\0\0")(1),
            reply(-10)(1),
        ):
            fake.put(lambda place, it=content: it)
            with is_lost():
                one.xa_forget(name("k"))
            fake.put(reply(0))
            one.xa_forget(name("k"))
        fake.put(reply(1, body=b"\4\0\0"))
        with is_lost():
            one.xa_recover()
        fake.close()

    def later(self):
        """a detail of a later server is taken for Nothing, or for Device with XAER_RMFAIL"""
        fake = Fake()
        one = fake.connection()
        for number in (9, 127, 128, 255):
            fake.put(reply(0, number), reply(-5, number), reply(-7, number))
            one.xa_forget(name("k"))
            with refuses(Code.XAER_INVAL):
                one.xa_forget(name("k"))
            with raises(xarm.OperationalError, Code.XAER_RMFAIL, Detail.Device):
                one.xa_forget(name("k"))
        fake.close()

    def places(self):
        """a reply whose place doesn't ascend is none; one without a place is"""
        fake = Fake()
        one = fake.connection()
        for place, is_well in ((7, True), (0, True), (8, True), (8, False), (9, True), (0, True), (9, False)):
            fake.put(reply(0, place=place))
            if is_well:
                one.xa_forget(name("k"))
            else:
                with is_lost():
                    one.xa_forget(name("k"))
                fake.place = 0
        fake.close()

    def silent(self):
        """an answer that doesn't come ends with the time-out"""
        fake = Fake()
        one = fake.connection(timeout=0.3)
        begin = time.monotonic()
        with is_lost():
            one.xa_forget(name("k"))
        equal(0.3 <= time.monotonic() - begin < LIMIT, True)
        fake.close()

    def closed(self):
        """close doesn't wait for a call under way, which raises"""
        fake = Fake()
        one, found = fake.connection(), []

        def forget():
            try:
                one.xa_forget(name("k"))
            except xarm.ConnectionLost as fault:
                found.append(fault)

        thread = threading.Thread(target=forget, daemon=True)
        thread.start()
        while not fake.asked:
            time.sleep(0.001)
        one.close()
        thread.join(LIMIT / 2)
        equal(len(found), 1)
        with is_lost():
            one.xa_forget(name("k"))
        fake.close()

    def gone(self):
        """where nothing listens a call is ConnectionLost, and works once something does"""
        self.server.kill()
        with is_lost():
            self.direct.xa_start(name("gone"))
        with is_lost():
            self.server.connection()
        self.server.start()
        equal(value(self.direct, b"b3"), b"request")


def stopped(*_):
    raise KeyboardInterrupt
