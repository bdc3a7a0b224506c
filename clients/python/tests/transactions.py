"""PEP 249's two-phase commit: one server, two servers, and servers that are killed."""

import xarm
from expect import equal, is_lost, name, raises, refuses, value, works
from servers import Relay, Server
from xarm import Code


def tests(program, room):
    with Server(program, room) as bank, Server(program, room, "shop") as shop:
        relay = Relay(bank.port)
        transactions = Transactions(bank, shop, relay)
        for test in (
            transactions.phases,
            transactions.one_phase,
            transactions.rolled_back,
            transactions.read_only,
            transactions.order,
            transactions.refused,
            transactions.killed,
            transactions.killed_at_work,
            transactions.replies_lost,
            transactions.two_servers,
            transactions.two_servers_killed,
            transactions.heuristic,
        ):
            yield test.__doc__, test
        relay.close()


class Transactions:
    def __init__(self, bank, shop, relay):
        self.bank, self.shop, self.relay = bank, shop, relay
        self.one = bank.connection(idle=0)

    def begin(self, connection, of, key, content=b"v"):
        connection.tpc_begin(of)
        connection.put(key, content)

    def phases(self):
        """a transaction is prepared and committed"""
        self.begin(self.one, self.one.xid(1, "phases", "bank"), b"t1")
        self.one.tpc_prepare()
        equal(self.one.tpc_recover(), [xarm.xid(1, b"phases", b"bank")])
        self.one.tpc_commit()
        equal((self.one.tpc_recover(), value(self.one, b"t1")), ([], b"v"))

    def one_phase(self):
        """a transaction that isn't prepared is committed in one phase"""
        self.begin(self.one, name("at once"), b"t2")
        self.one.tpc_commit()
        equal(value(self.one, b"t2"), b"v")

    def rolled_back(self):
        """a transaction is rolled back, at work, prepared, and marked"""
        for state in ("working", "prepared", "marked"):
            self.begin(self.one, name("back"), b"t3")
            if state == "prepared":
                self.one.tpc_prepare()
            elif state == "marked":
                self.bank.connection(name=None).doom(name("back"))
            self.one.tpc_rollback()
            equal((value(self.one, b"t3"), self.one.branches()), (None, []))

    def read_only(self):
        """a transaction that only read is committed, or rolled back, once it is prepared"""
        for end in (self.one.tpc_commit, self.one.tpc_rollback):
            self.one.tpc_begin(name("read"))
            equal(self.one.get(b"t1"), b"v")
            self.one.tpc_prepare()
            end()

    def order(self):
        """calls out of their order are XAER_PROTO"""
        for call in (self.one.tpc_prepare, self.one.tpc_commit, self.one.tpc_rollback):
            with refuses(Code.XAER_PROTO):
                call()
        self.begin(self.one, name("order"), b"t4")
        for call in (self.one.tpc_begin, self.one.tpc_commit, self.one.tpc_rollback):
            with refuses(Code.XAER_PROTO):
                call(name("order"))
        self.one.tpc_prepare()
        with refuses(Code.XAER_PROTO):
            self.one.tpc_prepare()
        self.one.tpc_rollback()
        for call in (self.one.tpc_commit, self.one.tpc_rollback):
            with refuses(Code.XAER_NOTA):
                call(name("order"))

    def refused(self):
        """a prepare that is refused has rolled the transaction back, which is over"""
        self.begin(self.one, name("refused"), b"t5")
        self.bank.connection(name=None).doom(name("refused"))
        with raises(xarm.RolledBack, Code.XA_RBOTHER):
            self.one.tpc_prepare()
        self.one.tpc_begin(name("refused"))
        self.one.tpc_rollback()

    def killed(self):
        """kill -9 between prepare and commit: it is committed by its connection, or by what recovery lists"""
        for is_recovered in (False, True):
            one = self.bank.connection()
            self.begin(one, name("killed"), b"t6", b"%d" % is_recovered)
            one.tpc_prepare()
            self.bank.restart()
            if is_recovered:
                other = self.bank.connection()
                equal(other.tpc_recover(), [name("killed")])
                other.tpc_commit(name("killed"))
            else:
                one.tpc_commit()
            equal((self.one.tpc_recover(), value(self.one, b"t6")), ([], b"%d" % is_recovered))

    def killed_at_work(self):
        """kill -9 under the work: prepare is refused, and the rollback goes well"""
        for is_prepared in (False, True):
            self.begin(self.one, name("at work"), b"t7")
            self.bank.restart()
            with is_lost():
                self.one.put(b"t7", b"w")
            if is_prepared:
                with refuses(Code.XAER_NOTA):
                    self.one.tpc_prepare()
            self.one.tpc_rollback()
            equal(value(self.one, b"t7"), None)

    def replies_lost(self):
        """a commit or a rollback whose reply is lost is asked again, and its XAER_NOTA is a success"""
        for what in ("request", "reply"):
            for is_commit in (True, False):
                one = self.relay.connection()
                self.begin(one, name("lost"), b"t8", b"%d" % is_commit)
                one.tpc_prepare()
                self.relay.cut[what] = 9
                one.tpc_commit() if is_commit else one.tpc_rollback()
                equal((self.one.recover(), value(self.one, b"t8")), ([], b"1"))

    def two_servers(self):
        """a transaction over two servers is committed by both, or by neither"""
        with self.shop.connection() as shop:
            for is_commit in (True, False):
                parts = ((self.one, b"-1"), (shop, b"1"))
                for connection, amount in parts:
                    self.begin(connection, name("transfer", str(connection)[:4]), b"t9", amount if is_commit else b"0")
                for connection, _ in parts:
                    connection.tpc_prepare()
                for connection, _ in parts:
                    connection.tpc_commit() if is_commit else connection.tpc_rollback()
                equal([value(connection, b"t9") for connection, _ in parts], [b"-1", b"1"])

    def two_servers_killed(self):
        """of two servers one is killed between the two commits: recovery commits the other half"""
        shop = self.shop.connection()
        self.begin(self.one, name("halves", b"bank"), b"t10", b"-2")
        self.begin(shop, name("halves", b"shop"), b"t10", b"2")
        for connection in (self.one, shop):
            connection.tpc_prepare()
        self.one.tpc_commit()
        self.shop.kill()
        shop.close()
        self.shop.start()
        with self.shop.connection() as other:
            equal([of.gtrid for of in other.tpc_recover()], [b"halves"])
            for of in other.tpc_recover():
                other.tpc_commit(of)
            equal((value(self.one, b"t10"), value(other, b"t10")), (b"-2", b"2"))

    def heuristic(self):
        """what the operator decided otherwise is told, and forgotten"""
        self.begin(self.one, name("decided"), b"t11")
        self.one.tpc_prepare()
        self.bank.connection(name=None).decide(name("decided"), False)
        with raises(xarm.Heuristic, Code.XA_HEURRB):
            self.one.tpc_commit()
        self.one.tpc_leave()
        self.one.xa_forget(name("decided"))
        works(self.one, name("decided"), b"t11")
        self.one.xa_rollback(name("decided"))
