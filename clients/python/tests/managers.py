"""The data manager of xarm_transaction.py, by Zope's `transaction` if it is installed (Debian's python3-transaction), else by a small
fake of its protocol."""

import xarm
import xarm_transaction
from expect import equal, raises, refuses, value
from servers import Server
from xarm import Code, Detail

try:
    import transaction

    Manager = transaction.TransactionManager
except ImportError:
    transaction = None

    class Transaction:
        """The calls that `transaction` makes of its data managers, in their order."""

        def __init__(self):
            self.resources = []

        def join(self, resource):
            self.resources.append(resource)

        def commit(self):
            resources, voted = sorted(self.resources, key=lambda it: it.sortKey()), []
            try:
                for call in ("tpc_begin", "commit", "tpc_vote"):
                    for resource in resources:
                        getattr(resource, call)(self)
                        voted += [resource] if call == "tpc_vote" else []
            except BaseException:
                for resource in resources:
                    if resource not in voted:
                        resource.abort(self)
                for resource in resources:
                    resource.tpc_abort(self)
                raise
            for resource in resources:
                resource.tpc_finish(self)

        def abort(self):
            for resource in self.resources:
                resource.abort(self)

    class Manager:
        """One transaction at a time."""

        def __init__(self):
            self.current = None

        def begin(self):
            self.current = Transaction()

        def get(self):
            return self.current

        def commit(self):
            self.current.commit()

        def abort(self):
            self.current.abort()


def tests(program, room):
    print(f"python: the data manager is tested by {'a fake, since transaction is not installed' if transaction is None else 'transaction'}")
    with Server(program, room) as bank, Server(program, room, "shop") as shop:
        managers = Managers(bank, shop)
        for test in (managers.commits, managers.aborts, managers.fails, managers.killed, managers.joins):
            yield test.__doc__, test


class Managers:
    def __init__(self, bank, shop):
        self.servers = bank, shop
        self.bank, self.shop = bank.connection(), shop.connection()
        self.manager = Manager()

    def begin(self, content):
        self.manager.begin()
        both = []
        for connection in (self.bank, self.shop):
            both.append(xarm_transaction.join(connection, self.manager))
            connection.put(b"m", content)
        return both

    def values(self):
        return [value(connection, b"m") for connection in (self.bank, self.shop)]

    def known(self):
        return [len(connection.branches()) for connection in (self.bank, self.shop)]

    def commits(self):
        """a transaction commits over two servers"""
        one, other = self.begin(b"1")
        equal((one.name.gtrid == other.name.gtrid, one.name == other.name), (True, False))
        self.manager.commit()
        equal((self.values(), self.known()), ([b"1"] * 2, [0, 0]))

    def aborts(self):
        """an aborted transaction is rolled back"""
        self.begin(b"2")
        self.manager.abort()
        equal((self.values(), self.known()), ([b"1"] * 2, [0, 0]))

    def fails(self):
        """if one votes no, both are rolled back"""
        for number in (0, 1):
            both = self.begin(b"3")
            (self.bank, self.shop)[number].doom(both[number].name)
            with raises(xarm.RolledBack, Code.XA_RBOTHER):
                self.manager.commit()
            self.manager.abort()
            equal((self.values(), self.known()), ([b"1"] * 2, [0, 0]))
        equal(both[0].should_retry(xarm.RolledBack("put", Code.XA_RBTRANSIENT, Detail.Late)), True)
        equal(both[0].should_retry(xarm.RolledBack("prepare", Code.XA_RBOTHER, Detail.LogFull)), False)
        equal(both[0].should_retry(ValueError()), False)

    def killed(self):
        """a server that is killed after the votes commits all the same"""
        both = self.begin(b"4")
        vote = both[1].tpc_vote

        def tpc_vote(of):
            vote(of)
            for server in self.servers:
                server.restart()

        for each in both:
            each.sortKey = lambda it=each: "z" if it is both[1] else "a"
        both[1].tpc_vote = tpc_vote
        self.manager.commit()
        equal((self.values(), self.known()), ([b"4"] * 2, [0, 0]))

    def joins(self):
        """a connection joins one transaction at a time"""
        self.begin(b"5")
        with refuses(Code.XAER_PROTO):
            xarm_transaction.join(self.bank, self.manager)
        self.manager.abort()
        equal(self.known(), [0, 0])
