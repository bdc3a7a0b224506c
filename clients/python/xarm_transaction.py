"""A data manager of Zope's `transaction` (Debian's python3-transaction) for branches at an xarm server.

    bank, shop = xarm.connect(port=4187, name="bank"), xarm.connect(port=4188, name="shop")
    with transaction.manager:
        xarm_transaction.join(bank)
        xarm_transaction.join(shop)
        bank.put(b"k", b"v")
        shop.put(b"k", b"v")

commits to both servers or to neither, as long as this process lives: `transaction` keeps no journal. If the process dies between the first
commit and the last one, branches stay in doubt, and nobody but the operator can tell how they end: those of one transaction have the same
gtrid.
"""

from __future__ import annotations

import itertools
import os
import weakref
from typing import Any, Optional

import xarm

FORMAT_ID = 0x7861726D
_gtrids: "weakref.WeakKeyDictionary[Any, bytes]" = weakref.WeakKeyDictionary()
_count = itertools.count(1)


def join(connection: xarm.Connection, manager: Optional[Any] = None) -> "DataManager":
    """Begins a branch in the current transaction, of `transaction.manager` if no other manager is given. Errors as of `tpc_begin`: a
    connection has one branch at a time."""
    if manager is None:
        import transaction

        manager = transaction.manager
    current = manager.get()
    gtrid = _gtrids.setdefault(current, os.urandom(16))
    begun = DataManager(connection, xarm.xid(FORMAT_ID, gtrid, str(next(_count))), manager)
    try:
        current.join(begun)
    except BaseException:
        begun.abort(current)
        raise
    return begun


class DataManager:
    """One branch of one transaction: what `transaction.interfaces.IDataManager` asks for."""

    def __init__(self, connection: xarm.Connection, name: xarm.Xid, manager: Any):
        self.connection, self.name, self.transaction_manager = connection, name, manager
        connection.tpc_begin(name)
        self._is_over = False

    def abort(self, transaction: Any) -> None:
        """Rolls the branch back, if it isn't over."""
        if not self._is_over:
            self._is_over = True
            self.connection.tpc_rollback()

    def tpc_begin(self, transaction: Any) -> None:
        """Nothing: the branch has begun."""

    def commit(self, transaction: Any) -> None:
        """Nothing: what was written is in the branch."""

    def tpc_vote(self, transaction: Any) -> None:
        """Prepares the branch. RolledBack: it is gone."""
        try:
            self.connection.tpc_prepare()
        except xarm.RolledBack:
            self._is_over = True
            raise

    def tpc_finish(self, transaction: Any) -> None:
        """Commits the branch, asking again for the connection's time-out. If that isn't enough, it raises, and the branch stays in doubt:
        `connection.tpc_commit(self.name)` completes it once the server is back."""
        self._is_over = True
        try:
            self.connection.tpc_commit()
        except xarm.Error:
            self.connection.tpc_leave()
            raise

    def tpc_abort(self, transaction: Any) -> None:
        """As `abort`."""
        self.abort(transaction)

    def sortKey(self) -> str:
        """By which all transactions vote at their servers in the same order."""
        return f"xarm:{self.connection}:{self.name}"

    def should_retry(self, error: Exception) -> bool:
        """Whether a transaction that failed so may do in a new branch: a late write, a busy read, a broken connection."""
        return isinstance(error, (xarm.RolledBack, xarm.Retry, xarm.ConnectionLost)) and error.detail != xarm.Detail.LogFull
