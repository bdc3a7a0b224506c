"""A client of `xarm serve`: one file, of Python's standard library alone (3.8 or later).

    import xarm

    with xarm.connect(port=4187, name="bank") as bank:
        bank.tpc_begin(bank.xid(1, b"transfer 7", b"bank"))
        bank.put(b"k", b"v")
        bank.tpc_prepare()
        bank.tpc_commit()

A `Connection` is one session. Its `xa_*` methods are the calls of X/Open C193, each one request; `get`, `put` and `delete` read and write for
the branch that it works for; `tpc_*` have the shape of PEP 249's two-phase commit. docs/PROTOCOL.md says what each call answers; what isn't a
success is raised as an `Error` with the code and the detail. Keys and values are bytes, times are seconds.

A connection that breaks is a `ConnectionLost`: whether the call was done isn't known, and the next call connects anew. Of what
docs/CLIENT.md says of lost replies, a connection does by itself: it rolls back the branch of a start whose reply was lost, and asks a
completion again until the server has hung the broken session up. `tpc_*` do the rest.

With `user` and `password` each connection logs in before it asks for anything else (SCRAM-SHA-256), and is closed unless the server shows
that it knows the password's verifier. The password itself is never sent.
"""

from __future__ import annotations

import base64
import enum
import hashlib
import hmac
import itertools
import re
import secrets
import socket
import threading
import time
from typing import Any, Callable, Dict, List, NamedTuple, Optional, Set, Tuple, Union

_SETTLING = 60.0  # so long after a lost start the server may still take its frame for the first time
_PATIENCE = 1.0  # so long a completion is asked again of a branch under which another process's connection may have broken
_LONGEST_PAUSE = 0.1
_REVISION = 1  # of the protocol
_MOST_CONTENT = 65535
_MOST_XIDS = 256
_MOST_KNOWN = 4096
_MOST_SECRET = 1024
_MOST_MESSAGE = 256  # of a login
_MOST_SALT = 32
_MOST_NONCE = 64
_ITERATIONS = range(4096, 1_000_001)
_NONCE_BYTES = 18


class Code(enum.IntEnum):
    """The codes of C193."""

    XA_OK = 0
    XA_RDONLY = 3
    XA_RETRY = 4
    XA_HEURMIX = 5
    XA_HEURRB = 6
    XA_HEURCOM = 7
    XA_HEURHAZ = 8
    XA_NOMIGRATE = 9
    XA_RBROLLBACK = 100
    XA_RBCOMMFAIL = 101
    XA_RBDEADLOCK = 102
    XA_RBINTEGRITY = 103
    XA_RBOTHER = 104
    XA_RBPROTO = 105
    XA_RBTIMEOUT = 106
    XA_RBTRANSIENT = 107
    XAER_ASYNC = -2
    XAER_RMERR = -3
    XAER_NOTA = -4
    XAER_INVAL = -5
    XAER_PROTO = -6
    XAER_RMFAIL = -7
    XAER_DUPID = -8
    XAER_OUTSIDE = -9


# What a refusal is about, beside its code; which flags a call may have; and how a branch stands.
Detail = enum.IntEnum("Detail", "Nothing Memory Device Busy Late Limit Frame LogFull Access", start=0)
State = enum.IntEnum("State", "working prepared committed rolledback")


class Flags(enum.IntFlag):
    """The flags of C193."""

    TMNOFLAGS = 0
    TMASYNC = 0x80000000
    TMONEPHASE = 0x40000000
    TMFAIL = 0x20000000
    TMNOWAIT = 0x10000000
    TMRESUME = 0x08000000
    TMSUCCESS = 0x04000000
    TMSUSPEND = 0x02000000
    TMSTARTRSCAN = 0x01000000
    TMENDRSCAN = 0x00800000
    TMMULTIPLE = 0x00400000
    TMJOIN = 0x00200000
    TMMIGRATE = 0x00100000


class Error(Exception):
    """A call that was refused. `code` is a `Code`, and `detail` a `Detail`."""

    def __init__(self, call: str, code: int, detail: int = 0, why: str = ""):
        self.code = Code(code)
        self.detail = Detail(detail)
        also = f" {self.detail.name}" if self.detail else ""
        super().__init__(f"{call}: {self.code.name}{also}{why and ': ' + why}")


class ProgrammingError(Error):
    """XAER_INVAL, XAER_PROTO, XAER_NOTA, XAER_DUPID, XAER_ASYNC: the call doesn't fit, and nothing changed."""


class OperationalError(Error):
    """XAER_RMERR, XAER_RMFAIL: the server, its log's device or its memory failed; the detail says which."""


class ConnectionLost(OperationalError):
    """XAER_RMFAIL of a connection that can't be made or broke. `is_sent`: the call may have been done."""

    def __init__(self, call: str, why: str, is_sent: bool):
        super().__init__(call, Code.XAER_RMFAIL, 0, why)
        self.is_sent = is_sent


class RolledBack(Error):
    """XA_RB*: the branch can only be rolled back; from a prepare or a commit, it is rolled back and gone."""


class Retry(Error):
    """XA_RETRY: ask again. Of a get (detail Busy), once the branch that wrote the version to be read is completed."""


class Heuristic(Error):
    """XA_HEURCOM, XA_HEURRB: the operator completed the branch; `xa_forget` it."""


def _error(call: str, code: int, detail: int, why: str = "") -> Error:
    if code in (Code.XAER_RMERR, Code.XAER_RMFAIL):
        return OperationalError(call, code, detail, why)
    if code < 0:
        return ProgrammingError(call, code, detail, why)
    if code >= Code.XA_RBROLLBACK:
        return RolledBack(call, code, detail, why)
    return (Retry if code == Code.XA_RETRY else Heuristic)(call, code, detail, why)


class Xid(NamedTuple):
    """A branch's name, in C193's three parts. `str` gives its text, as `1:aa:bb`."""

    format_id: int
    gtrid: bytes
    bqual: bytes

    def __str__(self) -> str:
        return f"{self.format_id}:{self.gtrid.hex()}:{self.bqual.hex()}"


def xid(format_id: int, gtrid: Union[bytes, str], bqual: Union[bytes, str] = b"") -> Xid:
    """An XID: a signed number of 32 bits but -1, 1 to 64 bytes, and 0 to 64 bytes; text is UTF-8. ValueError if it can't be one."""
    parts = [part.encode() if isinstance(part, str) else bytes(part) for part in (gtrid, bqual)]
    if not -(1 << 31) <= format_id < 1 << 31 or format_id == -1 or not 1 <= len(parts[0]) <= 64 or len(parts[1]) > 64:
        raise ValueError(f"no XID: {format_id}, {parts[0]!r}, {parts[1]!r}")
    return Xid(format_id, *parts)


class Branch(NamedTuple):
    """A known branch: its mark, None if it has none, and how many associations of each kind it has."""

    xid: Xid
    state: State
    mark: Optional[Code]
    timestamp: int
    active: int
    suspended: int
    loose: int


class Status(NamedTuple):
    """How a server is doing (docs/OPERATING.md, "How it is doing")."""

    boot: int
    end: int
    bytes: int
    branches: int
    prepared: int
    completed: int
    sessions: int
    versions: int
    calls: int
    seconds: int


class Hello(NamedTuple):
    """Which revision of the protocol a server speaks, and what else it can do, a bit each (docs/PROTOCOL.md)."""

    revision: int
    features: int


class _Reply(NamedTuple):
    code: int
    detail: int
    place: int
    body: Any


class _Reading:
    """A content that is read from left to right."""

    def __init__(self, content: bytes):
        self.rest = content

    def take(self, count: int) -> bytes:
        front, self.rest = self.rest[:count], self.rest[count:]
        if len(front) < count:
            raise ValueError("it is cut")
        return front

    def number(self, count: int, signed: bool = False) -> int:
        return int.from_bytes(self.take(count), "big", signed=signed)

    def xid(self) -> Xid:
        number, first, second = self.number(4, True), self.number(1), self.number(1)
        return xid(number, self.take(first), self.take(second))

    def branch(self) -> Branch:
        name, state, mark = self.xid(), State(self.number(1)), self.number(4, True)
        return Branch(name, state, Code(mark) if mark else None, self.number(8), self.number(2), self.number(2), self.number(2))

    def body(self, kind: int) -> Any:
        if kind in (0, 3):
            return None
        if kind == 1:
            return self.number(8)
        if kind == 2:
            return self.take(self.number(2))
        if kind == 4:
            return [self.xid() for _ in range(self.number(2))]
        if kind == 5:
            return [self.branch() for _ in range(self.number(2))]
        if kind == 6:
            return Status(*(self.number(8) for _ in Status._fields))
        if kind == 8:
            return Hello(self.number(4), self.number(8))
        if kind == 9:
            numbers = [self.number(8) for _ in range(self.number(2))]
            if len(numbers) % 2:
                raise ValueError("an id without a count")
            return dict(zip(numbers[::2], numbers[1::2]))
        if kind == 10:
            return [self.number(8) for _ in range(self.number(2))]
        if kind in (11, 12):
            if len(self.rest) > _MOST_MESSAGE:
                raise ValueError("its length")
            return self.take(len(self.rest))
        raise ValueError("its kind")


# The byte of each request, and the kinds of body that a success has, if not 0.
_OPERATIONS = {name: number for number, name in enumerate("open close start end prepare commit rollback recover forget get".split(), 1)}
_OPERATIONS.update(put=11, delete=12, decide=13, doom=14, restart=15, timeout=16, tick=17, trim=65, branches=66, status=67, hello=70, disconnect=71)
_OPERATIONS.update(metrics=72, sessions=73, first=74, final=75)
_BODIES = {"start": (1,), "get": (2, 3), "recover": (4,), "tick": (1,), "trim": (1,), "branches": (5,), "status": (6,), "hello": (8,)}
_BODIES.update(metrics=(9,), sessions=(10,), first=(11,), final=(12,))


def _detail(number: int, code: int) -> Detail:
    """The detail of this number. One that a later server has is taken for what leaves as much open."""
    if number < len(Detail):
        return Detail(number)
    return Detail.Device if code == Code.XAER_RMFAIL else Detail.Nothing


def _read(operation: str, content: bytes) -> _Reply:
    """The reply to a request; ValueError if it is none."""
    reading = _Reading(content)
    if reading.take(1) != b"\1":
        raise ValueError("its version")
    code = reading.number(4, True)
    detail, place, kind = _detail(reading.number(1), code), reading.number(8), reading.number(1)
    body = reading.body(kind)
    is_success = code == 0 or operation == "recover" and code >= 0
    if reading.rest or kind not in (_BODIES.get(operation, (0,)) if is_success else (0,)):
        raise ValueError("its body")
    if operation == "recover" and is_success:
        if code != len(body):
            raise ValueError("its number of XIDs")
    else:
        Code(code)
    return _Reply(code, detail, place, body)


def _spelled(name: Xid) -> bytes:
    name = xid(*name)
    return name.format_id.to_bytes(4, "big", signed=True) + bytes([len(name.gtrid), len(name.bqual)]) + name.gtrid + name.bqual


def _named(operation: str, flags: int, name: Xid) -> Tuple[str, bytes]:
    return operation, flags.to_bytes(4, "big") + _spelled(name)


def _keyed(key: bytes) -> bytes:
    if not 1 <= len(key) <= 64:
        raise ValueError(f"a key of {len(key)} bytes")
    return bytes([len(key)]) + key


_USER = re.compile(r"[A-Za-z0-9_.@-]{1,64}")
_CHALLENGE = re.compile(rb"r=([!-+\x2d-~]+),s=([A-Za-z0-9+/]+={0,2}),i=([1-9][0-9]{3,6})")


def _secret(user: Optional[str], password: Union[str, bytes, None]) -> bytes:
    """The bytes of a user's password. ValueError if there is none, or one without a user."""
    if user is None:
        if password is not None:
            raise ValueError("a password without a user")
        return b""
    if not _USER.fullmatch(user):
        raise ValueError(f"no user can have the name {user!r}")
    found = password.encode() if isinstance(password, str) else bytes(password or b"")
    if not 1 <= len(found) <= _MOST_SECRET:
        raise ValueError(f"a password of {len(found)} bytes")
    return found


def _nonce() -> str:
    """Another one for each login, which nobody can guess."""
    return base64.b64encode(secrets.token_bytes(_NONCE_BYTES)).decode()


def _mac(key: bytes, text: bytes) -> bytes:
    return hmac.new(key, text, "sha256").digest()


class _Login:
    """The client's side of one login by SCRAM-SHA-256 (RFC 5802, RFC 7677), without channel binding."""

    def __init__(self, user: str, secret: bytes, nonce: str):
        self.secret, self.nonce = secret, nonce.encode()
        self.bare = f"n={user},r={nonce}".encode()
        self.acceptance = b""  # by which the server shows that it knows the secret's verifier

    def first(self) -> bytes:
        return b"n,," + self.bare

    def final(self, challenge: bytes) -> bytes:
        """The answer to a challenge. ValueError if it is none, or not to this login."""
        match = _CHALLENGE.fullmatch(challenge)
        if not match or not match[1].startswith(self.nonce) or not 1 <= len(match[1]) - len(self.nonce) <= _MOST_NONCE:
            raise ValueError("no challenge to this login")
        salt, count = base64.b64decode(match[2]), int(match[3])
        if base64.b64encode(salt) != match[2] or not 1 <= len(salt) <= _MOST_SALT or count not in _ITERATIONS:
            raise ValueError(f"a challenge with {len(salt)} bytes of salt and {count} iterations")
        bare = b"c=" + base64.b64encode(b"n,,") + b",r=" + match[1]
        signed = b",".join((self.bare, challenge, bare))
        salted = hashlib.pbkdf2_hmac("sha256", self.secret, salt, count)
        key = _mac(salted, b"Client Key")
        signature = _mac(hashlib.sha256(key).digest(), signed)
        self.acceptance = b"v=" + base64.b64encode(_mac(_mac(salted, b"Server Key"), signed))
        return bare + b",p=" + base64.b64encode(bytes(one ^ other for one, other in zip(key, signature)))

    def is_accepted_by(self, last: bytes) -> bool:
        return hmac.compare_digest(last, self.acceptance)


class _Known:
    """What the connections of this process to one resource manager know of its branches: which sessions work for one; which are
    prepared; under which a connection broke; and the lost starts, each with when it was lost, and asked after."""

    all: Dict[Any, "_Known"] = {}

    def __init__(self) -> None:
        self.lock = threading.Lock()
        self.sessions: Dict[Xid, Set[int]] = {}
        self.prepared: Dict[Xid, bool] = {}
        self.broken: Dict[Xid, bool] = {}
        self.lost: Dict[Xid, List[float]] = {}

    def begin(self, session: int, name: Xid, is_new: bool) -> None:
        with self.lock:
            self.lost.pop(name, None)
            if is_new:
                self.forget(name)
            self.sessions.setdefault(name, set()).add(session)

    def end(self, session: int, name: Xid) -> None:
        with self.lock:
            found = self.sessions.get(name, set())
            found.discard(session)
            if not found:
                self.sessions.pop(name, None)

    def hang_up(self, session: int) -> None:
        for name in [name for name, found in list(self.sessions.items()) if session in found]:
            self.end(session, name)
            self.note(self.broken, name)

    def note(self, where: Dict[Xid, bool], name: Xid) -> None:
        where[name] = True
        if len(where) > _MOST_KNOWN:
            where.pop(next(iter(where)), None)

    def forget(self, name: Xid) -> None:
        for where in (self.sessions, self.prepared, self.broken):
            where.pop(name, None)

    def patience(self, name: Xid, longest: float) -> float:
        """How long a completion that was answered XAER_PROTO may be asked again."""
        if name in self.prepared or self.sessions.get(name):
            return 0
        return longest if name in self.broken else min(longest, _PATIENCE)

    def due(self, wanted: Optional[Xid]) -> List[Xid]:
        """The lost starts to be looked after now: each now and then, or this one."""
        now, found = time.monotonic(), []
        for name, times in list(self.lost.items()):
            if name == wanted or now - times[1] >= 1:
                times[1] = now
                found.append(name)
        return found


class Connection:
    """A session at a server, to which it connects at its first call, and anew after a break. Threads may share it."""

    _count = itertools.count(1)

    def __init__(
        self,
        host: str = "127.0.0.1",
        port: int = 4187,
        name: Optional[str] = "xarm",
        *,
        path: Optional[str] = None,
        timeout: float = 30.0,
        login_timeout: Optional[float] = None,
        idle: float = 0.5,
        user: Optional[str] = None,
        password: Union[str, bytes, None] = None,
    ):
        """A server's host and port, or the `path` of its Unix socket, and its resource manager's name: None opens none, for the
        operator's calls alone. A call waits for `timeout` seconds at most, `connect` for `login_timeout`. If a connection was idle for
        `idle` seconds, a start or a scan first asks whether it stands, and else makes it anew. A `user` logs in with a `password` of 1 to
        1,024 bytes, text in UTF-8; None doesn't log in. ValueError if there is no such user or password."""
        self._address: Any = path if path is not None else (host, port)
        self.name = name
        self._name = None if name is None else name.encode()
        self._user, self._secret = user, _secret(user, password)
        self._timeout, self._login_timeout, self._idle = timeout, login_timeout or timeout, idle
        self._known = _Known.all.setdefault((self._address, name), _Known())
        self._number = next(self._count)
        self._lock = threading.RLock()
        self._socket: Optional[socket.socket] = None
        self._is_closed = self._is_sent = False
        self._place, self._answered, self._limit = 0, 0.0, 0
        self._tpc: Optional[Tuple[Xid, str]] = None

    def __enter__(self) -> "Connection":
        return self

    def __str__(self) -> str:
        return f"{(self._name or b'').decode()} at {self._where()}"

    def _where(self) -> str:
        return self._address if isinstance(self._address, str) else "%s:%d" % self._address

    def __exit__(self, *_: Any) -> None:
        self.close()

    def connect(self) -> "Connection":
        """Connects now. ConnectionLost; ProgrammingError if the resource manager has another name, with detail Access if the server
        refuses the user or the password, the user may not open it, or there is none and the server wants one, and with detail Frame if
        the server takes no logins; OperationalError if the server doesn't know the password's verifier. So do calls that connect anew."""
        with self._lock:
            self._run("open", lambda deadline: None, self._login_timeout)
        return self

    def close(self) -> None:
        """Ends the connection, for good, and sends nothing: the server hangs the session up. A call of another thread that is under way
        isn't waited for: it raises ConnectionLost, as later ones do."""
        self._is_closed = True
        open_socket = self._socket
        if open_socket is not None:
            try:
                open_socket.shutdown(socket.SHUT_RDWR)
            except OSError:
                pass
        if self._lock.acquire(blocking=False):
            try:
                self._disconnect()
            finally:
                self._lock.release()

    # How requests are sent.

    def _run(self, call: str, exchange: Callable[[float], Any], seconds: Optional[float] = None) -> Any:
        deadline = time.monotonic() + (seconds or self._timeout)
        try:
            if self._is_closed:
                raise OSError("the connection was closed")
            if self._socket is None:
                self._connect(deadline)
            return exchange(deadline)
        except (OSError, ValueError) as fault:
            self._disconnect()
            raise ConnectionLost(call, str(fault) or repr(fault), self._is_sent) from fault
        except BaseException:
            self._disconnect()  # the reply would be taken for that of the next call
            raise

    def _connect(self, deadline: float) -> None:
        left = self._left(deadline)
        if isinstance(self._address, tuple):
            self._socket = socket.create_connection(self._address, left)
            self._socket.setsockopt(socket.IPPROTO_TCP, socket.TCP_NODELAY, 1)
            self._socket.setsockopt(socket.SOL_SOCKET, socket.SO_KEEPALIVE, 1)
        else:
            self._socket = socket.socket(socket.AF_UNIX)
            self._socket.settimeout(left)
            self._socket.connect(self._address)
        if self._is_closed:
            raise OSError("the connection was closed")
        if self._user is not None:
            self._log_in(self._user, deadline)
        if self._name is not None:
            reply = self._exchange("open", bytes(4) + bytes([len(self._name)]) + self._name, deadline)
            if reply.code:
                wants = "" if reply.detail != Detail.Access else f"{self._user} may not" if self._user else "the server wants a login"
                raise _error("open", reply.code, reply.detail, wants)
        if self._limit:
            self._exchange("timeout", self._limit.to_bytes(4, "big"), deadline)
        self._settle(None, deadline)

    def _log_in(self, user: str, deadline: float) -> None:
        """Before anything else is asked. Whatever it raises, the connection is closed."""
        login, who = _Login(user, self._secret, _nonce()), f"{user} at {self._where()}"
        challenge = self._say(who, "first", login.first(), deadline)
        try:
            final = login.final(challenge)
        except ValueError as fault:
            raise ValueError(f"the login of {who}: {fault}") from fault
        if not login.is_accepted_by(self._say(who, "final", final, deadline)):
            why = f"{who}: the server doesn't know the password's verifier, so it isn't who it says"
            raise OperationalError("login", Code.XAER_RMFAIL, 0, why)

    def _say(self, who: str, operation: str, message: bytes, deadline: float) -> bytes:
        """A message of a login, and the server's."""
        reply = self._exchange(operation, message, deadline)
        if reply.code:
            told = {Detail.Access: "the server refuses the name or the password", Detail.Frame: "the server takes no logins"}
            why = told.get(Detail(reply.detail), "") if reply.code == Code.XAER_INVAL else ""
            raise _error("login", reply.code, reply.detail, f"{who}{why and ': ' + why}")
        return reply.body

    def _disconnect(self) -> None:
        if self._socket is not None:
            self._socket.close()
            self._socket = None
        self._place = 0
        self._known.hang_up(self._number)

    def _exchange(self, operation: str, fields: bytes, deadline: float) -> _Reply:
        assert self._socket is not None
        content = bytes([1, _OPERATIONS[operation]]) + fields
        self._socket.settimeout(self._left(deadline))
        self._socket.sendall(len(content).to_bytes(4, "big") + content)
        length = int.from_bytes(self._take(4, deadline), "big")
        if length > _MOST_CONTENT:
            raise ValueError("no reply of an xarm server: its length")
        try:
            reply = _read(operation, self._take(length, deadline))
        except ValueError as fault:
            raise ValueError(f"no reply of an xarm server to {operation}: {fault}") from fault
        if reply.place and reply.place <= self._place:  # one that wasn't recorded has place 0
            raise ValueError(f"no reply of an xarm server: its place is {reply.place}, after {self._place}")
        self._place = reply.place or self._place
        self._answered = time.monotonic()
        return reply

    def _take(self, count: int, deadline: float) -> bytes:
        assert self._socket is not None
        came = bytearray()
        while len(came) < count:
            self._socket.settimeout(self._left(deadline))
            more = self._socket.recv(count - len(came))
            if not more:
                raise OSError("the server ended the connection")
            came += more
        return bytes(came)

    @staticmethod
    def _left(deadline: float) -> float:
        left = deadline - time.monotonic()
        if left <= 0:
            raise OSError("no answer in time")
        return left

    def _ask(self, operation: str, fields: bytes = b"") -> _Reply:
        def exchange(deadline: float) -> _Reply:
            self._is_sent = True
            return self._exchange(operation, fields, deadline)

        with self._lock:
            self._is_sent = False
            return self._run(operation, exchange)

    def _done(self, operation: str, fields: bytes = b"") -> Any:
        """The body of a success."""
        return self._success(operation, self._ask(operation, fields)).body

    @staticmethod
    def _success(operation: str, reply: _Reply) -> _Reply:
        if reply.code and not (operation == "recover" and reply.code > 0):
            raise _error(operation, reply.code, reply.detail)
        return reply

    def _refresh(self, name: Optional[Xid]) -> None:
        """Before a start or a scan: whether an idle connection stands, and what became of lost starts."""
        if self._socket is not None and time.monotonic() - self._answered >= self._idle:
            try:
                self._ask("status")
            except ConnectionLost:
                pass  # the next call connects
        if self._known.lost and not any(self._number in found for found in list(self._known.sessions.values())):
            self._is_sent = False
            self._run("rollback", lambda deadline: self._settle(name, deadline))

    def _settle(self, wanted: Optional[Xid], deadline: float) -> None:
        """Rolls back the branches of lost starts. Such a one is marked once its session was hung up, which a join tells: what isn't
        marked, or is prepared, may be another one of this XID."""
        for name in self._known.due(wanted):
            code = self._exchange(*_named("start", Flags.TMJOIN, name), deadline).code
            if code >= Code.XA_RBROLLBACK:
                code = self._exchange(*_named("rollback", 0, name), deadline).code
                if code >= Code.XA_RBROLLBACK or code in (Code.XA_OK, Code.XAER_NOTA):
                    self._known.lost.pop(name, None)
            elif code == Code.XA_OK:
                self._exchange(*_named("end", Flags.TMSUCCESS, name), deadline)
            elif code == Code.XAER_PROTO or code == Code.XAER_NOTA and self._is_settled(name):
                self._known.lost.pop(name, None)

    def _is_settled(self, name: Xid) -> bool:
        return time.monotonic() - self._known.lost.get(name, [0])[0] > _SETTLING

    def _complete(self, operation: str, name: Xid, flags: int) -> _Reply:
        """Asks again while it is answered XAER_PROTO, until the server has hung a broken session up."""
        reply = self._ask(*_named(operation, flags, name))
        if operation != "commit" or flags:
            until, pause = time.monotonic() + self._known.patience(name, self._timeout), 0.001
            while reply.code == Code.XAER_PROTO and time.monotonic() < until:
                time.sleep(pause)
                pause = min(2 * pause, _LONGEST_PAUSE)
                reply = self._ask(*_named(operation, flags, name))
        return reply

    # The calls of C193.

    def xa_open(self) -> None:
        """Opens the resource manager, which a connection does by itself when it connects."""
        name = self._name or b""
        self._done("open", bytes(4) + bytes([len(name)]) + name)

    def xa_close(self) -> None:
        """Closes it: until `xa_open` there are no calls but the operator's. XAER_PROTO while it is at work."""
        self._done("close", bytes(4))

    def xa_start(self, name: Xid, flags: int = 0) -> int:
        """Begins a branch, joins it (TMJOIN) or resumes it (TMRESUME). Its timestamp. RolledBack: it is marked. XAER_DUPID: the XID is
        known. XAER_NOTA: it isn't. XAER_RMERR: too many are. ConnectionLost: it may have begun; then the connection rolls it back."""
        request, is_new = _named("start", flags, name), not flags & (Flags.TMJOIN | Flags.TMRESUME)
        until = time.monotonic() + self._timeout
        with self._lock:
            while True:
                if not flags & Flags.TMRESUME:
                    self._refresh(name)
                try:
                    reply = self._ask(*request)
                except BaseException:
                    if self._is_sent:
                        self._known.note(self._known.broken, name)
                        if is_new:
                            self._known.lost[name] = [time.monotonic(), 0.0]
                    raise
                # the XID of a lost start is known until that one's session is hung up
                if reply.code != Code.XAER_DUPID or name not in self._known.lost or time.monotonic() > until:
                    break
                time.sleep(_LONGEST_PAUSE)
            if reply.code == Code.XA_OK:
                self._known.begin(self._number, name, is_new)
            elif reply.code >= Code.XA_RBROLLBACK:
                self._known.end(self._number, name)
            return self._success("start", reply).body

    def xa_end(self, name: Xid, flags: int = Flags.TMSUCCESS) -> None:
        """Ends the work for a branch, marks it too (TMFAIL), or suspends the work (TMSUSPEND, with TMMIGRATE for any session to resume).
        RolledBack, but not with TMFAIL: the work has ended, and the branch stays known until its `xa_rollback`."""
        reply = self._ask(*_named("end", flags, name))
        is_marked = reply.code >= Code.XA_RBROLLBACK
        if is_marked or reply.code in (Code.XA_OK, Code.XAER_NOTA) and (not flags & Flags.TMSUSPEND or flags & Flags.TMMIGRATE):
            self._known.end(self._number, name)
        if not (is_marked and flags & Flags.TMFAIL):
            self._success("end", reply)

    def xa_prepare(self, name: Xid) -> Code:
        """XA_OK: it is in doubt, durably. XA_RDONLY: it wrote nothing, and is gone, as committed. RolledBack: it is gone. XAER_RMERR:
        nothing changed. XAER_RMFAIL: `recover` tells whether it is prepared."""
        reply = self._complete("prepare", name, 0)
        if reply.code == Code.XA_OK:
            self._known.note(self._known.prepared, name)
        elif reply.code == Code.XA_RDONLY or reply.code >= Code.XA_RBROLLBACK:
            self._known.forget(name)
        if reply.code != Code.XA_RDONLY:
            self._success("prepare", reply)
        return Code(reply.code)

    def xa_commit(self, name: Xid, flags: int = 0) -> None:
        """Commits a prepared branch, or with TMONEPHASE one whose work has ended. Retry: it is prepared still; ask again. Heuristic:
        `xa_forget` it. XAER_NOTA: a commit asked before was done. With TMONEPHASE, RolledBack and XAER_RMERR: it is rolled back, and
        gone; XAER_RMFAIL: whether it is committed isn't known, and no call tells."""
        reply = self._complete("commit", name, flags)
        if reply.code == Code.XA_OK or flags and reply.code in (Code.XAER_RMERR, *range(100, 108)):
            self._known.forget(name)
        self._success("commit", reply)

    def xa_rollback(self, name: Xid) -> Code:
        """Rolls a branch back for which nobody works. XA_OK, or the mark that it had, XA_RB*: it is gone. XAER_NOTA: it was gone before.
        Heuristic: `xa_forget` it."""
        reply = self._complete("rollback", name, 0)
        is_gone = reply.code in (Code.XA_OK, Code.XAER_NOTA) or reply.code >= Code.XA_RBROLLBACK
        if is_gone:
            self._known.forget(name)
            self._known.lost.pop(name, None)
        if reply.code < Code.XA_RBROLLBACK:
            self._success("rollback", reply)
        return Code(reply.code)

    def xa_forget(self, name: Xid) -> None:
        """Forgets a branch that the operator completed. XAER_PROTO: nobody did."""
        self._done(*_named("forget", 0, name))
        self._known.forget(name)

    def xa_recover(self, count: int = _MOST_XIDS, flags: int = Flags.TMSTARTRSCAN | Flags.TMENDRSCAN) -> List[Xid]:
        """At most `count` (0 to 256) of the branches that are prepared or were completed by the operator, ascending, from the scan's
        cursor; fewer only at the end."""
        with self._lock:
            if flags & Flags.TMSTARTRSCAN:
                self._refresh(None)
            return self._done("recover", flags.to_bytes(4, "big") + count.to_bytes(4, "big"))

    def recover(self) -> List[Xid]:
        """All of them."""
        with self._lock:
            page = found = self.xa_recover(flags=Flags.TMSTARTRSCAN)
            while len(page) == _MOST_XIDS:
                page = self.xa_recover(flags=Flags.TMNOFLAGS)
                found = found + page
            return found

    # Records, of the branch that the session works for.

    def get(self, key: bytes) -> Optional[bytes]:
        """The value of a key of 1 to 64 bytes, None if it has none. Retry: the version to be read is another, undecided branch's.
        RolledBack: the branch is marked. XAER_PROTO: the session works for none."""
        return self._record("get", _keyed(key))

    def put(self, key: bytes, value: bytes) -> None:
        """Gives a key a value of 0 to 16,384 bytes. RolledBack with detail Late: a later branch has read the key; do the work again in
        a new one. XAER_INVAL with detail Limit: the branch wrote 256 keys."""
        if len(value) > 16384:
            raise ValueError(f"a value of {len(value)} bytes")
        self._record("put", _keyed(key) + len(value).to_bytes(2, "big") + value)

    def delete(self, key: bytes) -> None:
        """Takes a key's value away: a write, also if it has none. Errors as of `put`."""
        self._record("delete", _keyed(key))

    def _record(self, operation: str, fields: bytes) -> Any:
        with self._lock:
            if self._socket is None:  # a new session would work for no branch
                raise ConnectionLost(operation, "no connection", False)
            return self._done(operation, fields)

    # The operator's calls.

    def status(self) -> Status:
        """How the server is doing, also while its manager is down."""
        return self._done("status")

    def hello(self) -> Hello:
        """What the server speaks. XAER_INVAL with detail Frame: it is an older one, and can do nothing beside."""
        return self._done("hello", _REVISION.to_bytes(4, "big") + bytes(8))

    def disconnect(self, session: int) -> None:
        """Hangs up the session of this number, as if its connection had broken, also if its client is gone. XAER_INVAL: no connection has
        it; with detail Frame: the server disconnects none."""
        self._done("disconnect", session.to_bytes(8, "big"))

    def sessions(self, name: Xid) -> List[int]:
        """The numbers of the sessions that have an association of their own with a branch, active or suspended. XAER_INVAL with detail
        Frame: the server lists none."""
        return self._done("sessions", _spelled(name))

    def metrics(self) -> Dict[int, int]:
        """What the server has counted, by ids (docs/PROTOCOL.md). XAER_INVAL with detail Frame: it counts nothing."""
        return self._done("metrics")

    def branches(self, count: int = _MOST_XIDS, above: Optional[Xid] = None) -> List[Branch]:
        """The first known branches, at most `count` (1 to 256), ascending, above an XID, known or not."""
        return self._done("branches", count.to_bytes(4, "big") + (b"\0" if above is None else b"\1" + _spelled(above)))

    def decide(self, name: Xid, is_commit: bool) -> None:
        """Completes a prepared branch, whatever its transaction manager decides. XAER_PROTO: it isn't prepared."""
        self._done("decide", (b"\1" if is_commit else b"\2") + _spelled(name))

    def doom(self, name: Xid) -> None:
        """Marks a branch at work, which can then only be rolled back. XAER_PROTO: it is prepared."""
        self._done("doom", _spelled(name))

    def tick(self, moment: int) -> int:
        """Tells the server the time, in seconds from an origin that all clients share. How many branches ran out of theirs. XAER_INVAL:
        a moment before the last one."""
        return self._done("tick", moment.to_bytes(8, "big"))

    def timeout(self, seconds: int) -> None:
        """The time limit of the branches that this connection begins from now on, 0 for none; also after it was made anew."""
        with self._lock:
            self._done("timeout", seconds.to_bytes(4, "big"))
            self._limit = seconds

    def trim(self) -> int:
        """Begins a new log with what is still needed. Its end in bytes."""
        return self._done("trim")

    def restart(self) -> None:
        """Reads the log again: a manager that is down is up then. All unprepared work is gone."""
        self._done("restart")

    # PEP 249's two-phase commit.

    def xid(self, format_id: int, gtrid: Union[bytes, str], bqual: Union[bytes, str] = b"") -> Xid:
        """As `xarm.xid`."""
        return xid(format_id, gtrid, bqual)

    def tpc_begin(self, name: Xid) -> None:
        """Begins a transaction's branch. XAER_PROTO: one is under way."""
        self._outside("tpc_begin")
        self.xa_start(name)
        self._tpc = name, "working"

    def tpc_prepare(self) -> None:
        """The first phase. RolledBack: the transaction is rolled back, and over. Of any other error `tpc_rollback` is what is left."""
        name = self._inside("tpc_prepare", "working")
        self._end(name)
        self._tpc = name, "ended"
        try:
            code = self.xa_prepare(name)
        except RolledBack:
            self._tpc = None
            raise
        self._tpc = name, "prepared" if code == Code.XA_OK else "over"

    def tpc_commit(self, name: Optional[Xid] = None) -> None:
        """Commits what `tpc_prepare` prepared; without it, in one phase; or, outside of a transaction, a branch that `tpc_recover` listed.
        In two phases it is asked again for the time-out; if that isn't enough, it is OperationalError or Retry: ask again. Heuristic:
        the operator completed it. In one phase, RolledBack: it is over; ConnectionLost: whether it is committed isn't known."""
        if name is not None:
            self._outside("tpc_commit")
            self._again(lambda: self.xa_commit(name))
            return
        name, state = self._inside("tpc_commit", "working", "prepared", "over"), self._tpc[1]  # type: ignore[index]
        if state == "working":
            self._commit_at_once(name)
        elif state == "prepared":
            self._again(lambda: self.xa_commit(name))
        self._tpc = None

    def _commit_at_once(self, name: Xid) -> None:
        self._end(name)
        self._tpc = name, "ended"
        try:
            self.xa_commit(name, Flags.TMONEPHASE)
        except Error as fault:
            is_sent = not isinstance(fault, ConnectionLost) or fault.is_sent
            if fault.code != Code.XAER_RMFAIL or fault.detail == Detail.Device or isinstance(fault, ConnectionLost) and is_sent:
                self._tpc = None  # rolled back, or nobody can tell
            raise

    def tpc_rollback(self, name: Optional[Xid] = None) -> None:
        """Rolls the transaction back, prepared or not; or, outside of one, a branch that `tpc_recover` listed. Errors as of `tpc_commit`."""
        if name is not None:
            self._outside("tpc_rollback")
            self._again(lambda: self.xa_rollback(name))
            return
        name, state = self._inside("tpc_rollback", "working", "ended", "prepared", "over"), self._tpc[1]  # type: ignore[index]
        if state == "working":
            self._end(name)
            self._tpc = name, "ended"
        if state != "over":
            self._again(lambda: self.xa_rollback(name), is_gone=state != "prepared")
        self._tpc = None

    def tpc_recover(self) -> List[Xid]:
        """The branches in doubt, and those that the operator completed, for `tpc_commit` or `tpc_rollback`."""
        return self.recover()

    def tpc_leave(self) -> None:
        """Leaves the transaction as it is: prepared, it stays in doubt until it is completed by its XID."""
        self._tpc = None

    def _outside(self, call: str) -> None:
        if self._tpc is not None:
            raise ProgrammingError(call, Code.XAER_PROTO, 0, f"a transaction is under way: {self._tpc[0]}")

    def _inside(self, call: str, *states: str) -> Xid:
        if self._tpc is None or self._tpc[1] not in states:
            raise ProgrammingError(call, Code.XAER_PROTO, 0, f"the transaction is {self._tpc[1] if self._tpc else 'none'}")
        return self._tpc[0]

    def _end(self, name: Xid) -> None:
        """Ends the work. If it can't, the branch is marked or gone, which its completion tells."""
        try:
            if self._socket is not None:
                self.xa_end(name)
        except Error:
            pass

    def _again(self, complete: Callable[[], Any], is_gone: bool = False) -> None:
        """Completes a branch in two phases. After a lost reply, XAER_NOTA says that it was done; `is_gone`: in any case."""
        until, pause = time.monotonic() + self._timeout, 0.001
        while True:
            try:
                complete()
                return
            except (ConnectionLost, Retry) as fault:
                if time.monotonic() > until or self._is_closed:
                    raise
                is_gone = is_gone or isinstance(fault, ConnectionLost) and fault.is_sent
            except ProgrammingError as fault:
                if is_gone and fault.code == Code.XAER_NOTA:
                    return
                raise
            time.sleep(pause)
            pause = min(2 * pause, _LONGEST_PAUSE)


def connect(*words: Any, **settings: Any) -> Connection:
    """A `Connection` with these settings, connected. ConnectionLost; ProgrammingError if the resource manager has another name."""
    return Connection(*words, **settings).connect()
