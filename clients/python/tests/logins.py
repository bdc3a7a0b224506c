"""Logins, at a server in the test that keeps the verifier of RFC 7677's password, and at a live one if it takes logins."""

import base64
import hashlib
import hmac
import os
import socket
import subprocess
import threading

import xarm
from expect import equal, is_lost, name, raises, refuses, value, works
from servers import LIMIT, NEVER, Fake, Server, frame_of, in_thread, reply
from xarm import Code, Detail, Flags

# RFC 7677, 3: what is said if this nonce is the client's.
USER, SECRET, NONCE = "user", "pencil", "rOprNGfwEbeRWgbNEkqO"
FIRST = b"n,,n=user,r=rOprNGfwEbeRWgbNEkqO"
CHALLENGE = b"r=rOprNGfwEbeRWgbNEkqO%hvYDpWUa2RaTCAfuxFIlj)hNlF$k0,s=W22ZaJ0SNY7soEsUEjb6gQ==,i=4096"
FINAL = b"c=biws,r=rOprNGfwEbeRWgbNEkqO%hvYDpWUa2RaTCAfuxFIlj)hNlF$k0,p=dHzbZapWIk4jUhN+Ute9ytag9zjfMHgsqmmiz7AndVQ="
WELCOME = b"v=6rriTRBi23WpRR/wtup+mMhUZUn/dB5nLTJRsjl95G4="

# What a server keeps of this password, with RFC 7677's salt and count; as PostgreSQL spells it.
VERIFIER = (
    "SCRAM-SHA-256$4096:W22ZaJ0SNY7soEsUEjb6gQ==$WG5d8oPm3OtcPnkdi4Uo7BkeZkBFzpcXkuLmtbsT4qY=:wfPLwcE6nTWhTAmQ7tl2KeoiWGPlZqQxSrmfPwDl2dU="
)
SALT, STORED_KEY, SERVER_KEY = (base64.b64decode(part) for part in VERIFIER[19:].replace("$", ":").split(":"))
OWN = b"%hvYDpWUa2RaTCAfuxFIlj)hNlF$k0"
OPEN, FORGET, FIRST_IS, FINAL_IS = 1, 9, 74, 75
CHALLENGED, WELCOMED = b"\x0b", b"\x0c"
REFUSED, NONE_TAKEN = reply(-5, Detail.Access, place=0), reply(-5, Detail.Frame, place=0)
ROLES = {"user": "client", "duty": "operator", "eve": "monitor"}
USERS = "".join(f'[{user}]\nrole = "{role}"\nverifier = "{VERIFIER}"\n' for user, role in ROLES.items())


def tests(program, room):
    guarded = Guarded()
    for test in (
        guarded.standard,
        guarded.welcome,
        guarded.again,
        guarded.by_bytes,
        guarded.wrong,
        guarded.stranger,
        guarded.no_challenge,
        guarded.challenges,
        guarded.without_logins,
        guarded.unusual,
        guarded.unasked,
        guarded.without_login,
        guarded.broken,
        guarded.silent,
        guarded.arguments,
        guarded.untold,
    ):
        yield test.__doc__, test
    with Server(program, room) as server:
        without = WithoutLogins(server)
        yield without.refused.__doc__, without.refused
    if b"--users" not in subprocess.run([program, "serve", "--help"], stdout=subprocess.PIPE, check=False).stdout:
        print("python: logins at a live server were not tried, since the program takes none", flush=True)
        return
    path = os.path.join(room, "users")
    with open(os.open(path, os.O_WRONLY | os.O_CREAT, 0o600), "w", encoding="ascii") as file:
        file.write(USERS)
    with Server(program, room, options=["--users", path]) as server:
        live = Live(server)
        for test in (live.works, live.refuses, live.roles, live.monitors, live.again):
            yield test.__doc__, test


def mac(key, text):
    return hmac.new(key, text, hashlib.sha256).digest()


class Guard:
    """A server that lets in who has the password, or says to a First or a Final what a test put into `says`: a content, None to end the
    connection, or bytes after which it ends. All else is answered Access before a login, and XA_OK after it."""

    def __init__(self, is_open=False):
        self.listener = socket.create_server(("127.0.0.1", 0))
        self.port = self.listener.getsockname()[1]
        self.says, self.asked, self.said, self.ends, self.is_open = {}, [], [], threading.Semaphore(0), is_open
        in_thread(self.accept)

    def accept(self):
        while True:
            in_thread(self.serve, self.listener.accept()[0])

    def serve(self, client):
        place, bare, challenge, is_in = 1, b"", b"", self.is_open
        try:
            while frame := frame_of(client):
                operation, message = frame[5], frame[6:]
                self.asked.append(operation)
                answer = reply(0) if is_in else REFUSED
                place += is_in
                if operation == FIRST_IS:
                    self.said.append(message)
                    bare = message[3:]
                    challenge = b"r=" + bare.rpartition(b"r=")[2] + OWN + b",s=" + base64.b64encode(SALT) + b",i=4096"
                    answer = self.says.get("first", reply(0, body=CHALLENGED + challenge, place=0))
                elif operation == FINAL_IS:
                    self.said.append(message)
                    signed = b",".join((bare, challenge, message.rpartition(b",p=")[0]))
                    is_in = is_in or self.proves(message, signed)
                    acceptance = b"v=" + base64.b64encode(mac(SERVER_KEY, signed))
                    answer = self.says.get("final", reply(0, body=WELCOMED + acceptance, place=0) if is_in else REFUSED)
                content = answer if isinstance(answer, (bytes, type(None))) else framed(answer(place))
                client.sendall(content or b"")
                if content is not answer:
                    continue
                break
        finally:
            client.close()
            self.ends.release()

    @staticmethod
    def proves(message, signed):
        proof = base64.b64decode(message.rpartition(b",p=")[2])
        signature = mac(STORED_KEY, signed)
        return hashlib.sha256(bytes(one ^ other for one, other in zip(proof, signature))).digest() == STORED_KEY

    def connection(self, **settings):
        return xarm.Connection(
            "127.0.0.1", self.port, **{"timeout": LIMIT, "name": "fake", "idle": NEVER, "user": USER, "password": SECRET, **settings}
        )

    def ended(self):
        """The client has closed its connection, and asked this."""
        equal(self.ends.acquire(timeout=LIMIT), True)
        asked, self.asked, self.said = self.asked, [], []
        return asked

    def close(self):
        self.listener.close()


def framed(content):
    return len(content).to_bytes(4, "big") + content


class Guarded:
    def standard(self):
        """the messages of a login are those of RFC 7677"""
        guard, nonce = Guard(), xarm._nonce
        xarm._nonce = lambda: NONCE
        guard.says = {"first": reply(0, body=CHALLENGED + CHALLENGE, place=0), "final": reply(0, body=WELCOMED + WELCOME, place=0)}
        try:
            with guard.connection() as one:
                one.xa_forget(name("k"))
                equal(guard.said, [FIRST, FINAL])
                equal(guard.asked, [FIRST_IS, FINAL_IS, OPEN, FORGET])
        finally:
            xarm._nonce = nonce
            guard.close()

    def welcome(self):
        """who has the password is let in, with another nonce each time"""
        guard = Guard()
        for _ in range(2):
            with guard.connection().connect() as one:
                one.xa_forget(name("k"))
        equal(guard.asked, 2 * [FIRST_IS, FINAL_IS, OPEN, FORGET])
        nonces = [first.partition(b"n,,n=user,r=")[2] for first in guard.said[::2]]
        equal((len(set(nonces)), [len(base64.b64decode(nonce, validate=True)) for nonce in nonces]), (2, [18, 18]))
        guard.close()

    def again(self):
        """a connection that is made anew logs in again"""
        guard = Guard()
        one = guard.connection().connect()
        one._socket.shutdown(2)
        with is_lost():
            one.xa_forget(name("k"))
        one.xa_forget(name("k"))
        equal(guard.asked, 2 * [FIRST_IS, FINAL_IS, OPEN] + [FORGET])
        one.close()
        guard.close()

    def by_bytes(self):
        """a password of bytes is taken as they are, and a resource manager isn't opened without a name"""
        guard = Guard()
        with guard.connection(password=SECRET.encode(), name=None).connect():
            equal(guard.asked, [FIRST_IS, FINAL_IS])
        guard.close()

    def wrong(self):
        """a wrong password is refused, and nothing more is asked"""
        guard = Guard()
        for wrong in ("Pencil", "pencil ", "p" * 1024, "пароль"):
            with refuses(Code.XAER_INVAL, Detail.Access):
                guard.connection(password=wrong).connect()
            equal(guard.ended(), [FIRST_IS, FINAL_IS])
        one = guard.connection(password="wrong")
        with refuses(Code.XAER_INVAL, Detail.Access):
            one.xa_start(name("k"))
        equal(one._known.lost, {})
        guard.close()

    def stranger(self):
        """a server that doesn't know the verifier is refused, and asked for nothing more"""
        guard = Guard()
        for last in (WELCOME, b"", b"v=", b"v=" + base64.b64encode(bytes(32)), b"e=other-error", WELCOME + b",x=y"):
            guard.says["final"] = reply(0, body=WELCOMED + last, place=0)
            with raises(xarm.OperationalError, Code.XAER_RMFAIL):
                guard.connection().connect()
            equal(guard.ended(), [FIRST_IS, FINAL_IS])
        guard.close()

    def no_challenge(self):
        """what is no reply to a login's message breaks the connection"""
        guard, well = Guard(), {"first": CHALLENGED + CHALLENGE, "final": WELCOMED + WELCOME}
        for step, body in well.items():
            for wrong in (b"\0", b"\1" + bytes(8), well["final" if step == "first" else "first"], body[:1] + b"r" * 257):
                guard.says = {step: reply(0, body=wrong, place=0)}
                with is_lost():
                    guard.connection().connect()
                equal(guard.ended(), [FIRST_IS, FINAL_IS][: 1 + (step == "final")])
        guard.close()

    def challenges(self):
        """a challenge that isn't to this login, or that asks for too little or too much, is refused"""
        guard, salt = Guard(), base64.b64encode(SALT)
        nonce, xarm_nonce = NONCE.encode(), xarm._nonce
        xarm._nonce = lambda: NONCE
        try:
            for challenge in (
                b"",
                b"r=" + nonce + b",s=" + salt + b",i=4096",
                b"r=other" + OWN + b",s=" + salt + b",i=4096",
                b"r=" + OWN + nonce + b",s=" + salt + b",i=4096",
                b"r=" + nonce + b"x" * 65 + b",s=" + salt + b",i=4096",
                b"r=" + nonce + b"\x7f,s=" + salt + b",i=4096",
                b"r=" + nonce + b"x,s=,i=4096",
                b"r=" + nonce + b"x,s=" + salt.rstrip(b"=") + b",i=4096",
                b"r=" + nonce + b"x,s=W22ZaJ0SNY7soEsUEjb6gR==,i=4096",
                b"r=" + nonce + b"x,s=" + base64.b64encode(bytes(33)) + b",i=4096",
                b"r=" + nonce + b"x,s=" + salt + b",i=4095",
                b"r=" + nonce + b"x,s=" + salt + b",i=1",
                b"r=" + nonce + b"x,s=" + salt + b",i=04096",
                b"r=" + nonce + b"x,s=" + salt + b",i=-4096",
                b"r=" + nonce + b"x,s=" + salt + b",i=1000001",
                b"r=" + nonce + b"x,s=" + salt + b",i=99999999999999999999",
                b"r=" + nonce + b"x,s=" + salt + b",i=4096,x=y",
                b"r=" + nonce + b"x,s=" + salt + b",i=4096\n",
                b"m=y,r=" + nonce + b"x,s=" + salt + b",i=4096",
                b"r=" + nonce + b"x,i=4096,s=" + salt,
            ):
                guard.says = {"first": reply(0, body=CHALLENGED + challenge, place=0)}
                with is_lost():
                    guard.connection().connect()
                equal((challenge, guard.ended()), (challenge, [FIRST_IS]))
            for challenge in (
                b"r=" + nonce + b"x,s=" + base64.b64encode(bytes(32)) + b",i=4096",
                b"r=" + nonce + b"~" * 64 + b",s=AA==,i=1000000",
            ):
                guard.says = {"first": reply(0, body=CHALLENGED + challenge, place=0)}
                with refuses(Code.XAER_INVAL, Detail.Access):
                    guard.connection().connect()
                equal(guard.ended(), [FIRST_IS, FINAL_IS])
        finally:
            xarm._nonce = xarm_nonce
            guard.close()

    def without_logins(self):
        """a server that takes no logins is told, and isn't asked for anything else"""
        guard = Guard(is_open=True)
        guard.says["first"] = NONE_TAKEN
        with refuses(Code.XAER_INVAL, Detail.Frame):
            guard.connection().connect()
        equal(guard.ended(), [FIRST_IS])
        guard.close()

    def unusual(self):
        """a refusal of another kind is raised as it is"""
        guard = Guard()
        for step in ("first", "final"):
            guard.says = {step: reply(-7, Detail.Memory, place=0)}
            with raises(xarm.OperationalError, Code.XAER_RMFAIL, Detail.Memory):
                guard.connection().connect()
        guard.close()

    def unasked(self):
        """without a user nobody logs in, as before"""
        fake = Fake()
        fake.put(reply(0))
        with fake.connection() as one:
            one.xa_forget(name("k"))
        equal(fake.asked, [FORGET])
        fake.close()

    def without_login(self):
        """a server that wants a login says so to who has none"""
        guard = Guard()
        with refuses(Code.XAER_INVAL, Detail.Access):
            guard.connection(user=None, password=None).connect()
        equal(guard.ended(), [OPEN])
        guard.close()

    def broken(self):
        """a connection that breaks in a login is lost, and the next call logs in"""
        guard, part = Guard(), framed(reply(0, body=CHALLENGED + CHALLENGE)(1))[:20]
        for step in ("first", "final"):
            for answer in (None, part[:3], part):
                one = guard.connection()
                guard.says = {step: answer}
                with is_lost():
                    one.xa_forget(name("k"))
                equal(guard.ended(), [FIRST_IS, FINAL_IS][: 1 + (step == "final")])
                guard.says = {}
                one.xa_forget(name("k"))
                one.close()
                equal(guard.ended(), [FIRST_IS, FINAL_IS, OPEN, FORGET])
        guard.close()

    def silent(self):
        """a login that isn't answered ends with the time-out"""
        with socket.create_server(("127.0.0.1", 0)) as silent:
            one = xarm.Connection("127.0.0.1", silent.getsockname()[1], user=USER, password=SECRET, login_timeout=0.2)
            with is_lost():
                one.connect()

    def arguments(self):
        """a user or a password that can't be isn't taken"""
        for user, password in (
            ("user", None),
            ("user", ""),
            ("user", b""),
            ("user", "p" * 1025),
            ("user", "é" * 513),
            ("user", "\ud800"),
            ("", SECRET),
            ("a,b", SECRET),
            ("a=b", SECRET),
            ("a b", SECRET),
            ("é", SECRET),
            ("user\n", SECRET),
            ("u" * 65, SECRET),
            (None, SECRET),
        ):
            try:
                xarm.Connection(user=user, password=password)
            except ValueError as fault:
                equal(bool(password) and str(password) in str(fault), False)
            else:
                raise AssertionError(f"{user!r} was taken")
        for user, password in (("u" * 64, "é" * 512), ("aZ0.-_@", b"\xff\0")):
            xarm.Connection(user=user, password=password)

    def untold(self):
        """an error names the user and the server, and never the password"""
        guard = Guard()
        faults, stranger = [], reply(0, body=WELCOMED + b"v=", place=0)
        for password, says in (("Secret", {}), (SECRET, {"final": stranger}), (SECRET, {"first": NONE_TAKEN})):
            guard.says = says
            one = guard.connection(password=password)
            try:
                one.connect()
            except xarm.Error as fault:
                faults.append(str(fault))
            equal(password in str(one) + repr(one) + faults[-1], False)
        who = f"user at 127.0.0.1:{guard.port}"
        equal(
            faults,
            [
                f"login: XAER_INVAL Access: {who}: the server refuses the name or the password",
                f"login: XAER_RMFAIL: {who}: the server doesn't know the password's verifier, so it isn't who it says",
                f"login: XAER_INVAL Frame: {who}: the server takes no logins",
            ],
        )
        guard.close()


class WithoutLogins:
    def __init__(self, server):
        self.server = server

    def refused(self):
        """a live server that takes no logins is told, and serves who doesn't log in"""
        with refuses(Code.XAER_INVAL, Detail.Frame):
            self.server.connection(user=USER, password=SECRET)
        with self.server.connection() as one:
            equal(value(one, b"l0"), None)


class Live:
    def __init__(self, server):
        self.server = server

    def connection(self, user, **settings):
        return self.server.connection(user=user, password=SECRET, **settings)

    def works(self):
        """a client commits a branch at a live server"""
        with self.connection("user") as one:
            works(one, name("live"), b"l1")
            one.xa_commit(name("live"), Flags.TMONEPHASE)
            equal(value(one, b"l1"), b"v")

    def refuses(self):
        """a live server refuses a wrong password, an unknown name, and who doesn't log in"""
        for user, password in (("user", "Pencil"), ("nobody", SECRET), (None, None)):
            with refuses(Code.XAER_INVAL, Detail.Access):
                self.server.connection(user=user, password=password)

    def roles(self):
        """a client may not do what an operator may"""
        with self.connection("user") as one, self.connection("duty") as duty:
            works(one, name("roles"), b"l2")
            one.xa_prepare(name("roles"))
            with refuses(Code.XAER_INVAL, Detail.Access):
                one.decide(name("roles"), True)
            with refuses(Code.XAER_INVAL, Detail.Access):
                one.sessions(name("roles"))
            duty.decide(name("roles"), True)
            with raises(xarm.Heuristic, Code.XA_HEURCOM):
                one.xa_commit(name("roles"))
            one.xa_forget(name("roles"))
            equal(value(one, b"l2"), b"v")

    def monitors(self):
        """a monitor reads how the server is doing, and opens nothing"""
        with self.connection("eve", name=None) as eve:
            equal(eve.status().prepared, 0)
            equal(eve.branches(), [])
            equal(1 in eve.metrics(), True)
            for call in (eve.trim, eve.recover, lambda: eve.get(b"l1")):
                with refuses(Code.XAER_INVAL, Detail.Access):
                    call()
        with refuses(Code.XAER_INVAL, Detail.Access):
            self.connection("eve")

    def again(self):
        """after a live server was started anew, an idle connection logs in again"""
        with self.connection("user", idle=0) as one:
            equal(value(one, b"l1"), b"v")
            self.server.restart()
            equal(value(one, b"l1"), b"v")
