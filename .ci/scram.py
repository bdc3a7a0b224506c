"""Logins by SCRAM-SHA-256 (RFC 5802, RFC 7677) in frames of the wire, beside the Rattle code: a client's side, what a server keeps of a
secret, and files of users."""
import base64
import functools
import hashlib
import hmac
import os
import re
import socket
import time

from frames import LIMIT, Peer, request, shown

# The operations of a login, and the kinds of what answers it (docs/PROTOCOL.md).
FIRST, FINAL = 74, 75
CHALLENGE, WELCOME = 11, 12
# XAER_INVAL, Access, place 0, no body; and the same of a content that is no request: Frame.
ACCESS = bytes.fromhex("01 fffffffb 08 0000000000000000 00")
FRAME = bytes.fromhex("01 fffffffb 06 0000000000000000 00")
HELLO = bytes.fromhex("01 46 00000001 0000000000000000")
# What begins a reply whose body is of a kind.
KIND = "01 00000000 00 0000000000000000 {:02x}"
LEAST_ITERATIONS = 4096


def framed(*contents):
    return b"".join(len(content).to_bytes(4, "big") + content for content in contents)


def first(message):
    """The content that begins a login."""
    return bytes([1, FIRST]) + message


def final(message):
    """The content that ends a login."""
    return bytes([1, FINAL]) + message


def body(content, kind):
    """The body of a reply that is of this kind; nothing if it isn't."""
    head = bytes.fromhex(KIND.format(kind))
    return content[len(head) :] if content and content.startswith(head) else None


def keyed(key, text):
    return hmac.digest(key, text, "sha256")


@functools.lru_cache(maxsize=None)
def salted(secret, salt, iterations):
    return hashlib.pbkdf2_hmac("sha256", secret, salt, iterations)


def verifier(secret, salt=None, iterations=LEAST_ITERATIONS):
    """PostgreSQL's text of what a server keeps of a secret."""
    salt = os.urandom(16) if salt is None else salt
    key = salted(secret.encode(), salt, iterations)
    stored = hashlib.sha256(keyed(key, b"Client Key")).digest()
    texts = (base64.b64encode(it).decode() for it in (salt, stored, keyed(key, b"Server Key")))
    return f"SCRAM-SHA-256${iterations}:{next(texts)}${next(texts)}:{next(texts)}"


class Login:
    """A client's side of a login, without channel binding."""

    def __init__(self, name, secret, nonce=None, header="n,,"):
        self.secret, self.header = secret.encode(), header.encode()
        self.nonce = nonce or base64.b64encode(os.urandom(18)).decode()
        self.bare = f"n={name},r={self.nonce}".encode()
        self.opening = self.header + self.bare

    def answer(self, challenge):
        """The last message of the client, and by what the server accepts it."""
        parts = re.fullmatch(rb"r=([!-+\--~]+),s=([A-Za-z0-9+/]+=*),i=([1-9]\d*)", challenge)
        assert parts and parts[1].startswith(self.nonce.encode()), challenge
        key = salted(self.secret, base64.b64decode(parts[2], validate=True), int(parts[3]))
        bare = b"c=" + base64.b64encode(self.header) + b",r=" + parts[1]
        signed = b",".join((self.bare, challenge, bare))
        client = keyed(key, b"Client Key")
        signature = keyed(hashlib.sha256(client).digest(), signed)
        proof = bytes(one ^ other for one, other in zip(client, signature))
        acceptance = b"v=" + base64.b64encode(keyed(keyed(key, b"Server Key"), signed))
        return bare + b",p=" + base64.b64encode(proof), acceptance


def user(name, role, text):
    """The lines of a user."""
    return f'["{name}"]\nrole = "{role}"\nverifier = "{text}"\n'


def put_file(path, text, mode=0o600):
    """Puts a file that has this mode."""
    with open(os.open(path, os.O_WRONLY | os.O_CREAT | os.O_TRUNC, 0o600), "wb") as file:
        file.write(text if isinstance(text, bytes) else text.encode())
    os.chmod(path, mode)
    return path


class Caller(Peer):
    """A connection from an address of this machine, 127.0.0.1 if it isn't said, or by a socket, that may log in."""

    def __init__(self, server, number=1):
        if not str(server.port).isdigit():
            super().__init__(server.port)
            return
        self.socket = socket.create_connection(("127.0.0.1", server.port), LIMIT, (f"127.0.0.{number}", 0))
        self.socket.setsockopt(socket.IPPROTO_TCP, socket.TCP_NODELAY, 1)

    def asked(self, content):
        """What a content is answered; nothing if the connection is closed."""
        try:
            self.socket.sendall(framed(content))
        except ConnectionError:
            return None
        return self.reply()

    def timed(self, content):
        """The same, and how long it took."""
        began = time.monotonic()
        found = self.asked(content)
        return time.monotonic() - began, found

    def challenge(self, login):
        """What a login is asked; nothing if it is refused."""
        return body(self.asked(first(login.opening)), CHALLENGE)

    def log_in(self, name, secret):
        """Whether it is let in, by a server that keeps the secret's verifier."""
        login = Login(name, secret)
        challenge = self.challenge(login)
        if not challenge:
            return False
        message, acceptance = login.answer(challenge)
        return body(self.asked(final(message)), WELCOME) == acceptance

    def fails(self, name="ada", secret="not it"):
        """How long it takes until a wrong secret is refused, and the refusal."""
        login = Login(name, secret)
        message, _ = login.answer(self.challenge(login))
        return self.timed(final(message))

    def line(self, line):
        """The place of what a line is answered, and its line."""
        content = self.asked(request(line)[4:])
        return shown(content) if content else None

    def features(self):
        """The features of which a Hello is told; nothing if the connection is closed."""
        found = body(self.asked(HELLO), 8)
        return int.from_bytes(found[4:], "big") if found else None
