"""Files of users, where a server listens, and the commands that log in, for .ci/logins."""
import base64
import fcntl
import os
import pty
import re
import select
import stat
import subprocess
import tempfile
import termios

import clients
from clients import OK, OPEN, PATIENCE, Server
from frames import LIMIT, ROOM, TIMELESS, free_port, request
from scram import ACCESS, Caller, put_file, salted, user, verifier

SECRET = "pencil"
# RFC 7677's user, and what PostgreSQL keeps of the secret.
STORED, OWN = "WG5d8oPm3OtcPnkdi4Uo7BkeZkBFzpcXkuLmtbsT4qY=", "wfPLwcE6nTWhTAmQ7tl2KeoiWGPlZqQxSrmfPwDl2dU="
GOOD = f"SCRAM-SHA-256$4096:W22ZaJ0SNY7soEsUEjb6gQ==${STORED}:{OWN}"


def started(room, *words):
    """What a server ended with that is refused; that it is up."""
    serve = [clients.PROGRAM, "serve", "--log", "l", "--name", "n", *TIMELESS, *words]
    ran = subprocess.Popen(serve, stdout=subprocess.PIPE, stderr=subprocess.PIPE, cwd=room)
    try:
        printed, told = ran.communicate(timeout=PATIENCE)
    except subprocess.TimeoutExpired:
        ran.kill()
        ran.communicate()
        return "it is up"
    return ran.returncode, printed.decode(), told.decode()


def second(role="client", text=GOOD, name="ada"):
    """The lines of a second user: that one's are 5 to 7."""
    return user("eve", "monitor", GOOD) + "\n" + user(name, role, text)


def changed(old, new):
    """The same with a verifier that is changed."""
    assert old in GOOD
    return second(text=GOOD.replace(old, new, 1))


ADA = "ada", range(5, 8)
# What is wrong with a file of users, what it is, and which name and lines are told: none if it isn't about a user or a line.
FAULTS = {
    "no line of TOML": ("# users\n\n[ada\n", None, range(3, 5)),
    "a key without a value": (second() + "x = \n", None, range(8, 10)),
    "no users": ("", None, None),
    "comments alone": ("# nobody\n\n", None, None),
    "no UTF-8": (b'["ada\xff"]\n', None, None),
    "too many users": ("".join(user(f"user{number}", "client", GOOD) for number in range(1025)), None, None),
    "a role that there isn't": (second("admin"), *ADA),
    "a role in capitals": (second("Client"), *ADA),
    "no role": (second(""), *ADA),
    "one member more": (second() + 'note = "x"\n', *ADA),
    "one member less": (user("eve", "monitor", GOOD) + '\n[ada]\nrole = "client"\n', *ADA),
    "another member": (second().replace("role = \"client\"", "roll = \"client\""), *ADA),
    "a number as role": (second().replace('"client"', "2"), *ADA),
    "no table": ('ada = "client"\n' + user("eve", "monitor", GOOD), "ada", range(1, 2)),
    "a name with a blank": (second(name="a b"), "a b", range(5, 8)),
    "a name of 65 letters": (second(name="a" * 65), "a" * 65, range(5, 8)),
    "a name with a comma": (second(name="a,b"), "a,b", range(5, 8)),
    "a name beyond ASCII": (second(name="é"), "", range(5, 8)),
    "no verifier": (second(text=""), *ADA),
    "another mechanism": (changed("SHA-256", "SHA-1"), *ADA),
    "a secret in its place": (second(text=SECRET), *ADA),
    "4,095 iterations": (changed("4096", "4095"), *ADA),
    "1,000,001 iterations": (changed("4096", "1000001"), *ADA),
    "a leading zero": (changed("4096", "04096"), *ADA),
    "no salt": (changed("W22ZaJ0SNY7soEsUEjb6gQ==", ""), *ADA),
    "a salt of 33 bytes": (changed("W22ZaJ0SNY7soEsUEjb6gQ==", "A" * 44), *ADA),
    "a salt without its filling": (changed("gQ==", "gQ"), *ADA),
    "a short key": (changed("T4qY=", "T4=="), *ADA),
    "a key less": (second(text=GOOD.rpartition(":")[0]), *ADA),
    "a blank after it": (second(text=GOOD + " "), *ADA),
}


def is_told(found, path, name, lines):
    """Whether a server ended with status 1, and told in a line of the file, of the name, and of one of these lines."""
    if not isinstance(found, tuple) or found[:2] != (1, "") or found[2].count("\n") != 1 or path not in found[2]:
        return False
    rest = found[2].replace(path, "")
    numbers = {int(number) for number in re.findall(r"\d+", rest)}
    return (not name or name in rest) and (not lines or bool(numbers & set(lines)))


def files():
    """Files of users that are refused: it is told in a line, and nothing is opened."""
    with tempfile.TemporaryDirectory(prefix="logins-", dir=ROOM) as room:
        paths = {title: put_file(os.path.join(room, f"users{at}"), text) for at, (title, (text, _, _)) in enumerate(FAULTS.items())}
        rows = [(title, paths[title], name, lines) for title, (_, name, lines) in FAULTS.items()]
        rows += [("none is there", os.path.join(room, "none"), None, None), ("a folder", room, None, None)]
        for mode in (0o640, 0o604, 0o644, 0o660):
            rows.append((f"mode {mode:04o}", put_file(os.path.join(room, f"mode{mode:o}"), second(), mode), None, None))
        if os.geteuid() != 0:
            rows.append(("one that can't be read", put_file(os.path.join(room, "mode0"), second(), 0), None, None))
        before = sorted(os.listdir(room))
        for title, path, name, lines in rows:
            port = free_port()
            found = started(room, "--port", str(port), "--users", path)
            yield f"files: {title}", is_told(found, path, name, lines) or found, True
        yield "files: and nothing is opened", sorted(os.listdir(room)), before


def good_files():
    """Files of users at their limits."""
    salts = {"a salt of a byte": b"\1", "a salt of 32 bytes": bytes(range(32))}
    good = {title: second(text=verifier(SECRET, salt)) for title, salt in salts.items()}
    good["1,000,000 iterations"] = second(text=verifier(SECRET, iterations=1_000_000))
    good["4,097 iterations"] = second(text=verifier(SECRET, iterations=4_097))
    good["comments and blank lines"] = "# users\n\n" + second().replace("\nrole", "\n# the role\n  role") + "\n#\n"
    good["a table in a line, and the members in another order"] = f'ada = {{ verifier = "{GOOD}", role = "client" }}\n'
    good["1,024 users"] = "".join(user(f"user{number}", "monitor", GOOD) for number in range(1023)) + user("ada", "client", GOOD)
    for at, (title, text) in enumerate(good.items()):
        with tempfile.TemporaryDirectory(prefix="logins-", dir=ROOM) as room:
            path = put_file(os.path.join(room, "users"), text, 0o400 if at % 2 else 0o600)
            with Server("--loops", "1", "--users", path) as server:
                peer = Caller(server)
                yield f"good files: {title}", (peer.log_in("ada", SECRET), peer.ask(OPEN), server.has_told()), (True, OK, "")


def places():
    """Where a server listens that has no users."""
    with tempfile.TemporaryDirectory(prefix="logins-", dir=ROOM) as room:
        users = put_file(os.path.join(room, "users"), second())
        before = sorted(os.listdir(room))
        for address in ("0.0.0.0", "::", "192.0.2.1"):
            found = started(room, "--listen", address, "--port", str(free_port()))
            told = isinstance(found, tuple) and (found[:2], found[2].count("\n"), "--open-to-all" in found[2])
            yield f"places: {address}, and no users: it is refused, in a line", told or found, ((1, ""), 1, True)
        yield "places: and nothing is opened", sorted(os.listdir(room)), before
        for title, words, is_warned in (
            ("a port", [], True),
            ("127.0.0.2", ["--listen", "127.0.0.2"], True),
            ("all, as it may", ["--listen", "0.0.0.0", "--open-to-all"], False),
            ("a port, as it may", ["--open-to-all"], False),
            ("a port, and users", ["--users", users], False),
            ("all, and users", ["--listen", "0.0.0.0", "--users", users], False),
        ):
            with Server("--loops", "1", *words, is_open=False) as server:
                told = server.has_told()
                yield f"places: {title}: what is told", is_warning(told) if is_warned else told, True if is_warned else ""
        with Server("--loops", "1", by_socket=True) as server:
            yield "places: a socket: nothing is told", server.has_told(), ""
        with Server("--loops", "1", "--users", users, by_socket=True) as server:
            peer = Caller(server)
            found = peer.asked(request(OPEN)[4:]), peer.log_in("ada", SECRET), peer.ask(OPEN)
            yield "places: a socket, and users: it asks for a login, too", found, (ACCESS, True, OK)


def is_warning(told):
    """Whether a line tells that whoever can connect may do anything."""
    return told.startswith("xarm: ") and told.count("\n") == 1 and "connect" in told and "anything" in told or told


def own_sockets():
    """The permissions and the group of a Unix socket."""
    for text, mode in {"": 0o600, "0660": 0o660, "666": 0o666, "0777": 0o777}.items():
        with Server("--loops", "1", *(("--socket-mode", text) if text else ()), by_socket=True) as server:
            found = stat.S_IMODE(os.stat(server.port).st_mode)
            yield f"sockets: mode {text or 'as it is'}", (oct(found), Caller(server).ask(OPEN)), (oct(mode), OK)
    groups = {"0": 0, "1": 1, "daemon": 1} if os.geteuid() == 0 else {str(it): it for it in os.getgroups()[:2]}
    for group, number in groups.items():
        with Server("--loops", "1", "--socket-mode", "0660", "--socket-group", group, by_socket=True) as server:
            found = os.stat(server.port)
            yield f"sockets: group {group}", (found.st_gid, oct(stat.S_IMODE(found.st_mode))), (number, "0o660")
    with tempfile.TemporaryDirectory(prefix="logins-", dir=ROOM) as room:
        found = started(room, "--socket", "s", "--socket-group", "nobody-has-this")
        yield "sockets: a group that there isn't", (found[0], found[1]), (1, "")
        for mode in ("0800", "1777", "66", "rw", "-1", ""):
            yield f"sockets: mode {mode or 'of no digit'}", started(room, "--socket", "s", f"--socket-mode={mode}")[0], 2


# Commands and the least role that may do what they do; what is refused is told as any refusal is.
VERBS = [
    ("status", "monitor"),
    ("status --format prometheus", "monitor"),
    ("branches", "monitor"),
    ("recover --name n", "client"),
    ("commit --name n --yes 1:aa:", "client"),
    ("forget --name n --yes 1:bb:", "client"),
    ("decide --yes commit 1:cc:", "operator"),
    ("doom --yes 1:dd:", "operator"),
    ("disconnect --yes 99", "operator"),
    ("trim", "operator"),
    ("restart --yes", "operator"),
]
RANKS = {"eve": 1, "ada": 2, "duty": 3}
LEAST = {"monitor": 1, "client": 2, "operator": 3}
DENIED = "xarm: -5 XAER_INVAL Access\n"


class Logged:
    """Commands with a user, and the file of the secret."""

    def __init__(self, server, secret):
        self.at, self.secret = ["--port", str(server.port)], secret

    def run(self, name, words, given="", secret=None, **more):
        """The status of a command, what it prints and what it tells."""
        env = {**os.environ, "XARM_PASSWORD_FILE": secret or self.secret, **more}
        env = {key: value for key, value in env.items() if value is not None}
        command = [clients.PROGRAM, *words.split(), *self.at, *(["--user", name] if name else [])]
        # in a session of its own, so that it has no terminal
        how = {"env": env, "capture_output": True, "timeout": LIMIT, "check": False, "start_new_session": True}
        ran = subprocess.run(command, input=given.encode(), **how)
        return ran.returncode, ran.stdout.decode(), ran.stderr.decode()

    def run_typed(self, name, words, typed, given=""):
        """The same of one that is to ask for the secret at a terminal of its own, where this is typed."""
        end, side = pty.openpty()
        env = {key: value for key, value in os.environ.items() if key != "XARM_PASSWORD_FILE"}
        how = {"stdin": subprocess.PIPE, "stdout": subprocess.PIPE, "stderr": subprocess.PIPE, "env": env, "start_new_session": True}
        command = [clients.PROGRAM, *words.split(), *self.at, "--user", name]
        with subprocess.Popen(command, preexec_fn=lambda: fcntl.ioctl(side, termios.TIOCSCTTY, 0), pass_fds=(side,), **how) as ran:
            os.close(side)
            os.write(end, typed.encode())
            try:
                printed, told = ran.communicate(given.encode(), timeout=LIMIT)
            finally:
                ran.kill()
        os.close(end)
        return ran.returncode, printed.decode(), told.decode()


def commands():
    """Commands that log in."""
    with tempfile.TemporaryDirectory(prefix="logins-", dir=ROOM) as room:
        users = "".join(user(name, role, verifier(SECRET)) for name, role in (("eve", "monitor"), ("ada", "client"), ("duty", "operator")))
        path = put_file(os.path.join(room, "users"), users)
        secret = put_file(os.path.join(room, "secret"), f"{SECRET}\nnot this\n")
        with Server("--loops", "2", "--users", path) as server:
            logged = Logged(server, secret)
            yield from talks(logged)
            yield from verbs(logged)
            yield from who_is_at_work(logged, server)
            yield from secrets(logged, room)
            yield "commands: a shutdown by a client", (logged.run("ada", "shutdown")[0] != 0, server.is_up()), (True, True)
            yield "commands: by who hasn't logged in", (logged.run(None, "shutdown")[0] != 0, server.is_up()), (True, True)
            yield "commands: by an operator", (logged.run("duty", "shutdown"), server.end_and_print()[0]), ((0, "", ""), 0)
        with Server("--loops", "2") as server:
            status, printed, told = Logged(server, secret).run("ada", "talk", "connect\n")
            yield "commands: a server that takes no logins", (status, printed, told.count("\n")), (1, "", 1)
        # it takes the secret for proved, but its own proof is made by another key
        text = verifier(SECRET).rpartition(":")[0] + f":{OWN}"
        with Server("--loops", "2", "--users", put_file(path, user("duty", "operator", text))) as server:
            logged, line = Logged(server, secret), "the server doesn't know the secret's verifier: it isn't who it says\n"
            for words, given in (("talk", "connect\n1 open TMNOFLAGS n\n"), ("status", ""), ("restart --yes", ""), ("shutdown", "")):
                status, printed, told = logged.run("duty", words, given)
                found = status in (1, 3), printed, told.count("\n"), told.endswith(line), server.is_up()
                yield f"commands: {words}: a server that doesn't know the verifier", found, (True, "", 1, True, True)


def talks(logged):
    script = "".join(f"{line}\n" for line in ("connect", OPEN, "1 start TMNOFLAGS 1:aa:", "1 put 6b 76", "1 get 6b", "1 restart"))
    status, printed, told = logged.run("ada", "talk", script)
    lines = [re.sub(r" number \d+", "", line) for line in printed.splitlines()]
    yield "commands: a talk", (status, lines, told), (0, [OK, OK, OK, OK, f"{OK} value 76", "-5 Access"], "")
    status, printed, told = logged.run(None, "talk", "connect\n1 status\n")
    yield "commands: a talk of who hasn't logged in", (status, printed.splitlines()[1:], told), (0, ["-5 Access"], "")
    how = {"stdout": subprocess.DEVNULL, "stderr": subprocess.PIPE, "env": {**os.environ, "XARM_PASSWORD_FILE": logged.secret}}
    found = {}
    for name in ("ada", "duty"):
        with subprocess.Popen([clients.PROGRAM, "tick", *logged.at, "--user", name], **how) as ran:
            # it tells of a refusal, and goes on
            is_told = bool(select.select([ran.stderr], [], [], PATIENCE if name == "ada" else 0.7)[0])
            found[name] = is_told and b"tick refused" in os.read(ran.stderr.fileno(), 1000), ran.poll()
            ran.kill()
    yield "commands: a tick by a client is refused, by an operator it isn't", found, {"ada": (True, None), "duty": (False, None)}


def verbs(logged):
    for words, least in VERBS:
        for name, rank in RANKS.items():
            found = logged.run(name, words)
            is_denied = found == (1, "", DENIED)
            yield f"commands: {words}, by {name}", is_denied or ("Access" in found[2] and found), rank < LEAST[least]


def who_is_at_work(logged, server):
    """A monitor lists branches, and isn't told which sessions are at work for them."""
    peer = Caller(server)
    assert peer.log_in("ada", SECRET)
    for line in (OPEN, "1 start TMNOFLAGS 1:ee:"):
        peer.ask(line)
    found = {name: logged.run(name, "branches") for name in ("eve", "duty")}
    told = {name: (status, "1:ee:" in printed, printed.splitlines()[-1][-2:] == " -") for name, (status, printed, _) in found.items()}
    yield "commands: branches with one at work", told, {"eve": (0, True, True), "duty": (0, True, False)}
    peer.close()


def secrets(logged, room):
    """What is wrong with a secret, or with the file that has it: it is told in a line, with status 1."""
    at = f"127.0.0.1:{logged.at[1]}"
    wrong = {
        "another secret": ("ada", put_file(os.path.join(room, "another"), "pensile\n"), at, "ada"),
        "a name that nobody has": ("nobody", logged.secret, at, "nobody"),
        "a file that isn't there": ("ada", os.path.join(room, "none"), os.path.join(room, "none"), ""),
        "a folder": ("ada", room, room, ""),
        "one that the group may read": ("ada", put_file(os.path.join(room, "grouped"), SECRET, 0o640), "grouped", ""),
        "one that others may read": ("ada", put_file(os.path.join(room, "open"), SECRET, 0o604), "open", ""),
        "an empty one": ("ada", put_file(os.path.join(room, "empty"), ""), "empty", ""),
        "an empty first line": ("ada", put_file(os.path.join(room, "line"), f"\n{SECRET}\n"), "line", ""),
        "one of 1,025 bytes": ("ada", put_file(os.path.join(room, "long"), "x" * 1025 + "\n"), "long", ""),
    }
    for title, (name, secret, *words) in wrong.items():
        found = logged.run(name, "status", secret=secret)
        is_so = found[0] in (1, 3) and found[1] == "" and found[2].count("\n") == 1 and all(word in found[2] for word in words)
        yield f"secrets: {title}", is_so and not_told(found[2]) or found, True
    status, printed, told = logged.run("ada", "status", XARM_PASSWORD_FILE=None)
    yield "secrets: none is named", (status in (1, 3), printed, "XARM_PASSWORD_FILE" in told), (True, "", True)
    yield from typed_secrets(logged)
    for title, text in {"no line feed at its end": SECRET, "more lines": f"{SECRET}\n\nmore"}.items():
        path = put_file(os.path.join(room, "good"), text)
        yield f"secrets: {title}", logged.run("ada", "status", secret=path)[0], 0


def typed_secrets(logged):
    """Secrets that are typed, beside a script."""
    question = "Secret of ada: "
    status, printed, told = logged.run_typed("ada", "status", f"{SECRET}\n")
    yield "secrets: typed", (status, printed.startswith("boot "), told), (0, True, question)
    status, printed, told = logged.run_typed("ada", "talk", f"{SECRET}\n", "connect\n1 status\n")
    yield "secrets: typed, and a script", (status, len(printed.splitlines()), told), (0, 2, question)
    status, printed, told = logged.run_typed("ada", "status", "pensile\n")
    is_so = told.startswith(f"{question}xarm: 127.0.0.1:{logged.at[1]}: ada: ") and not_told(told)
    yield "secrets: another one is typed", (status in (1, 3), printed, is_so), (True, "", True)
    status, printed, told = logged.run_typed("ada", "status", "\n")
    yield "secrets: none is typed", (status in (1, 3), printed, told.startswith(f"{question}xarm: /dev/tty: ")), (True, "", True)


def not_told(told):
    """Whether a secret isn't told."""
    return SECRET not in told and "pensile" not in told


def adds(room, *words, given=""):
    """The status of an addition, what it prints and what it tells."""
    how = {"cwd": room, "capture_output": True, "timeout": LIMIT, "check": False}
    ran = subprocess.run([clients.PROGRAM, "user", "add", *words], input=given.encode(), **how)
    return ran.returncode, ran.stdout.decode(), ran.stderr.decode()


def keeps(text, name, role, secret):
    """Whether a file of users has this one, with a verifier of this secret."""
    found = re.search(rf'^\["?{re.escape(name)}"?\]\nrole = "{role}"\nverifier = "(SCRAM-SHA-256\$4096:([^$]*)\$[^"]*)"\n', text, re.M)
    if not found:
        return False
    salt = base64.b64decode(found[2], validate=True)
    salted.cache_clear()
    return len(salt) == 16 and verifier(secret, salt) == found[1]


INTO, BY = ("--users", "users"), ("--password-file", "secret")
# Words of an addition that is refused, what it is given, and its status; a name that is none may be a wrong word.
REFUSED = [
    ("a name that is there", ("ada", "--role", "monitor", *INTO, *BY), "", (1,)),
    ("a name that is none", ("a b", "--role", "monitor", *INTO, *BY), "", (1, 2)),
    ("no name", ("--role", "monitor", *INTO, *BY), "", (2,)),
    ("a role that there isn't", ("new", "--role", "admin", *INTO, *BY), "", (2,)),
    ("no role", ("new", *INTO, *BY), "", (2,)),
    ("no file", ("new", "--role", "client", *BY), "", (2,)),
    ("a file of the secret that isn't there", ("new", "--role", "client", *INTO, "--password-file", "none"), "", (1,)),
    ("no secret", ("new", "--role", "client", *INTO), "", (1,)),
    ("an empty secret", ("new", "--role", "client", *INTO), "\n", (1,)),
    ("a secret of 1,025 bytes", ("new", "--role", "client", *INTO), "x" * 1025 + "\n", (1,)),
]


def additions():
    """Users that are added to a file, also to one that isn't there yet."""
    with tempfile.TemporaryDirectory(prefix="logins-", dir=ROOM) as room:
        path = os.path.join(room, "users")
        secret = put_file(os.path.join(room, "secret"), "s3cret ü\nnot this\n")
        found = adds(room, "ada", "--role", "client", "--users", "users", "--password-file", "secret")

        def read():
            with open(path, encoding="utf-8") as file:
                return file.read()

        begun = read()
        yield "added: the first one", (found[:2], keeps(begun, "ada", "client", "s3cret ü")), ((0, ""), True)
        mode = oct(stat.S_IMODE(os.stat(path).st_mode))
        yield "added: its mode, and that the secret isn't in it", (mode, "s3cret" in begun), ("0o600", False)
        found = adds(room, "duty.1@x", "--role", "operator", "--users", "users", given="two words\nmore\n")
        grown = read()
        is_kept = keeps(grown, "duty.1@x", "operator", "two words")
        yield "added: another one, from standard input", (found[:2], "two words" in found[2], is_kept), ((0, ""), False, True)
        yield "added: what was there stays", grown.startswith(begun), True
        yield "added: its mode then", oct(stat.S_IMODE(os.stat(path).st_mode)), "0o600"
        for title, words, given, statuses in REFUSED:
            found = adds(room, *words, given=given)
            left = read() == grown, sorted(os.listdir(room))
            yield f"added: {title}: it is refused", (found[0] in statuses, found[1], *left), (True, "", True, ["secret", "users"])
        os.chmod(path, 0o640)
        found = adds(room, "new", "--role", "client", "--users", "users", "--password-file", "secret")
        found = found[:2], "users" in found[2], read() == grown
        yield "added: to a file that the group may read: it is refused", found, ((1, ""), True, True)
        os.chmod(path, 0o600)
        put_file(os.path.join(room, "wrong"), "[ada\n")
        found = adds(room, "new", "--role", "client", "--users", "wrong", "--password-file", "secret")
        yield "added: to a file that is none: it is refused", (found[:2], os.path.getsize(os.path.join(room, "wrong"))), ((1, ""), 5)
        with Server("--loops", "1", "--users", path) as server:
            pairs = ("ada", "s3cret ü"), ("duty.1@x", "two words"), ("ada", "two words")
            yield "added: a server lets them in", [Caller(server).log_in(*pair) for pair in pairs], [True, True, False]
