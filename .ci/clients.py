"""Servers by loops and their clients, for what looks at how these are served."""
import os
import re
import resource
import subprocess
import tempfile
import time

import plays
from frames import LIMIT, ROOM, Peer, free_port, placeless, request, shown, timeless
from programs import PROGRAM

# The longest that who behaves well waits for a reply, in seconds, on a machine that is busy with other things.
PATIENCE = 10
OK = "0 Nothing"
OPEN = "1 open TMNOFLAGS n"
# What a server tells that was asked to end, by a port.
ENDING = "xarm: PEER: shutdown\nxarm: shutdown\n"


class Server:
    """A server in a new folder, with this many file handles, on these cores, or with the library of .ci/files.c before its calls on files; by a
    port, or by a socket; it tells nothing of who may connect, if that is so."""

    def __init__(self, *words, handles=None, env=None, tells=(), library=None, by_socket=False, stderr=None, cores=None, is_open=True):
        self.room = tempfile.TemporaryDirectory(prefix="served-", dir=ROOM)
        self.port = os.path.join(self.room.name, "s") if by_socket else free_port()
        self.told = open(os.path.join(self.room.name, "told"), "w+b")
        at = "--socket" if by_socket else "--port"
        opens = ["--open-to-all"] if is_open else []
        serve = [PROGRAM, "serve", *opens, "--log", "l", "--name", "n", at, str(self.port), *timeless(*words), *words]
        if handles:
            serve = ["bash", "-c", f'ulimit -S -n {handles} && exec "$@"', "bash", *serve]
        how = {**os.environ, **(env or {}), **({"LD_PRELOAD": library, "FAULTS": "faults"} if library else {})}
        pipes = {"stdout": subprocess.PIPE, "stderr": stderr or self.told, "pass_fds": tells}
        if cores:
            serve = ["taskset", "-c", ",".join(map(str, cores)), *serve]
        self.ran = subprocess.Popen(serve, cwd=self.room.name, env=how, **pipes)

    def __enter__(self):
        assert self.ran.stdout.readline() == b"ready\n", self.has_told()
        return self

    def __exit__(self, *_):
        self.ran.kill()
        self.ran.communicate()
        self.told.close()
        self.room.cleanup()

    def has_told(self):
        with open(self.told.name, encoding="utf-8") as told:
            return told.read()

    def end_and_print(self):
        printed, _ = self.ran.communicate(timeout=LIMIT)
        return self.ran.returncode, printed.decode(), placeless(self.has_told())

    def peer(self, *receives):
        return Peer(self.port, *receives)

    def put(self, name, text=""):
        """Puts a file into its folder, or takes it away."""
        path = os.path.join(self.room.name, name)
        if text is None:
            os.remove(path)
            return
        with open(f"{path}.new", "w", encoding="utf-8") as file:
            file.write(text)
        os.replace(f"{path}.new", path)

    def fault(self, text=""):
        """From now on calls on its files fail so, or none does."""
        self.put("faults", text)

    def is_up(self):
        return self.ran.poll() is None

    def resident(self):
        """Its resident memory, in KiB."""
        with open(f"/proc/{self.ran.pid}/status", encoding="utf-8") as status:
            return int(re.search(r"VmRSS:\s+(\d+) kB", status.read()).group(1))

    def processor_seconds(self):
        with open(f"/proc/{self.ran.pid}/stat", encoding="utf-8") as stat:
            return sum(map(int, stat.read().rsplit(")", 1)[1].split()[11:13])) / os.sysconf("SC_CLK_TCK")


def took(what):
    """How long a call took, in seconds, and what it came to."""
    began = time.monotonic()
    found = what()
    return time.monotonic() - began, found


def until(is_so, seconds=PATIENCE):
    """Whether something is so before long, and after how many seconds."""
    began = time.monotonic()
    while time.monotonic() - began < seconds:
        if is_so():
            return time.monotonic() - began
        time.sleep(0.002)
    return None


def asks(peer, lines):
    """What lines that are sent at once are answered, without the numbers; that it was closed, or that no reply came, in place of the rest."""
    try:
        peer.socket.sendall(b"".join(map(request, lines)))
    except ConnectionError:
        return ["closed"]
    return next(replies([peer], len(lines)))


def replies(peers, count):
    """The same of this many lines that were sent over each connection."""
    until = time.monotonic() + PATIENCE
    for peer in peers:
        found = []
        try:
            while len(found) < count:
                peer.socket.settimeout(max(0.001, until - time.monotonic()))
                content = peer.reply()
                found.append(shown(content)[1].partition(" number ")[0] if content else "closed")
                if not content:
                    break
        except TimeoutError:
            found.append("nothing")
        yield found


def rests(peers):
    """What still comes over each connection until it is closed; that one isn't."""
    until = time.monotonic() + PATIENCE
    for peer in peers:
        peer.socket.settimeout(max(0.001, until - time.monotonic()))
        try:
            yield peer.rest()
        except TimeoutError:
            yield "open"
        except ConnectionError:
            yield b""


def begin(peer, xid, key="6b"):
    """A branch that can be prepared or committed, of a session that is opened for it."""
    found = asks(peer, [OPEN, f"1 start TMNOFLAGS {xid}", f"1 put {key} 76", f"1 end TMSUCCESS {xid}"])
    assert found == [OK] * 4, found


def is_open_again(server):
    """Whether a new connection is answered, before long."""
    until = time.monotonic() + PATIENCE
    while time.monotonic() < until:
        peer = server.peer()
        if peer.ask(OPEN) == OK:
            return True
        peer.close()
    return False


def is_closed(peer, seconds):
    """Whether a connection is closed within this many seconds, with no byte before."""
    peer.socket.settimeout(seconds)
    try:
        return peer.socket.recv(1) == b""
    except TimeoutError:
        return False
    except ConnectionError:
        return True
    finally:
        peer.socket.settimeout(LIMIT)


def status(peer):
    """How a server is doing, by the names of its numbers."""
    words = peer.ask("1 status").split()[3:]
    return dict(zip(words[::2], map(int, words[1::2])))


def is_answered(peer, seconds):
    """Whether an Open is answered within this many seconds."""
    peer.socket.settimeout(seconds)
    try:
        return shown(peer.reply())[1] == OK
    except TimeoutError:
        return False
    finally:
        peer.socket.settimeout(LIMIT)


# How often what takes time is looked at, where something else on the machine may have taken it.
TRIES = 3


def again(rows, *given):
    """What was found, or, where not all of it was what was wanted, what is found another time."""
    for _ in range(TRIES):
        found = []
        try:
            found += rows(*given)
        # whatever breaks, a reply that is none or isn't there, is a mistake of the server
        except Exception as error:
            found.append((f"{rows.__name__}: it comes to its end", repr(error), None))
        if all(is_so == wanted for _, is_so, wanted in found):
            break
    yield from found


def with_handles():
    """Lets this process have as many file handles as it may."""
    soft, hard = resource.getrlimit(resource.RLIMIT_NOFILE)
    resource.setrlimit(resource.RLIMIT_NOFILE, (max(soft, min(hard, 4096)), hard))


def told_of(name, checks):
    """Prints each check, a name with what was found and what was wanted, and how many passed and failed; the status."""
    if not os.path.isfile(PROGRAM):
        print(f"{name}: the program was not built: rt ci builds it, or rt run in crates/xarm\n0 passed, 1 failed")
        return 1
    passed = failed = 0
    for what, found, wanted in checks():
        is_well = found == wanted
        passed, failed = passed + is_well, failed + (not is_well)
        print(f"{what} ... {'ok' if is_well else f'FAILED: {str(found)[:500]} and not {str(wanted)[:500]}'}", flush=True)
    print(f"{passed} passed, {failed} failed")
    return 1 if failed else 0
