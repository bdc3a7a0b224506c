"""Commands on a terminal: what can't be taken back and is asked for there, and scripts that are typed."""
import contextlib
import errno
import os
import pty
import re
import select
import socket
import subprocess
import termios
import threading
import time

import plays
from clients import OPEN, PROGRAM, Server
from frames import LIMIT, free_port, request
from operated import AT_FIRST, ORDERS, REFUSED, Served, changed, xarm

PROMPT = "xarm> "
# What ends the input of who types it at the begin of a line.
END = "\4"


class Terminal:
    """A command whose standard input, standard error or both are a terminal, which shows only what the command writes."""

    def __init__(self, *words, typed=True, watched=True):
        self.end, side = pty.openpty()
        modes = termios.tcgetattr(side)
        modes[1] &= ~termios.OPOST
        modes[3] &= ~termios.ECHO
        termios.tcsetattr(side, termios.TCSANOW, modes)
        given, told = side if typed else subprocess.PIPE, side if watched else subprocess.PIPE
        self.ran = subprocess.Popen([PROGRAM, *words], stdin=given, stdout=subprocess.PIPE, stderr=told)
        os.close(side)
        self.shown = b""
        self.until = time.monotonic() + LIMIT

    def shows(self):
        """Takes what is shown next; nothing once nobody can show more."""
        if not select.select([self.end], [], [], max(0, self.until - time.monotonic()))[0]:
            raise TimeoutError(self.shown)
        try:
            more = os.read(self.end, 65536)
        except OSError as error:
            if error.errno != errno.EIO:
                raise
            more = b""
        self.shown += more
        return bool(more)

    def answers(self, question, answer):
        """Types an answer once this question is the last that is shown, if it ever is."""
        while not self.shown.endswith(question.encode()):
            if not self.shows():
                return
        os.write(self.end, answer.encode())

    def ended(self, given=""):
        """Its status, what it printed, what it told beside the terminal, and what it showed there."""
        if self.ran.stdin:
            # one that takes no input may have ended before
            with contextlib.suppress(BrokenPipeError):
                self.ran.stdin.write(given.encode())
                self.ran.stdin.close()
            self.ran.stdin = None
        try:
            while self.shows():
                pass
            printed, told = self.ran.communicate(timeout=LIMIT)
        finally:
            self.ran.kill()
            os.close(self.end)
        return self.ran.returncode, printed.decode(), (told or b"").decode(), self.shown.decode()


def asked(words, answer, question):
    """The same of a command that is given this answer to its question."""
    terminal = Terminal(*words)
    terminal.answers(question, answer)
    return terminal.ended()


def previews(server):
    """What is shown first for the words of a command: the line of the branch, or what becomes of which branches."""
    rows = {line.split()[0]: f"{line}\n" for line in server.run("branches")[1].splitlines()}
    working = [xid for xid, row in rows.items() if row.split()[1] == "working"]
    marked = [xid for xid in working if rows[xid].split()[2] != "0" and rows[xid].split()[4:7] == ["0", "0", "0"]]
    at_work = f"branches at work {len(working)}\n"
    whole = {"restart": at_work, "disconnect": at_work, "rollback-marked": "".join(rows[xid] for xid in marked)}
    return lambda words: whole.get(words[0], rows.get(words[-1], ""))


def question_of(words):
    """A command's words without options, as a question."""
    command, *rest = [word for word in words if word not in ("--yes", "--")]
    if rest[:1] == ["--name"]:
        rest = rest[2:]
    return " ".join([command, *rest]) + "? [y/N] "


MARKED = ("rollback-marked", "--name", "n", "--yes"), {"-3:03:ff": None, "1:02:": None}
# No other line than y and yes has it done.
DECLINING = "n\n", "\n", "no\n", "Y\n", "yes \n", " y\n", "yy\n", "ye\n", "maybe\n", END


def asks():
    """What can't be taken back is done once it is answered by yes, and not otherwise."""
    for count, (words, changes) in enumerate([*ORDERS, MARKED]):
        named = " ".join(words)
        with Served() as server:
            question = question_of(words)
            before = previews(server)(words)
            asking = [words[0], *server.at, *(word for word in words[1:] if word != "--yes")]
            for answer in DECLINING if words[0] == "commit" else DECLINING[:1]:
                found = asked(asking, answer, question), server.states()
                yield f"{named}: asked, {answer!r}", found, ((1, "", "", f"{before}{question}xarm: not done\n"), AT_FIRST)
            printed = "-3:03:ff 101\n1:02: 101\n" if words[0] == "rollback-marked" else ""
            answer = ("y\n", "yes\n")[count % 2]
            found = asked(asking, answer, question), server.states()
            yield f"{named}: asked, {answer!r}", found, ((0, printed, "", f"{before}{question}"), changed(changes))
    with Served() as server:
        commit = ["commit", *server.at, "--name", "n"]
        found = asked([*commit, "9:99:"], "y\n", "9:99:? [y/N] ")
        yield "commit: asked, of no branch", found, (1, "", "", "commit 9:99:? [y/N] xarm: -4 XAER_NOTA\n")
        found = Terminal(*commit, "1:06:", typed=False).ended("y\n")
        shown = REFUSED + "commit the prepared branch 1:06:\n\nGive --yes to do it.\n"
        yield "commit: from a pipe", (found, server.states()), ((2, "", "", shown), AT_FIRST)
        terminal = Terminal(*commit, "1:06:", watched=False)
        os.write(terminal.end, b"n\n")
        told = previews(server)(["commit", "1:06:"]) + "commit 1:06:? [y/N] xarm: not done\n"
        yield "commit: asked beside the terminal", (terminal.ended(), server.states()), ((1, "", told, ""), AT_FIRST)
        script = xarm("commit", "--name", "n", "--print-script", "1:06:")[1]
        yield "commit: --print-script", Terminal(*commit, "--print-script", "1:06:").ended(), (0, script, "", "")
        yield "commit: --yes", (Terminal(*commit, "--yes", "1:06:").ended(), server.states()), ((0, "", "", ""), changed({"1:06:": None}))
    nowhere = str(free_port())
    told = f"xarm: cannot connect to 127.0.0.1:{nowhere}: Connection refused (os error 111)\n"
    yield "doom: no server", Terminal("doom", "--port", nowhere, "1:aa:").ended(), (3, "", "", told)
    status, printed, told, shown = Terminal("doom", "1:aa:").ended()
    wanted = "error: the following required arguments were not provided:\n  --port <P> or --socket <PATH>"
    yield "doom: nowhere", (status, printed, told, shown[: len(wanted)]), (2, "", "", wanted)
    yield from ((f"{answer!r}: what is asked of the server", *row) for answer in DECLINING for row in sent(answer))


def sent(answer):
    """What reaches a server before somebody says yes: one connection, which asks for its branches."""
    with socket.socket() as listening:
        listening.bind(("127.0.0.1", 0))
        listening.listen()
        listening.settimeout(LIMIT)
        came, look = [], request("1 branches 256")

        def serve():
            with listening.accept()[0] as client:
                client.settimeout(LIMIT)
                came.append(client.recv(len(look), socket.MSG_WAITALL))
                # No branch is known.
                client.sendall(bytes([0, 0, 0, 17, 1]) + bytes(13) + bytes([5, 0, 0]))
                came.extend(iter(lambda: client.recv(1024), b""))

        serving = threading.Thread(target=serve)
        serving.start()
        words = "decide", "--port", str(listening.getsockname()[1]), "commit", "1:aa:"
        found = asked(words, answer, "decide commit 1:aa:? [y/N] ")
        serving.join()
        listening.settimeout(0)
        try:
            listening.accept()[0].close()
            came.append("another connection")
        except BlockingIOError:
            pass
        wanted = 1, "", "", "decide commit 1:aa:? [y/N] xarm: not done\n"
        yield (found, came), (wanted, [look])


def calls():
    """Each call with its arguments, as docs/SCRIPT.md has them."""
    with open(os.path.join(plays.TOP, "docs/SCRIPT.md"), encoding="utf-8") as page:
        listed = page.read().split("## Lines")[1].split("Disk faults")[0]
    return "".join(f"{call}\n" for row in re.findall(r"^- (`.*)", listed, re.M) for call in re.findall("`([^`]*)`", row.partition(": ")[0]))


def talks():
    """Scripts that are typed: each line is asked for, and help is given."""
    script = ["connect", "help", OPEN, "hlep", "1 hangup"]
    replies = ["0 Nothing number 1\n", calls(), "0 Nothing\n", "-5 Frame\n", "0 Nothing\n"]
    unhelped = "".join(reply if line != "help" else "-5 Frame\n" for line, reply in zip(script, replies))
    mistakes = "xarm: line 2: line: help\nxarm: line 4: line: hlep\n"
    typed = "".join(f"{line}\n" for line in script)
    with Server() as server:
        talk = "talk", "--port", str(server.port)
        terminal = Terminal(*talk)
        shown = ""
        for line in [*script, None]:
            shown += PROMPT
            terminal.answers(shown, f"{line}\n" if line else END)
            shown += "xarm: line 4: line: hlep\n" if line == "hlep" else ""
        yield "talk: typed", terminal.ended(), (0, "".join(replies), "", shown)
        yield "talk: from a pipe", Terminal(*talk, typed=False).ended(typed), (0, unhelped, "", mistakes)
        terminal = Terminal(*talk, watched=False)
        os.write(terminal.end, (typed + END).encode())
        yield "talk: told beside the terminal", terminal.ended(), (0, unhelped, mistakes, "")
        yield "talk: by no terminal", xarm(*talk, given=typed), (0, unhelped, mistakes)
