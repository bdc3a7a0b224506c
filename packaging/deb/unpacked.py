"""Debian packages that are unpacked into a folder, and the server that is run from there, for packaging/deb/test."""
import gzip
import os
import re
import shlex
import shutil
import signal
import socket
import subprocess

LIMIT = 55
UNIT = "lib/systemd/system/xarm.service"
SETTINGS = "etc/default/xarm"
# What a server tells that is reached by a port, and has no users.
OPEN = "xarm: warning: without --users, whoever can connect to 127.0.0.1 may do anything\n"


class Skipped(Exception):
    """A check's tool isn't installed, or its package wasn't given."""


def run(*words, **how):
    how = how if "input" in how or "stdin" in how else {"stdin": subprocess.DEVNULL, **how}
    return subprocess.run(words, capture_output=True, text=True, check=False, timeout=LIMIT, **how)


# What runs for long, each with its own processes.
LONG = []


def run_long(*words, **how):
    """The same, of what runs for long beside others, and can be ended by `end_long`."""
    pipes = {"stdin": subprocess.DEVNULL, "stdout": subprocess.PIPE, "stderr": subprocess.PIPE}
    with subprocess.Popen(words, text=True, start_new_session=True, **pipes, **how) as ran:
        LONG.append(ran)
        printed, told = ran.communicate()
    return subprocess.CompletedProcess(words, ran.returncode, printed, told)


def end_long():
    for ran in LONG:
        if ran.poll() is None:
            os.killpg(ran.pid, signal.SIGKILL)


def tool(name):
    if not shutil.which(name):
        raise Skipped(f"{name} isn't installed")
    return name


def same(found, wanted):
    """What a check that fails says."""
    return None if found == wanted else f"{found!r} and not {wanted!r}"


def ends(ran, printed):
    """What differs from an end with status 0 that prints this and tells nothing."""
    return same((ran.returncode, ran.stdout, ran.stderr), (0, printed, ""))


class Package:
    """The package `xarm`, and those of its clients that were made with it, unpacked into one folder, `tree`."""

    def __init__(self, debs, room):
        self.debs = {run("dpkg-deb", "-f", deb, "Package").stdout.strip(): deb for deb in debs}
        self.room, self.tree = room, f"{room}/tree"
        self.unpacked = {name: run("dpkg", "-x", deb, self.tree) for name, deb in self.debs.items()}
        self.program = f"{self.tree}/usr/bin/xarm"

    def with_clients(self, *names):
        """The folder, if it has these packages."""
        for name in names:
            if name not in self.debs:
                raise Skipped(f"{name} wasn't made")
        return self.tree

    def field(self, field, name="xarm"):
        return run("dpkg-deb", "-f", self.debs[name], field).stdout.strip()

    def control(self, file, name="xarm"):
        """A file of its control information; empty if it has none."""
        return run("dpkg-deb", "-I", self.debs[name], file).stdout

    def read(self, path):
        with open(f"{self.tree}/{path}", "rb") as file:
            found = file.read()
        return (gzip.decompress(found) if path.endswith(".gz") else found).decode()

    def put(self, name, text):
        """A file beside the tree."""
        with open(f"{self.room}/{name}", "w", encoding="utf-8") as file:
            file.write(text)
        return f"{self.room}/{name}"

    def help_of(self, *command):
        return run(self.program, *command, "--help").stdout

    def commands(self):
        part = self.help_of().split("\nCommands:\n")[1].split("\n\n")[0]
        return sorted(word for word in re.findall(r"^  ([a-z-]+) ", part, re.M) if word != "help")

    def settings(self):
        return {name: value.strip('"') for name, value in re.findall(r"^(\w+)=(.*)$", self.read(SETTINGS), re.M)}

    def of_unit(self, name):
        """What the service's unit sets a name to."""
        return re.search(rf"^{name}=(.*)$", self.read(UNIT), re.M).group(1)


def free_port():
    with socket.socket() as probe:
        probe.bind(("127.0.0.1", 0))
        return str(probe.getsockname()[1])


class Server:
    """The command lines of the service, with its settings, but on files in another folder and on a port that is free. If nothing else is said
    its loops tell no time, so that events can be counted."""

    def __init__(self, package, port, options="--tick 0", folder=None, handles=None, **how):
        self.package, self.folder, self.how = package, folder or package.room, how
        self.settings = {**package.settings(), "XARM_PORT": port, "XARM_OPTIONS": options}
        pipes = {"stdout": subprocess.PIPE, "stderr": subprocess.PIPE}
        words = self.words("ExecStart")
        if handles:
            words = ["/bin/sh", "-c", f'ulimit -n {handles} && exec "$@"', "sh", *words]
        self.ran = subprocess.Popen(words, text=True, env={}, **pipes, **how)

    def __enter__(self):
        return self

    def __exit__(self, *_):
        self.ran.kill()
        self.ran.communicate()

    def words(self, name):
        """A line of the unit, less its `-`. As in systemd `${NAME}` is a word, and `$NAME` any number of them."""
        line = self.package.of_unit(name).removeprefix("-")
        line = re.sub(r"\$\{(\w+)\}", lambda it: shlex.quote(self.settings[it.group(1)]), line)
        line = re.sub(r"\$(\w+)", lambda it: self.settings[it.group(1)], line)
        line = re.sub(r"/usr/(bin|libexec)/xarm", lambda it: self.package.tree + it.group(0), line)
        return shlex.split(line.replace("/var/lib/xarm", self.folder))

    def unready(self):
        """What is wrong, if it doesn't say that it is ready."""
        return None if self.ran.stdout.readline() == "ready\n" else f"not ready: {self.end(signal.SIGKILL)}"

    def end(self, by):
        self.ran.send_signal(by)
        printed, told = self.ran.communicate()
        return self.ran.returncode, printed, told

    def beside(self, name):
        """What a command beside the server comes to, as systemd runs it."""
        ran = run(*self.words(name), env={"PATH": "/usr/sbin:/usr/bin:/sbin:/bin", "MAINPID": str(self.ran.pid)}, **self.how)
        return ran.returncode, ran.stdout, ran.stderr

    def stop(self):
        """What the service's stop comes to, and then its end."""
        stop = self.beside("ExecStop")
        printed, told = self.ran.communicate(timeout=20)
        # by whichever port the stop came
        return stop, (self.ran.returncode, printed, re.sub(r"127\.0\.0\.1:\d+: ", "PEER: ", told))
