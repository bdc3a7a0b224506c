"""The scripts of examples/ and tests/, each with what it prints (tests/README.md)."""
import glob
import importlib
import os
import re
import sys
from typing import NamedTuple

TOP = os.path.abspath(os.path.join(os.path.dirname(os.path.abspath(__file__)), ".."))
# How a script of examples/ is to be played, in its head; and the line that begins a script of tests/.
RUN = re.compile(rb"^# Run it with: +xarm play (.*)< ", re.M)
HEAD = re.compile(rb"^## (.*)\n", re.M)
ESCAPE = re.compile(rb"\\(?:\n|r|x([0-9a-f]{2}))")


class Play(NamedTuple):
    """A script, where it stands, the options of `xarm play`, and what a terminal shows then: the replies, and the line of a fault."""

    name: str
    options: list[str]
    script: bytes
    shown: bytes

    def status(self):
        return 1 if self.shown.rpartition(b"\n")[0].rpartition(b"\n")[2].startswith(b"xarm: ") else 0

    def words(self):
        return ["play", *self.options]


def unescaped(text):
    """A script as it is played: `\\xHH` is a byte, `\\r` a carriage return, and a line that ends with `\\` lacks its line feed."""
    return ESCAPE.sub(lambda it: bytes.fromhex(it[1].decode()) if it[1] else b"\r" if it[0] == b"\\r" else b"", text)


def read(path):
    with open(path, "rb") as file:
        return file.read()


def examples():
    for path in sorted(glob.glob(f"{TOP}/examples/*.xa")):
        script = read(path)
        run = RUN.search(script)
        yield Play(os.path.relpath(path, TOP), run[1].decode().split(), script, read(path[:-3] + ".out"))


def tests():
    for path in sorted(glob.glob(f"{TOP}/tests/*.xa")):
        _, *scripts = HEAD.split(read(path))
        _, *outs = HEAD.split(read(path[:-3] + ".out"))
        name = os.path.relpath(path, TOP)
        assert scripts[::2] == outs[::2], f"{name} and its .out have other heads"
        for head, script, shown in zip(scripts[::2], scripts[1::2], outs[1::2]):
            title, dashes, options = head.decode().partition("--")
            yield Play(f"{name}: {title.rstrip(': ')}", (dashes + options).split(), unescaped(script), shown)


def module(name):
    """A module of tests/."""
    if f"{TOP}/tests" not in sys.path:
        sys.path.append(f"{TOP}/tests")
    return importlib.import_module(name)


def made():
    for name in ("disks", "limits"):
        for title, options, script, shown in module(name).plays():
            yield Play(f"tests/{name}.py: {title}", options, script.encode(), shown.encode())
