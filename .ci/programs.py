"""The program that a script of .ci/ looks at: the one that its first word names, if that is no option, or else the one that `rt ci`, or
`rt run` in crates/xarm, has built."""
import os
import sys

TOP = os.path.abspath(os.path.join(os.path.dirname(os.path.abspath(__file__)), ".."))


def first_word():
    """The first word, which is taken out of the words, or what is built."""
    if sys.argv[1:] and not sys.argv[1].startswith("-"):
        return os.path.abspath(sys.argv.pop(1))
    return os.path.join(TOP, "crates/xarm/out/xarm")


PROGRAM = first_word()
