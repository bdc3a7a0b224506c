"""What tests expect."""

import contextlib

import xarm
from xarm import Code, Detail


def equal(found, wanted):
    assert found == wanted, f"{found!r} and not {wanted!r}"


@contextlib.contextmanager
def raises(kind, code, detail=Detail.Nothing):
    """An error of just this class, with this code and detail."""
    try:
        yield
    except xarm.Error as fault:
        assert (type(fault), fault.code, fault.detail) == (kind, code, detail), f"{fault!r} and not {kind.__name__} {code.name}"
    else:
        raise AssertionError(f"nothing was raised, and not {code.name}")


def refuses(code, detail=Detail.Nothing):
    """A call that doesn't fit."""
    return raises(xarm.ProgrammingError, code, detail)


def is_lost():
    return raises(xarm.ConnectionLost, Code.XAER_RMFAIL)


@contextlib.contextmanager
def is_no_value():
    """An argument beyond its limits, which isn't sent."""
    try:
        yield
    except (ValueError, OverflowError) as fault:
        assert not isinstance(fault, xarm.Error)
    else:
        raise AssertionError("it was taken")


def name(text, bqual=b"b"):
    return xarm.xid(1, text, bqual)


def works(connection, of, key, value=b"v"):
    """A branch that wrote a record, and whose work is ended."""
    connection.xa_start(of)
    connection.put(key, value)
    connection.xa_end(of)


def value(connection, key):
    """What a key has for a branch that begins now."""
    reader = name("reader")
    connection.xa_start(reader)
    found = connection.get(key)
    connection.xa_end(reader)
    connection.xa_commit(reader, xarm.Flags.TMONEPHASE)
    return found
