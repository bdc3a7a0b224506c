"""Parts of scripts that are put together of tables (disks.py, limits.py). A part is a list of lines, each with its reply, which is empty
where nothing is printed.
"""
OK, LOST, REFUSED = "0 Nothing", "-7 Device", "-3 Device"
# A reply that ends with the timestamp of the branch that is started, which `numbered` puts in: that of the boot times this, and its place.
NUMBER = "0 Nothing number"
BOOT = 1 << 32

P1 = [("connect", "0 Nothing number 1"), ("1 open TMNOFLAGS xarm", OK)]
# Session 1 works for 1:aa:bb, and leaves it.
WRITTEN = [("1 start TMNOFLAGS 1:aa:bb", NUMBER), ("1 put 6b 76", OK), ("1 end TMSUCCESS 1:aa:bb", OK)]
PREPARED = [("1 prepare TMNOFLAGS 1:aa:bb", OK)]
COMMITTED = [("1 commit TMNOFLAGS 1:aa:bb", OK)]
DECIDED = [("1 decide commit 1:aa:bb", OK)]
RESTART, REOPEN, CRASH = [("1 restart", OK)], [("reopen", OK)], [("crash", OK)]
# Recovery lists it, or nothing.
LISTED = [("1 recover TMSTARTRSCAN|TMENDRSCAN 10", "1 Nothing xids 1:aa:bb")]
NONE_LISTED = [("1 recover TMSTARTRSCAN|TMENDRSCAN 10", "0 Nothing xids")]
# The operator committed it, which is answered until it is forgotten.
HEURISTIC = [("1 commit TMNOFLAGS 1:aa:bb", "7 Nothing"), ("1 rollback TMNOFLAGS 1:aa:bb", "7 Nothing")]
FORGOTTEN = [("1 forget TMNOFLAGS 1:aa:bb", OK), ("1 forget TMNOFLAGS 1:aa:bb", "-4 Nothing")]
BEGUN = [("1 start TMNOFLAGS 1:cc:", NUMBER)]
READ, ABSENT = [("1 get 6b", "0 Nothing value 76")], [("1 get 6b", "0 Nothing absent")]

REOPENED, CRASHED = REOPEN + P1, CRASH + P1

# What was played before a call: 1:aa:bb is left, prepared, or committed by the operator.
AT_WORK = WRITTEN
VOTED = WRITTEN + PREPARED
BY_OPERATOR = VOTED + DECIDED


def numbered(*parts):
    """The lines of parts, with the timestamps of their branches."""
    boot, count, lines = 1, 0, []
    for line, reply in sum(parts, []):
        if reply == NUMBER:
            count += 1
            reply = f"{NUMBER} {boot * BOOT + count}"
        elif reply == OK and (line in ("reopen", "1 restart") or line.startswith("crash")):
            boot, count = boot + 1, 0
        lines.append((line, reply))
    return lines


def played(lines):
    """A script as it is played, and what it prints."""
    return "".join(f"{line}\n" for line, _ in lines), "".join(f"{reply}\n" for _, reply in lines if reply)
