"""Scripts of disks that stop, or of which calls fail, with what they print: at each device call of the calls that log, of restarts,
openings and trims. What devices are asked by each call is said in docs/LOG.md.
"""
from parts import (
    OK, LOST, REFUSED, NUMBER, BOOT, P1, WRITTEN, COMMITTED, RESTART, REOPEN, CRASH, LISTED, NONE_LISTED, HEURISTIC, FORGOTTEN, BEGUN,
    READ, ABSENT, AT_WORK, VOTED, BY_OPERATOR, numbered, REOPENED, CRASHED, played,
)

# What is found after a crash: the branch in doubt, to be committed; or committed; or not at all; or decided.
IN_DOUBT = P1 + LISTED + COMMITTED + BEGUN + READ
DONE = P1 + NONE_LISTED + BEGUN + READ
GONE = P1 + NONE_LISTED + BEGUN + ABSENT
COMPLETED = P1 + LISTED + HEURISTIC + FORGOTTEN + BEGUN + READ

# What was played before a call that logs; the call; crashes that leave all bytes of its record but the last, and all of them; and what is
# found without the record, and with it. The record of a branch that is prepared, or committed in one phase, has 61 bytes; of one that is
# completed or decided, 46; and of a forgotten one, 45.
LOGGING = [
    (AT_WORK, "1 prepare TMNOFLAGS 1:aa:bb", ("crash 60", "crash 61"), GONE, IN_DOUBT),
    (AT_WORK, "1 commit TMONEPHASE 1:aa:bb", ("crash 60", "crash 61"), GONE, DONE),
    (VOTED, "1 commit TMNOFLAGS 1:aa:bb", ("crash 45", "crash 46"), IN_DOUBT, DONE),
    (VOTED, "1 rollback TMNOFLAGS 1:aa:bb", ("crash 45", "crash 46"), IN_DOUBT, GONE),
    (VOTED, "1 decide commit 1:aa:bb", ("crash 45", "crash 46"), IN_DOUBT, COMPLETED),
    (BY_OPERATOR, "1 forget TMNOFLAGS 1:aa:bb", ("crash 44", "crash 45"), COMPLETED, DONE),
]

# A restart syncs, measures and reads the current file. The other one, which is empty, is synced and measured, and then the new log is
# written to it: its front with a length 0 and a sync, two records and a sync, the first length, which has 4 bytes, and a sync. Where a disk
# stops, what the restart is answered, the crash that follows, and the boot that an opening begins then: the second where the new log wasn't
# there, the third where it was.
FIRST_RESTART = [
    ("stop 1", LOST, "crash", 2),
    ("stop 2", LOST, "crash", 2),
    ("stop 3", LOST, "crash", 2),
    ("stop 4", OK, "crash", 3),
    ("stop other 1", LOST, "crash", 2),
    ("stop other 2", LOST, "crash", 2),
    ("stop other 3", LOST, "crash", 2),
    ("stop other 4", LOST, "crash", 2),
    ("stop other 4", LOST, "crash other 5", 2),
    ("stop other 4", LOST, "crash other 12", 2),
    ("stop other 5", LOST, "crash", 2),
    ("stop other 6", LOST, "crash other 20", 2),
    ("stop other 7", LOST, "crash", 2),
    ("stop other 7", LOST, "crash other 16777216", 2),
    ("stop other 8", LOST, "crash", 2),
    ("stop other 9", LOST, "crash", 2),
    ("stop other 9", LOST, "crash 16777216", 2),
    ("stop other 9", LOST, "crash other 3", 2),
    ("stop other 9", LOST, "crash other 4", 3),
    ("stop other 10", OK, "crash", 3),
]
# The next one finds a log in the other file, and reads its front too.
SECOND_RESTART = [
    ("stop 3", LOST, "crash", 3),
    ("stop 4", OK, "crash", 4),
    ("stop other 3", LOST, "crash", 3),
    ("stop other 5", LOST, "crash other 12", 3),
    ("stop other 8", LOST, "crash other 16777216", 3),
    ("stop other 10", LOST, "crash", 3),
    ("stop other 10", LOST, "crash other 3", 3),
    ("stop other 10", LOST, "crash other 4", 4),
    ("stop other 11", OK, "crash", 4),
]

# A trim makes no call of the current file. To the other one it writes the new log: its front with a length 0 and a sync, two records and a
# sync, the first length, which has 4 bytes, and a sync.
TRIMMED = "0 Nothing number 110"
FIRST_TRIM = [
    ("stop 1", TRIMMED, "crash", 3),
    ("stop other 1", REFUSED, "crash", 2),
    ("stop other 2", REFUSED, "crash", 2),
    ("stop other 2", REFUSED, "crash other 5", 2),
    ("stop other 2", REFUSED, "crash other 12", 2),
    ("stop other 3", REFUSED, "crash", 2),
    ("stop other 4", REFUSED, "crash other 20", 2),
    ("stop other 5", REFUSED, "crash", 2),
    ("stop other 5", REFUSED, "crash other 16777216", 2),
    ("stop other 6", LOST, "crash", 2),
    ("stop other 7", LOST, "crash", 2),
    ("stop other 7", LOST, "crash 16777216", 2),
    ("stop other 7", LOST, "crash other 3", 2),
    ("stop other 7", LOST, "crash other 4", 3),
    ("stop other 8", TRIMMED, "crash", 3),
]
# The next one writes over the log of the first boot.
SECOND_TRIM = [
    ("stop 1", TRIMMED, "crash", 4),
    ("stop other 1", REFUSED, "crash", 3),
    ("stop other 2", REFUSED, "crash other 8", 3),
    ("stop other 2", REFUSED, "crash other 12", 3),
    ("stop other 3", REFUSED, "crash", 3),
    ("stop other 4", REFUSED, "crash other 16777216", 3),
    ("stop other 5", REFUSED, "crash other 16777216", 3),
    ("stop other 6", LOST, "crash", 3),
    ("stop other 7", LOST, "crash other 3", 3),
    ("stop other 7", LOST, "crash other 4", 4),
    ("stop other 8", TRIMMED, "crash", 4),
]
TRIM = [("1 trim", TRIMMED)]
BOOTS = [
    (VOTED, "1 restart", FIRST_RESTART),
    (VOTED + RESTART, "1 restart", SECOND_RESTART),
    (VOTED, "1 trim", FIRST_TRIM),
    (VOTED + TRIM, "1 trim", SECOND_TRIM),
]


def of_boot(lines, boot):
    """Lines after an opening that begins this boot."""
    return [(line, f"{NUMBER} {boot * BOOT + 1}" if reply == NUMBER else reply) for line, reply in lines]


def stopped():
    """Calls after which a disk stops. The first device call of one that logs writes the record, and the second one syncs it. Where the write
    has its effect, a crash may leave any front of the record."""
    for before, call, (short, whole), without, found in LOGGING:
        for stop, reply, crash, then in [
            ("stop 1", LOST, "crash", without),
            ("stop 1", LOST, "crash 16777216", without),
            ("stop 2", LOST, "crash", without),
            ("stop 2", LOST, "crash other 16777216", without),
            ("stop 2", LOST, short, without),
            ("stop 2", LOST, whole, found),
            ("stop 3", OK, "crash", found),
            ("stop other 1", OK, "crash", found),
            ("stop other 1", OK, "crash 0", found),
        ]:
            yield f"{call}: {stop}, {crash}", numbered(P1, before, [(stop, ""), (call, reply), (crash, OK)], then)
    for before, call, rows in BOOTS:
        for stop, reply, crash, boot in rows:
            lines = numbered(P1, before) + [(stop, ""), (call, reply), (crash, OK)]
            yield f"{call}: {stop}, {crash}", lines + of_boot(IN_DOUBT, boot)


# What was played before an opening; what is planned of one of its calls, before its number and after it; how many calls it makes of that
# disk, and the boot of an opening after it and a crash. It asks for the file's length, then a sync, a length and a read, where it isn't
# empty; and of the other file a checkpoint.
OPENINGS = [
    (VOTED, "stop", "", 4, 3),
    (VOTED, "stop other", "", 10, 3),
    (VOTED + RESTART, "stop", "", 4, 4),
    (VOTED + RESTART, "stop other", "", 11, 4),
    (VOTED, "fail", " lost", 4, 3),
    (VOTED, "fail other", " lost", 10, 3),
    (VOTED + RESTART, "fail", " kept", 4, 4),
    (VOTED + RESTART, "fail other", " kept", 11, 4),
]


def openings():
    """Openings that fail at each of their device calls, and those of which the call after the last one is planned to fail."""
    for before, plan, effect, calls, boot in OPENINGS:
        for call in range(1, calls + 2):
            lines = numbered(P1, before) + [(f"{plan} {call}{effect}", "")]
            title = f"reopen in boot {boot - 1}: {plan} {call}{effect}"
            if call <= calls:
                yield title, [*lines, ("reopen", "xarm: device fault")]
            else:
                yield title, lines + REOPEN + CRASH + of_boot(IN_DOUBT, boot)


# A device call fails, or two do.

# Each boot begins with a short snapshot, so a small log has room for any number of them.
SMALL = ["--log-bytes", "1024"]
# Before each call of a longer script the key has this value.
PUT_BACK = [("1 put 6b 75", OK), ("1 end TMSUCCESS 1:cc:", OK), ("1 commit TMONEPHASE 1:cc:", OK)]
HAS_75 = [("1 get 6b", "0 Nothing value 75")]
# The same as above, in a session that goes on.
STILL_IN_DOUBT = LISTED + COMMITTED + BEGUN + READ + PUT_BACK
STILL_DONE = NONE_LISTED + BEGUN + READ + PUT_BACK
STILL_GONE = NONE_LISTED + BEGUN + HAS_75 + PUT_BACK
STILL_COMPLETED = LISTED + HEURISTIC + FORGOTTEN + BEGUN + READ + PUT_BACK

# What is played before a call that logs; the call; its replies where the record is refused, and where it is asked again then; what is
# found without the record, and with it.
FAILING_CALLS = [
    (AT_WORK, "1 prepare TMNOFLAGS 1:aa:bb", REFUSED, OK, STILL_GONE, STILL_IN_DOUBT),
    (AT_WORK, "1 commit TMONEPHASE 1:aa:bb", REFUSED, "-4 Nothing", STILL_GONE, STILL_DONE),
    (VOTED, "1 commit TMNOFLAGS 1:aa:bb", "4 Device", OK, STILL_IN_DOUBT, STILL_DONE),
    (VOTED, "1 rollback TMNOFLAGS 1:aa:bb", REFUSED, OK, STILL_IN_DOUBT, STILL_GONE),
    (VOTED, "1 decide commit 1:aa:bb", REFUSED, OK, STILL_IN_DOUBT, STILL_COMPLETED),
    (BY_OPERATOR, "1 forget TMNOFLAGS 1:aa:bb", REFUSED, OK, STILL_COMPLETED, STILL_DONE),
]
# Device calls of an append that fail, whether its record is kept, refused or lost, what comes then, and whether the record is found. The
# record is written and synced; a repair writes zeros over it and syncs them. Where a plan outlives the append, a crash drops it.
FAILING = [
    ("fail 1 lost", "refused", REOPENED, False),
    ("fail 1 lost", "refused", CRASHED, False),
    ("fail 1 kept", "refused", REOPENED, False),
    ("fail 1 kept", "refused", CRASHED, False),
    ("fail 2 lost", "refused", REOPENED, False),
    ("fail 2 lost", "refused", CRASHED, False),
    ("fail 2 kept", "refused", REOPENED, False),
    ("fail 2 kept", "refused", CRASHED, False),
    ("fail 3 lost", "kept", CRASHED, True),
    ("fail other 1 lost", "kept", CRASHED, True),
    ("fail 1 lost, fail 2 lost", "lost", RESTART, False),
    ("fail 1 lost, fail 2 kept", "lost", RESTART, False),
    ("fail 1 lost, fail 3 lost", "lost", RESTART, False),
    ("fail 1 lost, fail 3 kept", "lost", RESTART, False),
    ("fail 1 lost, fail 4 lost", "refused", CRASHED, False),
    ("fail 1 kept, fail 2 lost", "lost", RESTART, True),
    ("fail 1 kept, fail 2 lost", "lost", CRASHED, False),
    ("fail 1 kept, fail 2 kept", "lost", RESTART, False),
    ("fail 1 kept, fail 3 lost", "lost", RESTART, False),
    ("fail 1 kept, fail 3 kept", "lost", RESTART, False),
    ("fail 2 lost, fail 3 lost", "lost", RESTART, True),
    ("fail 2 lost, fail 3 lost", "lost", CRASHED, False),
    ("fail 2 lost, fail 3 kept", "lost", RESTART, False),
    ("fail 2 lost, fail 4 lost", "lost", RESTART, False),
    ("fail 2 lost, fail 4 kept", "lost", CRASHED, False),
    ("fail 2 kept, fail 3 lost", "lost", REOPENED, True),
    ("fail 2 kept, fail 3 lost", "lost", CRASHED, True),
    ("fail 2 kept, fail 3 kept", "lost", REOPENED, False),
    ("fail 2 kept, fail 3 kept", "lost", CRASHED, True),
    ("fail 2 kept, fail 4 lost", "lost", CRASHED, True),
    ("fail 2 kept, fail 4 kept", "lost", CRASHED, False),
    ("fail 2 kept, fail 5 lost", "refused", CRASHED, False),
]


def failing_calls():
    """Calls that log, one after another, with device calls that fail; and in the end one whose record is refused, and is asked again."""
    for before, call, refused, again, without, found in FAILING_CALLS:
        parts = [P1, BEGUN, PUT_BACK]
        for plans, became, then, is_found in FAILING:
            reply = {"kept": OK, "refused": refused, "lost": LOST}[became]
            parts += [before, [(plan, "") for plan in plans.split(", ")], [(call, reply)], then, found if is_found else without]
        parts += [before, [("fail 2 lost", ""), (call, refused), (call, again)], CRASHED, found if again == OK else without]
        yield f"{call}: device calls that fail", numbered(*parts)


# A restart of a later boot, while a commit is lost.
COMMITTING = VOTED + [("fail 2 lost", ""), ("fail 3 lost", ""), ("1 commit TMNOFLAGS 1:aa:bb", LOST)]


def faults(current, other):
    """Each of so many device calls of the current file and of the other one, and one more, that fails, and whether it is made."""
    for file, calls in (("fail", current), ("fail other", other)):
        for call in range(1, calls + 2):
            for effect in ("lost", "kept"):
                yield file, call, effect, call <= calls


def is_synced(boot, file, call, effect):
    """Whether the current file is synced before a restart ends at a fault. The first file is synced first, and is the current one in boots
    with an odd number."""
    return boot % 2 == 1 or call > 2 if file == "fail other" else effect == "kept" or call > 1


def failing_restarts():
    """Restarts of which a device call fails: each file is synced, measured and read, unless it is empty. The other file's front is written
    and synced, two bodies, a sync, the first length and a sync."""
    for file, call, effect, is_made in faults(3, 9):
        plan = f"{file} {call} {effect}"
        then = [("1 restart", LOST)] + REOPENED if is_made else RESTART + CRASHED
        yield f"1 restart: {plan}", numbered(P1, VOTED, [(plan, "")], then, STILL_IN_DOUBT)
    for title, after, unsynced in (("restarted", RESTART, STILL_DONE), ("crashed", CRASHED, STILL_IN_DOUBT)):
        parts, boot = [P1, BEGUN, PUT_BACK, RESTART], 2
        for file, call, effect, is_made in faults(3, 10):
            parts += [COMMITTING, [(f"{file} {call} {effect}", "")]]
            if is_made:
                parts += [[("1 restart", LOST)], after, STILL_DONE if is_synced(boot, file, call, effect) else unsynced]
            else:
                parts += [RESTART, CRASHED, STILL_DONE]
            boot += 1 if is_made else 2
        yield f"1 restart, {title} after each device call that fails", numbered(*parts)


# Device calls of a first trim that fail, all of the other file: what it is answered, and the boot that begins then, after a restart, where a
# plan doesn't outlive the trim, and after a crash. It is the second one where the older log is found, and the third where the trim's is: the
# sixth call writes the first length, the seventh one syncs it. Behind whichever of them failed come a write of zeros and a sync.
FAILING_TRIMS = [
    *((f"{call} {effect}", REFUSED, 2, 2) for call in range(1, 8) for effect in ("lost", "kept")),
    ("8 lost", TRIMMED, None, 3),
    ("1 lost, 2 lost", REFUSED, None, 2),
    ("5 kept, 6 kept", REFUSED, None, 2),
    ("6 lost, 7 lost", LOST, 2, 2),
    ("6 lost, 7 kept", LOST, 2, 2),
    ("6 kept, 7 lost", LOST, 3, 2),
    ("6 kept, 7 kept", LOST, 2, 2),
    ("6 lost, 8 lost", LOST, 2, 2),
    ("6 lost, 8 kept", LOST, 2, 2),
    ("6 kept, 8 lost", LOST, 2, 2),
    ("6 kept, 8 kept", LOST, 2, 2),
    ("6 lost, 9 lost", REFUSED, None, 2),
    ("6 kept, 9 kept", REFUSED, None, 2),
    ("7 lost, 8 lost", LOST, 3, 2),
    ("7 lost, 8 kept", LOST, 2, 2),
    ("7 kept, 8 lost", LOST, 3, 3),
    ("7 kept, 8 kept", LOST, 2, 3),
    ("7 lost, 9 lost", LOST, 2, 2),
    ("7 lost, 9 kept", LOST, 2, 2),
    ("7 kept, 9 lost", LOST, 2, 3),
    ("7 kept, 9 kept", LOST, 2, 2),
    ("7 lost, 10 lost", REFUSED, None, 2),
    ("7 kept, 10 kept", REFUSED, None, 2),
]


def failing_trims():
    """Trims of which device calls fail. One that is refused can be asked again at once, as the same boot."""
    for plans, reply, restarted, crashed in FAILING_TRIMS:
        trimmed = numbered(P1, VOTED) + [*((f"fail other {plan}", "") for plan in plans.split(", ")), ("1 trim", reply)]
        if restarted:
            yield f"1 trim, {plans}: a restart", trimmed + RESTART + of_boot(IN_DOUBT[len(P1) :], restarted)
        if restarted and reply == REFUSED:
            yield f"1 trim, {plans}: and again", trimmed + TRIM + of_boot(IN_DOUBT[len(P1) :], 2)
        yield f"1 trim, {plans}: a crash", trimmed + CRASH + of_boot(IN_DOUBT, crashed)


def stale_tails():
    """A trim of three records is refused at its first length, its seventh call, and leaves them in the file: the third one is of 1:cc:dd, which
    the operator rolled back. Once that is forgotten, a trim of the first two, with the same boot, is kept: after it stands what is left of the
    third. Then an append of a record of that one's length, 46 bytes, is cut off: with fewer bytes the branch is in doubt, and 1:cc:dd never is
    known again."""
    other = [("1 start TMNOFLAGS 1:cc:dd", NUMBER), ("1 put 6c 76", OK), ("1 end TMSUCCESS 1:cc:dd", OK), ("1 prepare TMNOFLAGS 1:cc:dd", OK)]
    left = [("1 decide rollback 1:cc:dd", OK), ("fail other 7 lost", ""), ("1 trim", REFUSED), ("1 forget TMNOFLAGS 1:cc:dd", OK)]
    cut_off = [*TRIM, ("stop 2", ""), ("1 commit TMNOFLAGS 1:aa:bb", LOST)]
    for count in range(51):
        found = [(f"crash {count}", OK)] + of_boot(IN_DOUBT if count < 46 else DONE, 3)
        yield f"a commit of which {count} bytes are left over an older record", numbered(P1, VOTED, other, left) + cut_off + found


# A record that reaches into a new piece of its file, of 262,144 bytes, is written with zeros up to the piece's end. If that fails, it is written
# without them. Then come the sync, and if a call failed a write of zeros over the record and their sync. What is planned of these calls, what
# the prepare is answered, what comes then, and whether the branch is found.
LONG_PUTS = [(f"1 put {key:02x} {'76' * 16384}", OK) for key in range(0x6B, 0x7B)] + [("1 put 7b 76", OK)]
LONG_FAULTS = [
    ("fail 1 lost", OK, CRASHED, True),
    ("fail 1 kept", OK, CRASHED, True),
    ("fail 1 lost, fail 4 lost", OK, CRASHED, True),
    ("fail 1 lost, fail 2 lost", REFUSED, CRASHED, False),
    ("fail 1 lost, fail 2 lost", REFUSED, REOPENED, False),
    ("fail 1 kept, fail 2 kept", REFUSED, CRASHED, False),
    ("fail 1 kept, fail 2 kept", REFUSED, REOPENED, False),
    ("fail 1 lost, fail 3 lost", REFUSED, REOPENED, False),
    ("fail 1 kept, fail 3 kept", REFUSED, CRASHED, False),
    ("fail 2 lost", REFUSED, REOPENED, False),
    ("fail 1 lost, fail 2 lost, fail 3 lost", LOST, RESTART, False),
    ("fail 1 kept, fail 2 lost, fail 3 lost", LOST, RESTART, True),
    ("fail 1 kept, fail 2 lost, fail 3 lost", LOST, CRASHED, False),
    ("fail 1 lost, fail 2 kept, fail 3 lost", LOST, RESTART, True),
    ("fail 1 lost, fail 2 lost, fail 4 lost", LOST, RESTART, False),
    ("fail 1 lost, fail 3 kept, fail 4 lost", LOST, CRASHED, True),
    ("fail 1 lost, fail 3 kept, fail 4 kept", LOST, RESTART, False),
    ("fail 2 lost, fail 3 lost", LOST, RESTART, True),
]


def long_faults():
    """A long record of which device calls fail; and one after it, in the same piece, whose only write fails."""
    prepare, long = "1 prepare TMNOFLAGS 1:aa:bb", WRITTEN[:1] + LONG_PUTS + WRITTEN[-1:]
    for plans, reply, then, is_found in LONG_FAULTS:
        asked = [*((plan, "") for plan in plans.split(", ")), (prepare, reply)]
        yield f"a long record, {plans}, {then[0][0]}", numbered(P1, long, asked, then, LISTED + COMMITTED if is_found else NONE_LISTED)
    again = [("fail 1 lost", ""), ("fail 2 lost", ""), (prepare, REFUSED), ("fail 1 lost", ""), (prepare, OK)]
    yield "a long record that is refused, and kept without zeros", numbered(P1, long, again, CRASHED, LISTED, COMMITTED)
    next_one = BEGUN + [("1 put 6a 76", OK), ("1 end TMSUCCESS 1:cc:", OK), ("fail 1 lost", ""), ("1 commit TMONEPHASE 1:cc:", REFUSED)]
    yield "no zeros are tried before the next piece", numbered(P1, long, again, next_one, CRASHED, LISTED, COMMITTED)


def plays():
    """Each script's title, the options of `xarm play`, its lines, and what it prints."""
    for made in (stopped, openings, long_faults, failing_calls, failing_restarts, failing_trims, stale_tails):
        options = [] if made in (stopped, openings, long_faults) else SMALL
        for title, lines in made():
            yield title, options, *played(lines)
