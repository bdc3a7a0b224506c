"""Rows that `.ci/wire` asks of a server, and answers to `xarm talk` and `xarm tick`: contents of requests and replies at their least and
greatest lengths and counts, cut at each byte, with each byte changed, with each field malformed, and each flag (docs/PROTOCOL.md).

Bytes are written in hexadecimal. A letter says what a content is: k a request or a reply, or else its first fault, S Short, V Version,
O Operation, F Field or T Trailing. A server answers all faults alike, so what it shows is whether there is one.
"""
XID = "00000001 01 01 aa bb"
# Calls with flags and that XID: what they are where they are cut, and where a byte is changed.
CUT, CHANGED = "SSSSSSFFFFFFFFk", "vokkkkkkkkgqkk"
# A content of each operation; what each of its prefixes is, from the empty one to the whole; and what changes of each byte make of it.
CONTENTS = [
    ("01 01 00000000 01 78", "SSSSSSSSk", "vokkkkik"),
    ("01 02 00000000", "SSSSSSk", "vokkkk"),
    (f"01 03 00000000 {XID}", CUT, CHANGED),
    (f"01 04 04000000 {XID}", CUT, CHANGED),
    (f"01 05 00000000 {XID}", CUT, CHANGED),
    (f"01 06 00000000 {XID}", CUT, CHANGED),
    (f"01 07 00000000 {XID}", CUT, CHANGED),
    ("01 08 00000000 00000001", "SSSSSSSSSSk", "vokkkkkkkk"),
    (f"01 09 00000000 {XID}", CUT, CHANGED),
    ("01 0a 01 6b", "SSSSk", "voyk"),
    ("01 0b 01 6b 0001 76", "SSSSSSSk", "voykhik"),
    ("01 0c 01 6b", "SSSSk", "voyk"),
    (f"01 0d 01 {XID}", "SSSFFFFFFFFk", "vodkkkkgqkk"),
    (f"01 0e {XID}", "SSFFFFFFFFk", "vokkkkgqkk"),
    ("01 0f", "SSk", "vo"),
    ("01 10 0000000a", "SSSSSSk", "vokkkk"),
    ("01 11 0000000100000001", "SSSSSSSSSSk", "vokkkkkkkk"),
    ("01 41", "SSk", "vo"),
    ("01 42 00000100 00", "SSSSSSSk", "vokkkkn"),
    (f"01 42 00000100 01 {XID}", "SSSSSSSFFFFFFFFk", "vokkkkckkkkgqkk"),
    ("01 43", "SSk", "vo"),
]
OPERATIONS = [*range(1, 18), 65, 66, 67]
# What each of the first 17 contents is with each of the operations in place of its own.
WITH_OPERATION = """
kTFFFFFSFFFFFFTTSTFT
SkFFFFFSFFFFFFTkSTST
TTkkkkkTkFFFFFTTTTTT
TTkkkkkTkTTTFFTTTTTT
TTkkkkkTkFFFFFTTTTTT
TTkkkkkTkFFFFFTTTTTT
TTkkkkkTkFFFFFTTTTTT
TTFFFFFkFFFFFFTTkTTT
TTkkkkkTkFFFFFTTTTTT
SSSSSSSSSkSkFFTSSTST
STFFFFFSFTkTFFTTSTFT
SSSSSSSSSkSkFFTSSTST
TTFFFFFTFTTTkTTTTTFT
TTFFFFFkFFFFFkTTkTFT
SSSSSSSSSSSSSFkSSkSk
SkFFFFFSFFFFFFTkSTST
TTFFFFFkFFFFFFTTkTTT
""".split()
# What a byte of a kind makes of its content when it is changed to another value: the values of the first row that has this one. Lengths of
# an info, a key, a value and an XID's parts are 1, so that a byte is left, or some are cut.
CHANGES = {
    "v": [(range(256), "V")],
    "o": [(range(256), "O")],
    "k": [(range(256), "k")],
    "i": [(range(1), "T"), (range(256), "S")],
    "h": [(range(1, 64), "S"), (range(256), "F")],
    "y": [(range(2, 65), "S"), (range(256), "F")],
    "d": [(range(2, 3), "k"), (range(256), "F")],
    "n": [(range(256), "F")],
    "c": [(range(1), "T"), (range(256), "F")],
    "g": [(range(256), "F")],
    "q": [(range(1), "T"), (range(256), "F")],
}


def long(front, count):
    """A content of a front and so many bytes more."""
    return front + "a5" * count


# What asks a server to end, and any how it is doing: neither is a request.
SHUTDOWN = "01 45"
# What a server is asked itself, each at its limits, with its answers: a hello; the end of a session that no connection has; and
# the sessions of a branch that isn't known.
HELLO = "01 00000000 00 0000000000000000 08 00000001 0000000000000007"
CONTROLS = [
    ("01 46 00000000 0000000000000000", HELLO),
    ("01 46 00000001 0000000000000001", HELLO),
    ("01 46 ffffffff ffffffffffffffff", HELLO),
    ("01 47 0000000000000000", "01 fffffffb 00 0000000000000000 00"),
    ("01 47 ffffffffffffffff", "01 fffffffb 00 0000000000000000 00"),
    ("01 49 7fffffff 01 00 aa", "01 00000000 00 0000000000000000 0a 0000"),
    ("01 49 80000000 40 40" + " a5" * 128, "01 00000000 00 0000000000000000 0a 0000"),
]
# Contents of other versions and operations.
NO_CONTROLS = ["02 46 00000001 0000000000000001", "02 47 0000000000000001", "02 48", "01 44", "01 49", "01 4a 0000000000000001"]
ASKS_STATUS = "01 43"
# What asks a server what it speaks, what it has counted, that it hang up the session of the greatest number, and for a branch's sessions.
HELLO = "01 46 00000001 0000000000000000"
METRICS = "01 48"
DISCONNECT = "01 47 ffffffffffffffff"
SESSIONS = "01 49 fffffffe 02 01 aabb cc"
# Each field at what is just no field, and what is left behind each content.
MALFORMED = [
    ("", "S"),
    ("00", "V"),
    ("02", "V"),
    ("02 43", "V"),
    ("01 00", "O"),
    ("01 12", "O"),
    ("01 40", "O"),
    ("01 44", "O"),
    ("01 45 00", "O"),
    ("01 46", "O"),
    ("01 ff", "O"),
    (long("01 01 00000000 ff", 254), "S"),
    (long("01 01 00000000 ff", 256), "T"),
    ("01 01 00000000 00 00", "T"),
    ("01 0a 00", "F"),
    (long("01 0a 41", 65), "F"),
    ("01 0a 41", "F"),
    ("01 0a 01 6b 6b", "T"),
    ("01 0c 00", "F"),
    (long("01 0c 41", 65), "F"),
    ("01 0b 00 0001 76", "F"),
    (long("01 0b 41", 65) + "0000", "F"),
    (long("01 0b 01 6b 4001", 16385), "F"),
    ("01 0b 01 6b 4001", "F"),
    (long("01 0b 01 6b 4000", 16383), "S"),
    (long("01 0b 01 6b 4000", 16385), "T"),
    ("01 0b 01 6b 0000 76", "T"),
    (f"01 0d 00 {XID}", "F"),
    (f"01 0d 03 {XID}", "F"),
    (f"01 0d 01 {XID} 00", "T"),
    ("01 0e ffffffff 01 00 aa", "F"),
    ("01 0e ffffffff 40 40" + "a5" * 128, "F"),
    ("01 0e 00000001 00 00", "F"),
    ("01 0e 00000001 00 01 aa", "F"),
    (long("01 0e 00000001 41 00", 65), "F"),
    (long("01 0e 00000001 40 41", 129), "F"),
    (long("01 0e 00000001 40 40", 127), "F"),
    (long("01 0e 00000001 40 40", 129), "T"),
    ("01 42 00000001 02", "F"),
    (f"01 42 00000001 ff {XID}", "F"),
    ("01 42 00000001 01", "F"),
    ("01 42 00000001 01 ffffffff 01 00 aa", "F"),
    (f"01 42 00000001 00 {XID}", "T"),
    (f"01 42 00000001 01 {XID} 00", "T"),
    ("01 41 00", "T"),
    ("01 43 00", "T"),
    ("01 43 010203", "T"),
    (long("01 0f", 65533), "T"),
]
# Each operation, the word of its call, and a letter for each of its fields.
CALLS = {1: ("open", "fi"), 2: ("close", "f"), 3: ("start", "fx"), 4: ("end", "fx"), 5: ("prepare", "fx"), 6: ("commit", "fx")}
CALLS |= {7: ("rollback", "fx"), 8: ("recover", "fc"), 9: ("forget", "fx"), 10: ("get", "k"), 11: ("put", "kv"), 12: ("delete", "k")}
CALLS |= {13: ("decide", "dx"), 14: ("doom", "x"), 15: ("restart", ""), 16: ("timeout", "c"), 17: ("tick", "m")}
CALLS |= {65: ("trim", ""), 66: ("branches", "cn"), 67: ("status", "")}
LEAST_XID, GREATEST_XID = "80000000 01 00 a5", "7fffffff 40 40" + "a5" * 128
GREATEST_TEXT = f"2147483647:{'a5' * 64}:{'a5' * 64}"
# A field at its least and at its greatest, in bytes and as a line's word: flags, a count or seconds, a moment, an info, a key, a value, an
# XID, a direction, a cursor.
LIMITS = {
    "f": ("00000000", "ffffffff", "0x0", "0xffffffff"),
    "c": ("00000000", "ffffffff", "0", "4294967295"),
    "m": ("00" * 8, "ff" * 8, "0", "18446744073709551615"),
    "i": ("01 21", "ff" + "7e" * 255, "!", "~" * 255),
    "k": ("01 a5", long("40", 64), "a5", "a5" * 64),
    "v": ("0000", long("4000", 16384), "-", "a5" * 16384),
    "x": (LEAST_XID, GREATEST_XID, "-2147483648:a5:", GREATEST_TEXT),
    "d": ("01", "02", "commit", "rollback"),
    "n": ("00", f"01 {GREATEST_XID}", "", GREATEST_TEXT),
}


def limits():
    """A call of each operation, with its fields at their least, and at their greatest: its content, and the words of its line."""
    for operation, (call, letters) in CALLS.items():
        for side in (0, 1):
            content = f"01 {operation:02x}" + "".join(LIMITS[letter][side] for letter in letters)
            yield content, " ".join([call, *filter(None, (LIMITS[letter][side + 2] for letter in letters))])


# Flags by their names, and which of them a call with flags may have ("Flags").
ASYNC, ONEPHASE, FAIL, NOWAIT = 0x80000000, 0x40000000, 0x20000000, 0x10000000
RESUME, SUCCESS, SUSPEND = 0x08000000, 0x04000000, 0x02000000
START_SCAN, END_SCAN, JOIN, MIGRATE = 0x01000000, 0x00800000, 0x00200000, 0x00100000
LEGAL = {
    1: {0},
    2: {0},
    3: {0, JOIN, RESUME, NOWAIT, JOIN | NOWAIT, RESUME | NOWAIT},
    4: {SUCCESS, FAIL, SUSPEND, SUSPEND | MIGRATE},
    5: {0},
    6: {0, ONEPHASE, NOWAIT, ONEPHASE | NOWAIT},
    7: {0},
    8: {0, START_SCAN, END_SCAN, START_SCAN | END_SCAN},
    9: {0},
}

# Contents of replies.

# What stands before the kind of a reply's body: -9, LogFull and the greatest place.
HEAD = "01 fffffff7 07 ffffffffffffffff"
# A list's members at their least and at their greatest: XIDs, and branches with state, mark, timestamp and three counts.
MEMBERS = {4: (LEAST_XID, GREATEST_XID), 5: (f"{LEAST_XID} 01" + "00" * 18, f"{GREATEST_XID} 04" + "a5" * 18)}
BODIES = [
    "00",
    "01" + "00" * 8,
    "01" + "ff" * 8,
    "02 0000",
    long("02 4000", 16384),
    "03",
    *(f"{kind:02x} {count:04x}" + members[side] * count for kind, members in MEMBERS.items() for count in (0, 1, 256) for side in (0, 1)),
    "06" + "00" * 80,
    "06" + "ff" * 80,
]
# 1:aa:bb is at work, with mark 101, timestamp 4294967297, one active association and two loose ones.
LISTED = f"01 00000000 00 0000000000000003 05 0001 {XID} 01 00000065 0000000100000001 0001 0000 0002"
# Where its state stands; and of the states those that there are.
STATE, STATES = 25, range(1, 5)
# Contents each of whose fronts is no reply.
WHOLE = [
    LISTED,
    "01 00000000 00 0000000000000003 01 0000000100000001",
    "01 00000002 00 0000000000000009 04 0002 00000001 01 00 aa 00000002 01 01 bb cc",
    "01 00000000 00 0000000000000005 02 0001 76",
    "01 fffffffb 06 0000000000000000 00",
    "01 00000000 00 0000000000000005 03",
    "01 00000000 00 0000000000000000 06" + "00" * 80,
]
MALFORMED_REPLIES = [
    "00 00000000 00 0000000000000003 00",
    "02",
    "01 00000000 09 0000000000000003 00",
    "01 00000000 ff 0000000000000003 00",
    "01 00000000 00 0000000000000003 07",
    "01 00000000 00 0000000000000003 ff",
    long(f"{HEAD} 02 4001", 16385),
    f"{HEAD} 04 0101" + LEAST_XID * 257,
    f"{HEAD} 04 0001 ffffffff 01 00 aa",
    f"{HEAD} 04 0001 00000001 00 00",
    f"{HEAD} 05 0101" + MEMBERS[5][0] * 257,
    f"{HEAD} 05 0001 ffffffff 01 00 aa 01" + "00" * 18,
    *(f"{HEAD} {body} 00" for body in BODIES),
]
# Each code's name, and numbers that are no code.
NAMES = {
    0: "XA_OK",
    3: "XA_RDONLY",
    4: "XA_RETRY",
    5: "XA_HEURMIX",
    6: "XA_HEURRB",
    7: "XA_HEURCOM",
    8: "XA_HEURHAZ",
    9: "XA_NOMIGRATE",
    100: "XA_RBROLLBACK",
    101: "XA_RBCOMMFAIL",
    102: "XA_RBDEADLOCK",
    103: "XA_RBINTEGRITY",
    104: "XA_RBOTHER",
    105: "XA_RBPROTO",
    106: "XA_RBTIMEOUT",
    107: "XA_RBTRANSIENT",
    -2: "XAER_ASYNC",
    -3: "XAER_RMERR",
    -4: "XAER_NOTA",
    -5: "XAER_INVAL",
    -6: "XAER_PROTO",
    -7: "XAER_RMFAIL",
    -8: "XAER_DUPID",
    -9: "XAER_OUTSIDE",
    **{code: "?" for code in (1, 2, 10, 99, 108, -1, -10, 2147483647, -2147483648)},
}

# Scripts of `xarm talk`: what each is, what comes over its connections, one after another, what it sends over each, what it prints, and the
# fault that it tells. Nobody listens where no connection is planned.
OPEN = "0000000b 01 01 00000000 04 7861726d"
OK = "0000000f 01 00000000 00 0000000000000002 00"
STATUS = "0000005f 01 00000000 00 0000000000000000 06" + "".join(
    f"{number:016x}" for number in (3, 4711, 1073741824, 2, 1, 0, 4, 1000, 123, 86400)
)
SHOWN = "status boot 3 end 4711 bytes 1073741824 branches 2 prepared 1 completed 0 sessions 4 versions 1000 calls 123 seconds 86400"
BEGUN = "00000017 01 00000000 00 {0:016x} 01 {1:016x}"
# What a server answers that did what it was asked, or not; what it speaks; what it has counted (two numbers, and none); and the same where bytes
# are missing.
ANSWERED = "0000000f 01 {0} {1:02x} 0000000000000000 00"
DONE = ANSWERED.format("00000000", 0)
GREETS = "0000001b 01 00000000 00 0000000000000000 08 ffffffff 8000000000000003"
COUNTS = "00000021 01 00000000 00 0000000000000000 09 0002 0000000000000007 ffffffffffffffff"
COUNTS_NONE = "00000011 01 00000000 00 0000000000000000 09 0000"
LISTS = "00000021 01 00000000 00 0000000000000000 0a 0002 0000000000000001 0000000100000002"
LISTS_NONE = "00000011 01 00000000 00 0000000000000000 0a 0000"
NO_HELLO = "0000001a 01 00000000 00 0000000000000000 08 00000001 00000000000000"
NO_METRICS = "00000019 01 00000000 00 0000000000000000 09 0002 0000000000000007"
TALKS = [
    (
        "an open and a start",
        "connect\n1 open TMNOFLAGS xarm\n1 start TMNOFLAGS 1:aa:bb",
        [OK + BEGUN.format(3, 0x100000001)],
        [f"{OPEN} 0000000e 01 03 00000000 {XID}"],
        "0 Nothing number 1\n0 Nothing\n0 Nothing number 4294967297\n",
        "",
    ),
    (
        "what reaches no server",
        "# nothing\n\n1 get 6b\n7 hangup\nfail 1 lost\nfail other 1 kept\nreopen\ncrash\nconnect x\n",
        [],
        [],
        "-6 Nothing\n0 Nothing\n-5 Frame\n-5 Frame\n-5 Frame\n-5 Frame\n-5 Frame\n",
        "",
    ),
    (
        "branches' time limits, and moments",
        "connect\n1 timeout 0\n1 timeout 4294967295\n1 tick 0\n1 tick 18446744073709551615\n",
        [OK + "0000000f 01 fffffffa 00 0000000000000003 00" + BEGUN.format(4, 0) + BEGUN.format(5, 4096)],
        ["00000006 01 10 00000000 00000006 01 10 ffffffff 0000000a 01 11 0000000000000000 0000000a 01 11 ffffffffffffffff"],
        "0 Nothing number 1\n0 Nothing\n-6 Nothing\n0 Nothing number 0\n0 Nothing number 4096\n",
        "",
    ),
    (
        "what is no limit",
        "connect\n1 timeout\n1 timeout 4294967296\n1 timeout 01\n1 timeout -1\n1 timeout +1\n1 timeout 1 2\n1 timeout TMNOFLAGS 1\n"
        "1 timeout 0x1\n1 timeouts 1\n",
        [""],
        [""],
        "0 Nothing number 1\n" + "-5 Frame\n" * 9,
        "",
    ),
    (
        "what is no moment",
        "connect\n1 tick\n1 tick 18446744073709551616\n1 tick 00\n1 tick 1x\n1 tick 1 2\n1 tick TMNOFLAGS 1\n1 tick \n1 Tick 1\n",
        [""],
        [""],
        "0 Nothing number 1\n" + "-5 Frame\n" * 8,
        "",
    ),
    (
        "what asks for the status, and what doesn't",
        "connect\n1 status\n1 status \n1 status x\nstatus\n0 status\n1 Status\n2 status\n1 status",
        [STATUS * 2],
        ["00000002 01 43" * 2],
        f"0 Nothing number 1\n0 Nothing {SHOWN}\n" + "-5 Frame\n" * 5 + f"-6 Nothing\n0 Nothing {SHOWN}\n",
        "",
    ),
    (
        "what asks for a shutdown, and what doesn't",
        "connect\n1 shutdown \n1 shutdown x\nshutdown\n0 shutdown\n1 Shutdown\n2 shutdown\n1 shutdown",
        [""],
        [f"00000002 {SHUTDOWN}"],
        "0 Nothing number 1\n" + "-5 Frame\n" * 5 + "-6 Nothing\n0 Nothing\n",
        "",
    ),
    (
        "a server that ends: its connection is gone",
        "connect\n1 shutdown\n1 get 6b\n1 shutdown\nconnect\n",
        ["", ""],
        [f"00000002 {SHUTDOWN}", ""],
        "0 Nothing number 1\n0 Nothing\n-6 Nothing\n-6 Nothing\n0 Nothing number 1\n",
        "",
    ),
    (
        "a server that replies to a shutdown: its connection stays",
        "connect\n1 shutdown\n1 get 6b\n",
        ["0000000f 01 fffffffb 06 0000000000000000 00" + OK],
        [f"00000002 {SHUTDOWN} 00000004 01 0a 01 6b"],
        "0 Nothing number 1\n-5 Frame\n0 Nothing\n",
        "",
    ),
    (
        "what asks a server something else, and what doesn't",
        "connect\n1 hello \n1 hello 1\nhello\n0 hello\n1 Hello\n1 metrics x\n1 disconnect\n1 disconnect 0\n1 disconnect 01\n"
        "1 disconnect 18446744073709551616\n1 disconnect 1 2\n1 disconnect 1:aa:\n1 sessions\n1 sessions 1\n1 sessions 1:aa: 2\n"
        "2 hello\n2 metrics\n2 disconnect 1\n2 sessions 1:aa:",
        [""],
        [""],
        "0 Nothing number 1\n" + "-5 Frame\n" * 15 + "-6 Nothing\n" * 4,
        "",
    ),
    (
        "what a server answers that is asked something else: its connection stays",
        "connect\n1 hello\n1 metrics\n1 metrics\n1 disconnect 18446744073709551615\n1 disconnect 18446744073709551615\n"
        "1 sessions -2:aabb:cc\n1 sessions -2:aabb:cc\n1 get 6b\n",
        [GREETS + COUNTS + COUNTS_NONE + DONE + ANSWERED.format("fffffffb", 0) + LISTS + LISTS_NONE + OK],
        [
            f"0000000e {HELLO} {f'00000002 {METRICS}' * 2} {f'0000000a {DISCONNECT}' * 2} {f'0000000b {SESSIONS}' * 2}"
            " 00000004 01 0a 01 6b"
        ],
        "0 Nothing number 1\n0 Nothing hello 4294967295 9223372036854775811\n0 Nothing metrics 7 18446744073709551615\n0 Nothing metrics\n"
        "0 Nothing\n-5 Nothing\n0 Nothing sessions 1 4294967298\n0 Nothing sessions\n0 Nothing\n",
        "",
    ),
    (
        "a server that is asked something else, and knows none of it: its connection stays",
        "connect\n1 hello\n1 metrics\n1 disconnect 18446744073709551615\n1 sessions -2:aabb:cc\n1 get 6b\n",
        [ANSWERED.format("fffffffb", 6) * 4 + OK],
        [f"0000000e {HELLO} 00000002 {METRICS} 0000000a {DISCONNECT} 0000000b {SESSIONS} 00000004 01 0a 01 6b"],
        "0 Nothing number 1\n" + "-5 Frame\n" * 4 + "0 Nothing\n",
        "",
    ),
    ("an answer to a hello is cut", "connect\n1 hello\n", [GREETS[:-2]], [f"0000000e {HELLO}"], "0 Nothing number 1\n", "connection lost"),
    ("the body of a hello is cut", "connect\n1 hello\n", [NO_HELLO], [f"0000000e {HELLO}"], "0 Nothing number 1\n", "no reply"),
    ("numbers are fewer than they are said to be", "connect\n1 metrics\n", [NO_METRICS], [f"00000002 {METRICS}"], "0 Nothing number 1\n", "no reply"),
    ("a call's answer to a hello", "connect\n1 hello\n", [BEGUN.format(3, 1)], [f"0000000e {HELLO}"], "0 Nothing number 1\n", "no reply"),
    ("a hello's answer to a call", "connect\n1 get 6b\n", [GREETS], ["00000004 01 0a 01 6b"], "0 Nothing number 1\n", "no reply"),
    ("a reply to a shutdown is cut", "connect\n1 shutdown\n", ["00"], [f"00000002 {SHUTDOWN}"], "0 Nothing number 1\n", "connection lost"),
    (
        "the least free number, and the connection that has it",
        "connect\nconnect\n1 hangup\n1 get 6b\nconnect\n1 open TMNOFLAGS xarm\n2 get 6b\n",
        ["", "", OK],
        ["", "00000004 01 0a 01 6b", OPEN],
        "0 Nothing number 1\n0 Nothing number 2\n0 Nothing\n-6 Nothing\n0 Nothing number 1\n0 Nothing\n",
        "connection lost",
    ),
    ("nobody is reached", "1 hangup\nconnect\n1 hangup\n", [], [], "0 Nothing\n", "cannot connect to 127.0.0.1:{port}: Connection refused (os error 111)"),
    ("a reply is cut", "connect\n1 open TMNOFLAGS xarm\n", ["0000000f 01 00"], [OPEN], "0 Nothing number 1\n", "connection lost"),
    ("a length is cut", "connect\n1 open TMNOFLAGS xarm\n", ["000000"], [OPEN], "0 Nothing number 1\n", "connection lost"),
    ("a length that is too great", "connect\n1 open TMNOFLAGS xarm\n", ["00010000 01"], [OPEN], "0 Nothing number 1\n", "no reply"),
    ("what comes is no reply", "connect\n1 open TMNOFLAGS xarm\n", ["00000001 02"], [OPEN], "0 Nothing number 1\n", "no reply"),
]
# Lines that ask nothing, and what is told of each on standard error.
MISTAKES = [
    ("hangup", "line: hangup"),
    ("crash", "only xarm play has disks: crash"),
    ("fail 1 lost", "only xarm play has disks: fail"),
    ("x get 6b", "session: x"),
    ("0 get 6b", "session: 0"),
    ("1  get 6b", "call: missing"),
    ("1 gett 6b", "call: gett"),
    ("1 status now", "too many words: now"),
    ("1 hello now", "too many words: now"),
    ("1 metrics 1", "too many words: 1"),
    ("1 disconnect", "session: missing"),
    ("1 disconnect 0", "session: 0"),
    ("1 disconnect x", "session: x"),
    ("1 disconnect 1 2", "too many words: 2"),
    ("1 sessions", "XID: missing"),
    ("1 sessions 1:AA:", "XID: 1:AA:"),
    ("1 sessions 1:aa: 2", "too many words: 2"),
    ("1 open TMFOO n", "flags: TMFOO"),
    ("1 open TMNOFLAGS", "name: missing"),
    ("1 open TMNOFLAGS \u00e4", "name: \\xc3\\xa4"),
    ("1 close TMNOFLAGS|TMFAIL", "flags: TMNOFLAGS|TMFAIL"),
    ("1 start TMNOFLAGS 1:AA:", "XID: 1:AA:"),
    ("1 recover TMSTARTRSCAN 1x", "number: 1x"),
    ("1 get 6", "key: 6"),
    ('1 get "k', 'no quote at the end: \\"k'),
    ('1 put "a b 76', 'no quote at the end: \\"a b 76'),
    ('1 put "a b" "c d', 'no quote at the end: \\"c d'),
    ('1 put "a b"c 76', 'key: \\"a b\\"c'),
    ('1 get "a b" c d', "too many words: c d"),
    ("1 put 6b", "value: missing"),
    ("1 put 6b 7", "value: 7"),
    ("1 delete -", "key: -"),
    ("1 decide abort 1:aa:", "direction: abort"),
    ("1 doom x", "XID: x"),
    ("1 timeout -1", "number: -1"),
    ("1 tick 00", "moment: 00"),
    ("1 branches 1 x", "XID: x"),
    ("1 restart x y", "too many words: x y"),
    ("1 get 6b 6b", "too many words: 6b"),
    ("1 get " + "0" * 201, "key: " + "0" * 100),
]
# Lines that ask nothing of `xarm play`, and what is told of each; other lines of MISTAKES but for those for disks are told alike.
PLAYED = [
    ("fail", "device call: missing"),
    ("fail 0 lost", "device call: 0"),
    ("fail 1001 lost", "device call: 1001"),
    ("fail 1", "effect: missing"),
    ("fail other 1 gone", "effect: gone"),
    ("fail 1 lost now", "too many words: now"),
    ("stop", "device call: missing"),
    ("stop other", "device call: missing"),
    ("stop 1 2", "too many words: 2"),
    ("reopen now", "too many words: now"),
    ("reopen other", "too many words: other"),
    ("crash 16777217", "bytes: 16777217"),
    ("crash other", "bytes: missing"),
    ("connect now", "session: connect"),
]
# What answers ticks, one each, and what is told: each refusal once, until another answer comes.
PLAIN = "0000000f 01 {0} {1:02x} 0000000000000002 00"
INVALID = PLAIN.format("fffffffb", 0)
TICKS = [
    ("no branch has reached its limit, and then one has", [BEGUN.format(2, 0), BEGUN.format(3, 1)], ["connection lost"]),
    (
        "each refusal is told once",
        [BEGUN.format(2, 0), INVALID, INVALID, BEGUN.format(5, 0), INVALID, PLAIN.format("fffffff9", 2)],
        ["clock went back", "clock went back", "resource manager down", "connection lost"],
    ),
    ("a server that knows no such request", [PLAIN.format("fffffffb", 6)], ["tick refused", "connection lost"]),
    ("a reply is cut", ["0000000f 01 00"], ["connection lost"]),
    ("what comes is no reply", ["00000001 02"], ["no reply"]),
]
# What a shutdown is answered, which asks for the status first, and what is told then; with nothing the status is 0.
SHUTDOWNS = [
    ("the connection ends", STATUS, ""),
    ("a server that knows no such request", STATUS + PLAIN.format("fffffffb", 6), "the server takes no shutdown"),
    ("a reply of 0", STATUS + OK, "the server takes no shutdown"),
    ("a reply is cut", STATUS + "0000000f 01 00", "connection lost"),
    ("a length is cut", STATUS + "00", "connection lost"),
    ("a length that is too great", STATUS + "00010000 01", "no reply"),
    ("what comes is no reply", STATUS + "00000001 02", "no reply"),
    ("a server that has no place for it", "", "connection lost"),
    ("a status that is cut", "0000005f 01 00", "connection lost"),
]
