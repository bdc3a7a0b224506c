/* Codes that it takes a device, a log or a memory that fails to see, and replies that are none: a server that isn't one gives them. */
#include <stdio.h>
#include <string.h>
#include <time.h>

#include "relay.h"
#include "work.h"

enum { RMID = 1, SLOW = 2, CALLS = 7, NOTHING = 0, NUMBER = 1, VALUE = 2, ABSENT = 3, XIDS = 4 };

static struct relay *fake;
static char info[100];
static XID xid;

static void begin(void)
{
    fake = fake_make(0);
    snprintf(info, sizeof info, "port=%d name=fake timeout=20", relay_port(fake));
    CODE(XA_OK, xa_open(info, RMID));
}

static void answer(int code, int detail)
{
    fake_reply(fake, code, detail, NOTHING, NULL, 0);
}

static void begin_branch(void)
{
    static const unsigned char stamp[8] = {0, 0, 0, 1, 0, 0, 0, 1};
    fake_reply(fake, XA_OK, 0, NUMBER, stamp, sizeof stamp);
    CODE(XA_OK, xa_start(&xid, RMID, TMNOFLAGS));
}

static int call(int number)
{
    switch (number) {
    case 0:
        return xa_start(&xid, RMID, TMNOFLAGS);
    case 1:
        return xa_end(&xid, RMID, TMSUCCESS);
    case 2:
        return xa_prepare(&xid, RMID);
    case 3:
        return xa_commit(&xid, RMID, TMNOFLAGS);
    case 4:
        return xa_commit(&xid, RMID, TMONEPHASE);
    case 5:
        return xa_rollback(&xid, RMID);
    default:
        return xa_forget(&xid, RMID);
    }
}

static void each_code(void)
{
    static const int codes[] = {
        XA_RDONLY, XA_RETRY, XA_HEURMIX, XA_HEURRB, XA_HEURCOM, XA_HEURHAZ, XA_NOMIGRATE, XA_RBROLLBACK, XA_RBCOMMFAIL, XA_RBDEADLOCK,
        XA_RBINTEGRITY, XA_RBOTHER, XA_RBPROTO, XA_RBTIMEOUT, XA_RBTRANSIENT, XAER_ASYNC, XAER_RMERR, XAER_NOTA, XAER_INVAL, XAER_PROTO,
        XAER_RMFAIL, XAER_DUPID, XAER_OUTSIDE,
    };
    for (int number = 0; number < CALLS; number++) {
        for (size_t at = 0; at < sizeof codes / sizeof codes[0]; at++) {
            xid = fresh();
            answer(codes[at], 0);
            CODE(codes[at], call(number));
        }
    }
    for (size_t at = 0; at < sizeof codes / sizeof codes[0]; at++) {
        answer(codes[at], 0);
        CODE(codes[at], put(RMID, "k", "v"));
        if (codes[at] < 0) {
            answer(codes[at], 0);
            CODE(codes[at], xa_recover(NULL, 0, RMID, TMSTARTRSCAN));
        }
    }
    CODE(1, relay_connections(fake));
}

static void details(void)
{
    for (int detail = 0; detail <= 8; detail++) {
        answer(XAER_RMFAIL, detail);
        CODE(XAER_RMFAIL, put(RMID, "k", "v"));
        answer(XA_RETRY, detail);
        CODE(detail == 3 ? XARM_BUSY : XA_RETRY, get(RMID, "k"));
        answer(XA_RBTRANSIENT, detail);
        CODE(detail == 4 ? XARM_LATE : XA_RBTRANSIENT, xarm_delete(RMID, "k", 1));
        answer(XAER_INVAL, detail);
        CODE(detail == 5 ? XARM_LIMIT : XAER_INVAL, put(RMID, "k", "v"));
    }
    answer(XA_RETRY, 2);
    CODE(XA_RETRY, xa_commit(&xid, RMID, TMNOFLAGS));
    HOLDS(strstr(xarm_why(), "xa_commit at 127.0.0.1:") && strstr(xarm_why(), "answered 4, Device"));
}

/* Details that a later server may have. */
static void later_details(void)
{
    static const int later[] = {9, 127, 128, 255};
    for (size_t at = 0; at < sizeof later / sizeof later[0]; at++) {
        answer(XA_OK, later[at]);
        CODE(XA_OK, put(RMID, "k", "v"));
        answer(XAER_INVAL, later[at]);
        CODE(XAER_INVAL, put(RMID, "k", "v"));
        HOLDS(strstr(xarm_why(), "answered -5, Nothing"));
        answer(XAER_RMFAIL, later[at]);
        CODE(XAER_RMFAIL, put(RMID, "k", "v"));
        HOLDS(strstr(xarm_why(), "answered -7, Device"));
    }
}

/* A reply, byte by byte, that is changed in one place. The connection breaks, and the next call has a new one. */
static void refused(const unsigned char *bytes, size_t length, const char *what, int (*ask)(void))
{
    int before = relay_connections(fake);
    fake_answer(fake, bytes, length);
    int code = ask();
    if (code != XAER_RMFAIL)
        fail("%s is %d", what, code);
    answer(XA_OK, 0);
    xid = fresh();
    CODE(XA_OK, xa_forget(&xid, RMID));
    CODE(before + 1, relay_connections(fake));
}

static int ask_forget(void)
{
    return xa_forget(&xid, RMID);
}

static int ask_get(void)
{
    return get(RMID, "k");
}

static int ask_start(void)
{
    return xa_start(&xid, RMID, TMNOFLAGS);
}

static int ask_recover(void)
{
    XID found[2];
    return xa_recover(found, 2, RMID, TMSTARTRSCAN);
}

/* Bytes 4 to 18: version, code (4), detail, place (8), kind. Place 0x7fff.. ascends. */
#define REPLY(code, detail, kind) 0, 0, 0, 15, 1, (unsigned char)((code) < 0 ? 255 : 0), (unsigned char)((code) < 0 ? 255 : 0), \
    (unsigned char)((code) < 0 ? 255 : 0), (unsigned char)(code), detail, 0x7f, 0, 0, 0, 0, 0, 0, 0, kind

static void no_replies(void)
{
    static const struct {
        const char *what;
        size_t length;
        unsigned char bytes[60];
    } rows[] = {
        {"no byte", 0, {0}},
        {"an empty content", 4, {0}},
        {"a content that is short", 18, {0, 0, 0, 14, 1, 0, 0, 0, 0, 0, 0x7f, 0, 0, 0, 0, 0, 0, 0}},
        {"a length of 16 MiB", 19, {1, 0, 0, 15, 1, 0, 0, 0, 0, 0, 0x7f, 0, 0, 0, 0, 0, 0, 0, 0}},
        {"a length of 64 KiB", 19, {0, 1, 0, 15, 1, 0, 0, 0, 0, 0, 0x7f, 0, 0, 0, 0, 0, 0, 0, 0}},
        {"a length that no reply has", 19, {0, 0, 0xff, 0xff, 1, 0, 0, 0, 0, 0, 0x7f, 0, 0, 0, 0, 0, 0, 0, 0}},
        {"version 0", 19, {0, 0, 0, 15, 0, 0, 0, 0, 0, 0, 0x7f, 0, 0, 0, 0, 0, 0, 0, 0}},
        {"version 2", 19, {0, 0, 0, 15, 2, 0, 0, 0, 0, 0, 0x7f, 0, 0, 0, 0, 0, 0, 0, 0}},
        {"code 1", 19, {REPLY(1, 0, 0)}},
        {"code 10", 19, {REPLY(10, 0, 0)}},
        {"code 99", 19, {REPLY(99, 0, 0)}},
        {"code 108", 19, {REPLY(108, 0, 0)}},
        {"code -1", 19, {REPLY(-1, 0, 0)}},
        {"code -10", 19, {REPLY(-10, 0, 0)}},
        {"a kind that isn't", 19, {REPLY(0, 0, 7)}},
        {"a status", 19, {REPLY(0, 0, 6)}},
        {"absent, of a forget", 19, {REPLY(0, 0, 3)}},
        {"a byte more in the content", 20, {0, 0, 0, 16, 1, 0, 0, 0, 0, 0, 0x7f, 0, 0, 0, 0, 0, 0, 0, 0, 0}},
        {"a byte after the reply", 20, {REPLY(0, 0, 0), 0}},
        {"two replies", 38, {REPLY(0, 0, 0), REPLY(0, 0, 0)}},
        {"a number, of a forget", 27, {0, 0, 0, 23, 1, 0, 0, 0, 0, 0, 0x7f, 0, 0, 0, 0, 0, 0, 0, 1, 0, 0, 0, 0, 0, 0, 0, 1}},
    };
    for (size_t at = 0; at < sizeof rows / sizeof rows[0]; at++)
        refused(rows[at].bytes, rows[at].length, rows[at].what, ask_forget);
}

#define FRONT(length, code, kind) 0, 0, 0, length, 1, 0, 0, 0, code, 0, 0x7f, 0, 0, 0, 0, 0, 0, 0, kind

static void no_bodies(void)
{
    static const struct {
        const char *what;
        int (*ask)(void);
        size_t length;
        unsigned char bytes[60];
    } rows[] = {
        {"no body, of a start", ask_start, 19, {REPLY(0, 0, 0)}},
        {"a short number", ask_start, 26, {FRONT(22, 0, 1), 0, 0, 0, 0, 0, 0, 1}},
        {"a long number", ask_start, 28, {FRONT(24, 0, 1), 0, 0, 0, 0, 0, 0, 0, 0, 1}},
        {"a number with a refusal", ask_start, 27, {FRONT(23, 4, 1), 0, 0, 0, 0, 0, 0, 0, 1}},
        {"no body, of a get", ask_get, 19, {REPLY(0, 0, 0)}},
        {"absent, with a refusal", ask_get, 19, {REPLY(4, 0, 3)}},
        {"a value without its length", ask_get, 20, {FRONT(16, 0, 2), 0}},
        {"a value that is cut", ask_get, 22, {FRONT(18, 0, 2), 0, 2, 'v'}},
        {"a value with a byte more", ask_get, 23, {FRONT(19, 0, 2), 0, 1, 'v', 'w'}},
        {"a value above 16,384 bytes", ask_get, 21, {FRONT(17, 0, 2), 0x40, 1}},
        {"a value with a refusal", ask_get, 22, {FRONT(18, 4, 2), 0, 1, 'v'}},
        {"no list, of a recover", ask_recover, 19, {REPLY(0, 0, 0)}},
        {"one XID with code 0", ask_recover, 29, {FRONT(25, 0, 4), 0, 1, 0, 0, 0, 1, 1, 1, 'a', 'b'}},
        {"no XID with code 1", ask_recover, 21, {FRONT(17, 1, 4), 0, 0}},
        {"an XID that is cut", ask_recover, 28, {FRONT(24, 1, 4), 0, 1, 0, 0, 0, 1, 1, 1, 'a'}},
        {"an XID with a byte more", ask_recover, 30, {FRONT(26, 1, 4), 0, 1, 0, 0, 0, 1, 1, 1, 'a', 'b', 'c'}},
        {"the null XID", ask_recover, 29, {FRONT(25, 1, 4), 0, 1, 255, 255, 255, 255, 1, 1, 'a', 'b'}},
        {"an XID without gtrid", ask_recover, 28, {FRONT(24, 1, 4), 0, 1, 0, 0, 0, 1, 0, 1, 'b'}},
        {"an XID with a bqual of 65 bytes", ask_recover, 29, {FRONT(25, 1, 4), 0, 1, 0, 0, 0, 1, 1, 65, 'a', 'b'}},
        {"more XIDs than were asked for", ask_recover, 45,
            {FRONT(41, 3, 4), 0, 3, 0, 0, 0, 1, 1, 1, 'a', 'b', 0, 0, 0, 1, 1, 1, 'a', 'c', 0, 0, 0, 1, 1, 1, 'a', 'd'}},
    };
    for (size_t at = 0; at < sizeof rows / sizeof rows[0]; at++)
        refused(rows[at].bytes, rows[at].length, rows[at].what, rows[at].ask);
    static unsigned char value[2 + XARM_MOST_VALUE + 1] = {0x40, 0x01};
    fake_reply(fake, XA_OK, 0, VALUE, value, sizeof value);
    CODE(XAER_RMFAIL, get(RMID, "k"));
    value[1] = 0;
    fake_reply(fake, XA_OK, 0, VALUE, value, sizeof value - 1);
    CODE(XA_OK, get(RMID, "k"));
}

/* What no server could be asked isn't sent: there is no answer to it. */
static void not_sent(void)
{
    size_t length;
    xid = fresh();
    xid.formatID = -1;
    for (int number = 0; number < CALLS; number++)
        CODE(XAER_INVAL, call(number));
    xid = fresh();
    xid.gtrid_length = 65;
    for (int number = 0; number < CALLS; number++)
        CODE(XAER_INVAL, call(number));
    CODE(XAER_INVAL, xarm_put(RMID, "k", 0, "v", 1));
    CODE(XAER_INVAL, xarm_get(RMID, "k", 65, NULL, 0, &length));
    CODE(XAER_INVAL, xa_recover(NULL, -1, RMID, TMSTARTRSCAN));
}

/* The place in the server's history ascends, or is 0 for what isn't recorded. */
static void places(void)
{
    unsigned char frame[19] = {FRONT(15, 0, 0)};
    static const unsigned char places[] = {10, 11, 0, 12, 255};
    for (size_t at = 0; at < sizeof places; at++) {
        frame[10] = 0;
        frame[16] = places[at] == 0 ? 0 : 0x70;
        frame[17] = places[at];
        fake_answer(fake, frame, sizeof frame);
        CODE(XA_OK, xa_forget(&xid, RMID));
    }
    refused(frame, sizeof frame, "the same place", ask_forget);
    frame[17] = 0xf0;
    fake_answer(fake, frame, sizeof frame);
    CODE(XA_OK, xa_forget(&xid, RMID));
    frame[17] = 0x0f;
    refused(frame, sizeof frame, "an earlier place", ask_forget);
}

/* A completion that comes before the server has ended the old session is asked again. */
static void before_hang_up(void)
{
    xid = fresh();
    begin_branch();
    fake_answer(fake, NULL, 0);
    CODE(XAER_RMFAIL, put(RMID, "k", "v"));
    CODE(XA_RBCOMMFAIL, xa_end(&xid, RMID, TMSUCCESS));
    answer(XAER_PROTO, 0);
    answer(XAER_PROTO, 0);
    answer(XA_RBCOMMFAIL, 0);
    CODE(XA_RBCOMMFAIL, xa_prepare(&xid, RMID));
    /* of a branch that wasn't lost it isn't */
    answer(XAER_PROTO, 0);
    CODE(XAER_PROTO, xa_prepare(&xid, RMID));
}

static int rollback_elsewhere(void *of)
{
    (void)of;
    int code = xa_open(info, RMID);
    if (code != XA_OK)
        return code;
    code = xa_rollback(&xid, RMID);
    xa_close(RMID);
    return code;
}

/* A branch that was lost, and that the server doesn't know any more or lets nobody join, is marked; of another one it is the answer. */
static void joined(void)
{
    static const long flags[] = {TMJOIN, TMRESUME};
    for (int at = 0; at < 2; at++) {
        xid = fresh();
        begin_branch();
        fake_answer(fake, NULL, 0);
        CODE(XAER_RMFAIL, put(RMID, "k", "v"));
        CODE(XA_OK, xa_open(info, RMID));
        answer(XAER_NOTA, 0);
        CODE(XA_RBCOMMFAIL, xa_start(&xid, RMID, flags[at]));
        answer(XAER_PROTO, 0);
        CODE(XA_RBCOMMFAIL, xa_start(&xid, RMID, flags[at]));
        answer(XAER_NOTA, 0);
        CODE(XAER_NOTA, xa_start(&xid, RMID, TMNOFLAGS));
        begin_branch();
        answer(XAER_NOTA, 0);
        CODE(XAER_NOTA, xa_start(&xid, RMID, flags[at]));
        answer(XA_OK, 0);
        CODE(XA_OK, xa_end(&xid, RMID, TMSUCCESS));
    }
}

/* What was lost is forgotten with the completion, and with a new branch of the name. */
static void gone(void)
{
    static const int codes[] = {XA_OK, XA_RDONLY, XA_HEURCOM, XA_RBOTHER};
    for (size_t at = 0; at < sizeof codes / sizeof codes[0]; at++) {
        xid = fresh();
        begin_branch();
        fake_answer(fake, NULL, 0);
        CODE(XAER_RMFAIL, put(RMID, "k", "v"));
        CODE(XA_RBCOMMFAIL, xa_end(&xid, RMID, TMSUCCESS));
        answer(XAER_RMFAIL, 0);
        CODE(XAER_RMFAIL, xa_rollback(&xid, RMID));
        answer(XAER_RMERR, 0);
        CODE(XAER_RMERR, xa_rollback(&xid, RMID));
        answer(codes[at], 0);
        CODE(codes[at], xa_rollback(&xid, RMID));
        answer(XAER_NOTA, 0);
        CODE(XAER_NOTA, xa_rollback(&xid, RMID));
    }
}

/* Also if it was another thread of this process that lost it. */
static void by_another_thread(void)
{
    struct actor *actor = actor_make();
    xid = fresh();
    begin_branch();
    fake_answer(fake, NULL, 0);
    CODE(XAER_RMFAIL, put(RMID, "k", "v"));
    answer(XAER_PROTO, 0);
    answer(XAER_PROTO, 0);
    answer(XAER_NOTA, 0);
    answer(XA_OK, 0); /* of the close */
    CODE(XA_OK, actor_do(actor, rollback_elsewhere, NULL));
    actor_end(actor);
    CODE(XA_RBCOMMFAIL, xa_end(&xid, RMID, TMSUCCESS));
}

static long long now(void)
{
    struct timespec time;
    clock_gettime(CLOCK_MONOTONIC, &time);
    return time.tv_sec * 1000LL + time.tv_nsec / 1000000;
}

/* What comes byte by byte, or not at all, ends with the time-out. */
static void slow(void)
{
    char words[100];
    struct relay *slowly = fake_make(200);
    snprintf(words, sizeof words, "port=%d name=slow timeout=1", relay_port(slowly));
    CODE(XA_OK, xa_open(words, SLOW));
    for (int at = 0; at < 2; at++) {
        long long start = now();
        xid = fresh();
        if (at == 0)
            fake_reply(slowly, XA_OK, 0, NOTHING, NULL, 0);
        CODE(XAER_RMFAIL, xa_forget(&xid, SLOW));
        HOLDS(strstr(xarm_why(), "within the time-out"));
        HOLDS(now() - start >= 950 && now() - start < 10000);
    }
    CODE(XA_OK, xa_close(SLOW));
}

/* What nobody asked for breaks the connection, before the next call is sent, or with it. */
static void unasked(void)
{
    static const unsigned char two[] = {REPLY(0, 0, 0), REPLY(0, 0, 0)}, one[] = {REPLY(0, 0, 0)};
    xid = fresh();
    answer(XA_OK, 0);
    CODE(XA_OK, xa_forget(&xid, RMID));
    int before = relay_connections(fake);
    fake_answer(fake, two, sizeof two);
    CODE(XAER_RMFAIL, xa_forget(&xid, RMID));
    answer(XA_OK, 0);
    CODE(XA_OK, xa_forget(&xid, RMID));
    CODE(before + 1, relay_connections(fake));
    relay_push(fake, one, sizeof one);
    answer(XA_OK, 0);
    CODE(XA_OK, xa_forget(&xid, RMID));
    CODE(before + 2, relay_connections(fake));
    begin_branch();
    relay_push(fake, one, sizeof one);
    CODE(XA_RBCOMMFAIL, xa_end(&xid, RMID, TMSUCCESS));
    answer(XA_OK, 0);
    CODE(XA_OK, xa_rollback(&xid, RMID));
    CODE(before + 3, relay_connections(fake));
}

/* The bytes of the page docs/CLIENT.md. */
static void page(void)
{
    static const unsigned char start[] = {0, 0, 0, 14, 1, 3, 0, 0, 0, 0, 0, 0, 0, 1, 1, 1, 0xaa, 0xbb};
    static const unsigned char put_k[] = {0, 0, 0, 7, 1, 11, 1, 'k', 0, 1, 'v'};
    static const unsigned char commit[] = {0, 0, 0, 14, 1, 6, 0x40, 0, 0, 0, 0, 0, 0, 1, 1, 1, 0xaa, 0xbb};
    static const unsigned char recover[] = {0, 0, 0, 10, 1, 8, 1, 0, 0, 0, 0, 0, 1, 0};
    static const unsigned char stamp[8] = {0, 0, 0, 1, 0, 0, 0, 1}, none[2] = {0, 0};
    unsigned char came[100];
    static XID found[256];
    xid = named("\xaa");
    xid.data[1] = (char)0xbb;
    fake_reply(fake, XA_OK, 0, NUMBER, stamp, sizeof stamp);
    CODE(XA_OK, xa_start(&xid, RMID, TMNOFLAGS));
    HOLDS(fake_last(fake, came, sizeof came) == sizeof start && memcmp(came, start, sizeof start) == 0);
    answer(XA_OK, 0);
    CODE(XA_OK, put(RMID, "k", "v"));
    HOLDS(fake_last(fake, came, sizeof came) == sizeof put_k && memcmp(came, put_k, sizeof put_k) == 0);
    answer(XA_OK, 0);
    CODE(XA_OK, xa_end(&xid, RMID, TMSUCCESS));
    answer(XA_OK, 0);
    CODE(XA_OK, xa_commit(&xid, RMID, TMONEPHASE));
    HOLDS(fake_last(fake, came, sizeof came) == sizeof commit && memcmp(came, commit, sizeof commit) == 0);
    fake_reply(fake, 0, 0, XIDS, none, sizeof none);
    CODE(0, xa_recover(found, 256, RMID, TMSTARTRSCAN));
    HOLDS(fake_last(fake, came, sizeof came) == sizeof recover && memcmp(came, recover, sizeof recover) == 0);
    answer(XA_OK, 0);
    CODE(XA_OK, xa_close(RMID));
}

void reply_tests(void)
{
    test("a server that isn't one answers", begin);
    test("each code of each call is the entry's", each_code);
    test("Busy, Late and Limit have codes of their own, and xarm_why tells the others", details);
    test("a detail of a later server is taken for Nothing, or for Device with XAER_RMFAIL", later_details);
    test("what isn't a reply breaks the connection, and the next call has a new one", no_replies);
    test("a body that isn't the request's breaks it too", no_bodies);
    test("a place that doesn't ascend breaks it too", places);
    test("what no server could be asked isn't sent", not_sent);
    test("a completion before the old session's end is asked again", before_hang_up);
    test("also if another thread lost the branch", by_another_thread);
    test("a branch that was lost is marked for who would join or resume it", joined);
    test("what was lost is forgotten once it is completed", gone);
    test("a reply that nobody asked for breaks the connection", unasked);
    test("an answer that comes byte by byte, or not at all, ends with the time-out", slow);
    test("the bytes that are sent are those of docs/CLIENT.md", page);
}
