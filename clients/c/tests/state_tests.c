/* The state tables of X/Open C193, chapter 6: for each state of a branch, of a thread's association and of a resource manager, what each
   call is answered. What the standard leaves blank is an improper context, XAER_PROTO; an XID that isn't known XAER_NOTA, and one that is
   known already XAER_DUPID. docs/PROTOCOL.md has the order of refusals. */
#include <string.h>

#include "work.h"

enum { RMID = 5 };

static struct server server;
static struct actor *other; /* another thread of control */
static XID xid;

enum call { OPEN, CLOSE, START, JOIN, RESUME, SUCCESS, FAILS, SUSPEND, MIGRATE, PREPARE, COMMIT, ONE_PHASE, ROLL_BACK, FORGET, RECOVER, PUT, CALLS };

static const char *const calls[CALLS] = {
    "xa_open", "xa_close", "xa_start", "xa_start(TMJOIN)", "xa_start(TMRESUME)", "xa_end(TMSUCCESS)", "xa_end(TMFAIL)", "xa_end(TMSUSPEND)",
    "xa_end(TMSUSPEND|TMMIGRATE)", "xa_prepare", "xa_commit", "xa_commit(TMONEPHASE)", "xa_rollback", "xa_forget", "xa_recover", "xarm_put",
};

static int make(enum call call)
{
    switch (call) {
    case OPEN:
        return xa_open(server.info, RMID);
    case CLOSE:
        return xa_close(RMID);
    case START:
        return xa_start(&xid, RMID, TMNOFLAGS);
    case JOIN:
        return xa_start(&xid, RMID, TMJOIN);
    case RESUME:
        return xa_start(&xid, RMID, TMRESUME);
    case SUCCESS:
        return xa_end(&xid, RMID, TMSUCCESS);
    case FAILS:
        return xa_end(&xid, RMID, TMFAIL);
    case SUSPEND:
        return xa_end(&xid, RMID, TMSUSPEND);
    case MIGRATE:
        return xa_end(&xid, RMID, TMSUSPEND | TMMIGRATE);
    case PREPARE:
        return xa_prepare(&xid, RMID);
    case COMMIT:
        return xa_commit(&xid, RMID, TMNOFLAGS);
    case ONE_PHASE:
        return xa_commit(&xid, RMID, TMONEPHASE);
    case ROLL_BACK:
        return xa_rollback(&xid, RMID);
    case FORGET:
        return xa_forget(&xid, RMID);
    case RECOVER:
        return xa_recover(NULL, 0, RMID, TMSTARTRSCAN | TMENDRSCAN);
    default:
        return put(RMID, "state", "v");
    }
}

static int make_elsewhere(void *call)
{
    return make(*(const enum call *)call);
}

/* The same in the other thread. */
static int elsewhere(enum call call)
{
    return actor_do(other, make_elsewhere, &call);
}

/* How each state is come to, from a new XID that isn't known, with a thread that has the resource manager open. */
static void unknown(void)
{
}

static void closed(void)
{
    CODE(XA_OK, make(CLOSE));
}

static void active(void)
{
    CODE(XA_OK, make(START));
    CODE(XA_OK, make(PUT));
}

static void active_elsewhere(void)
{
    CODE(XA_OK, elsewhere(START));
    CODE(XA_OK, elsewhere(PUT));
}

static void suspended(void)
{
    active();
    CODE(XA_OK, make(SUSPEND));
}

static void suspended_elsewhere(void)
{
    active_elsewhere();
    CODE(XA_OK, elsewhere(SUSPEND));
}

static void loose(void)
{
    active_elsewhere();
    CODE(XA_OK, elsewhere(MIGRATE));
}

static void idle(void)
{
    active();
    CODE(XA_OK, make(SUCCESS));
}

static void idle_read(void)
{
    CODE(XA_OK, make(START));
    CODE(XA_OK, make(SUCCESS));
}

static void prepared(void)
{
    idle();
    CODE(XA_OK, make(PREPARE));
}

static void rollback_only(void)
{
    active();
    CODE(XA_RBROLLBACK, make(FAILS));
}

static void joined_and_failed(void)
{
    active();
    CODE(XA_OK, elsewhere(JOIN));
    CODE(XA_RBROLLBACK, elsewhere(FAILS));
}

static void suspended_and_failed(void)
{
    suspended();
    CODE(XA_OK, elsewhere(JOIN));
    CODE(XA_RBROLLBACK, elsewhere(FAILS));
}

static void committed(void)
{
    prepared();
    operate(&server, "decide commit", &xid);
}

static void rolled_back(void)
{
    prepared();
    operate(&server, "decide rollback", &xid);
}

/* What is answered, in the tables below. */
enum { OK = XA_OK, NA = XAER_NOTA, PR = XAER_PROTO, ID = XAER_DUPID, RB = XA_RBROLLBACK, RO = XA_RDONLY, HC = XA_HEURCOM, HR = XA_HEURRB };

/* The columns are those of `calls`. A thread is not associated, if not otherwise said. */
static const struct {
    const char *name;
    void (*come)(void);
    int codes[CALLS];
} states[] = {
    {"R0, the resource manager isn't open in this thread", closed,
        {OK, OK, PR, PR, PR, PR, PR, PR, PR, PR, PR, PR, PR, PR, PR, PR}},
    {"S0, a branch that doesn't exist", unknown,
        {OK, OK, OK, NA, NA, NA, NA, NA, NA, NA, NA, NA, NA, NA, OK, PR}},
    {"S1 T1, active by this thread", active,
        {OK, PR, PR, PR, PR, OK, RB, OK, OK, PR, PR, PR, PR, PR, OK, OK}},
    {"S1 T0, active by another thread", active_elsewhere,
        {OK, OK, ID, OK, PR, PR, PR, PR, PR, PR, PR, PR, PR, PR, OK, PR}},
    {"S1 T2, suspended by this thread", suspended,
        {OK, PR, ID, PR, OK, OK, RB, PR, PR, PR, PR, PR, PR, PR, OK, PR}},
    {"S1 T0, suspended by another thread", suspended_elsewhere,
        {OK, OK, ID, OK, PR, PR, PR, PR, PR, PR, PR, PR, PR, PR, OK, PR}},
    {"S1 T2, suspended for migration by another thread", loose,
        {OK, OK, ID, OK, OK, OK, RB, PR, PR, PR, PR, PR, PR, PR, OK, PR}},
    {"S2, idle", idle,
        {OK, OK, ID, OK, PR, PR, PR, PR, PR, OK, PR, OK, OK, PR, OK, PR}},
    {"S2, idle, and it wrote nothing", idle_read,
        {OK, OK, ID, OK, PR, PR, PR, PR, PR, RO, PR, OK, OK, PR, OK, PR}},
    {"S3, prepared", prepared,
        {OK, OK, ID, PR, PR, PR, PR, PR, PR, PR, OK, PR, OK, PR, OK, PR}},
    {"S4, rollback only", rollback_only,
        {OK, OK, ID, RB, PR, PR, PR, PR, PR, RB, PR, RB, RB, PR, OK, PR}},
    {"S4 T1, rollback only by another thread", joined_and_failed,
        {OK, PR, PR, PR, PR, RB, RB, RB, RB, PR, PR, PR, PR, PR, OK, RB}},
    {"S4 T2, the same while suspended", suspended_and_failed,
        {OK, PR, ID, PR, RB, RB, RB, PR, PR, PR, PR, PR, PR, PR, OK, PR}},
    {"S5, heuristically committed", committed,
        {OK, OK, ID, PR, PR, PR, PR, PR, PR, PR, HC, PR, HC, OK, OK, PR}},
    {"S5, heuristically rolled back", rolled_back,
        {OK, OK, ID, PR, PR, PR, PR, PR, PR, PR, HR, PR, HR, OK, OK, PR}},
};

/* After a call the branch is gone, whatever it was, and the tables hold for the next one. */
static void clean(void)
{
    make(OPEN);
    make(FAILS);
    elsewhere(FAILS);
    make(ROLL_BACK);
    make(FORGET);
    CODE(XAER_NOTA, make(ROLL_BACK));
    CODE(XA_OK, make(CLOSE));
}

static size_t state;

static void row(void)
{
    for (enum call call = OPEN; call < CALLS; call++) {
        xid = fresh();
        CODE(XA_OK, make(OPEN));
        states[state].come();
        int code = make(call);
        if (code != states[state].codes[call])
            fail("%s is %d, not %d (%s)", calls[call], code, states[state].codes[call], xarm_why());
        clean();
    }
}

/* What the calls that succeed lead to: each path through the tables, by its codes. */
static void paths(void)
{
    static const struct {
        enum call call;
        int code;
    } steps[] = {
        {START, OK}, {SUSPEND, OK}, {RESUME, OK}, {MIGRATE, OK}, {RESUME, OK}, {SUCCESS, OK}, {JOIN, OK}, {PUT, OK}, {SUCCESS, OK},
        {PREPARE, OK}, {COMMIT, OK}, {COMMIT, NA}, {START, OK}, {SUSPEND, OK}, {SUCCESS, OK}, {ROLL_BACK, OK}, {ROLL_BACK, NA},
        {START, OK}, {SUCCESS, OK}, {PREPARE, RO}, {COMMIT, NA}, {START, OK}, {FAILS, RB}, {PREPARE, RB}, {ROLL_BACK, NA},
        {START, OK}, {PUT, OK}, {SUCCESS, OK}, {ONE_PHASE, OK}, {ONE_PHASE, NA}, {CLOSE, OK}, {CLOSE, OK}, {START, PR}, {OPEN, OK},
    };
    xid = fresh();
    CODE(XA_OK, make(OPEN));
    for (size_t at = 0; at < sizeof steps / sizeof steps[0]; at++) {
        int code = make(steps[at].call);
        if (code != steps[at].code)
            fail("step %d, %s, is %d, not %d", (int)at, calls[steps[at].call], code, steps[at].code);
    }
    clean();
}

/* A thread that suspended several goes on with any. */
static void several(void)
{
    XID one = fresh(), two = fresh();
    CODE(XA_OK, make(OPEN));
    begin_work(RMID, &one, "one", "1");
    CODE(XA_OK, xa_end(&one, RMID, TMSUSPEND));
    begin_work(RMID, &two, "two", "2");
    CODE(XAER_PROTO, xa_start(&one, RMID, TMRESUME));
    CODE(XA_OK, xa_end(&two, RMID, TMSUSPEND));
    CODE(XA_OK, xa_start(&one, RMID, TMRESUME));
    CODE(XA_OK, get(RMID, "one"));
    CODE(XARM_ABSENT, get(RMID, "two again"));
    CODE(XA_OK, xa_end(&two, RMID, TMSUCCESS));
    CODE(XA_OK, xa_end(&one, RMID, TMSUCCESS));
    CODE(XA_OK, xa_commit(&two, RMID, TMONEPHASE));
    CODE(XA_OK, xa_commit(&one, RMID, TMONEPHASE));
}

static void begin(void)
{
    make_server(&server, "bank");
    other = actor_make();
    CODE(XA_OK, elsewhere(OPEN));
}

static void finish(void)
{
    CODE(XA_OK, elsewhere(CLOSE));
    actor_end(other);
    CODE(XA_OK, xa_open(server.info, RMID));
    CODE(0, xa_recover(NULL, 0, RMID, TMSTARTRSCAN | TMENDRSCAN));
    CODE(XA_OK, xa_close(RMID));
}

void state_tests(void)
{
    test("two threads open one resource manager", begin);
    for (state = 0; state < sizeof states / sizeof states[0]; state++)
        test(states[state].name, row);
    test("each path through the tables", paths);
    test("a thread that suspended several branches goes on with any", several);
    test("both close it", finish);
    server_kill(&server);
}
