/* The switch, and the codes of its entries on a live server. */
#include <limits.h>
#include <stdio.h>
#include <string.h>

#include "work.h"

enum { RMID = 7, OTHER = 8, CALLS = 6 };

static struct server server;

static void begin(void)
{
    make_server(&server, "bank");
    CODE(XA_OK, xa_open(server.info, RMID));
}

static void is_switch(void)
{
    HOLDS(strcmp(xarm_switch.name, "xarm") == 0);
    CODE(TMNOFLAGS, xarm_switch.flags);
    CODE(0, xarm_switch.version);
}

/* Each entry with an XID. */
static int call(int number, XID *xid, int rmid, long flags)
{
    int (*const entries[CALLS])(XID *, int, long) = {
        xarm_switch.xa_start_entry,  xarm_switch.xa_end_entry,      xarm_switch.xa_prepare_entry,
        xarm_switch.xa_commit_entry, xarm_switch.xa_rollback_entry, xarm_switch.xa_forget_entry,
    };
    return entries[number](xid, rmid, flags);
}

static void whole(void)
{
    XID one = fresh(), two = fresh(), three = fresh(), four = fresh();
    prepare_work(RMID, &one, "k1", "v1");
    CODE(XA_OK, xa_commit(&one, RMID, TMNOWAIT));
    expect_value(RMID, "k1", "v1");
    end_work(RMID, &two, "k1", "v2");
    CODE(XA_OK, xa_commit(&two, RMID, TMONEPHASE));
    expect_value(RMID, "k1", "v2");
    prepare_work(RMID, &three, "k1", "v3");
    CODE(XA_OK, xa_rollback(&three, RMID));
    expect_value(RMID, "k1", "v2");
    CODE(XAER_NOTA, xa_commit(&three, RMID, TMNOFLAGS));
    CODE(XA_OK, xa_start(&four, RMID, TMNOWAIT));
    CODE(XA_OK, put(RMID, "k1", "v4"));
    CODE(XA_OK, xa_end(&four, RMID, TMSUCCESS));
    CODE(XA_OK, xa_commit(&four, RMID, TMONEPHASE | TMNOWAIT));
    expect_value(RMID, "k1", "v4");
}

static void not_open(void)
{
    XID xid = fresh();
    size_t length;
    for (int at = 0; at < CALLS; at++)
        CODE(XAER_PROTO, call(at, &xid, OTHER, at == 1 ? TMSUCCESS : TMNOFLAGS));
    CODE(XAER_PROTO, xa_recover(&xid, 1, OTHER, TMSTARTRSCAN));
    CODE(XAER_PROTO, xarm_get(OTHER, "k", 1, NULL, 0, &length));
    CODE(XAER_PROTO, xarm_put(OTHER, "k", 1, "v", 1));
    CODE(XAER_PROTO, xarm_delete(OTHER, "k", 1));
    CODE(XA_OK, xa_close(OTHER));
}

static void asynchronous(void)
{
    XID xid = fresh();
    long much = TMSUCCESS;
    for (int at = 0; at < CALLS; at++) {
        CODE(XAER_ASYNC, call(at, &xid, RMID, TMASYNC));
        CODE(XAER_ASYNC, call(at, &xid, RMID, TMASYNC | much));
    }
    CODE(XAER_ASYNC, xarm_switch.xa_open_entry(server.info, OTHER, TMASYNC));
    CODE(XAER_ASYNC, xarm_switch.xa_close_entry(server.info, RMID, TMASYNC));
    /* of xa_recover it is a flag that it can't have */
    CODE(XAER_INVAL, xa_recover(&xid, 1, RMID, TMASYNC | TMSTARTRSCAN));
}

static void completes(void)
{
    int handle = 1, result = 0;
    CODE(XAER_PROTO, xarm_switch.xa_complete_entry(&handle, &result, RMID, TMNOFLAGS));
    CODE(XAER_PROTO, xarm_switch.xa_complete_entry(&handle, &result, RMID, TMMULTIPLE));
    CODE(XAER_PROTO, xarm_switch.xa_complete_entry(&handle, &result, RMID, TMMULTIPLE | TMNOWAIT));
    CODE(XAER_INVAL, xarm_switch.xa_complete_entry(NULL, &result, RMID, TMNOFLAGS));
    CODE(XAER_INVAL, xarm_switch.xa_complete_entry(&handle, NULL, RMID, TMNOFLAGS));
    CODE(XAER_INVAL, xarm_switch.xa_complete_entry(&handle, &result, RMID, TMASYNC));
}

/* Flags that an entry can't have: for each all but its own, and combinations. */
static void flags(void)
{
    static const long all[] = {
        TMONEPHASE, TMFAIL, TMNOWAIT, TMRESUME, TMSUCCESS, TMSUSPEND, TMSTARTRSCAN, TMENDRSCAN, TMMULTIPLE, TMJOIN, TMMIGRATE, 1,
    };
    static const long own[CALLS] = {TMJOIN | TMRESUME | TMNOWAIT, TMSUCCESS | TMFAIL | TMSUSPEND, 0, TMONEPHASE | TMNOWAIT, 0, 0};
    static const struct {
        int entry;
        long flags;
    } rows[] = {
        {0, TMJOIN | TMRESUME}, {1, TMNOFLAGS}, {1, TMSUCCESS | TMFAIL}, {1, TMSUCCESS | TMSUSPEND}, {1, TMMIGRATE},
        {1, TMSUCCESS | TMMIGRATE}, {1, TMFAIL | TMMIGRATE},
    };
    XID xid = fresh();
    for (int at = 0; at < CALLS; at++) {
        for (size_t flag = 0; flag < sizeof all / sizeof all[0]; flag++) {
            int code = (own[at] & all[flag]) != 0 ? XAER_INVAL : call(at, &xid, RMID, all[flag]);
            if (code != XAER_INVAL)
                fail("entry %d with flags %lx is %d", at, all[flag], code);
        }
        if (sizeof(long) > 4)
            CODE(XAER_INVAL, call(at, &xid, RMID, (long)((unsigned long)1 << (8 * sizeof(long) - 2))));
        CODE(XAER_INVAL, call(at, &xid, RMID, -1));
    }
    for (size_t at = 0; at < sizeof rows / sizeof rows[0]; at++)
        CODE(XAER_INVAL, call(rows[at].entry, &xid, RMID, rows[at].flags));
    CODE(XAER_INVAL, xarm_switch.xa_open_entry(server.info, OTHER, TMNOWAIT));
    CODE(XAER_INVAL, xarm_switch.xa_close_entry(server.info, RMID, TMNOWAIT));
}

/* Sizes of XIDs: the greatest and the least that there are, and one more and less. */
static void xids(void)
{
    static const struct {
        long format, gtrid, bqual;
        int code;
    } rows[] = {
        {0, 1, 1, XA_OK}, {0, 64, 64, XA_OK}, {0, 1, 0, XA_OK}, {2147483647, 64, 1, XA_OK}, {-2147483647 - 1, 1, 64, XA_OK}, {-2, 1, 1, XA_OK},
        {-1, 1, 1, XAER_INVAL}, {0, 0, 1, XAER_INVAL}, {0, 65, 1, XAER_INVAL}, {0, 1, 65, XAER_INVAL}, {0, -1, 1, XAER_INVAL},
        {0, 1, -1, XAER_INVAL}, {0, 128, 0, XAER_INVAL},
    };
    for (size_t at = 0; at < sizeof rows / sizeof rows[0]; at++) {
        XID xid, found[2];
        memset(&xid, 0, sizeof xid);
        memset(xid.data, 0xf0 + (int)at, sizeof xid.data);
        xid.formatID = rows[at].format;
        xid.gtrid_length = rows[at].gtrid;
        xid.bqual_length = rows[at].bqual;
        if (rows[at].code == XA_OK) {
            prepare_work(RMID, &xid, "x", "v");
            CODE(1, xa_recover(found, 2, RMID, TMSTARTRSCAN | TMENDRSCAN));
            HOLDS(is_same(&found[0], &xid));
            CODE(XA_OK, xa_rollback(&xid, RMID));
        }
        for (int number = 0; number < CALLS && rows[at].code != XA_OK; number++)
            CODE(XAER_INVAL, call(number, &xid, RMID, number == 1 ? TMSUCCESS : TMNOFLAGS));
    }
#if LONG_MAX > 2147483647L
    XID xid = fresh();
    xid.formatID = 2147483648L;
    CODE(XAER_INVAL, xa_start(&xid, RMID, TMNOFLAGS));
#endif
    for (int number = 0; number < CALLS; number++)
        CODE(XAER_INVAL, call(number, NULL, RMID, number == 1 ? TMSUCCESS : TMNOFLAGS));
}

static void marks(void)
{
    XID one = fresh(), two = fresh(), three = fresh();
    begin_work(RMID, &one, "m", "v");
    CODE(XA_RBROLLBACK, xa_end(&one, RMID, TMFAIL));
    CODE(XA_RBROLLBACK, xa_rollback(&one, RMID));
    CODE(XAER_NOTA, xa_rollback(&one, RMID));
    begin_work(RMID, &two, "m", "v");
    operate(&server, "doom", &two);
    CODE(XA_RBOTHER, put(RMID, "m", "w"));
    CODE(XA_RBOTHER, get(RMID, "m"));
    CODE(XA_RBOTHER, xarm_delete(RMID, "m", 1));
    CODE(XA_RBOTHER, xa_end(&two, RMID, TMSUCCESS));
    CODE(XA_RBOTHER, xa_prepare(&two, RMID));
    CODE(XAER_NOTA, xa_rollback(&two, RMID));
    end_work(RMID, &three, "m", "v");
    operate(&server, "doom", &three);
    CODE(XA_RBOTHER, xa_commit(&three, RMID, TMONEPHASE));
    expect_value(RMID, "m", NULL);
}

static void heuristics(void)
{
    static const struct {
        const char *decides;
        int code;
    } rows[] = {{"decide commit", XA_HEURCOM}, {"decide rollback", XA_HEURRB}};
    for (int at = 0; at < 2; at++) {
        XID xid = fresh();
        prepare_work(RMID, &xid, "h", "v");
        CODE(XAER_PROTO, xa_forget(&xid, RMID));
        operate(&server, rows[at].decides, &xid);
        expect_listed(RMID, &xid, 1);
        CODE(rows[at].code, xa_commit(&xid, RMID, TMNOFLAGS));
        CODE(rows[at].code, xa_rollback(&xid, RMID));
        CODE(XA_OK, xa_forget(&xid, RMID));
        CODE(XAER_NOTA, xa_forget(&xid, RMID));
        expect_listed(RMID, NULL, 0);
        expect_value(RMID, "h", "v");
    }
}

static void restarted(void)
{
    XID one = fresh(), two = fresh();
    begin_work(RMID, &one, "r", "v");
    operate(&server, "restart", NULL);
    CODE(XAER_PROTO, put(RMID, "r", "w"));
    CODE(XAER_NOTA, xa_end(&one, RMID, TMSUCCESS));
    CODE(XAER_NOTA, xa_prepare(&one, RMID));
    CODE(XAER_NOTA, xa_rollback(&one, RMID));
    prepare_work(RMID, &two, "r", "v");
    operate(&server, "restart", NULL);
    CODE(XA_OK, xa_commit(&two, RMID, TMNOFLAGS));
    expect_value(RMID, "r", "v");
}

static void closes(void)
{
    XID xid = fresh();
    begin_work(RMID, &xid, "c", "v");
    CODE(XAER_PROTO, xa_close(RMID));
    CODE(XA_OK, xa_end(&xid, RMID, TMSUSPEND));
    CODE(XAER_PROTO, xa_close(RMID));
    CODE(XA_OK, xa_end(&xid, RMID, TMSUCCESS));
    CODE(XA_OK, xa_close(RMID));
    CODE(XAER_PROTO, xa_commit(&xid, RMID, TMONEPHASE));
    CODE(XA_OK, xa_open(server.info, RMID));
    CODE(XA_OK, xa_commit(&xid, RMID, TMONEPHASE));
    expect_value(RMID, "c", "v");
    CODE(XA_OK, xarm_switch.xa_close_entry(NULL, RMID, TMNOFLAGS));
}

void entry_tests(void)
{
    test("the switch has the name xarm, version 0 and no flags", is_switch);
    test("xa_open connects", begin);
    test("branches are committed in two phases and in one, and rolled back", whole);
    test("if nothing is open each call is XAER_PROTO, and xa_close XA_OK", not_open);
    test("TMASYNC is XAER_ASYNC, of xa_recover XAER_INVAL", asynchronous);
    test("xa_complete is XAER_PROTO, with wrong arguments XAER_INVAL", completes);
    test("flags that an entry can't have are XAER_INVAL", flags);
    test("XIDs of each size are taken, and others XAER_INVAL", xids);
    test("marks come out as XA_RB* of each call", marks);
    test("what the operator completed is XA_HEURCOM or XA_HEURRB, until it is forgotten", heuristics);
    test("an operator's Restart ends what is at work, and a prepared branch outlasts it", restarted);
    test("xa_close is XAER_PROTO while an association is left", closes);
    server_kill(&server);
}
