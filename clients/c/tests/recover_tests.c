/* xa_recover, in pages. */
#include <stdio.h>
#include <string.h>

#include "work.h"

enum { RMID = 1, BRANCHES = 300 };

static struct server server;
static XID made[BRANCHES], found[2 * BRANCHES];

static void begin(void)
{
    make_server(&server, "bank");
    CODE(XA_OK, xa_open(server.info, RMID));
    for (int at = 0; at < BRANCHES; at++) {
        char gtrid[20];
        snprintf(gtrid, sizeof gtrid, "page %04d", at);
        made[at] = named(gtrid);
        prepare_work(RMID, &made[at], gtrid, "v");
    }
}

static void same(long from, long count)
{
    for (long at = 0; at < count; at++)
        HOLDS(is_same(&found[at], &made[from + at]));
}

static void pages(void)
{
    static const long counts[] = {1, 7, 255, 256, 257, 299, 300, 301, 512, 600};
    for (size_t at = 0; at < sizeof counts / sizeof counts[0]; at++) {
        long count = counts[at], listed = 0;
        int page = xa_recover(found, count, RMID, TMSTARTRSCAN);
        while (page == count) {
            same(listed, page);
            listed += page;
            page = xa_recover(found, count, RMID, TMNOFLAGS);
        }
        HOLDS(page >= 0 && page < count);
        same(listed, page);
        CODE(BRANCHES, listed + page);
        /* the scan is open still, and at its end */
        CODE(0, xa_recover(found, count, RMID, TMENDRSCAN));
        CODE(XAER_INVAL, xa_recover(found, count, RMID, TMNOFLAGS));
    }
}

static void in_one_call(void)
{
    static const long counts[] = {0, 1, 256, 257, 300, 512, 600};
    for (size_t at = 0; at < sizeof counts / sizeof counts[0]; at++) {
        long most = counts[at] < BRANCHES ? counts[at] : BRANCHES;
        CODE(most, xa_recover(found, counts[at], RMID, TMSTARTRSCAN | TMENDRSCAN));
        same(0, most);
        CODE(XAER_INVAL, xa_recover(found, 1, RMID, TMENDRSCAN));
    }
}

static void refusals(void)
{
    CODE(XAER_INVAL, xa_recover(found, -1, RMID, TMSTARTRSCAN));
    CODE(XAER_INVAL, xa_recover(NULL, 1, RMID, TMSTARTRSCAN));
    CODE(XAER_INVAL, xa_recover(found, 1, RMID, TMSTARTRSCAN | TMJOIN));
    CODE(XAER_INVAL, xa_recover(found, 1, RMID, TMNOFLAGS));
    CODE(0, xa_recover(NULL, 0, RMID, TMSTARTRSCAN | TMENDRSCAN));
}

static void after_kill(void)
{
    server_kill(&server);
    start_server(&server);
    CODE(BRANCHES, xa_recover(found, 2 * BRANCHES, RMID, TMSTARTRSCAN | TMENDRSCAN));
    same(0, BRANCHES);
    for (int at = 0; at < BRANCHES; at++)
        CODE(XA_OK, at % 2 == 0 ? xa_commit(&found[at], RMID, TMNOFLAGS) : xa_rollback(&found[at], RMID));
    CODE(0, xa_recover(found, 1, RMID, TMSTARTRSCAN | TMENDRSCAN));
    expect_value(RMID, "page 0000", "v");
    expect_value(RMID, "page 0001", NULL);
    CODE(XA_OK, xa_close(RMID));
}

void recover_tests(void)
{
    test("300 branches are prepared", begin);
    test("xa_recover lists them in pages of any size", pages);
    test("one call lists as many as there is room for, and ends the scan", in_one_call);
    test("wrong arguments, and a scan that isn't open, are XAER_INVAL", refusals);
    test("kill -9: all are listed again, and completed", after_kill);
    server_kill(&server);
}
