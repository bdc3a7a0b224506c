/* Connections that break in the midst of a frame, and servers that are killed. */
#include <stdio.h>
#include <string.h>
#include <time.h>

#include "relay.h"
#include "work.h"

enum { RMID = 1, DIRECT = 2, PARTS = 5 };

static struct server server;
static struct relay *relay;
static char info[300];

static void begin(void)
{
    make_server(&server, "bank");
    relay = relay_make(server.port);
    snprintf(info, sizeof info, "port=%d name=bank timeout=20", relay_port(relay));
    CODE(XA_OK, xa_open(info, RMID));
    CODE(XA_OK, xa_open(server.info, DIRECT));
}

/* What a branch is answered whose connection broke under its work. */
static void lost(XID *xid, const char *key)
{
    XID another = fresh();
    CODE(XAER_RMFAIL, get(RMID, key));
    CODE(XAER_RMFAIL, put(RMID, key, "w"));
    CODE(XAER_RMFAIL, xarm_delete(RMID, key, strlen(key)));
    CODE(XAER_RMFAIL, xa_start(&another, RMID, TMNOFLAGS));
    CODE(XAER_RMFAIL, xa_recover(NULL, 0, RMID, TMSTARTRSCAN));
    CODE(XAER_ASYNC, xa_end(xid, RMID, TMASYNC | TMSUCCESS));
    CODE(XAER_INVAL, xa_end(xid, RMID, TMSUCCESS | TMFAIL));
    CODE(XA_RBCOMMFAIL, xa_end(xid, RMID, TMSUCCESS));
    CODE(XA_RBCOMMFAIL, xa_rollback(xid, RMID));
    CODE(XAER_NOTA, xa_rollback(xid, RMID));
    expect_value(RMID, key, NULL);
}

static void put_reply(void)
{
    for (int part = 0; part < PARTS; part++) {
        XID xid = fresh();
        CODE(XA_OK, xa_start(&xid, RMID, TMNOFLAGS));
        relay_cut_reply(relay, part == PARTS - 1 ? 18 : part);
        CODE(XAER_RMFAIL, put(RMID, "b1", "v"));
        lost(&xid, "b1");
    }
}

static void put_request(void)
{
    for (int part = 0; part < PARTS; part++) {
        XID xid = fresh();
        CODE(XA_OK, xa_start(&xid, RMID, TMNOFLAGS));
        relay_cut_request(relay, part);
        CODE(XAER_RMFAIL, put(RMID, "b2", "v"));
        lost(&xid, "b2");
    }
}

static void get_reply(void)
{
    XID xid = fresh();
    char value[10] = "zzzz";
    size_t length = 99;
    begin_work(DIRECT, &xid, "b0", "value");
    CODE(XA_OK, xa_end(&xid, DIRECT, TMSUCCESS));
    CODE(XA_OK, xa_commit(&xid, DIRECT, TMONEPHASE));
    xid = fresh();
    CODE(XA_OK, xa_start(&xid, RMID, TMNOFLAGS));
    relay_cut_reply(relay, 24);
    CODE(XAER_RMFAIL, xarm_get(RMID, "b0", 2, value, sizeof value, &length));
    HOLDS(length == 0 && strcmp(value, "zzzz") == 0);
    CODE(XA_RBCOMMFAIL, xa_end(&xid, RMID, TMFAIL));
    CODE(XA_RBCOMMFAIL, xa_prepare(&xid, RMID));
    CODE(XAER_NOTA, xa_rollback(&xid, RMID));
}

/* The work was ended, but whether it was isn't known; prepare tells it. */
static void end_reply(void)
{
    XID xid = fresh();
    begin_work(RMID, &xid, "b3", "v");
    relay_cut_reply(relay, 9);
    CODE(XAER_RMFAIL, xa_end(&xid, RMID, TMSUCCESS));
    CODE(XA_OK, xa_prepare(&xid, RMID));
    CODE(XA_OK, xa_commit(&xid, RMID, TMNOFLAGS));
    expect_value(RMID, "b3", "v");
}

static void end_request(void)
{
    XID xid = fresh();
    begin_work(RMID, &xid, "b4", "v");
    relay_cut_request(relay, 9);
    CODE(XAER_RMFAIL, xa_end(&xid, RMID, TMSUCCESS));
    CODE(XA_RBCOMMFAIL, xa_prepare(&xid, RMID));
    CODE(XAER_NOTA, xa_rollback(&xid, RMID));
    expect_value(RMID, "b4", NULL);
}

static void suspend_reply(void)
{
    XID xid = fresh();
    begin_work(RMID, &xid, "b14", "v");
    relay_cut_reply(relay, 9);
    CODE(XAER_RMFAIL, xa_end(&xid, RMID, TMSUSPEND));
    CODE(XA_RBCOMMFAIL, xa_rollback(&xid, RMID));
    /* a loose association is no session's: it outlasts the connection, and any goes on with it */
    xid = fresh();
    begin_work(RMID, &xid, "b14", "v");
    relay_cut_reply(relay, 9);
    CODE(XAER_RMFAIL, xa_end(&xid, RMID, TMSUSPEND | TMMIGRATE));
    CODE(XA_OK, xa_start(&xid, DIRECT, TMRESUME));
    CODE(XA_OK, xa_end(&xid, DIRECT, TMSUCCESS));
    CODE(XA_OK, xa_commit(&xid, DIRECT, TMONEPHASE));
    expect_value(RMID, "b14", "v");
}

static void suspended(void)
{
    XID one = fresh(), two = fresh();
    begin_work(RMID, &one, "b15", "v");
    CODE(XA_OK, xa_end(&one, RMID, TMSUSPEND));
    begin_work(RMID, &two, "b16", "v");
    relay_cut_reply(relay, 9);
    CODE(XAER_RMFAIL, put(RMID, "b16", "w"));
    CODE(XA_RBCOMMFAIL, xa_end(&two, RMID, TMSUCCESS));
    CODE(XAER_RMFAIL, xa_rollback(&two, RMID));
    CODE(XA_RBCOMMFAIL, xa_start(&one, RMID, TMRESUME));
    CODE(XA_RBCOMMFAIL, xa_rollback(&two, RMID));
    CODE(XA_RBCOMMFAIL, xa_start(&one, RMID, TMRESUME));
    CODE(XA_RBCOMMFAIL, xa_rollback(&one, RMID));
}

static void resume_reply(void)
{
    XID xid = fresh();
    begin_work(RMID, &xid, "b17", "v");
    CODE(XA_OK, xa_end(&xid, RMID, TMSUSPEND));
    relay_cut_reply(relay, 9);
    CODE(XAER_RMFAIL, xa_start(&xid, RMID, TMRESUME));
    CODE(XA_RBCOMMFAIL, xa_end(&xid, RMID, TMSUCCESS));
    CODE(XA_RBCOMMFAIL, xa_rollback(&xid, RMID));
}

static void start_reply(void)
{
    XID xid = fresh();
    relay_cut_reply(relay, 9);
    CODE(XAER_RMFAIL, xa_start(&xid, RMID, TMNOFLAGS));
    CODE(XA_RBCOMMFAIL, xa_rollback(&xid, RMID));
    CODE(XAER_NOTA, xa_rollback(&xid, RMID));
    relay_cut_request(relay, 9);
    CODE(XAER_RMFAIL, xa_start(&xid, RMID, TMNOFLAGS));
    CODE(XAER_NOTA, xa_rollback(&xid, RMID));
}

static void prepare_reply(void)
{
    XID xid = fresh();
    end_work(RMID, &xid, "b5", "v");
    relay_cut_reply(relay, 9);
    CODE(XAER_RMFAIL, xa_prepare(&xid, RMID));
    expect_listed(RMID, &xid, 1);
    CODE(XA_OK, xa_commit(&xid, RMID, TMNOFLAGS));
    expect_value(RMID, "b5", "v");
}

static void prepare_request(void)
{
    XID xid = fresh();
    end_work(RMID, &xid, "b6", "v");
    relay_cut_request(relay, 9);
    CODE(XAER_RMFAIL, xa_prepare(&xid, RMID));
    expect_listed(RMID, NULL, 0);
    CODE(XA_OK, xa_prepare(&xid, RMID));
    CODE(XA_OK, xa_commit(&xid, RMID, TMNOFLAGS));
    expect_value(RMID, "b6", "v");
}

static void commit_reply(void)
{
    XID xid = fresh();
    prepare_work(RMID, &xid, "b7", "v");
    relay_cut_reply(relay, 18);
    CODE(XAER_RMFAIL, xa_commit(&xid, RMID, TMNOFLAGS));
    CODE(XAER_NOTA, xa_commit(&xid, RMID, TMNOFLAGS));
    expect_value(RMID, "b7", "v");
}

static void commit_request(void)
{
    XID xid = fresh();
    prepare_work(RMID, &xid, "b8", "v");
    relay_cut_request(relay, 5);
    CODE(XAER_RMFAIL, xa_commit(&xid, RMID, TMNOFLAGS));
    CODE(XA_OK, xa_commit(&xid, RMID, TMNOFLAGS));
    expect_value(RMID, "b8", "v");
}

/* A commit in one phase after an end of which it isn't known whether it was done doesn't become a rollback. */
static void one_phase(void)
{
    XID xid = fresh();
    begin_work(RMID, &xid, "b9", "v");
    relay_cut_reply(relay, 9);
    CODE(XAER_RMFAIL, xa_end(&xid, RMID, TMSUCCESS));
    CODE(XA_OK, xa_open(info, RMID));
    relay_cut_reply(relay, 9);
    CODE(XAER_RMFAIL, xa_commit(&xid, RMID, TMONEPHASE));
    CODE(XAER_NOTA, xa_commit(&xid, RMID, TMONEPHASE));
    CODE(XAER_NOTA, xa_rollback(&xid, RMID));
    expect_value(RMID, "b9", "v");
}

static void rollback_reply(void)
{
    XID xid = fresh();
    end_work(RMID, &xid, "b10", "v");
    relay_cut_reply(relay, 1);
    CODE(XAER_RMFAIL, xa_rollback(&xid, RMID));
    CODE(XAER_NOTA, xa_rollback(&xid, RMID));
    expect_value(RMID, "b10", NULL);
}

static void recover_reply(void)
{
    XID xid = fresh(), found;
    prepare_work(RMID, &xid, "b11", "v");
    relay_cut_reply(relay, 25);
    CODE(XAER_RMFAIL, xa_recover(&found, 1, RMID, TMSTARTRSCAN));
    /* a scan ends with its connection */
    CODE(XAER_INVAL, xa_recover(&found, 1, RMID, TMNOFLAGS));
    expect_listed(RMID, &xid, 1);
    CODE(XA_OK, xa_rollback(&xid, RMID));
}

static void open_reply(void)
{
    XID xid = fresh();
    relay_break(relay);
    relay_cut_reply(relay, 9);
    CODE(XAER_RMFAIL, xa_start(&xid, RMID, TMNOFLAGS));
    CODE(XA_OK, xa_close(RMID));
    relay_cut_reply(relay, 9);
    CODE(XAER_RMERR, xa_open(info, RMID));
    CODE(XAER_PROTO, xa_start(&xid, RMID, TMNOFLAGS));
    CODE(XA_OK, xa_open(info, RMID));
}

static void close_reply(void)
{
    relay_cut_reply(relay, 3);
    CODE(XA_OK, xa_close(RMID));
    CODE(XAER_PROTO, get(RMID, "k"));
    CODE(XA_OK, xa_open(info, RMID));
    relay_break(relay);
    CODE(XA_OK, xa_close(RMID));
    CODE(XA_OK, xa_open(info, RMID));
}

/* Between transactions a connection that the server closed isn't missed. */
static void idle(void)
{
    XID one = fresh(), two = fresh();
    relay_break(relay);
    end_work(RMID, &one, "b12", "v");
    relay_break(relay);
    CODE(XA_OK, xa_prepare(&one, RMID));
    relay_break(relay);
    CODE(XA_OK, xa_commit(&one, RMID, TMNOFLAGS));
    relay_break(relay);
    expect_value(RMID, "b12", "v");
    begin_work(RMID, &two, "b12", "w");
    relay_break(relay);
    /* nothing of the end was sent, so it is certain that the branch is marked */
    CODE(XA_RBCOMMFAIL, xa_end(&two, RMID, TMSUCCESS));
    CODE(XA_RBCOMMFAIL, xa_rollback(&two, RMID));
    expect_value(RMID, "b12", "v");
}

/* xa_open connects anew, and what was lost is told no more. */
static void opened_anew(void)
{
    XID xid = fresh();
    begin_work(RMID, &xid, "b13", "v");
    relay_break(relay);
    CODE(XAER_RMFAIL, get(RMID, "b13"));
    CODE(XA_OK, xa_open(info, RMID));
    relay_break(relay);
    expect_value(RMID, "b12", "v");
    CODE(XA_RBCOMMFAIL, xa_prepare(&xid, RMID));
    /* or it is closed */
    xid = fresh();
    begin_work(RMID, &xid, "b13", "v");
    relay_break(relay);
    CODE(XA_OK, xa_close(RMID));
    CODE(XA_OK, xa_open(info, RMID));
    CODE(XA_RBCOMMFAIL, xa_rollback(&xid, RMID));
}

static void restart(void)
{
    server_kill(&server);
    start_server(&server);
}

static void killed_prepared(void)
{
    XID xid = fresh();
    prepare_work(DIRECT, &xid, "r1", "v");
    server_kill(&server);
    CODE(XAER_RMFAIL, xa_commit(&xid, DIRECT, TMNOFLAGS));
    CODE(XAER_RMFAIL, xa_recover(NULL, 0, DIRECT, TMSTARTRSCAN));
    CODE(XAER_RMERR, xa_open(server.info, DIRECT));
    start_server(&server);
    expect_listed(DIRECT, &xid, 1);
    CODE(XA_OK, xa_commit(&xid, DIRECT, TMNOFLAGS));
    expect_listed(DIRECT, NULL, 0);
    expect_value(DIRECT, "r1", "v");
}

static void killed_at_work(void)
{
    XID one = fresh(), two = fresh(), three = fresh(), four = fresh();
    begin_work(DIRECT, &one, "r2", "v");
    restart();
    CODE(XAER_RMFAIL, put(DIRECT, "r2", "w"));
    CODE(XA_RBCOMMFAIL, xa_end(&one, DIRECT, TMSUCCESS));
    CODE(XA_OK, xa_rollback(&one, DIRECT));
    CODE(XAER_NOTA, xa_rollback(&one, DIRECT));
    begin_work(DIRECT, &two, "r2", "v");
    restart();
    CODE(XA_RBCOMMFAIL, xa_end(&two, DIRECT, TMSUCCESS));
    CODE(XA_RBCOMMFAIL, xa_prepare(&two, DIRECT));
    CODE(XAER_NOTA, xa_prepare(&two, DIRECT));
    begin_work(DIRECT, &three, "r2", "v");
    restart();
    CODE(XA_RBCOMMFAIL, xa_end(&three, DIRECT, TMSUCCESS));
    CODE(XA_RBCOMMFAIL, xa_commit(&three, DIRECT, TMONEPHASE));
    begin_work(DIRECT, &four, "r2", "v");
    restart();
    CODE(XA_RBCOMMFAIL, xa_end(&four, DIRECT, TMSUCCESS));
    CODE(XAER_NOTA, xa_commit(&four, DIRECT, TMNOFLAGS));
    expect_value(DIRECT, "r2", NULL);
}

static void killed_ended(void)
{
    XID xid = fresh();
    end_work(DIRECT, &xid, "r3", "v");
    restart();
    CODE(XAER_NOTA, xa_prepare(&xid, DIRECT));
    CODE(XAER_NOTA, xa_rollback(&xid, DIRECT));
    expect_value(DIRECT, "r3", NULL);
}

static void finish(void)
{
    CODE(XA_OK, xa_close(RMID));
    CODE(XA_OK, xa_close(DIRECT));
}

void broken_tests(void)
{
    test("a relay stands between the library and a server", begin);
    test("a put whose reply is cut loses its branch, which its end tells", put_reply);
    test("a put whose request is cut loses its branch in the same way", put_request);
    test("a get whose reply is cut copies nothing, and prepare tells the mark", get_reply);
    test("an end whose reply is cut is XAER_RMFAIL, and prepare tells that the work was ended", end_reply);
    test("an end whose request is cut is XAER_RMFAIL, and prepare tells that the branch is marked", end_request);
    test("a suspension whose reply is cut: an own one is lost, and one for migration is resumed", suspend_reply);
    test("suspended branches are lost too, and each is told once", suspended);
    test("a resumption whose reply is cut is told by the end", resume_reply);
    test("a start whose reply is cut leaves a marked branch, until the rollback", start_reply);
    test("a prepare whose reply is cut is listed by recover", prepare_reply);
    test("a prepare whose request is cut is asked again", prepare_request);
    test("a commit whose reply is cut was done, and is XAER_NOTA", commit_reply);
    test("a commit whose request is cut is asked again", commit_request);
    test("a commit in one phase whose reply is cut, after such an end, is XAER_NOTA", one_phase);
    test("a rollback whose reply is cut was done, and is XAER_NOTA", rollback_reply);
    test("a recover whose reply is cut ends the scan", recover_reply);
    test("an Open whose reply is cut is XAER_RMFAIL, of xa_open XAER_RMERR", open_reply);
    test("a close whose reply is cut, or whose connection is gone, is done", close_reply);
    test("between calls of no association a connection that ended isn't missed", idle);
    test("xa_open connects anew and forgets what was lost, and so does xa_close", opened_anew);
    test("kill -9 of the server after a prepare: it is listed, and committed", killed_prepared);
    test("kill -9 under the work: the end tells it, and the branch is rolled back", killed_at_work);
    test("kill -9 after the end: prepare and rollback are XAER_NOTA", killed_ended);
    test("both are closed", finish);
    server_kill(&server);
}
