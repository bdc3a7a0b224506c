/* Info strings, and what xa_open makes of them. */
#include <stdio.h>
#include <string.h>

#include "work.h"

enum { RMID = 1 };

static struct server server, local;

static void good(void)
{
    static const char *const forms[] = {
        "host=127.0.0.1 port=%d name=bank timeout=20", "port=%d name=bank", "name=bank port=%d", "  port=%d   name=bank ",
        "timeout=1 name=bank host=localhost port=%d", "timeout=3600 name=bank port=%d",
    };
    for (size_t at = 0; at < sizeof forms / sizeof forms[0]; at++) {
        char info[MAXINFOSIZE];
        snprintf(info, sizeof info, forms[at], server.port);
        if (xa_open(info, RMID) != XA_OK)
            fail("'%s': %s", info, xarm_why());
        CODE(XA_OK, xa_close(RMID));
    }
}

static void bad(void)
{
    static const char *const rows[] = {
        "", " ", "bank", "name=bank", "port=4187", "port=0 name=bank", "port=65536 name=bank", "port=04187 name=bank", "port=+1 name=bank",
        "port= name=bank", "port=4187x name=bank", "port=4187 port=4187 name=bank", "port=4187 name=bank name=bank",
        "port=4187 name= name=bank", "port=4187 name=bank timeout=0", "port=4187 name=bank timeout=3601", "port=4187 name=bank timeout=-1",
        "port=4187 name=bank timeout=99999999999", "port=4187 name=bank timeout=1 timeout=1", "host= port=4187 name=bank",
        "host=a host=a port=4187 name=bank", "socket= name=bank", "socket=/s port=4187 name=bank", "socket=/s host=127.0.0.1 name=bank",
        "port=4187 name=bank user=me", "port=4187,name=bank", "port=4187 name=bank =", "PORT=4187 name=bank", "port=4187\tname=bank",
        "port=4187 name=bank\n", "port=99999999999999999999 name=bank",
    };
    for (size_t at = 0; at < sizeof rows / sizeof rows[0]; at++) {
        int code = xa_open(rows[at], RMID);
        if (code != XAER_INVAL)
            fail("'%s' is %d", rows[at], code);
        HOLDS(xarm_why()[0] != '\0');
    }
    CODE(XAER_INVAL, xa_open(NULL, RMID));
    CODE(XAER_PROTO, xa_recover(NULL, 0, RMID, TMSTARTRSCAN));
}

static void lengths(void)
{
    char info[2 * MAXINFOSIZE];
    int front = snprintf(info, sizeof info, "port=%d name=", server.port);
    memset(info + front, 'x', sizeof info - (size_t)front);
    info[MAXINFOSIZE - 1] = '\0';
    /* its length is right, and its name is not the server's */
    CODE(XAER_INVAL, xa_open(info, RMID));
    HOLDS(strstr(xarm_why(), "another name"));
    info[MAXINFOSIZE - 1] = 'x';
    info[MAXINFOSIZE] = '\0';
    CODE(XAER_INVAL, xa_open(info, RMID));
    HOLDS(strstr(xarm_why(), "255 bytes"));
    front = snprintf(info, sizeof info, "name=bank socket=/");
    memset(info + front, 's', sizeof info - (size_t)front);
    info[front + 106] = '\0';
    CODE(XAER_RMERR, xa_open(info, RMID));
    info[front + 106] = 's';
    info[front + 107] = '\0';
    CODE(XAER_INVAL, xa_open(info, RMID));
}

static void nobody(void)
{
    char info[MAXINFOSIZE];
    snprintf(info, sizeof info, "port=%d name=bank", free_port());
    CODE(XAER_RMERR, xa_open(info, RMID));
    HOLDS(strstr(xarm_why(), "Connection refused"));
    CODE(XAER_RMERR, xa_open("host=256.1.1.1 port=1 name=bank timeout=2", RMID));
    CODE(XAER_PROTO, xa_recover(NULL, 0, RMID, TMSTARTRSCAN));
}

static void again(void)
{
    char info[MAXINFOSIZE];
    CODE(XA_OK, xa_open(server.info, RMID));
    CODE(XA_OK, xa_open(server.info, RMID));
    snprintf(info, sizeof info, "name=bank port=%d timeout=20", server.port);
    CODE(XA_OK, xa_open(info, RMID));
    snprintf(info, sizeof info, "name=bank port=%d timeout=21", server.port);
    CODE(XAER_INVAL, xa_open(info, RMID));
    snprintf(info, sizeof info, "name=shop port=%d timeout=20", server.port);
    CODE(XAER_INVAL, xa_open(info, RMID));
    CODE(XA_OK, xa_recover(NULL, 0, RMID, TMSTARTRSCAN));
    CODE(XA_OK, xa_close(RMID));
    CODE(XA_OK, xa_close(RMID));
}

static void by_socket(void)
{
    XID xid = fresh();
    if (!server_make(&local, program, folder, "local", true))
        fail("the server isn't ready");
    CODE(XA_OK, xa_open(local.info, RMID));
    end_work(RMID, &xid, "k", "v");
    CODE(XA_OK, xa_commit(&xid, RMID, TMONEPHASE));
    expect_value(RMID, "k", "v");
    server_kill(&local);
    CODE(XAER_RMFAIL, xa_recover(NULL, 0, RMID, TMSTARTRSCAN));
    start_server(&local);
    expect_value(RMID, "k", "v");
    CODE(XA_OK, xa_close(RMID));
    server_kill(&local);
}

static void begin(void)
{
    make_server(&server, "bank");
}

void info_tests(void)
{
    test("a server starts", begin);
    test("info strings of a port are taken in any order", good);
    test("each bad info string is XAER_INVAL", bad);
    test("an info string has at most 255 bytes, and a socket's path 107", lengths);
    test("if nobody listens xa_open is XAER_RMERR, and nothing is open", nobody);
    test("xa_open of what is open changes nothing, and wants the same info string", again);
    test("a Unix socket does as well as a port", by_socket);
    server_kill(&server);
}
