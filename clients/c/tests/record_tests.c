/* The calls on records. */
#include <stdio.h>
#include <stdlib.h>
#include <string.h>

#include "work.h"

enum { RMID = 3, OTHER = 4 };

static struct server server;

static void begin(void)
{
    make_server(&server, "bank");
    CODE(XA_OK, xa_open(server.info, RMID));
    CODE(XA_OK, xa_open(server.info, OTHER));
}

static void one_branch(void)
{
    XID xid = fresh();
    char value[8];
    size_t length = 99;
    CODE(XA_OK, xa_start(&xid, RMID, TMNOFLAGS));
    CODE(XARM_ABSENT, xarm_get(RMID, "k", 1, value, sizeof value, &length));
    CODE(0, (long)length);
    CODE(XA_OK, xarm_put(RMID, "k", 1, "value", 5));
    CODE(XA_OK, xarm_get(RMID, "k", 1, value, sizeof value, &length));
    HOLDS(length == 5 && memcmp(value, "value", 5) == 0);
    CODE(XA_OK, xarm_put(RMID, "k", 1, NULL, 0));
    CODE(XA_OK, xarm_get(RMID, "k", 1, NULL, 0, &length));
    CODE(0, (long)length);
    CODE(XA_OK, xarm_delete(RMID, "k", 1));
    CODE(XARM_ABSENT, xarm_get(RMID, "k", 1, value, sizeof value, &length));
    CODE(XA_OK, xarm_delete(RMID, "k", 1));
    CODE(XA_OK, xa_end(&xid, RMID, TMSUCCESS));
    CODE(XA_OK, xa_commit(&xid, RMID, TMONEPHASE));
    CODE(XAER_PROTO, xarm_get(RMID, "k", 1, value, sizeof value, &length));
    CODE(XAER_PROTO, xarm_put(RMID, "k", 1, "v", 1));
    CODE(XAER_PROTO, xarm_delete(RMID, "k", 1));
}

static void room(void)
{
    XID xid = fresh();
    char value[8] = "zzzzzzz";
    size_t length = 99;
    CODE(XA_OK, xa_start(&xid, RMID, TMNOFLAGS));
    CODE(XA_OK, xarm_put(RMID, "s", 1, "12345678", 8));
    CODE(XARM_SHORT, xarm_get(RMID, "s", 1, value, 7, &length));
    HOLDS(length == 8 && strcmp(value, "zzzzzzz") == 0);
    CODE(XARM_SHORT, xarm_get(RMID, "s", 1, NULL, 0, &length));
    CODE(8, (long)length);
    CODE(XA_OK, xarm_get(RMID, "s", 1, value, 8, &length));
    HOLDS(length == 8 && memcmp(value, "12345678", 8) == 0);
    CODE(XA_OK, xa_end(&xid, RMID, TMSUCCESS));
    CODE(XA_OK, xa_rollback(&xid, RMID));
}

static void sizes(void)
{
    XID xid = fresh();
    char *value = malloc(XARM_MOST_VALUE + 1), *found = malloc(XARM_MOST_VALUE + 1);
    char key[XARM_MOST_KEY + 1];
    size_t length;
    if (!value || !found)
        abort();
    for (int at = 0; at <= XARM_MOST_VALUE; at++)
        value[at] = (char)at;
    memset(key, 0, sizeof key);
    CODE(XA_OK, xa_start(&xid, RMID, TMNOFLAGS));
    CODE(XA_OK, xarm_put(RMID, key, 1, value, XARM_MOST_VALUE));
    CODE(XA_OK, xarm_put(RMID, key, XARM_MOST_KEY, value, XARM_MOST_VALUE));
    CODE(XA_OK, xarm_get(RMID, key, XARM_MOST_KEY, found, XARM_MOST_VALUE, &length));
    HOLDS(length == XARM_MOST_VALUE && memcmp(value, found, length) == 0);
    CODE(XAER_INVAL, xarm_put(RMID, key, 1, value, XARM_MOST_VALUE + 1));
    CODE(XAER_INVAL, xarm_put(RMID, key, XARM_MOST_KEY + 1, value, 1));
    CODE(XAER_INVAL, xarm_get(RMID, key, XARM_MOST_KEY + 1, found, 1, &length));
    CODE(XAER_INVAL, xarm_delete(RMID, key, XARM_MOST_KEY + 1));
    CODE(XAER_INVAL, xarm_put(RMID, key, 0, value, 1));
    CODE(XAER_INVAL, xarm_get(RMID, key, 0, found, 1, &length));
    CODE(XAER_INVAL, xarm_delete(RMID, key, 0));
    CODE(XAER_INVAL, xarm_put(RMID, NULL, 1, value, 1));
    CODE(XAER_INVAL, xarm_put(RMID, key, 1, NULL, 1));
    CODE(XAER_INVAL, xarm_get(RMID, NULL, 1, found, 1, &length));
    CODE(XAER_INVAL, xarm_get(RMID, key, 1, NULL, 1, &length));
    CODE(XAER_INVAL, xarm_get(RMID, key, 1, found, 1, NULL));
    CODE(XAER_INVAL, xarm_delete(RMID, NULL, 1));
    CODE(XA_OK, xa_end(&xid, RMID, TMSUCCESS));
    CODE(XA_OK, xa_commit(&xid, RMID, TMONEPHASE));
    free(value);
    free(found);
}

static void busy(void)
{
    XID writer = fresh(), reader = fresh();
    begin_work(RMID, &writer, "b", "v");
    CODE(XA_OK, xa_start(&reader, OTHER, TMNOFLAGS));
    CODE(XARM_BUSY, get(OTHER, "b"));
    CODE(XARM_BUSY, get(OTHER, "b"));
    CODE(XA_OK, xa_end(&writer, RMID, TMSUCCESS));
    CODE(XA_OK, xa_commit(&writer, RMID, TMONEPHASE));
    CODE(XA_OK, get(OTHER, "b"));
    CODE(XA_OK, xa_end(&reader, OTHER, TMSUCCESS));
    CODE(XA_RDONLY, xa_prepare(&reader, OTHER));
}

static void late(void)
{
    for (int at = 0; at < 2; at++) {
        XID first = fresh(), second = fresh();
        CODE(XA_OK, xa_start(&first, RMID, TMNOFLAGS));
        CODE(XA_OK, xa_start(&second, OTHER, TMNOFLAGS));
        CODE(XARM_ABSENT, get(OTHER, "late"));
        CODE(XARM_LATE, at == 0 ? put(RMID, "late", "v") : xarm_delete(RMID, "late", 4));
        CODE(XA_RBTRANSIENT, put(RMID, "late", "v"));
        CODE(XA_RBTRANSIENT, get(RMID, "late"));
        CODE(XA_RBTRANSIENT, xa_end(&first, RMID, TMSUCCESS));
        CODE(XA_RBTRANSIENT, xa_rollback(&first, RMID));
        CODE(XA_OK, xa_end(&second, OTHER, TMSUCCESS));
        CODE(XA_OK, xa_commit(&second, OTHER, TMONEPHASE));
    }
}

static void limit(void)
{
    XID xid = fresh();
    char key[20];
    CODE(XA_OK, xa_start(&xid, RMID, TMNOFLAGS));
    for (int at = 0; at < 256; at++) {
        snprintf(key, sizeof key, "limit %d", at);
        CODE(XA_OK, put(RMID, key, "v"));
    }
    CODE(XARM_LIMIT, put(RMID, "limit", "v"));
    CODE(XARM_LIMIT, xarm_delete(RMID, "limit", 5));
    CODE(XA_OK, put(RMID, key, "w"));
    CODE(XA_OK, xa_end(&xid, RMID, TMSUCCESS));
    CODE(XA_OK, xa_commit(&xid, RMID, TMONEPHASE));
    expect_value(RMID, key, "w");
    CODE(XA_OK, xa_close(RMID));
    CODE(XA_OK, xa_close(OTHER));
}

void record_tests(void)
{
    test("two rmids of one server are open in one thread", begin);
    test("records are written, read and deleted in the thread's branch, and outside of one it is XAER_PROTO", one_branch);
    test("a value for which there is no room is XARM_SHORT, and its length is told", room);
    test("keys have 1 to 64 bytes and values 0 to 16,384, else it is XAER_INVAL", sizes);
    test("a record of a branch that isn't completed is XARM_BUSY, until it is", busy);
    test("a write that comes late is XARM_LATE, and marks its branch XA_RBTRANSIENT", late);
    test("a 257th key is XARM_LIMIT, and the branch goes on", limit);
    server_kill(&server);
}
