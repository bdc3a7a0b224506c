/* xa_prepare, xa_commit, xa_rollback, xa_forget and xa_recover. */
#define _POSIX_C_SOURCE 200809L

#include <time.h>

#include "socket.h"
#include "switch.h"
#include "threads.h"
#include "why.h"

enum { LONGEST_PAUSE = 100 };

static void pause_for(int milliseconds)
{
    struct timespec pause = {.tv_sec = 0, .tv_nsec = milliseconds * 1000000L};
    nanosleep(&pause, NULL);
}

/* Whether an answer leaves nothing of the branch to complete, so that what was noted of it says nothing any more. */
static bool is_over(enum operation operation, int code)
{
    return code == XA_OK || code == XA_RDONLY || is_rollback(code) || code == XAER_NOTA || (operation != FORGET && 5 <= code && code <= 8);
}

static bool ask(struct connection *connection, enum operation operation, const struct packed *xid, long flags, struct reply *reply)
{
    request_begin(&connection->request, operation);
    request_number(&connection->request, (uint32_t)flags);
    request_xid(&connection->request, xid);
    return connection_call(connection, reply);
}

/* Asks for the completion of a branch. The server ends a session that broke once it sees that its peer is gone, perhaps after this call of
   the next one; until then it answers XAER_PROTO, since the old one still works for the branch. So it is asked again then, with pauses, for
   the time-out at most. */
static bool ask_patiently(struct connection *connection, enum operation operation, const struct packed *xid, long flags, struct reply *reply)
{
    int64_t end = milliseconds_now() + connection->server.milliseconds;
    int pause = 1;
    bool is_answered = ask(connection, operation, xid, flags, reply);
    while (is_answered && reply->code == XAER_PROTO && note_find(&connection->server, xid) != NOT_NOTED && milliseconds_now() < end
        && !branch_find(connection->branches, xid)) {
        pause_for(pause);
        pause = pause < LONGEST_PAUSE / 2 ? 2 * pause : LONGEST_PAUSE;
        is_answered = ask(connection, operation, xid, flags, reply);
    }
    return is_answered;
}

/* Of a branch that this process lost with a connection, and that the server doesn't know any more, it is certain that it was rolled back. */
static int code_of_gone(enum operation operation, long flags)
{
    if (operation == ROLLBACK)
        return XA_OK;
    return operation == PREPARE || (operation == COMMIT && (flags & TMONEPHASE) != 0) ? XA_RBCOMMFAIL : XAER_NOTA;
}

static int complete(enum operation operation, const XID *xid, int rmid, long flags)
{
    struct packed packed;
    struct reply reply;
    struct connection *connection = thread_find(rmid);
    if (!connection)
        return not_open(operation);
    if (!flags_fit(flags))
        return invalid(operation, "flags of more than 32 bits");
    if (!xid_pack(xid, &packed))
        return invalid(operation, "no XID, or a length or a format that it can't have");
    if (!ask_patiently(connection, operation, &packed, flags, &reply))
        return XAER_RMFAIL;
    int code = reply.code;
    answered(connection, operation, &reply);
    if (code == XAER_NOTA && operation != FORGET && note_find(&connection->server, &packed) == NOTED_MARKED)
        code = code_of_gone(operation, flags);
    if (is_over(operation, code))
        note_drop(&connection->server, &packed);
    return code;
}

int prepare_entry(XID *xid, int rmid, long flags)
{
    return complete(PREPARE, xid, rmid, flags);
}

int commit_entry(XID *xid, int rmid, long flags)
{
    return complete(COMMIT, xid, rmid, flags);
}

int rollback_entry(XID *xid, int rmid, long flags)
{
    return complete(ROLLBACK, xid, rmid, flags);
}

int forget_entry(XID *xid, int rmid, long flags)
{
    return complete(FORGET, xid, rmid, flags);
}

/* Asks for one page, of at most MOST_XIDS, and copies it. How many it lists, or a code below 0. */
static int ask_page(struct connection *connection, long flags, long count, XID *to)
{
    struct reply reply;
    request_begin(&connection->request, RECOVER);
    request_number(&connection->request, (uint32_t)flags);
    request_number(&connection->request, (uint32_t)count);
    if (!connection_call(connection, &reply))
        return XAER_RMFAIL;
    if (reply.code > count) {
        why_set("xa_recover: no reply of an xarm server: more than was asked for");
        connection_break(connection);
        return XAER_RMFAIL;
    }
    answered(connection, RECOVER, &reply);
    if (reply.code > 0)
        reply_xids(&reply, to);
    return reply.code;
}

/* The last page that can be needed ends the scan, if it is to end, and so does one of no XIDs, if an earlier page was the last. */
static int recover(struct connection *connection, XID *xids, long count, long flags)
{
    long found = 0;
    long start = flags & TMSTARTRSCAN;
    for (;;) {
        long left = count - found;
        bool is_last = left <= MOST_XIDS;
        int page = ask_page(connection, start | (is_last ? flags & TMENDRSCAN : TMNOFLAGS), is_last ? left : MOST_XIDS, xids ? xids + found : NULL);
        if (page < 0)
            return page;
        found += page;
        start = TMNOFLAGS;
        if (is_last)
            return (int)found;
        if (page < MOST_XIDS) {
            if ((flags & TMENDRSCAN) != 0)
                ask_page(connection, TMENDRSCAN, 0, NULL);
            return (int)found;
        }
    }
}

int recover_entry(XID *xids, long count, int rmid, long flags)
{
    struct connection *connection = thread_find(rmid);
    if (!connection)
        return not_open(RECOVER);
    if (count < 0 || (count > 0 && !xids) || (flags & ~(TMSTARTRSCAN | TMENDRSCAN)) != 0)
        return invalid(RECOVER, "no room for XIDs, a negative count, or flags that it can't have");
    return recover(connection, xids, count, flags);
}
