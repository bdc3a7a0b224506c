/* xa_start and xa_end. */
#include "switch.h"
#include "threads.h"
#include "why.h"

/* What both begin with: a connection that is open in this thread, and an XID and flags that a frame can have. */
static int begin(enum operation operation, const XID *xid, int rmid, long flags, struct connection **found, struct packed *to)
{
    struct connection *connection = thread_find(rmid);
    if (!connection)
        return not_open(operation);
    if (!flags_fit(flags))
        return invalid(operation, "flags of more than 32 bits");
    if (!xid_pack(xid, to))
        return invalid(operation, "no XID, or a length or a format that it can't have");
    *found = connection;
    return XA_OK;
}

static void ask(struct connection *connection, enum operation operation, const struct packed *xid, long flags)
{
    request_begin(&connection->request, operation);
    request_number(&connection->request, (uint32_t)flags);
    request_xid(&connection->request, xid);
}

/* An association that was lost with its connection is told, once. */
static int tell_lost(struct connection *connection, enum operation operation, struct branch *branch)
{
    why_set("%s: the connection broke under the branch's work", operation_name(operation));
    branch_remove(&connection->branches, branch);
    return XA_RBCOMMFAIL;
}

/* What a refused start leaves. A branch that this process lost, and that the server doesn't know or lets nobody join or resume any more,
   is marked, which says more. */
static int not_started(struct connection *connection, const struct packed *xid, long flags, int code)
{
    bool is_gone = code == XAER_NOTA || (code == XAER_PROTO && !branches_any(connection->branches, AT_WORK));
    struct branch *own = branch_find(connection->branches, xid);
    if ((flags & TMRESUME) != 0 && own && own->standing == SUSPENDED && (is_rollback(code) || is_gone))
        branch_remove(&connection->branches, own);
    if ((flags & (TMJOIN | TMRESUME)) != 0 && is_gone && note_find(&connection->server, xid) == NOTED_MARKED)
        return XA_RBCOMMFAIL;
    return code;
}

static int start(struct connection *connection, const struct packed *xid, long flags, struct branch *own)
{
    struct reply reply;
    struct branch *begun = own ? own : branch_add(&connection->branches, &connection->server, xid, STARTING);
    if (!begun) {
        why_set("xa_start: out of memory");
        return XAER_RMFAIL;
    }
    ask(connection, START, xid, flags);
    if (!connection_exchange(connection, &reply))
        return XAER_RMFAIL;
    answered(connection, START, &reply);
    if (reply.code == XA_OK) {
        begun->standing = AT_WORK;
        note_drop(&connection->server, xid);
        return XA_OK;
    }
    if (!own)
        branch_remove(&connection->branches, begun);
    return not_started(connection, xid, flags, reply.code);
}

int start_entry(XID *xid, int rmid, long flags)
{
    struct connection *connection;
    struct packed packed;
    int code = begin(START, xid, rmid, flags, &connection, &packed);
    if (code != XA_OK)
        return code;
    bool is_ready = connection_ready(connection, START);
    struct branch *own = branch_find(connection->branches, &packed);
    if (own && own->standing == LOST && (flags & (TMRESUME | TMASYNC)) == TMRESUME)
        return tell_lost(connection, START, own);
    return is_ready ? start(connection, &packed, flags, own) : XAER_RMFAIL;
}

/* Exactly one of three, and TMMIGRATE only with TMSUSPEND. */
static bool are_end_flags(long flags)
{
    long how = flags & ~TMMIGRATE;
    return how == TMSUSPEND || ((how == TMSUCCESS || how == TMFAIL) && flags == how);
}

static int end(struct connection *connection, const struct packed *xid, long flags, struct branch *own)
{
    struct reply reply;
    enum standing stood = own ? own->standing : ENDING;
    if (own)
        own->standing = ENDING;
    ask(connection, END, xid, flags);
    if (!connection_exchange(connection, &reply))
        return XAER_RMFAIL;
    answered(connection, END, &reply);
    bool is_ended = reply.code == XA_OK || is_rollback(reply.code) || reply.code == XAER_NOTA;
    if (own && is_ended && (reply.code != XA_OK || flags != TMSUSPEND))
        branch_remove(&connection->branches, own);
    else if (own)
        own->standing = reply.code == XA_OK ? SUSPENDED : stood;
    return reply.code;
}

int end_entry(XID *xid, int rmid, long flags)
{
    struct connection *connection;
    struct packed packed;
    int code = begin(END, xid, rmid, flags, &connection, &packed);
    if (code != XA_OK)
        return code;
    bool is_ready = connection_ready(connection, END);
    struct branch *own = branch_find(connection->branches, &packed);
    if (own && own->standing == LOST) {
        if ((flags & TMASYNC) != 0)
            return XAER_ASYNC;
        return are_end_flags(flags) ? tell_lost(connection, END, own) : invalid(END, "flags that it can't have");
    }
    return is_ready ? end(connection, &packed, flags, own) : XAER_RMFAIL;
}
