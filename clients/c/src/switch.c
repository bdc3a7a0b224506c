#include "switch.h"

#include "threads.h"
#include "why.h"
#include "xarm.h"

int not_open(enum operation operation)
{
    why_set("%s: this thread has no such resource manager open", operation_name(operation));
    return XAER_PROTO;
}

int invalid(enum operation operation, const char *what)
{
    why_set("%s: %s", operation_name(operation), what);
    return XAER_INVAL;
}

int answered(const struct connection *connection, enum operation operation, const struct reply *reply)
{
    char words[MOST_HOST + MOST_PORT + 2];
    if (operation == RECOVER ? reply->code >= 0 : reply->code == XA_OK || reply->code == XA_RDONLY)
        return reply->code;
    info_words(&connection->server, words, sizeof words);
    why_set("%s at %s: answered %d, %s", operation_name(operation), words, reply->code, detail_name(reply->detail));
    return reply->code;
}

bool flags_fit(long flags)
{
    return ((unsigned long)flags & ~0xffffffffUL) == 0;
}

/* What xa_open and xa_close say of their flags: XA_OK, XAER_ASYNC or XAER_INVAL. */
static int refused_flags(enum operation operation, long flags)
{
    if (flags == TMNOFLAGS)
        return XA_OK;
    why_set("%s: it has no flags", operation_name(operation));
    return flags_fit(flags) && (flags & TMASYNC) != 0 ? XAER_ASYNC : XAER_INVAL;
}

/* Of an rmid that is open it connects anew if the connection broke, and forgets which associations were lost with it. */
static int open_again(struct connection *connection, const struct info *server)
{
    if (!is_one_info(&connection->server, server))
        return invalid(OPEN, "it is open with another info string");
    int code = connection_open(connection);
    if (code == XA_OK)
        branches_remove_lost(&connection->branches);
    return code;
}

static int open_entry(char *xa_info, int rmid, long flags)
{
    struct info server;
    int code = refused_flags(OPEN, flags);
    if (code != XA_OK)
        return code;
    if (!xa_info)
        return invalid(OPEN, "no info string");
    if (!info_read(xa_info, &server))
        return XAER_INVAL;
    struct connection *connection = thread_find(rmid);
    if (connection)
        return open_again(connection, &server);
    connection = thread_add(rmid, &server);
    if (!connection) {
        why_set("xa_open: out of memory");
        return XAER_RMERR;
    }
    code = connection_open(connection);
    if (code != XA_OK)
        thread_remove(connection);
    return code;
}

static int close_entry(char *xa_info, int rmid, long flags)
{
    struct reply reply;
    int code = refused_flags(CLOSE, flags);
    (void)xa_info;
    if (code != XA_OK)
        return code;
    struct connection *connection = thread_find(rmid);
    if (!connection)
        return XA_OK;
    /* the server ends a session whose connection broke: then there is nothing to ask for */
    if (connection_lives(connection)) {
        request_begin(&connection->request, CLOSE);
        request_number(&connection->request, TMNOFLAGS);
        if (connection_exchange(connection, &reply) && reply.code != XA_OK)
            return answered(connection, CLOSE, &reply);
    }
    thread_remove(connection);
    return XA_OK;
}

/* No call is asynchronous, so there is no handle to wait for. */
static int complete_entry(int *handle, int *retval, int rmid, long flags)
{
    (void)rmid;
    if (!handle || !retval || (flags & ~(TMMULTIPLE | TMNOWAIT)) != 0) {
        why_set("xa_complete: a wrong argument");
        return XAER_INVAL;
    }
    why_set("xa_complete: no call is asynchronous");
    return XAER_PROTO;
}

XARM_PUBLIC struct xa_switch_t xarm_switch = {
    .name = "xarm",
    .flags = TMNOFLAGS,
    .version = 0,
    .xa_open_entry = open_entry,
    .xa_close_entry = close_entry,
    .xa_start_entry = start_entry,
    .xa_end_entry = end_entry,
    .xa_rollback_entry = rollback_entry,
    .xa_prepare_entry = prepare_entry,
    .xa_commit_entry = commit_entry,
    .xa_recover_entry = recover_entry,
    .xa_forget_entry = forget_entry,
    .xa_complete_entry = complete_entry,
};
