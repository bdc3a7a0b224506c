/* The calls on records: xarm_get, xarm_put, xarm_delete. */
#include <string.h>

#include "switch.h"
#include "threads.h"
#include "xarm.h"

/* A reply's code in the library's own codes. */
static int own_code(enum operation operation, const struct reply *reply)
{
    if (operation == GET && reply->code == XA_RETRY && reply->detail == DETAIL_BUSY)
        return XARM_BUSY;
    if (operation != GET && reply->code == XA_RBTRANSIENT && reply->detail == DETAIL_LATE)
        return XARM_LATE;
    if (operation != GET && reply->code == XAER_INVAL && reply->detail == DETAIL_LIMIT)
        return XARM_LIMIT;
    return reply->code;
}

static bool is_key(const void *key, size_t length)
{
    return key && 1 <= length && length <= MOST_KEY;
}

/* Begins a request for a record of an rmid that is open in this thread. */
static int begin(int rmid, enum operation operation, const void *key, size_t length, struct connection **found)
{
    struct connection *connection = thread_find(rmid);
    if (!connection)
        return not_open(operation);
    if (!is_key(key, length))
        return invalid(operation, "a key of the wrong length");
    request_begin(&connection->request, operation);
    request_text(&connection->request, 1, key, length);
    *found = connection;
    return XA_OK;
}

static int call(struct connection *connection, struct reply *reply)
{
    enum operation operation = connection->request.operation;
    if (!connection_call(connection, reply))
        return XAER_RMFAIL;
    answered(connection, operation, reply);
    return own_code(operation, reply);
}

XARM_PUBLIC int xarm_get(int rmid, const void *key, size_t key_length, void *value, size_t room, size_t *length)
{
    struct connection *connection;
    struct reply reply;
    if (!length || (!value && room > 0))
        return invalid(GET, "no memory for the value or its length");
    *length = 0;
    int code = begin(rmid, GET, key, key_length, &connection);
    if (code == XA_OK)
        code = call(connection, &reply);
    if (code != XA_OK)
        return code;
    if (reply.kind == ABSENT)
        return XARM_ABSENT;
    *length = reply.count;
    if (reply.count > room)
        return XARM_SHORT;
    if (reply.count > 0)
        memcpy(value, reply.body, reply.count);
    return XA_OK;
}

XARM_PUBLIC int xarm_put(int rmid, const void *key, size_t key_length, const void *value, size_t value_length)
{
    struct connection *connection;
    struct reply reply;
    int code = begin(rmid, PUT, key, key_length, &connection);
    if (code != XA_OK)
        return code;
    if (value_length > MOST_VALUE || (!value && value_length > 0))
        return invalid(PUT, "a value of the wrong length");
    request_text(&connection->request, 2, value, value_length);
    return call(connection, &reply);
}

XARM_PUBLIC int xarm_delete(int rmid, const void *key, size_t key_length)
{
    struct connection *connection;
    struct reply reply;
    int code = begin(rmid, DELETE, key, key_length, &connection);
    return code == XA_OK ? call(connection, &reply) : code;
}
