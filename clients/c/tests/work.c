#define _GNU_SOURCE
#include "work.h"

#include <pthread.h>
#include <stdio.h>
#include <stdlib.h>
#include <string.h>

int xa_open(const char *info, int rmid)
{
    return xarm_switch.xa_open_entry((char *)info, rmid, TMNOFLAGS);
}

int xa_close(int rmid)
{
    return xarm_switch.xa_close_entry((char *)"", rmid, TMNOFLAGS);
}

int xa_start(XID *xid, int rmid, long flags)
{
    return xarm_switch.xa_start_entry(xid, rmid, flags);
}

int xa_end(XID *xid, int rmid, long flags)
{
    return xarm_switch.xa_end_entry(xid, rmid, flags);
}

int xa_prepare(XID *xid, int rmid)
{
    return xarm_switch.xa_prepare_entry(xid, rmid, TMNOFLAGS);
}

int xa_commit(XID *xid, int rmid, long flags)
{
    return xarm_switch.xa_commit_entry(xid, rmid, flags);
}

int xa_rollback(XID *xid, int rmid)
{
    return xarm_switch.xa_rollback_entry(xid, rmid, TMNOFLAGS);
}

int xa_forget(XID *xid, int rmid)
{
    return xarm_switch.xa_forget_entry(xid, rmid, TMNOFLAGS);
}

int xa_recover(XID *xids, long count, int rmid, long flags)
{
    return xarm_switch.xa_recover_entry(xids, count, rmid, flags);
}

XID named(const char *gtrid)
{
    XID xid;
    memset(&xid, 0, sizeof xid);
    xid.formatID = 1;
    xid.gtrid_length = (long)strlen(gtrid);
    xid.bqual_length = 1;
    memcpy(xid.data, gtrid, strlen(gtrid));
    xid.data[xid.gtrid_length] = 'b';
    return xid;
}

XID fresh(void)
{
    static int number;
    char gtrid[30];
    snprintf(gtrid, sizeof gtrid, "fresh %06d", ++number);
    return named(gtrid);
}

bool is_same(const XID *one, const XID *other)
{
    return one->formatID == other->formatID && one->gtrid_length == other->gtrid_length && one->bqual_length == other->bqual_length
        && memcmp(one->data, other->data, (size_t)(one->gtrid_length + one->bqual_length)) == 0;
}

const char *xid_text(const XID *xid)
{
    static char text[300];
    int at = snprintf(text, sizeof text, "%ld:", xid->formatID);
    for (long byte = 0; byte < xid->gtrid_length + xid->bqual_length; byte++)
        at += snprintf(text + at, sizeof text - (size_t)at, byte == xid->gtrid_length ? ":%02x" : "%02x", (unsigned char)xid->data[byte]);
    return text;
}

int put(int rmid, const char *key, const char *value)
{
    return xarm_put(rmid, key, strlen(key), value, strlen(value));
}

int get(int rmid, const char *key)
{
    char value[XARM_MOST_VALUE];
    size_t length;
    return xarm_get(rmid, key, strlen(key), value, sizeof value, &length);
}

void begin_work(int rmid, XID *xid, const char *key, const char *value)
{
    CODE(XA_OK, xa_start(xid, rmid, TMNOFLAGS));
    CODE(XA_OK, put(rmid, key, value));
}

void end_work(int rmid, XID *xid, const char *key, const char *value)
{
    begin_work(rmid, xid, key, value);
    CODE(XA_OK, xa_end(xid, rmid, TMSUCCESS));
}

void prepare_work(int rmid, XID *xid, const char *key, const char *value)
{
    end_work(rmid, xid, key, value);
    CODE(XA_OK, xa_prepare(xid, rmid));
}

void expect_value(int rmid, const char *key, const char *value)
{
    XID xid = fresh();
    char found[XARM_MOST_VALUE];
    size_t length = 99;
    CODE(XA_OK, xa_start(&xid, rmid, TMNOFLAGS));
    CODE(value ? XA_OK : XARM_ABSENT, xarm_get(rmid, key, strlen(key), found, sizeof found, &length));
    if (length != (value ? strlen(value) : 0) || (value && memcmp(found, value, length) != 0))
        fail("%s is '%.*s', not '%s'", key, (int)length, found, value ? value : "");
    CODE(XA_OK, xa_end(&xid, rmid, TMSUCCESS));
    CODE(XA_RDONLY, xa_prepare(&xid, rmid));
}

void expect_listed(int rmid, const XID *xids, long count)
{
    XID found[20];
    CODE(count, xa_recover(found, 20, rmid, TMSTARTRSCAN | TMENDRSCAN));
    for (long at = 0; at < count; at++)
        HOLDS(is_same(&found[at], &xids[at]));
}

void operate(const struct server *server, const char *call, const XID *xid)
{
    char lines[500];
    snprintf(lines, sizeof lines, "connect\\n1 %s%s%s\\n", call, xid ? " " : "", xid ? xid_text(xid) : "");
    const char *line = server_talk(server, program, lines);
    if (strncmp(line, "0 Nothing", 9) != 0)
        fail("%s is answered '%s'", call, line);
}

void make_server(struct server *server, const char *name)
{
    if (!server_make(server, program, folder, name, false))
        fail("the server %s isn't ready", name);
}

void start_server(struct server *server)
{
    if (!server_start(server, program))
        fail("the server %s isn't ready", server->name);
}

struct actor {
    pthread_t thread;
    pthread_mutex_t lock;
    pthread_cond_t changed;
    int (*call)(void *);
    void *with;
    int code;
    bool is_ending;
};

static void *act(void *of)
{
    struct actor *actor = of;
    pthread_mutex_lock(&actor->lock);
    while (!actor->is_ending) {
        if (actor->call) {
            actor->code = actor->call(actor->with);
            actor->call = NULL;
            pthread_cond_broadcast(&actor->changed);
        } else {
            pthread_cond_wait(&actor->changed, &actor->lock);
        }
    }
    pthread_mutex_unlock(&actor->lock);
    return NULL;
}

struct actor *actor_make(void)
{
    struct actor *actor = calloc(1, sizeof *actor);
    if (!actor)
        abort();
    pthread_mutex_init(&actor->lock, NULL);
    pthread_cond_init(&actor->changed, NULL);
    if (pthread_create(&actor->thread, NULL, act, actor) != 0)
        abort();
    return actor;
}

int actor_do(struct actor *actor, int (*call)(void *), void *with)
{
    pthread_mutex_lock(&actor->lock);
    actor->call = call;
    actor->with = with;
    pthread_cond_broadcast(&actor->changed);
    while (actor->call)
        pthread_cond_wait(&actor->changed, &actor->lock);
    int code = actor->code;
    pthread_mutex_unlock(&actor->lock);
    return code;
}

void actor_end(struct actor *actor)
{
    pthread_mutex_lock(&actor->lock);
    actor->is_ending = true;
    pthread_cond_broadcast(&actor->changed);
    pthread_mutex_unlock(&actor->lock);
    pthread_join(actor->thread, NULL);
    free(actor);
}
