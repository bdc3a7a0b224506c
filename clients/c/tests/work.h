/* Branches, and what is done in them. */
#ifndef WORK_H
#define WORK_H

#include "harness.h"
#include "server.h"

/* The entries, by the switch. */
int xa_open(const char *info, int rmid);
int xa_close(int rmid);
int xa_start(XID *xid, int rmid, long flags);
int xa_end(XID *xid, int rmid, long flags);
int xa_prepare(XID *xid, int rmid);
int xa_commit(XID *xid, int rmid, long flags);
int xa_rollback(XID *xid, int rmid);
int xa_forget(XID *xid, int rmid);
int xa_recover(XID *xids, long count, int rmid, long flags);

/* An XID with this gtrid. */
XID named(const char *gtrid);
/* Another one each time. */
XID fresh(void);
bool is_same(const XID *one, const XID *other);
/* An XID's text, as the operator's calls have it, in memory that stays until the next. */
const char *xid_text(const XID *xid);

int put(int rmid, const char *key, const char *value);
int get(int rmid, const char *key); /* its code */

/* In a test's own thread: begins a branch that writes a record, and also ends it, prepares it, or commits it. */
void begin_work(int rmid, XID *xid, const char *key, const char *value);
void end_work(int rmid, XID *xid, const char *key, const char *value);
void prepare_work(int rmid, XID *xid, const char *key, const char *value);
/* What a new branch reads; NULL: there is no such record. */
void expect_value(int rmid, const char *key, const char *value);
/* xa_recover lists these, and no other. */
void expect_listed(int rmid, const XID *xids, long count);
/* The operator's call is answered '0 Nothing'. */
void operate(const struct server *server, const char *call, const XID *xid);
/* A server that runs. */
void make_server(struct server *server, const char *name);
void start_server(struct server *server);

/* A second thread of control, which does what it is told, one thing after the other. */
struct actor;
struct actor *actor_make(void);
/* Has it make a call, and waits for its code. */
int actor_do(struct actor *actor, int (*call)(void *), void *with);
void actor_end(struct actor *actor);

#endif
