/* What the entries of the switch share. */
#ifndef XARM_SWITCH_H
#define XARM_SWITCH_H

#include "connection.h"

/* Of an rmid that isn't open in this thread: XAER_PROTO. */
int not_open(enum operation operation);

/* An argument that no server could be asked for: XAER_INVAL. */
int invalid(enum operation operation, const char *what);

/* Tells in xarm_why's words what was answered, and returns the code. */
int answered(const struct connection *connection, enum operation operation, const struct reply *reply);

int start_entry(XID *xid, int rmid, long flags);
int end_entry(XID *xid, int rmid, long flags);
int prepare_entry(XID *xid, int rmid, long flags);
int commit_entry(XID *xid, int rmid, long flags);
int rollback_entry(XID *xid, int rmid, long flags);
int recover_entry(XID *xids, long count, int rmid, long flags);
int forget_entry(XID *xid, int rmid, long flags);

/* The flags as a frame has them. False: they have bits that a frame hasn't. */
bool flags_fit(long flags);

#endif
