/* xarm.h: the C library of xarm, a transactional key-value store that takes part in two-phase commit as an XA resource manager.

   A transaction manager gets xarm_switch, and calls its entries as X/Open CAE Specification C193 (1991) defines them; the program reads
   and writes records by xarm_get, xarm_put and xarm_delete, in the branch for which the transaction manager has started its thread.

   THREADS. Each thread of control has a connection of its own for each rmid that it opened, by xa_open in that thread. It is closed by
   xa_close, or when the thread ends. The library starts no thread, raises no signal, and prints nothing. A child that a process forks has
   nothing open: it calls xa_open itself.

   INFO STRINGS. What xa_open takes: words KEY=VALUE with spaces between, in any order, each at most once, 255 bytes in all.

       port=4187               the server's port, 1 to 65535
       host=127.0.0.1          its host, an address or a name; 127.0.0.1 if it isn't given
       socket=/run/xarm.sock   its Unix socket, of at most 107 bytes, in place of port and host
       name=bank               the name of the resource manager (the server's --name), which has to be given
       user=ada                who logs in, if the server wants a login (its --users): 1 to 64 letters, digits, '-', '_', '.' and '@'
       password_file=/etc/x    the file whose first line is that user's password, of 1 to 1,024 bytes. If it isn't given, the environment
                               variable XARM_PASSWORD_FILE names it. Nobody but its owner may have access to it (mode 0600)
       timeout=30              how long a call waits, connecting included, in seconds, 1 to 3600; 30 if it isn't given. The look-up of a
                               host's name takes its own time

   Anything else is XAER_INVAL, as are a name that isn't the server's, and another info string for an rmid that is open. The string of
   xa_close isn't looked at, and may be NULL.

   LOGINS. With a user each connection logs in, by SCRAM-SHA-256, before it asks for anything else, also one that a later call makes anew.
   The password is read from its file each time, wiped after that, and never sent.
   - XAER_INVAL from xa_open: an argument is wrong. The server refuses the name or the password, takes no logins, or doesn't let the user
     open the resource manager; it wants a login, and there is no user; or there is no password, or no file that is its owner's alone.
   - XAER_RMERR from xa_open: the server doesn't know the password's verifier, so it isn't who it says; or the connection broke.
   - In other calls each is XAER_RMFAIL. Either way the connection is closed, and xarm_why tells which it was.

   XIDS have a format of 32 bits, a gtrid of 1 to 64 bytes, and a bqual of 0 to 64 (in the standard 1 to 64; other clients of the same
   server may use an empty one, and xa_recover lists it). Others are XAER_INVAL, and nothing is sent.

   CODES. Entries return the standard's codes, and what they mean is in docs/PROTOCOL.md, "What a transaction manager does with them".
   - xa_open returns XAER_RMERR if no connection can be made, since the standard gives it no XAER_RMFAIL.
   - xa_complete returns XAER_PROTO, since no call is asynchronous, or XAER_INVAL; TMASYNC is XAER_ASYNC.
   - xa_recover takes any count; more than 256 take several requests.

   BROKEN CONNECTIONS. A call is XAER_RMFAIL if its connection broke, the time-out passed, or what came wasn't its reply: whether the call
   was done isn't known then, and nothing is sent again. docs/CLIENT.md says how to find out. The server ends the session, and with it each
   association that this thread had, and marks their branches rollback-only (XA_RBCOMMFAIL).
   - If the thread had none, the next call connects by itself. So does a call that finds, before it sent anything, that the server closed
     the connection: it is then made on the new one.
   - If it had some, each is told once: by its xa_end, or an xa_start with TMRESUME, which return XA_RBCOMMFAIL. Until the last was, or
     xa_open connects anew, or xa_close ends it, other calls of this thread and rmid are XAER_RMFAIL. Then roll the branches back, as after
     any xa_end that returned XA_RB*.
   - An xa_end that is XAER_RMFAIL has ended the association all the same. Whether the branch is marked, xa_prepare or xa_commit tells.
   - A completion that comes before the server has ended the old session would be XAER_PROTO. The library asks again, with pauses, for the
     time-out at most, if it was this process that lost the branch, in whichever thread.
   - A branch that was lost so, and that the server doesn't know any more, is rolled back: xa_rollback is XA_OK then, and xa_prepare and an
     xa_commit in one phase are XA_RBCOMMFAIL, not XAER_NOTA. */
#ifndef XARM_H
#define XARM_H

#include <stddef.h>

#include "xa.h"

#if defined(__GNUC__)
#define XARM_PUBLIC __attribute__((visibility("default")))
#else
#define XARM_PUBLIC
#endif

#ifdef __cplusplus
extern "C" {
#endif

/* The switch: name "xarm", version 0, flags TMNOFLAGS: no dynamic registration, no asynchronous calls; associations may migrate. */
extern XARM_PUBLIC struct xa_switch_t xarm_switch;

/* Sizes of records, in bytes. A key has 1 to 64, a value 0 to 16,384. */
#define XARM_MOST_KEY 64
#define XARM_MOST_VALUE 16384

/* What the calls on records return besides XA_OK and the standard's codes. */
#define XARM_ABSENT 1001 /* get: there is no such record */
#define XARM_BUSY 1002   /* get: the version to be read is that of another branch, which isn't completed. Nothing changed: ask again once it
                            is, or give this branch up */
#define XARM_LATE 1003   /* put, delete: a branch with a later timestamp has read the record. It isn't done, and this branch can only be
                            rolled back; the same work may succeed in a new one */
#define XARM_LIMIT 1004  /* put, delete: the branch has written 256 keys already. It isn't done, and the branch goes on */
#define XARM_SHORT 1005  /* get: there is no room for the value. It is read all the same: ask again with more room */

/* The records of the resource manager rmid, in the branch of the calling thread. Besides the codes above they return

       XA_RB*        the branch is marked, and can only be rolled back
       XAER_PROTO    the thread works for no branch, or the rmid isn't open in it
       XAER_INVAL    a key or a value has the wrong length, or a pointer is NULL; nothing was sent
       XAER_RMFAIL   the resource manager is down or found no memory, and nothing changed; or the connection broke, and with it the branch's
                     work: it can only be rolled back

   The caller owns all memory, and the library keeps none of it after the call.

   xarm_get copies the value to `value`, which has room for `room` bytes, and its length to `*length`. With XARM_SHORT nothing is copied, and
   `*length` says how much room it takes; otherwise, if it isn't XA_OK, `*length` is 0. `value` may be NULL if `room` is 0. */
XARM_PUBLIC int xarm_get(int rmid, const void *key, size_t key_length, void *value, size_t room, size_t *length);

/* xarm_put writes a record. `value` may be NULL if its length is 0. */
XARM_PUBLIC int xarm_put(int rmid, const void *key, size_t key_length, const void *value, size_t value_length);

/* xarm_delete writes that there is no such record. It is a write, whether there is one or not. */
XARM_PUBLIC int xarm_delete(int rmid, const void *key, size_t key_length);

/* What the calling thread's last failed call met, in English words for a log, as "xa_prepare at 127.0.0.1:4187: answered -7, Device"; empty
   if none failed. The text is the library's, and stays until the thread's next call or end. */
XARM_PUBLIC const char *xarm_why(void);

#ifdef __cplusplus
}
#endif

#endif
