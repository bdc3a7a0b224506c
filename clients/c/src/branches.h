/* What a connection's thread is doing for which branches, and which branches this process lost with a connection. */
#ifndef XARM_BRANCHES_H
#define XARM_BRANCHES_H

#include <stdbool.h>

#include "info.h"
#include "wire.h"

/* What becomes of an association if the connection breaks: one that stands is lost for certain, and its branch marked; of one whose start
   or end is under way it isn't known. A lost one is kept until it was told. */
enum standing { STARTING, AT_WORK, SUSPENDED, ENDING, LOST };

struct note;

struct branch {
    struct branch *next;
    enum standing standing;
    struct packed xid;
    struct note *note; /* made with it, so that a connection that breaks takes no memory; none once it is lost */
};

/* Puts a new one in front of a list. NULL: there is no memory. */
struct branch *branch_add(struct branch **list, const struct info *server, const struct packed *xid, enum standing standing);
struct branch *branch_find(struct branch *list, const struct packed *xid);
bool branches_any(const struct branch *list, enum standing standing);
void branch_remove(struct branch **list, struct branch *branch);
/* Removes those that were lost, or all. */
void branches_remove_lost(struct branch **list);
void branches_remove_all(struct branch **list);

/* The connection broke: each association is lost, and this process notes it. */
void branches_break(struct branch **list);

/* What this process noted of a branch. It is certain that a marked one is rolled back, or will be. */
enum noted { NOT_NOTED, NOTED_UNSURE, NOTED_MARKED };
enum noted note_find(const struct info *server, const struct packed *xid);
void note_drop(const struct info *server, const struct packed *xid);

/* The notes' lock is free in a child that was forked. Once for a process. */
void notes_begin(void);

#endif
