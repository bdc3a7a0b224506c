/* xa.h: the interface between transaction managers and resource managers, as X/Open CAE Specification C193 (1991) defines it in its
   chapter 4: names, values and layout are the standard's. It compiles as C89, C11 and C++. Include it as it stands, or the header of the
   same name that came with your transaction manager. */
#ifndef XA_H
#define XA_H

#ifdef __cplusplus
extern "C" {
#endif

/* The name of a transaction branch, an XID. */
#define XIDDATASIZE 128 /* size of data, in bytes */
#define MAXGTRIDSIZE 64 /* maximum size of the global part (gtrid), in bytes */
#define MAXBQUALSIZE 64 /* maximum size of the branch part (bqual), in bytes */

struct xid_t {
    long formatID;          /* format identifier; -1 means that the XID is null */
    long gtrid_length;      /* 1 to 64 */
    long bqual_length;      /* 1 to 64 */
    char data[XIDDATASIZE]; /* gtrid, and then bqual */
};
typedef struct xid_t XID;

/* What a transaction manager offers to resource managers that register dynamically. xarm doesn't call these. */
extern int ax_reg(int rmid, XID *xid, long flags);
extern int ax_unreg(int rmid, long flags);

#define RMNAMESZ 32     /* length of a resource manager's name, its ending null included */
#define MAXINFOSIZE 256 /* maximum size of an info string, in bytes, its ending null included */

/* The switch: what a resource manager publishes, and a transaction manager calls. rmid is the transaction manager's number for the
   resource manager that xa_open opened. */
struct xa_switch_t {
    char name[RMNAMESZ]; /* name of the resource manager */
    long flags;          /* its options: TMREGISTER, TMNOMIGRATE, TMUSEASYNC */
    long version;        /* 0 */
    int (*xa_open_entry)(char *xa_info, int rmid, long flags);
    int (*xa_close_entry)(char *xa_info, int rmid, long flags);
    int (*xa_start_entry)(XID *xid, int rmid, long flags);
    int (*xa_end_entry)(XID *xid, int rmid, long flags);
    int (*xa_rollback_entry)(XID *xid, int rmid, long flags);
    int (*xa_prepare_entry)(XID *xid, int rmid, long flags);
    int (*xa_commit_entry)(XID *xid, int rmid, long flags);
    int (*xa_recover_entry)(XID *xids, long count, int rmid, long flags);
    int (*xa_forget_entry)(XID *xid, int rmid, long flags);
    int (*xa_complete_entry)(int *handle, int *retval, int rmid, long flags);
};

/* Options of a switch. */
#define TMNOFLAGS 0x00000000L   /* none; also: no flags of a call */
#define TMREGISTER 0x00000001L  /* it registers dynamically */
#define TMNOMIGRATE 0x00000002L /* it doesn't support the migration of associations */
#define TMUSEASYNC 0x00000004L  /* it supports asynchronous calls */

/* Flags of the calls. */
#define TMASYNC 0x80000000L      /* perform the routine asynchronously */
#define TMONEPHASE 0x40000000L   /* commit in one phase */
#define TMFAIL 0x20000000L       /* end the association, and mark the branch rollback-only */
#define TMNOWAIT 0x10000000L     /* return if the call would wait */
#define TMRESUME 0x08000000L     /* resume a suspended association */
#define TMSUCCESS 0x04000000L    /* end the association */
#define TMSUSPEND 0x02000000L    /* suspend the association, don't end it */
#define TMSTARTRSCAN 0x01000000L /* start a recovery scan */
#define TMENDRSCAN 0x00800000L   /* end a recovery scan */
#define TMMULTIPLE 0x00400000L   /* wait for any asynchronous call */
#define TMJOIN 0x00200000L       /* join an existing branch */
#define TMMIGRATE 0x00100000L    /* the caller intends to migrate the association */

/* What ax_reg and ax_unreg return. */
#define TM_JOIN 2       /* the caller is joining an existing branch */
#define TM_RESUME 1     /* the caller is resuming a suspended association */
#define TM_OK 0         /* normal execution */
#define TMER_TMERR (-1) /* an error occurred in the transaction manager */
#define TMER_INVAL (-2) /* invalid arguments were given */
#define TMER_PROTO (-3) /* routine called in an improper context */

/* What the entries return. */
#define XA_RBBASE 100                  /* the lowest rollback code */
#define XA_RBROLLBACK XA_RBBASE        /* rolled back for an unspecified reason */
#define XA_RBCOMMFAIL (XA_RBBASE + 1)  /* rolled back by a failure of communication */
#define XA_RBDEADLOCK (XA_RBBASE + 2)  /* a deadlock was detected */
#define XA_RBINTEGRITY (XA_RBBASE + 3) /* the resources would become inconsistent */
#define XA_RBOTHER (XA_RBBASE + 4)     /* rolled back for a reason that isn't listed */
#define XA_RBPROTO (XA_RBBASE + 5)     /* a protocol error in the resource manager */
#define XA_RBTIMEOUT (XA_RBBASE + 6)   /* the branch took too long */
#define XA_RBTRANSIENT (XA_RBBASE + 7) /* the same work may succeed in a new branch */
#define XA_RBEND XA_RBTRANSIENT        /* the highest rollback code */

#define XA_NOMIGRATE 9   /* resumption must occur where the suspension occurred */
#define XA_HEURHAZ 8     /* the branch may have been completed heuristically */
#define XA_HEURCOM 7     /* it was committed heuristically */
#define XA_HEURRB 6      /* it was rolled back heuristically */
#define XA_HEURMIX 5     /* it was heuristically committed in part, and rolled back in part */
#define XA_RETRY 4       /* the call had no effect, and may be made again */
#define XA_RDONLY 3      /* the branch only read, and is committed */
#define XA_OK 0          /* normal execution */
#define XAER_ASYNC (-2)  /* asynchronous call already outstanding, or not supported */
#define XAER_RMERR (-3)  /* an error occurred in the resource manager, in this branch */
#define XAER_NOTA (-4)   /* the XID isn't known */
#define XAER_INVAL (-5)  /* invalid arguments were given */
#define XAER_PROTO (-6)  /* routine called in an improper context */
#define XAER_RMFAIL (-7) /* the resource manager is unavailable */
#define XAER_DUPID (-8)  /* the XID is known already */
#define XAER_OUTSIDE (-9) /* the resource manager works outside a global transaction */

#ifdef __cplusplus
}
#endif

#endif
