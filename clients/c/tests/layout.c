/* The names, values and layout of xa.h, as X/Open C193 gives them in its chapter 4. It compiles as C89, C11 and C++. */
#include <stddef.h>
#include <string.h>

#include "xa.h"
#include "xarm.h"

static int wrong = 0;

static void is(long found, long wanted)
{
    if (found != wanted)
        wrong++;
}

static void sizes(void)
{
    is(XIDDATASIZE, 128);
    is(MAXGTRIDSIZE, 64);
    is(MAXBQUALSIZE, 64);
    is(RMNAMESZ, 32);
    is(MAXINFOSIZE, 256);
    is((long)sizeof(XID), (long)(3 * sizeof(long) + 128));
    is((long)sizeof(struct xid_t), (long)sizeof(XID));
    is((long)offsetof(XID, formatID), 0);
    is((long)offsetof(XID, gtrid_length), (long)sizeof(long));
    is((long)offsetof(XID, bqual_length), (long)(2 * sizeof(long)));
    is((long)offsetof(XID, data), (long)(3 * sizeof(long)));
    is((long)offsetof(struct xa_switch_t, name), 0);
    is((long)offsetof(struct xa_switch_t, flags), 32);
    is((long)offsetof(struct xa_switch_t, version), (long)(32 + sizeof(long)));
    is((long)offsetof(struct xa_switch_t, xa_open_entry), (long)(32 + 2 * sizeof(long)));
    is((long)sizeof(struct xa_switch_t), (long)(32 + 2 * sizeof(long) + 10 * sizeof(int (*)(void))));
}

static void flags(void)
{
    is((long)TMNOFLAGS, 0);
    is((long)TMREGISTER, 1);
    is((long)TMNOMIGRATE, 2);
    is((long)TMUSEASYNC, 4);
    is((long)TMASYNC, (long)0x80000000UL);
    is((long)TMONEPHASE, 0x40000000L);
    is((long)TMFAIL, 0x20000000L);
    is((long)TMNOWAIT, 0x10000000L);
    is((long)TMRESUME, 0x08000000L);
    is((long)TMSUCCESS, 0x04000000L);
    is((long)TMSUSPEND, 0x02000000L);
    is((long)TMSTARTRSCAN, 0x01000000L);
    is((long)TMENDRSCAN, 0x00800000L);
    is((long)TMMULTIPLE, 0x00400000L);
    is((long)TMJOIN, 0x00200000L);
    is((long)TMMIGRATE, 0x00100000L);
}

static void codes(void)
{
    is(TM_JOIN, 2);
    is(TM_RESUME, 1);
    is(TM_OK, 0);
    is(TMER_TMERR, -1);
    is(TMER_INVAL, -2);
    is(TMER_PROTO, -3);
    is(XA_RBBASE, 100);
    is(XA_RBROLLBACK, 100);
    is(XA_RBCOMMFAIL, 101);
    is(XA_RBDEADLOCK, 102);
    is(XA_RBINTEGRITY, 103);
    is(XA_RBOTHER, 104);
    is(XA_RBPROTO, 105);
    is(XA_RBTIMEOUT, 106);
    is(XA_RBTRANSIENT, 107);
    is(XA_RBEND, 107);
    is(XA_NOMIGRATE, 9);
    is(XA_HEURHAZ, 8);
    is(XA_HEURCOM, 7);
    is(XA_HEURRB, 6);
    is(XA_HEURMIX, 5);
    is(XA_RETRY, 4);
    is(XA_RDONLY, 3);
    is(XA_OK, 0);
    is(XAER_ASYNC, -2);
    is(XAER_RMERR, -3);
    is(XAER_NOTA, -4);
    is(XAER_INVAL, -5);
    is(XAER_PROTO, -6);
    is(XAER_RMFAIL, -7);
    is(XAER_DUPID, -8);
    is(XAER_OUTSIDE, -9);
}

/* The entries have these types, in this order. */
static void entries(void)
{
    int (*xa_open)(char *, int, long) = xarm_switch.xa_open_entry;
    int (*xa_close)(char *, int, long) = xarm_switch.xa_close_entry;
    int (*xa_start)(XID *, int, long) = xarm_switch.xa_start_entry;
    int (*xa_end)(XID *, int, long) = xarm_switch.xa_end_entry;
    int (*xa_rollback)(XID *, int, long) = xarm_switch.xa_rollback_entry;
    int (*xa_prepare)(XID *, int, long) = xarm_switch.xa_prepare_entry;
    int (*xa_commit)(XID *, int, long) = xarm_switch.xa_commit_entry;
    int (*xa_recover)(XID *, long, int, long) = xarm_switch.xa_recover_entry;
    int (*xa_forget)(XID *, int, long) = xarm_switch.xa_forget_entry;
    int (*xa_complete)(int *, int *, int, long) = xarm_switch.xa_complete_entry;
    const char *first = (const char *)&xarm_switch.xa_open_entry;
    is(xa_open && xa_close && xa_start && xa_end && xa_rollback && xa_prepare && xa_commit && xa_recover && xa_forget && xa_complete, 1);
    is((long)((const char *)&xarm_switch.xa_rollback_entry - first), (long)(4 * sizeof xa_open));
    is((long)((const char *)&xarm_switch.xa_complete_entry - first), (long)(9 * sizeof xa_open));
    is(strcmp(xarm_switch.name, "xarm"), 0);
    is(xarm_switch.flags, TMNOFLAGS);
    is(xarm_switch.version, 0);
}

int main(void)
{
    int (*reg)(int, XID *, long) = 0;
    int (*unreg)(int, long) = 0;
    (void)sizeof(reg = ax_reg);
    (void)sizeof(unreg = ax_unreg);
    sizes();
    flags();
    codes();
    entries();
    return wrong == 0 && !reg && !unreg ? 0 : 1;
}
