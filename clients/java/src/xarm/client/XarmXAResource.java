package xarm.client;

import static javax.transaction.xa.XAException.XAER_INVAL;
import static javax.transaction.xa.XAException.XAER_NOTA;
import static javax.transaction.xa.XAException.XAER_PROTO;
import static javax.transaction.xa.XAException.XAER_RMERR;
import static javax.transaction.xa.XAException.XAER_RMFAIL;
import static javax.transaction.xa.XAException.XA_RBROLLBACK;

import java.util.ArrayList;
import java.util.List;
import javax.transaction.xa.XAException;
import javax.transaction.xa.XAResource;
import javax.transaction.xa.Xid;

/**
 * A session's side of distributed commit. Each method sends the one frame of its name, if not otherwise said, and throws each
 * code that isn't a success as an {@link XAException} with the same {@code errorCode}: the server's codes are C193's, as JTA's
 * are. What differs is said at each method. Those of all methods:
 *
 * <ul>
 *   <li>XAER_INVAL: an XID or flags that the server couldn't be asked, in which case nothing was sent, or that it refused
 *   <li>XAER_PROTO: the call doesn't fit what the session or the branch is doing
 *   <li>XAER_NOTA: the server doesn't know the branch
 *   <li>XAER_RMFAIL: the resource manager is down, or found no memory, or the connection can't be made or broke. Of one that
 *       broke it isn't known whether the call was done. The next call connects and sends Open before its own frame
 * </ul>
 */
public final class XarmXAResource implements XAResource {
    private static final int MOST_XIDS = 256;
    private static final int TMMIGRATE = 0x00100000; // which C193 has, and JTA hasn't

    private final Session session;
    private final Calls calls;
    private final Branches branches;
    private final boolean isJoinable;
    private boolean isScanning;
    private int timeLimit;

    XarmXAResource(Session session, boolean isJoinable) {
        this.session = session;
        this.isJoinable = isJoinable;
        branches = session.branches();
        calls = new Calls(session);
    }

    /**
     * Sends Start: the session begins work for a branch, joins it (TMJOIN) or resumes it (TMRESUME). Sends Timeout before it, where
     * a branch begins with another time limit than this connection's last one; and, but for a resume, Status where the connection was idle
     * for a while: if that isn't answered, it connects anew, so that a pooled connection begins, or joins, as a new one would.
     *
     * <p>Throws XAER_DUPID where the server knows the XID, XAER_RMERR where it knows 4,096 XIDs or has given all its timestamps,
     * and XA_RB* where the branch to be joined or resumed is marked: it can only be rolled back.
     *
     * <p>A start whose answer is lost is XAER_RMFAIL, and may leave a branch that wrote nothing and that is marked XA_RBCOMMFAIL. Most
     * managers take it for none and don't ask for its rollback; so the next connection to the server does, by itself.
     */
    @Override
    public void start(Xid xid, int flags) throws XAException {
        XarmXid branch = checked(xid);
        boolean isNew = (flags & (TMJOIN | TMRESUME)) == 0;
        synchronized (session) {
            Reply reply = calls.start(branch, flags, timeLimit);
            int code = reply.code();
            if (code == XA_OK) {
                branches.begin(session.number(), branch, isNew);
                if (session.isClosed()) {
                    branches.hangUp(session.number()); // it was closed meanwhile
                }
                return;
            }
            if (Codes.isRollback(code)) {
                branches.mark(session.number(), branch, code);
            } else if (isGone(code) && !isNew) {
                // its work was ended by the mark, which says more than that nothing is left to resume
                code = branches.markOr(branch, code);
            }
            throw XarmException.refusal(Operation.START, branch, code, reply.detail());
        }
    }

    /**
     * Sends End: the session ends its work for a branch (TMSUCCESS, TMFAIL) or suspends it (TMSUSPEND).
     *
     * <p><b>Never throws XA_RB*</b>, nor XAER_RMFAIL for a connection that broke under the branch's work. Managers, Bitronix
     * among them, take an {@code end} that throws for one of a branch that is rolled back, and never ask for its rollback; here it
     * stays known, with all that it wrote, until it is asked for. So the mark is kept, and is what {@code prepare}, a commit in one
     * phase, and {@code rollback} answer. Of a broken connection the mark is XA_RBCOMMFAIL, by the server's hang-up. Of a branch
     * that an operator's Restart rolled back under its work (End is answered XAER_NOTA) it is XA_RBROLLBACK.
     */
    @Override
    public void end(Xid xid, int flags) throws XAException {
        XarmXid branch = checked(xid);
        synchronized (session) {
            boolean isAtWork = branches.isAtWork(session.number(), branch);
            if (branches.isOver(session.number(), branch)) {
                return; // the work was ended by the mark, so there is nothing to send
            }
            Reply reply;
            try {
                reply = calls.ask(Operation.END, flags, branch);
            } catch (XAException broken) {
                if (branches.isMarked(branch)) {
                    return;
                }
                throw broken;
            }
            int code = reply.code();
            if (code == XA_OK) {
                if ((flags & TMSUSPEND) == 0) {
                    branches.end(session.number(), branch);
                } else if ((flags & TMMIGRATE) != 0) {
                    branches.migrate(session.number(), branch);
                }
            } else if (Codes.isRollback(code)) {
                branches.mark(session.number(), branch, code);
            } else if (code == XAER_NOTA && isAtWork) {
                branches.mark(session.number(), branch, XA_RBROLLBACK);
            } else {
                throw XarmException.refusal(Operation.END, branch, code, reply.detail());
            }
        }
    }

    /**
     * Sends Prepare. Answers XA_OK, or XA_RDONLY of a branch that wrote nothing, which is gone as committed.
     *
     * <p>Throws XA_RB* where the branch was marked, or the log had no room for it (XA_RBOTHER): it is rolled back and gone, and a
     * {@code rollback} that is asked all the same is answered XA_OK. XAER_RMERR: the log's device refused it, and nothing changed.
     * XAER_RMFAIL: whether it is prepared isn't known; {@code recover} says so.
     */
    @Override
    public int prepare(Xid xid) throws XAException {
        XarmXid branch = checked(xid);
        synchronized (session) {
            Reply reply = calls.complete(Operation.PREPARE, TMNOFLAGS, branch);
            int code = reply.code();
            if (code == XA_OK) {
                branches.prepared(branch);
                return code;
            }
            if (code == XA_RDONLY) {
                branches.forget(branch);
                return code;
            }
            throw XarmException.refusal(Operation.PREPARE, branch, rolledBack(branch, code), reply.detail());
        }
    }

    /**
     * Sends Commit: in two phases of a branch that is prepared, or with TMONEPHASE of one that isn't.
     *
     * <p>In two phases, throws XA_RETRY where the log's device refused it or the server found no memory: the branch is prepared
     * still, so ask again. XA_HEURCOM, XA_HEURRB: the operator completed the branch; {@code forget} it. XAER_NOTA: a commit that was
     * asked before was done.
     *
     * <p>In one phase, throws XA_RB* as {@code prepare} does, and XAER_RMERR where the log's device refused it: either way the
     * branch is rolled back and gone. XAER_RMFAIL: whether it is committed isn't known, and no call says so.
     */
    @Override
    public void commit(Xid xid, boolean onePhase) throws XAException {
        XarmXid branch = checked(xid);
        synchronized (session) {
            Reply reply;
            try {
                reply = calls.complete(Operation.COMMIT, onePhase ? TMONEPHASE : TMNOFLAGS, branch);
            } catch (XAException broken) {
                branches.forget(branch); // it may be committed, so a mark says nothing any more
                throw broken;
            }
            int code = reply.code();
            if (code == XA_OK || code == XAER_RMFAIL) {
                branches.forget(branch);
            }
            if (code == XA_OK) {
                return;
            }
            if (onePhase && code == XAER_RMERR) {
                branches.mark(session.number(), branch, XA_RBROLLBACK);
            } else if (onePhase) {
                code = rolledBack(branch, code);
            }
            throw XarmException.refusal(Operation.COMMIT, branch, code, reply.detail());
        }
    }

    /**
     * Sends Rollback: of a branch for which nobody works, or that is prepared.
     *
     * <p>Throws XA_RB* where the branch was marked: it is rolled back, as was asked, and the code says why. Is answered XA_OK where
     * the server doesn't know the branch (XAER_NOTA) and a session of this process does, as one that was rolled back: by a {@code prepare}
     * or a commit in one phase, or with a server that was killed. XA_HEURCOM, XA_HEURRB: the operator completed the branch; {@code forget}
     * it. XAER_RMERR: the log's device refused it, and nothing changed.
     */
    @Override
    public void rollback(Xid xid) throws XAException {
        XarmXid branch = checked(xid);
        synchronized (session) {
            Reply reply = calls.complete(Operation.ROLLBACK, TMNOFLAGS, branch);
            int code = reply.code();
            boolean isDone = code == XA_OK || code == XAER_NOTA && branches.isMarked(branch);
            if (isDone || Codes.isRollback(code) || code == XAER_NOTA) {
                branches.forget(branch);
            }
            if (!isDone) {
                throw XarmException.refusal(Operation.ROLLBACK, branch, code, reply.detail());
            }
        }
    }

    /**
     * Sends Forget, of a branch that the operator completed: after XA_HEURCOM and XA_HEURRB.
     *
     * <p>Throws XAER_PROTO where the operator didn't complete it, XAER_RMERR where the log's device refused it.
     */
    @Override
    public void forget(Xid xid) throws XAException {
        XarmXid branch = checked(xid);
        Reply reply = calls.ask(Operation.FORGET, TMNOFLAGS, branch);
        if (reply.code() != XA_OK) {
            throw XarmException.refusal(Operation.FORGET, branch, reply.code(), reply.detail());
        }
        branches.forget(branch);
    }

    /**
     * The branches that are prepared or were completed by the operator: with TMSTARTRSCAN all of them, else none.
     *
     * <p>With TMSTARTRSCAN it sends Recover with TMSTARTRSCAN and a count of 256, and then with TMNOFLAGS until a page isn't full:
     * managers ask for further pages only while one shows something of their own, so all pages are in the first. Without it
     * nothing is sent. Before it, as {@code start}, it connects anew where an idle connection doesn't stand any more. Throws XAER_INVAL
     * for other flags, and where no scan is open.
     */
    @Override
    public Xid[] recover(int flags) throws XAException {
        if ((flags & ~(TMSTARTRSCAN | TMENDRSCAN)) != 0) {
            throw XarmException.refusal(Operation.RECOVER, null, XAER_INVAL, Detail.NOTHING);
        }
        synchronized (session) {
            boolean isStart = (flags & TMSTARTRSCAN) != 0;
            if (!isStart && !isScanning) {
                throw XarmException.refusal(Operation.RECOVER, null, XAER_INVAL, Detail.NOTHING);
            }
            if (isStart) {
                calls.refresh(null);
            }
            List<XarmXid> found = isStart ? listed() : List.of();
            isScanning = (flags & TMENDRSCAN) == 0;
            return found.toArray(new Xid[0]);
        }
    }

    private List<XarmXid> listed() throws XAException {
        List<XarmXid> found = new ArrayList<>();
        int flags = TMSTARTRSCAN;
        Reply page;
        do {
            page = calls.call(new Request(Operation.RECOVER).flags(flags).count(MOST_XIDS));
            if (page.code() < 0) {
                throw XarmException.refusal(Operation.RECOVER, null, page.code(), page.detail());
            }
            found.addAll(page.xids());
            flags = TMNOFLAGS;
        } while (page.xids().size() == MOST_XIDS);
        return found;
    }

    /**
     * Whether the other one is this session's, or, with {@link XarmXADataSource#setUseTmJoin}, one of the same server and name. Sends
     * nothing.
     */
    @Override
    public boolean isSameRM(XAResource other) {
        if (this == other) {
            return true;
        }
        if (!(other instanceof XarmXAResource)) {
            return false;
        }
        XarmXAResource resource = (XarmXAResource) other;
        return isJoinable && resource.isJoinable && session.endpoint().equals(resource.session.endpoint());
    }

    /**
     * Sets the time limit of the branches that this session begins from now on, 0 for none. Sends nothing: {@code start} sends
     * Timeout before Start where the server has another limit of this connection, so that it holds after a broken one too.
     *
     * <p>The server reads no clock: a branch runs out of time when it is told the time ({@code xarm tick}), and is XA_RBTIMEOUT then.
     *
     * <p>Throws XAER_INVAL where the limit is negative.
     */
    @Override
    public boolean setTransactionTimeout(int seconds) throws XAException {
        if (seconds < 0) {
            throw XarmException.refusal(Operation.TIMEOUT, null, XAER_INVAL, Detail.NOTHING);
        }
        synchronized (session) {
            timeLimit = seconds;
        }
        return true;
    }

    /** The time limit of the branches that this session begins, in seconds; 0 for none. Sends nothing. */
    @Override
    public int getTransactionTimeout() {
        synchronized (session) {
            return timeLimit;
        }
    }

    /**
     * What an answer to a prepare, or to a commit in one phase, says of a branch: by XA_RB* it is rolled back and gone, which is noted,
     * and so is one that the server doesn't know any more and that was marked.
     */
    private int rolledBack(XarmXid branch, int code) {
        if (Codes.isRollback(code)) {
            branches.mark(session.number(), branch, code);
        }
        return code == XAER_NOTA ? branches.markOr(branch, code) : code;
    }

    private static boolean isGone(int code) {
        return code == XAER_NOTA || code == XAER_PROTO;
    }

    private static XarmXid checked(Xid xid) throws XAException {
        try {
            return XarmXid.of(xid);
        } catch (IllegalArgumentException | NullPointerException none) {
            XAException invalid = new XAException("not an XID: " + none.getMessage());
            invalid.errorCode = XAER_INVAL;
            invalid.initCause(none);
            throw invalid;
        }
    }
}
