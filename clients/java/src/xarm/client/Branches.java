package xarm.client;

import static javax.transaction.xa.XAException.XA_RBCOMMFAIL;
import static javax.transaction.xa.XAResource.XA_OK;

import java.util.ArrayList;
import java.util.HashSet;
import java.util.Iterator;
import java.util.LinkedHashMap;
import java.util.List;
import java.util.Map;
import java.util.Set;
import java.util.concurrent.ConcurrentHashMap;
import java.util.concurrent.TimeUnit;

/**
 * What the connections of this process to one resource manager know of its branches: which sessions are at work for one, or have
 * suspended their work; whether it is prepared; and its mark, the code that says that it can only be rolled back, or is rolled back
 * already. They share it, since one may complete a branch that another one lost its connection under.
 */
final class Branches {
    /** As many as a server knows at most. A manager that never asks for the completion of a branch leaves it here. */
    private static final int MOST_BRANCHES = 4_096;
    /** How long after a start whose reply was lost the server may still take its frame for the first time. */
    private static final long SETTLING = TimeUnit.SECONDS.toNanos(60);
    private static final long LEAST_PAUSE = TimeUnit.SECONDS.toNanos(1);

    private static final Map<Endpoint, Branches> ALL = new ConcurrentHashMap<>();

    private static final class Branch {
        private final Set<Long> sessions = new HashSet<>();
        private int mark = XA_OK;
        private boolean isPrepared;
        private boolean isBroken; // a connection broke under its work
        private boolean isLoose; // perhaps: an association that belongs to no session is left
    }

    private static final class LostStart {
        private final long at = System.nanoTime();
        private long asked = at - LEAST_PAUSE;
    }

    private final Map<XarmXid, Branch> known = new LinkedHashMap<>();
    private final Map<XarmXid, LostStart> lostStarts = new LinkedHashMap<>();

    static Branches of(Endpoint endpoint) {
        return ALL.computeIfAbsent(endpoint, any -> new Branches());
    }

    /** A session is at work for a branch: one that begins, or else that it joined or resumed. */
    synchronized void begin(long session, XarmXid xid, boolean isNew) {
        lostStarts.remove(xid);
        if (isNew) {
            known.remove(xid);
        }
        Branch branch = added(xid);
        branch.sessions.add(session);
        branch.mark = XA_OK;
    }

    synchronized void end(long session, XarmXid xid) {
        if (known.containsKey(xid)) {
            known.get(xid).sessions.remove(session);
        }
    }

    /** Its work was suspended so that any session may resume it. */
    synchronized void migrate(long session, XarmXid xid) {
        end(session, xid);
        added(xid).isLoose = true;
    }

    synchronized boolean isAtWork(long session, XarmXid xid) {
        return known.containsKey(xid) && known.get(xid).sessions.contains(session);
    }

    /** Whether the session is at work for some branch, or has suspended its work. */
    synchronized boolean isAtWork(long session) {
        return known.values().stream().anyMatch(it -> it.sessions.contains(session));
    }

    /** The branch can only be rolled back, or is rolled back, and the session's work for it has ended. */
    synchronized void mark(long session, XarmXid xid, int code) {
        Branch branch = added(xid);
        branch.sessions.remove(session);
        branch.mark = code;
    }

    synchronized boolean isMarked(XarmXid xid) {
        return markOr(xid, XA_OK) != XA_OK;
    }

    /** Whether there is nothing left to end: by its mark, the work for the branch ended. */
    synchronized boolean isOver(long session, XarmXid xid) {
        return isMarked(xid) && !isAtWork(session, xid) && !known.get(xid).isLoose;
    }

    /** The mark of a branch, or the code where it has none. */
    synchronized int markOr(XarmXid xid, int code) {
        Branch branch = known.get(xid);
        return branch == null || branch.mark == XA_OK ? code : branch.mark;
    }

    synchronized void prepared(XarmXid xid) {
        Branch branch = added(xid);
        branch.isPrepared = true;
        branch.mark = XA_OK;
    }

    /** It is completed, or nothing is known any more. */
    synchronized void forget(XarmXid xid) {
        known.remove(xid);
        lostStarts.remove(xid);
    }

    /**
     * How many milliseconds a completion that was answered XAER_PROTO may be asked again: until the server has hung up a connection that
     * broke under the branch's work, one of this process, or perhaps of another one. 0 where it has another reason.
     */
    synchronized int patience(XarmXid xid, int ofBroken, int ofOthers) {
        Branch branch = known.get(xid);
        if (branch != null && (branch.isPrepared || !branch.sessions.isEmpty())) {
            return 0;
        }
        return branch != null && branch.isBroken ? ofBroken : Math.min(ofBroken, ofOthers);
    }

    /** The connection is gone. The server hangs the session up, and marks each branch that it was at work for, as it is here. */
    synchronized void hangUp(long session) {
        for (Branch branch : known.values()) {
            if (branch.sessions.remove(session)) {
                branch.isBroken = true;
                branch.mark = branch.mark == XA_OK ? XA_RBCOMMFAIL : branch.mark;
            }
        }
    }

    /** A start failed: if it was sent, its reply was lost. If the branch began, it is empty, and it or what was joined is marked. */
    synchronized void lose(long session, XarmXid xid, boolean isNew, boolean isSent) {
        if (isNew || isSent) {
            mark(session, xid, XA_RBCOMMFAIL);
            known.get(xid).isBroken |= isSent;
        }
        if (isNew && isSent) {
            lostStarts.put(xid, new LostStart());
        }
    }

    /** The lost starts that are to be looked after now: each one now and then, or this one. */
    synchronized List<XarmXid> lostStarts(XarmXid wanted) {
        List<XarmXid> found = new ArrayList<>();
        long now = System.nanoTime();
        lostStarts.forEach((xid, start) -> {
            if (xid.equals(wanted) || now - start.asked >= LEAST_PAUSE) {
                start.asked = now;
                found.add(xid);
            }
        });
        return found;
    }

    synchronized boolean hasLostStarts() {
        return !lostStarts.isEmpty();
    }

    synchronized boolean isLostStart(XarmXid xid) {
        return lostStarts.containsKey(xid);
    }

    /** The branch of a lost start is gone, or isn't that start's. */
    synchronized void settle(XarmXid xid) {
        lostStarts.remove(xid);
    }

    /** The server doesn't know the branch of a lost start. It may yet take the start's frame, if that was sent a moment ago. */
    synchronized void settleUnknown(XarmXid xid) {
        LostStart start = lostStarts.get(xid);
        if (start != null && System.nanoTime() - start.at > SETTLING) {
            lostStarts.remove(xid);
        }
    }

    private Branch added(XarmXid xid) {
        Branch branch = known.computeIfAbsent(xid, any -> new Branch());
        if (known.size() > MOST_BRANCHES) {
            for (Iterator<Branch> all = known.values().iterator(); all.hasNext() && known.size() > MOST_BRANCHES; ) {
                Branch eldest = all.next();
                if (eldest.sessions.isEmpty() && eldest != branch) {
                    all.remove();
                }
            }
        }
        return branch;
    }
}
