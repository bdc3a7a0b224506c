package xarm.client;

import static javax.transaction.xa.XAException.XAER_DUPID;
import static javax.transaction.xa.XAException.XAER_PROTO;
import static javax.transaction.xa.XAResource.TMJOIN;
import static javax.transaction.xa.XAResource.TMNOFLAGS;
import static javax.transaction.xa.XAResource.TMRESUME;
import static javax.transaction.xa.XAResource.XA_OK;

import java.util.concurrent.TimeUnit;
import javax.transaction.xa.XAException;

/** The calls of a resource, each asked as often as it takes. Who makes one has the session's lock. */
final class Calls {
    private static final int LONGEST_PAUSE = 100;
    /** How many milliseconds a completion is asked again of a branch under which another process's connection may have broken. */
    private static final int PATIENCE = 1_000;

    private final Session session;
    private final Branches branches;

    Calls(Session session) {
        this.session = session;
        branches = session.branches();
    }

    Reply ask(Operation operation, int flags, XarmXid branch) throws XAException {
        return call(new Request(operation).flags(flags).xid(branch));
    }

    Reply call(Request request) throws XAException {
        try {
            return session.call(request);
        } catch (XarmException broken) {
            throw broken.toXAException();
        }
    }

    /** Makes an idle connection anew where it doesn't stand any more, and looks after lost starts, that of this branch first of all. */
    void refresh(XarmXid branch) throws XAException {
        try {
            session.refresh(branch);
        } catch (XarmException broken) {
            throw broken.toXAException();
        }
    }

    /**
     * Sends Start, and before it Timeout where a branch begins with another time limit. The XID may be that of a start that was lost: it
     * is known then until that one's session is hung up.
     */
    Reply start(XarmXid branch, int flags, int timeLimit) throws XAException {
        boolean isNew = (flags & (TMJOIN | TMRESUME)) == 0;
        Pause pause = new Pause(session.readTimeout());
        while (true) {
            if ((flags & TMRESUME) == 0) {
                refresh(branch);
            }
            if (isNew && session.timeLimit() != timeLimit) {
                sendTimeLimit(timeLimit);
            }
            Reply reply = sentStart(branch, flags, isNew);
            if (reply.code() != XAER_DUPID || !branches.isLostStart(branch) || !pause.await()) {
                return reply;
            }
        }
    }

    private Reply sentStart(XarmXid branch, int flags, boolean isNew) throws XAException {
        boolean isAnswered = false;
        try {
            Reply reply = ask(Operation.START, flags, branch);
            isAnswered = true;
            return reply;
        } finally {
            if (!isAnswered) {
                // the branch may have begun, and is marked by the hang-up then
                branches.lose(session.number(), branch, isNew, session.isSent());
            }
        }
    }

    private void sendTimeLimit(int timeLimit) throws XAException {
        Reply reply = call(new Request(Operation.TIMEOUT).seconds(timeLimit));
        if (reply.code() != XA_OK) {
            throw XarmException.refusal(Operation.TIMEOUT, null, reply);
        }
        session.setTimeLimit(timeLimit);
    }

    /**
     * Asks for the completion of a branch. The server hangs a broken session up once it sees that its peer is gone, perhaps after
     * this call of another session; until then it answers XAER_PROTO, since the old one still works for the branch. So it is asked
     * again then, with pauses, whichever session's connection broke, for the read time-out at most; and for a second where it broke under
     * nobody's work that this process knows of. Of a commit in two phases XAER_PROTO says that the branch isn't prepared.
     */
    Reply complete(Operation operation, int flags, XarmXid branch) throws XAException {
        Reply reply = ask(operation, flags, branch);
        if (reply.code() != XAER_PROTO || operation == Operation.COMMIT && flags == TMNOFLAGS) {
            return reply;
        }
        Pause pause = new Pause(branches.patience(branch, session.readTimeout(), PATIENCE));
        while (reply.code() == XAER_PROTO && pause.await()) {
            reply = ask(operation, flags, branch);
        }
        return reply;
    }

    /** Pauses between questions, each longer than the last one, in which other threads may use the session. */
    private final class Pause {
        private final long deadline;
        private int next = 1;

        Pause(int milliseconds) {
            deadline = System.nanoTime() + TimeUnit.MILLISECONDS.toNanos(milliseconds);
        }

        /** Whether there is time to ask again. An interrupt doesn't end it, since the branch would be left behind, and is kept. */
        boolean await() {
            if (System.nanoTime() - deadline >= 0) {
                return false;
            }
            boolean isInterrupted = Thread.interrupted();
            try {
                session.wait(next); // nobody notifies
            } catch (InterruptedException interrupted) {
                isInterrupted = true;
            }
            next = Math.min(2 * next, LONGEST_PAUSE);
            if (isInterrupted) {
                Thread.currentThread().interrupt();
            }
            return true;
        }
    }
}
