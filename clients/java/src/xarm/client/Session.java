package xarm.client;

import static javax.transaction.xa.XAResource.TMJOIN;
import static javax.transaction.xa.XAResource.TMNOFLAGS;
import static javax.transaction.xa.XAResource.TMSUCCESS;
import static javax.transaction.xa.XAResource.XA_OK;

import java.io.IOException;
import java.net.ProtocolException;
import java.net.SocketException;
import java.nio.ByteBuffer;
import java.nio.charset.StandardCharsets;
import java.util.concurrent.TimeUnit;
import java.util.concurrent.atomic.AtomicLong;
import javax.transaction.xa.XAException;

/**
 * A connection to a server, which is one session there. Its first request logs in if there is a user, asks what the server speaks and
 * opens the resource manager, and if it broke, the next call does so anew.
 *
 * <p>One request is under way at a time, and whatever is thrown between a request and its reply ends the connection: the reply would
 * be taken for that of the next one.
 */
final class Session {
    /** Makes a transport that isn't connected yet. */
    interface Connector {
        Transport transport() throws IOException;
    }

    private static final int LENGTH_BYTES = 4;
    private static final int MOST_CONTENT = 65_535;
    private static final int REVISION = 1; // of the protocol
    private static final AtomicLong COUNT = new AtomicLong();

    private final long number = COUNT.incrementAndGet();
    private final Endpoint endpoint;
    private final Connector connector;
    private final Login login; // null if nobody logs in
    private final int validationInterval;
    private final Branches branches;
    private volatile int readTimeout;
    private volatile Transport transport; // null where there is no connection
    private volatile boolean isClosed;
    private boolean isSent; // of the last call
    private long place; // of the last reply
    private long answered; // when the last reply came
    private int timeLimit; // what the server was told of this connection
    private Reply hello; // of this connection; null where there is none

    /**
     * A session that isn't connected yet, with a login or null. The time-out is in milliseconds, and is one call's, its connect included;
     * so is how long a connection may be idle before a branch begins on it unasked.
     */
    Session(Endpoint endpoint, Login login, int readTimeout, int validationInterval) {
        this(endpoint, endpoint::transport, login, readTimeout, validationInterval);
    }

    Session(Endpoint endpoint, Connector connector, Login login, int readTimeout, int validationInterval) {
        this.endpoint = endpoint;
        this.connector = connector;
        this.login = login;
        this.readTimeout = readTimeout;
        this.validationInterval = validationInterval;
        branches = Branches.of(endpoint);
    }

    long number() {
        return number;
    }

    Endpoint endpoint() {
        return endpoint;
    }

    Branches branches() {
        return branches;
    }

    int readTimeout() {
        return readTimeout;
    }

    /** From the next call on. */
    void setReadTimeout(int milliseconds) {
        readTimeout = checkedTimeout(milliseconds);
    }

    /** A read time-out, which is 1 or more. */
    static int checkedTimeout(int milliseconds) {
        if (milliseconds < 1) {
            throw new IllegalArgumentException("a read time-out of " + milliseconds + " ms");
        }
        return milliseconds;
    }

    /** Of the branches that this connection begins, in seconds: 0 for none, as the server has it of a new connection. */
    synchronized int timeLimit() {
        return timeLimit;
    }

    synchronized void setTimeLimit(int seconds) {
        timeLimit = seconds;
    }

    /** The revision of the protocol that the server speaks, unsigned: 0 where there is no connection, and of a server before the first one. */
    synchronized int revision() {
        return hello == null ? 0 : hello.revision();
    }

    /** What the server can do beside, a bit each, by PROTOCOL.md: none where there is no connection, and of a server before revision 1. */
    synchronized long features() {
        return hello == null ? 0 : hello.features();
    }

    boolean isConnected() {
        return transport != null && !isClosed;
    }

    /** Of a session that {@link #close} was called of. */
    boolean isClosed() {
        return isClosed;
    }

    /** Whether the last call's request may have reached the server. */
    synchronized boolean isSent() {
        return isSent;
    }

    /** Connects within this many milliseconds, and opens the resource manager, as the first call does. */
    synchronized void open(int milliseconds) throws XarmException {
        run(Operation.OPEN, milliseconds, deadline -> null);
    }

    /**
     * Sends a request, on a new connection if there is none, and reads its reply.
     *
     * @throws XarmException XAER_RMFAIL: there is no connection, or it broke, and whether the call was done isn't known
     */
    synchronized Reply call(Request request) throws XarmException {
        isSent = false;
        return run(request.operation(), readTimeout, deadline -> {
            isSent = true;
            return exchange(request, deadline);
        });
    }

    /**
     * Before a branch begins, or a recovery scan: asks a connection that was idle for a while whether it stands (Status, which changes
     * nothing), and makes it anew if it doesn't. The server may have closed it, or been started anew. And looks after lost starts.
     */
    synchronized void refresh(XarmXid branch) throws XarmException {
        long idle = TimeUnit.NANOSECONDS.toMillis(System.nanoTime() - answered);
        if (isConnected() && idle >= validationInterval) {
            try {
                call(new Request(Operation.STATUS));
            } catch (XarmException broken) {
                // the next call connects
            }
        }
        if (branches.hasLostStarts() && !branches.isAtWork(number)) {
            run(Operation.ROLLBACK, readTimeout, deadline -> {
                settle(branch, deadline);
                return null;
            });
        }
    }

    /**
     * Connects no more, and doesn't wait for a call that is under way, which throws. The server hangs the session up.
     */
    void close() {
        isClosed = true;
        Transport open = transport;
        if (open != null) {
            open.close();
        }
        branches.hangUp(number);
    }

    private interface Exchange {
        Reply run(long deadline) throws IOException;
    }

    private Reply run(Operation operation, int milliseconds, Exchange exchange) throws XarmException {
        long deadline = System.nanoTime() + TimeUnit.MILLISECONDS.toNanos(milliseconds);
        boolean isDone = false;
        try {
            if (isClosed) {
                throw new SocketException("the connection was closed");
            }
            if (transport == null) {
                connect(deadline);
            }
            Reply reply = exchange.run(deadline);
            isDone = true;
            return reply;
        } catch (IOException fault) {
            throw new XarmException(operation + " at " + endpoint + (login == null ? "" : " as " + login.user()), fault);
        } finally {
            if (!isDone) {
                disconnect();
            }
        }
    }

    private void connect(long deadline) throws IOException {
        transport = connector.transport();
        if (isClosed) {
            throw new SocketException("the connection was closed");
        }
        transport.connect(deadline);
        if (login != null) {
            login.run(request -> exchange(request, deadline));
        }
        // an older server refuses it, and goes on
        hello = exchange(new Request(Operation.HELLO).hello(REVISION, 0), deadline);
        byte[] name = endpoint.name().getBytes(StandardCharsets.UTF_8);
        Reply reply = exchange(new Request(Operation.OPEN).flags(TMNOFLAGS).name(name), deadline);
        if (reply.code() != XA_OK) {
            throw refused(reply);
        }
        settle(null, deadline);
    }

    /** What an Open that is refused says. */
    private ProtocolException refused(Reply reply) {
        if (reply.code() != XAException.XAER_INVAL) {
            return new ProtocolException("open was answered " + Codes.name(reply.code()));
        }
        if (reply.detail() != Detail.ACCESS) {
            return new ProtocolException("the resource manager has another name");
        }
        String why = login == null ? "the server wants a login, and there is no user" : "the user may not open the resource manager";
        return new RefusedException(why, Detail.ACCESS);
    }

    private void disconnect() {
        if (transport != null) {
            transport.close();
            transport = null;
        }
        timeLimit = 0;
        hello = null;
        place = 0;
        branches.hangUp(number);
    }

    private Reply exchange(Request request, long deadline) throws IOException {
        transport.write(request.frame(), deadline);
        int length = ByteBuffer.wrap(transport.read(LENGTH_BYTES, deadline)).getInt();
        if (length < 0 || length > MOST_CONTENT) {
            throw new ProtocolException("no reply of an xarm server: its length");
        }
        Reply reply = Reply.read(transport.read(length, deadline));
        if (!request.operation().isAnsweredBy(reply)) {
            throw new ProtocolException("no reply of an xarm server: to " + request.operation());
        }
        // a call that wasn't recorded has place 0
        if (reply.place() != 0 && Long.compareUnsigned(reply.place(), place) <= 0) {
            throw new ProtocolException("no reply of an xarm server: its place is " + reply.place() + ", after " + place);
        }
        place = reply.place() == 0 ? place : reply.place();
        answered = System.nanoTime();
        return reply;
    }

    /** Looks after the lost starts: of each, or of this one, the branch is rolled back if there is one. */
    private void settle(XarmXid wanted, long deadline) throws IOException {
        for (XarmXid branch : branches.lostStarts(wanted)) {
            settleOne(branch, deadline);
        }
    }

    /**
     * A branch of a start whose reply was lost is marked once its session was hung up, which a join tells. What isn't marked may be
     * another one of this XID, or that session is still connected: it isn't rolled back, but looked after later.
     */
    private void settleOne(XarmXid branch, long deadline) throws IOException {
        int code = exchange(asked(Operation.START, TMJOIN, branch), deadline).code();
        if (Codes.isRollback(code)) {
            code = exchange(asked(Operation.ROLLBACK, TMNOFLAGS, branch), deadline).code();
            if (Codes.isRollback(code) || code == XA_OK || code == XAException.XAER_NOTA) {
                branches.settle(branch);
            }
        } else if (code == XAException.XAER_NOTA) {
            branches.settleUnknown(branch);
        } else if (code == XA_OK) {
            exchange(asked(Operation.END, TMSUCCESS, branch), deadline);
        } else if (code == XAException.XAER_PROTO) {
            branches.settle(branch); // prepared, or completed by the operator
        }
    }

    private static Request asked(Operation operation, int flags, XarmXid branch) {
        return new Request(operation).flags(flags).xid(branch);
    }
}
