package xarm.tests;

import static javax.transaction.xa.XAException.XAER_NOTA;
import static javax.transaction.xa.XAException.XAER_PROTO;
import static javax.transaction.xa.XAException.XAER_RMFAIL;
import static javax.transaction.xa.XAException.XA_RBCOMMFAIL;
import static javax.transaction.xa.XAResource.TMNOFLAGS;
import static javax.transaction.xa.XAResource.TMSUCCESS;
import static javax.transaction.xa.XAResource.XA_OK;
import static xarm.tests.Expect.code;
import static xarm.tests.Expect.equal;
import static xarm.tests.Expect.holds;
import static xarm.tests.Expect.listed;
import static xarm.tests.Expect.refusal;
import static xarm.tests.Expect.text;
import static xarm.tests.Expect.value;
import static xarm.tests.Expect.xid;

import java.util.concurrent.TimeUnit;
import java.util.concurrent.atomic.AtomicReference;
import java.util.concurrent.locks.LockSupport;
import javax.transaction.xa.XAException;
import javax.transaction.xa.XAResource;
import xarm.client.Detail;
import xarm.client.Faults;
import xarm.client.XarmXAConnection;
import xarm.client.XarmXADataSource;
import xarm.client.XarmXid;

/** Starts whose replies are lost, replies that nobody read, and threads that close or are interrupted. */
final class LostTests implements Suite {
    private static final int READ_TIMEOUT = 10_000;
    private static final int TRIES = 100;
    private static final int PAUSE = 100;
    private static final String NONE = "0 Nothing branches";

    private Server server;
    private Relay relay;
    private XarmXAConnection direct;

    @Override
    public void run(Tests tests) throws Exception {
        server = tests.server();
        relay = new Relay(server.port());
        direct = server.connect();
        tests.test("a lost start's branch is rolled back by the next connection", this::swept);
        tests.test("a lost start's branch is rolled back by another connection of this process", this::sweptByOther);
        tests.test("a start whose request or reply was lost is asked again", this::startedAgain);
        tests.test("a lost start whose XID another one began isn't rolled back", this::notItsOwn);
        tests.test("a lost start that the server takes late is rolled back too", this::takenLate);
        tests.test("whatever is thrown before the reply is read, the next call doesn't take it for its own", this::thrown);
        tests.test("a reply whose place doesn't ascend is none", this::places);
        tests.test("close doesn't wait for a call under way, which is XAER_RMFAIL", this::closes);
        tests.test("an interrupted thread's branch is completed, and it stays interrupted", this::interrupted);
        tests.test("an interrupt doesn't end the wait for a hang-up", this::interruptedWait);
        relay.close();
        server.close();
    }

    private XarmXAConnection relayed() throws Exception {
        XarmXADataSource source = new XarmXADataSource("127.0.0.1", relay.port(), "bank");
        source.setValidationInterval(Server.NEVER);
        return source.getXAConnection();
    }

    private String known() throws Exception {
        return server.talk("connect", "1 branches 10");
    }

    /** Work of a connection leaves nothing known, at once or as soon as the old session was hung up. */
    private void sweeps(XarmXAConnection connection) throws Exception {
        for (int i = 0; i < TRIES; i++) {
            value(connection, "l1", null);
            if (known().equals(NONE)) {
                return;
            }
            Thread.sleep(PAUSE);
        }
        equal(NONE, known());
    }

    private void swept() throws Exception {
        try (XarmXAConnection connection = relayed()) {
            relay.cutReply(9);
            code(XAER_RMFAIL, () -> connection.getXAResource().start(xid("lost"), TMNOFLAGS));
            holds(!known().equals(NONE), "it began: " + known());
            sweeps(connection);
        }
    }

    private void sweptByOther() throws Exception {
        XarmXAConnection connection = relayed();
        try (XarmXAConnection other = relayed()) {
            relay.cutReply(9);
            code(XAER_RMFAIL, () -> connection.getXAResource().start(xid("lost"), TMNOFLAGS));
            connection.close();
            sweeps(other);
        }
    }

    private void startedAgain() throws Exception {
        for (boolean isDone : new boolean[] {true, false}) {
            try (XarmXAConnection connection = relayed()) {
                if (isDone) {
                    relay.cutReply(9);
                } else {
                    relay.cutRequest(9);
                }
                code(XAER_RMFAIL, () -> connection.getXAResource().start(xid("again"), TMNOFLAGS));
                Work.commit(connection, xid("again"), "l2", "done " + isDone);
                value(connection, "l2", "done " + isDone);
                equal(NONE, known());
            }
        }
    }

    private void notItsOwn() throws Exception {
        try (XarmXAConnection connection = relayed()) {
            relay.cutRequest(4);
            code(XAER_RMFAIL, () -> connection.getXAResource().start(xid("another's"), TMNOFLAGS));
            Work.begin(direct, xid("another's"), "l3", "v");
            value(connection, "l1", null);
            direct.getXAResource().end(xid("another's"), TMSUCCESS);
            value(connection, "l1", null);
            equal(XA_OK, direct.getXAResource().prepare(xid("another's")));
            Thread.sleep(10 * PAUSE);
            value(connection, "l1", null);
            listed(direct.getXAResource(), xid("another's"));
            direct.getXAResource().commit(xid("another's"), false);
            value(direct, "l3", "v");
        }
    }

    private void takenLate() throws Exception {
        XarmXid branch = xid("late");
        try (XarmXAConnection connection = relayed()) {
            relay.cutRequest(4);
            code(XAER_RMFAIL, () -> connection.getXAResource().start(branch, TMNOFLAGS));
            value(connection, "l1", null); // it is unknown yet
            XarmXAConnection late = server.connect();
            late.getXAResource().start(branch, TMNOFLAGS);
            late.close();
            sweeps(connection);
        }
    }

    private void thrown() throws Exception {
        AtomicReference<Error> next = new AtomicReference<>();
        try (XarmXAConnection connection = Faults.connection(server.port(), "bank", next)) {
            XAResource resource = connection.getXAResource();
            XarmXid branch = xid("thrown");
            resource.start(branch, TMNOFLAGS);
            thrown(next, () -> connection.getRecords().put(text("l4"), text("v")));
            refusal(XAER_RMFAIL, Detail.NOTHING, () -> connection.getRecords().put(text("l4"), text("v")));
            resource.end(branch, TMSUCCESS);
            code(XA_RBCOMMFAIL, () -> resource.prepare(branch));
            resource.rollback(branch);
            Work.prepare(connection, branch, "l4", "v");
            thrown(next, () -> resource.rollback(branch));
            code(XAER_NOTA, () -> resource.commit(branch, false));
            thrown(next, () -> resource.start(branch, TMNOFLAGS));
            sweeps(connection);
        }
    }

    private static void thrown(AtomicReference<Error> next, Tests.Body body) throws Exception {
        Error fault = new StackOverflowError("a test's");
        next.set(fault);
        try {
            body.run();
        } catch (StackOverflowError found) {
            holds(found == fault, "it is what was thrown");
            return;
        }
        throw new AssertionError("nothing was thrown");
    }

    private void places() throws Exception {
        byte[] none = new byte[0];
        try (Fake fake = new Fake(); XarmXAConnection connection = fake.connect(READ_TIMEOUT)) {
            XAResource resource = connection.getXAResource();
            long[] places = {7, 8, 8, -1, -1};
            boolean[] isReply = {true, true, false, true, false}; // -1 is the highest, and a new connection begins anew
            for (int i = 0; i < places.length; i++) {
                fake.answer(Fake.reply(XA_OK, Detail.NOTHING, places[i], 0, none));
                if (isReply[i]) {
                    resource.forget(xid("placed"));
                } else {
                    code(XAER_RMFAIL, () -> resource.forget(xid("placed")));
                }
            }
        }
    }

    private void closes() throws Exception {
        try (Fake fake = new Fake()) {
            XarmXAConnection connection = fake.connect(10 * READ_TIMEOUT);
            AtomicReference<Throwable> found = new AtomicReference<>();
            Thread thread = new Thread(() -> {
                try {
                    connection.getXAResource().prepare(xid("under way"));
                } catch (XAException broken) {
                    found.set(broken);
                }
            });
            thread.start();
            while (fake.asked().isEmpty()) {
                holds(thread.isAlive(), "it is asked: " + found.get());
                Thread.sleep(1);
            }
            long begin = System.nanoTime();
            connection.close();
            holds(TimeUnit.NANOSECONDS.toMillis(System.nanoTime() - begin) < READ_TIMEOUT, "close returns at once");
            thread.join(READ_TIMEOUT);
            holds(found.get() instanceof XAException, "the call has ended: " + found.get());
            equal(XAER_RMFAIL, ((XAException) found.get()).errorCode);
            code(XAER_RMFAIL, () -> connection.getXAResource().prepare(xid("under way")));
        }
    }

    /** Over TCP here; SourceTests have it over a Unix socket. */
    private void interrupted() throws Exception {
        interrupted(direct, "l5");
    }

    static void interrupted(XarmXAConnection connection, String key) throws Exception {
        Thread.currentThread().interrupt();
        try {
            Work.commit(connection, xid("interrupted"), key, "v");
            value(connection, key, "v");
        } finally {
            holds(Thread.interrupted(), "it is still interrupted");
        }
    }

    private void interruptedWait() throws Exception {
        try (Fake fake = new Fake(); XarmXAConnection connection = fake.connect(READ_TIMEOUT)) {
            fake.answer(XAER_PROTO, Detail.NOTHING);
            fake.answer(XAER_PROTO, Detail.NOTHING);
            fake.answer(XA_OK, Detail.NOTHING);
            Thread.currentThread().interrupt();
            try {
                connection.getXAResource().rollback(xid("waits"));
            } finally {
                holds(Thread.interrupted(), "it is still interrupted");
            }
            fake.answer(Fake.reply(XA_OK, Detail.NOTHING, 1, new byte[8]));
            connection.getXAResource().start(xid("interrupted"), TMNOFLAGS);
            fake.answer(new byte[4]);
            refusal(XAER_RMFAIL, Detail.NOTHING, () -> connection.getRecords().put(text("k"), text("v")));
            interruptSoon(fake);
            try {
                code(XA_RBCOMMFAIL, () -> connection.getXAResource().rollback(xid("interrupted")));
            } finally {
                holds(Thread.interrupted(), "it is interrupted");
            }
        }
    }

    /** While it is answered XAER_PROTO; a moment later it is answered otherwise. */
    private static void interruptSoon(Fake fake) {
        Thread waiting = Thread.currentThread();
        fake.always(XAER_PROTO);
        Relay.inThread(() -> {
            LockSupport.parkNanos(TimeUnit.MILLISECONDS.toNanos(3 * PAUSE));
            waiting.interrupt();
            LockSupport.parkNanos(TimeUnit.MILLISECONDS.toNanos(3 * PAUSE));
            fake.always(XA_RBCOMMFAIL);
        });
    }
}
