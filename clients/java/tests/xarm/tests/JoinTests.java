package xarm.tests;

import static javax.transaction.xa.XAException.XAER_NOTA;
import static javax.transaction.xa.XAException.XAER_PROTO;
import static javax.transaction.xa.XAException.XAER_RMFAIL;
import static javax.transaction.xa.XAException.XA_RBCOMMFAIL;
import static javax.transaction.xa.XAException.XA_RETRY;
import static javax.transaction.xa.XAResource.TMJOIN;
import static javax.transaction.xa.XAResource.TMNOFLAGS;
import static javax.transaction.xa.XAResource.TMRESUME;
import static javax.transaction.xa.XAResource.TMSTARTRSCAN;
import static javax.transaction.xa.XAResource.TMSUCCESS;
import static javax.transaction.xa.XAResource.TMSUSPEND;
import static javax.transaction.xa.XAResource.XA_OK;
import static xarm.tests.Expect.code;
import static xarm.tests.Expect.equal;
import static xarm.tests.Expect.holds;
import static xarm.tests.Expect.refusal;
import static xarm.tests.Expect.text;
import static xarm.tests.Expect.value;
import static xarm.tests.Expect.xid;

import java.nio.charset.StandardCharsets;
import java.util.List;
import javax.transaction.xa.XAResource;
import xarm.client.Detail;
import xarm.client.XarmXAConnection;
import xarm.client.XarmXADataSource;
import xarm.client.XarmXid;

/** Connections of a pool: those that were idle, and those that share a branch. */
final class JoinTests implements Suite {
    private static final int READ_TIMEOUT = 10_000;
    private static final int START = 3;
    private static final int STATUS = 67;
    private static final byte[] NUMBER = new byte[8];

    private Tests tests;
    private Server server;

    @Override
    public void run(Tests tests) throws Exception {
        this.tests = tests;
        server = tests.server();
        tests.test("a server that was started anew: an idle connection begins a branch, joins one, and scans", this::startedAnew);
        tests.test("a connection that the server closed for being idle begins a branch", this::closedForIdling);
        tests.test("what is resumed isn't resumed on a new connection", this::resumed);
        tests.test("a connection is asked whether it stands only if it was idle for as long as was set", this::askedWhenIdle);
        tests.test("resources of one server and name are the same one, unless that is set off", this::sameManager);
        tests.test("two connections at work for one branch read each other's writes", this::joined);
        tests.test("a connection joins a branch once the other one's work has ended", this::joinedLater);
        tests.test("with branches of their own, two connections don't", this::apart);
        tests.test("if one of two connections in a branch breaks, the other one's completion is asked until the hang-up", this::brokenJoin);
        tests.test("if another process's connection broke, a completion is asked again for a second", this::brokenElsewhere);
        tests.test("a completion is XAER_PROTO at once where this process knows why", this::protocol);
        server.close();
    }

    private XarmXAConnection connection(int validationInterval) throws Exception {
        XarmXADataSource source = server.source();
        source.setValidationInterval(validationInterval);
        return source.getXAConnection();
    }

    private void restart() throws Exception {
        server.kill();
        server.start();
    }

    private void startedAnew() throws Exception {
        try (XarmXAConnection asked = connection(0); XarmXAConnection joins = connection(0); XarmXAConnection scans = connection(0);
                XarmXAConnection unasked = connection(Server.NEVER)) {
            Work.prepare(asked, xid("before"), "j1", "v");
            restart();
            Work.begin(asked, xid("anew"), "j2", "v");
            joins.getXAResource().start(xid("anew"), TMJOIN);
            joins.getXAResource().end(xid("anew"), TMSUCCESS);
            equal(1, scans.getXAResource().recover(TMSTARTRSCAN).length);
            code(XAER_RMFAIL, () -> unasked.getXAResource().start(xid("unasked"), TMNOFLAGS));
            asked.getXAResource().end(xid("anew"), TMSUCCESS);
            asked.getXAResource().commit(xid("anew"), true);
            asked.getXAResource().rollback(xid("before"));
            value(asked, "j2", "v");
        }
    }

    private void closedForIdling() throws Exception {
        try (Server idle = tests.server("bank", "--idle-seconds", "1"); XarmXAConnection connection = idle.connect()) {
            Work.commit(connection, xid("first"), "j3", "v");
            Thread.sleep(2_500);
            Work.commit(connection, xid("second"), "j4", "v");
            value(connection, "j3", "v");
        }
    }

    private void resumed() throws Exception {
        try (XarmXAConnection connection = connection(0)) {
            Work.begin(connection, xid("asleep"), "j5", "v");
            connection.getXAResource().end(xid("asleep"), TMSUSPEND);
            restart();
            code(XAER_RMFAIL, () -> connection.getXAResource().start(xid("asleep"), TMRESUME));
            code(XA_RBCOMMFAIL, () -> connection.getXAResource().start(xid("asleep"), TMRESUME));
            connection.getXAResource().rollback(xid("asleep"));
        }
    }

    private void askedWhenIdle() throws Exception {
        try (Fake fake = new Fake()) {
            for (int interval : new int[] {0, Server.NEVER}) {
                XarmXADataSource source = fake.source(READ_TIMEOUT);
                source.setValidationInterval(interval);
                try (XarmXAConnection connection = source.getXAConnection()) {
                    if (interval == 0) {
                        fake.answer(Fake.reply(XA_OK, Detail.NOTHING, 6, new byte[80]));
                    }
                    fake.answer(Fake.reply(XA_OK, Detail.NOTHING, 1, NUMBER));
                    connection.getXAResource().start(xid("idle"), TMNOFLAGS);
                    equal(interval == 0 ? List.of(STATUS, START) : List.of(START), fake.asked());
                }
            }
        }
    }

    private void sameManager() throws Exception {
        XarmXADataSource apart = server.source();
        apart.setUseTmJoin(false);
        try (Server shop = tests.server("shop"); XarmXAConnection one = server.connect(); XarmXAConnection two = server.connect();
                XarmXAConnection alone = apart.getXAConnection(); XarmXAConnection other = shop.connect()) {
            XAResource resource = one.getXAResource();
            holds(resource.isSameRM(resource), "its own");
            holds(resource.isSameRM(two.getXAResource()) && two.getXAResource().isSameRM(resource), "another connection's");
            holds(!resource.isSameRM(other.getXAResource()), "not another server's");
            holds(!resource.isSameRM(null), "not none");
            XAResource single = alone.getXAResource();
            holds(single.isSameRM(single), "its own, if it is set off");
            holds(!single.isSameRM(resource) && !resource.isSameRM(single), "not another one's, if it is set off");
        }
    }

    private static void reads(XarmXAConnection connection, String key, String wanted) throws Exception {
        equal(wanted, new String(connection.getRecords().get(text(key)), StandardCharsets.UTF_8));
    }

    /** As Narayana does: all are at work side by side, each is ended, and one of them completes the branch. */
    private void joined() throws Exception {
        XarmXid branch = xid("joined");
        try (XarmXAConnection one = server.connect(); XarmXAConnection two = server.connect()) {
            Work.begin(one, branch, "j6", "one");
            two.getXAResource().start(branch, TMJOIN);
            reads(two, "j6", "one");
            two.getRecords().put(text("j7"), text("two"));
            reads(one, "j7", "two");
            one.getRecords().put(text("j7"), text("three"));
            reads(two, "j7", "three");
            one.getXAResource().end(branch, TMSUCCESS);
            two.getXAResource().end(branch, TMSUCCESS);
            equal(XA_OK, one.getXAResource().prepare(branch));
            one.getXAResource().commit(branch, false);
            value(two, "j6", "one");
            value(two, "j7", "three");
        }
    }

    /** As Bitronix does. The first connection is used for another branch meanwhile, and the last one completes. */
    private void joinedLater() throws Exception {
        XarmXid branch = xid("joined later");
        try (XarmXAConnection one = server.connect(); XarmXAConnection two = server.connect()) {
            Work.end(one, branch, "j8", "one");
            Work.commit(one, xid("meanwhile"), "j9", "other");
            two.getXAResource().start(branch, TMJOIN);
            reads(two, "j8", "one");
            two.getXAResource().end(branch, TMSUCCESS);
            one.getXAResource().start(branch, TMJOIN);
            reads(one, "j8", "one");
            one.getXAResource().end(branch, TMSUCCESS);
            two.getXAResource().commit(branch, true);
            value(one, "j8", "one");
        }
    }

    private void apart() throws Exception {
        try (XarmXAConnection one = server.connect(); XarmXAConnection two = server.connect()) {
            Work.begin(one, xid("global", "1"), "j10", "v");
            two.getXAResource().start(xid("global", "2"), TMNOFLAGS);
            refusal(XA_RETRY, Detail.BUSY, () -> two.getRecords().get(text("j10")));
            for (XarmXAConnection each : List.of(one, two)) {
                XarmXid branch = xid("global", each == one ? "1" : "2");
                each.getXAResource().end(branch, TMSUCCESS);
                each.getXAResource().rollback(branch);
            }
        }
    }

    /** A branch for which two sessions work, of which the second one's connection breaks. */
    private static void breakSecond(Fake fake, XarmXid branch, XarmXAConnection one, XarmXAConnection two) throws Exception {
        fake.answer(Fake.reply(XA_OK, Detail.NOTHING, 1, NUMBER));
        one.getXAResource().start(branch, TMNOFLAGS);
        fake.answer(Fake.reply(XA_OK, Detail.NOTHING, 1, NUMBER));
        two.getXAResource().start(branch, TMJOIN);
        fake.answer(new byte[4]);
        refusal(XAER_RMFAIL, Detail.NOTHING, () -> two.getRecords().put(text("k"), text("v")));
        two.getXAResource().end(branch, TMSUCCESS);
        fake.answer(XA_RBCOMMFAIL, Detail.NOTHING);
        one.getXAResource().end(branch, TMSUCCESS);
    }

    private void brokenJoin() throws Exception {
        try (Fake fake = new Fake(); XarmXAConnection one = fake.connect(READ_TIMEOUT); XarmXAConnection two = fake.connect(READ_TIMEOUT);
                XarmXAConnection three = fake.connect(READ_TIMEOUT)) {
            List<XarmXAConnection> connections = List.of(one, three);
            for (XarmXAConnection completes : connections) {
                XarmXid branch = xid("shared" + connections.indexOf(completes));
                breakSecond(fake, branch, one, two);
                fake.answer(XAER_PROTO, Detail.NOTHING);
                fake.answer(XAER_PROTO, Detail.NOTHING);
                fake.answer(XA_RBCOMMFAIL, Detail.NOTHING);
                code(XA_RBCOMMFAIL, () -> completes.getXAResource().prepare(branch));
                fake.answer(XAER_NOTA, Detail.NOTHING);
                completes.getXAResource().rollback(branch);
            }
        }
    }

    private void brokenElsewhere() throws Exception {
        try (Fake fake = new Fake(); XarmXAConnection connection = fake.connect(READ_TIMEOUT)) {
            fake.answer(XAER_PROTO, Detail.NOTHING);
            fake.answer(XAER_PROTO, Detail.NOTHING);
            fake.answer(XA_RBCOMMFAIL, Detail.NOTHING);
            code(XA_RBCOMMFAIL, () -> connection.getXAResource().rollback(xid("elsewhere")));
            fake.always(XAER_PROTO);
            long begin = System.nanoTime();
            code(XAER_PROTO, () -> connection.getXAResource().rollback(xid("elsewhere again")));
            long took = (System.nanoTime() - begin) / 1_000_000;
            holds(900 < took && took < READ_TIMEOUT, took + " ms are about a second");
        }
    }

    private void protocol() throws Exception {
        XarmXid branch = xid("known");
        try (Fake fake = new Fake(); XarmXAConnection one = fake.connect(READ_TIMEOUT); XarmXAConnection two = fake.connect(READ_TIMEOUT)) {
            fake.answer(Fake.reply(XA_OK, Detail.NOTHING, 1, NUMBER));
            one.getXAResource().start(branch, TMNOFLAGS);
            protocol(fake, () -> two.getXAResource().rollback(branch));
            fake.answer(XA_OK, Detail.NOTHING);
            one.getXAResource().end(branch, TMSUCCESS);
            protocol(fake, () -> two.getXAResource().commit(branch, false));
            fake.answer(XA_OK, Detail.NOTHING);
            equal(XA_OK, one.getXAResource().prepare(branch));
            protocol(fake, () -> two.getXAResource().prepare(branch));
            protocol(fake, () -> two.getXAResource().commit(branch, true));
        }
    }

    /** It is asked once: of a second question there would be no answer. */
    private static void protocol(Fake fake, Tests.Body body) throws Exception {
        fake.answer(XAER_PROTO, Detail.NOTHING);
        code(XAER_PROTO, body);
    }
}
