package xarm.tests;

import static javax.transaction.xa.XAException.XAER_NOTA;
import static javax.transaction.xa.XAException.XAER_PROTO;
import static javax.transaction.xa.XAException.XAER_RMFAIL;
import static javax.transaction.xa.XAException.XA_RBCOMMFAIL;
import static javax.transaction.xa.XAException.XA_RBTIMEOUT;
import static javax.transaction.xa.XAResource.TMNOFLAGS;
import static javax.transaction.xa.XAResource.TMSUCCESS;
import static javax.transaction.xa.XAResource.XA_OK;
import static xarm.tests.Expect.code;
import static xarm.tests.Expect.equal;
import static xarm.tests.Expect.holds;
import static xarm.tests.Expect.listed;
import static xarm.tests.Expect.refusal;
import static xarm.tests.Expect.text;
import static xarm.tests.Expect.value;
import static xarm.tests.Expect.xid;

import java.net.InetAddress;
import java.net.ServerSocket;
import java.util.concurrent.TimeUnit;
import javax.transaction.xa.XAException;
import javax.transaction.xa.XAResource;
import xarm.client.Detail;
import xarm.client.Records;
import xarm.client.XarmXAConnection;
import xarm.client.XarmXADataSource;
import xarm.client.XarmXid;

/** Connections that break in the midst of a frame, and servers that don't answer. */
final class BrokenTests implements Suite {
    private static final int READ_TIMEOUT = 1_000;
    private static final int PARTS = 5;

    private Tests tests;
    private Server server;
    private Relay relay;
    private XarmXAConnection direct;
    private XarmXAConnection connection;
    private XAResource resource;

    @Override
    public void run(Tests tests) throws Exception {
        this.tests = tests;
        server = tests.server();
        relay = new Relay(server.port());
        direct = server.connect();
        connection = relayed().getXAConnection();
        resource = connection.getXAResource();
        tests.test("a put whose reply is cut marks its branch, which end doesn't throw and prepare tells", this::putCut);
        tests.test("a put whose request is cut marks its branch in the same way", this::putRequestCut);
        tests.test("an end whose reply is cut is told by prepare: the work was ended", this::endCut);
        tests.test("an end whose request is cut is told by prepare: the branch is marked", this::endRequestCut);
        tests.test("a start whose reply is cut leaves a marked branch, until the rollback", this::startCut);
        tests.test("a prepare whose reply is cut is listed by recover", this::prepareCut);
        tests.test("a prepare whose request is cut is asked again", this::prepareRequestCut);
        tests.test("a commit whose reply is cut was done, and is XAER_NOTA", this::commitCut);
        tests.test("a commit whose request is cut is asked again", this::commitRequestCut);
        tests.test("a commit in one phase whose reply is cut, after such an end, doesn't become a rollback", this::onePhaseCut);
        tests.test("a rollback whose reply is cut was done, and is XAER_NOTA", this::rollbackCut);
        tests.test("recover whose reply is cut is asked again", this::recoverCut);
        tests.test("a completion before the old session's hang-up is asked again", this::beforeHangUp);
        tests.test("a time limit is sent to a new connection too", this::timeLimit);
        tests.test("an answer that doesn't come ends with the read time-out", this::silent);
        tests.test("an answer that comes byte by byte ends with the read time-out", this::slow);
        tests.test("a server that answers no Open ends with the read time-out", this::mute);
        tests.test("where nothing listens it is XAER_RMFAIL, and works once something does", this::gone);
        relay.close();
        server.close();
    }

    private XarmXADataSource relayed() {
        XarmXADataSource source = new XarmXADataSource("127.0.0.1", relay.port(), "bank");
        source.setValidationInterval(Server.NEVER);
        return source;
    }

    /** What a branch is answered whose connection broke under its work. */
    private void lost(XarmXid branch, String key) throws Exception {
        refusal(XAER_RMFAIL, Detail.NOTHING, () -> connection.getRecords().get(text(key)));
        resource.end(branch, TMSUCCESS);
        code(XA_RBCOMMFAIL, () -> resource.prepare(branch));
        resource.rollback(branch);
        value(connection, key, null);
    }

    private void timeLimit() throws Exception {
        resource.setTransactionTimeout(10);
        Work.commit(connection, xid("limited"), "b0", "v");
        relay.cutReply(0);
        refusal(XAER_RMFAIL, Detail.NOTHING, () -> connection.getRecords().get(text("b0")));
        XarmXid branch = xid("limited again");
        Work.begin(connection, branch, "b0", "w");
        equal("0 Nothing number 1", server.talk("connect", "1 tick 10"));
        resource.end(branch, TMSUCCESS);
        code(XA_RBTIMEOUT, () -> resource.prepare(branch));
        resource.rollback(branch);
        value(connection, "b0", "v");
        resource.setTransactionTimeout(0);
    }

    private void putCut() throws Exception {
        for (int part = 0; part < PARTS; part++) {
            XarmXid branch = xid("put" + part);
            resource.start(branch, TMNOFLAGS);
            relay.cutReply(part);
            refusal(XAER_RMFAIL, Detail.NOTHING, () -> connection.getRecords().put(text("b1"), text("v")));
            lost(branch, "b1");
        }
    }

    private void putRequestCut() throws Exception {
        for (int part = 0; part < PARTS; part++) {
            XarmXid branch = xid("put request" + part);
            resource.start(branch, TMNOFLAGS);
            relay.cutRequest(part);
            refusal(XAER_RMFAIL, Detail.NOTHING, () -> connection.getRecords().put(text("b2"), text("v")));
            lost(branch, "b2");
        }
    }

    private void endCut() throws Exception {
        XarmXid branch = xid("end");
        Work.begin(connection, branch, "b3", "v");
        relay.cutReply(9);
        resource.end(branch, TMSUCCESS);
        equal(XA_OK, resource.prepare(branch));
        resource.commit(branch, false);
        value(connection, "b3", "v");
    }

    private void endRequestCut() throws Exception {
        XarmXid branch = xid("end request");
        Work.begin(connection, branch, "b4", "v");
        relay.cutRequest(9);
        resource.end(branch, TMSUCCESS);
        code(XA_RBCOMMFAIL, () -> resource.prepare(branch));
        resource.rollback(branch);
        value(connection, "b4", null);
    }

    private void startCut() throws Exception {
        XarmXid branch = xid("start");
        relay.cutReply(9);
        code(XAER_RMFAIL, () -> resource.start(branch, TMNOFLAGS));
        rolledBack(branch);
        relay.cutRequest(9);
        code(XAER_RMFAIL, () -> resource.start(branch, TMNOFLAGS));
        resource.rollback(branch);
    }

    /** By the driver's rollback it is gone, or by this one, which then tells the mark. */
    private void rolledBack(XarmXid branch) throws Exception {
        try {
            resource.rollback(branch);
        } catch (XAException marked) {
            equal(XA_RBCOMMFAIL, marked.errorCode);
        }
        code(XAER_NOTA, () -> resource.rollback(branch));
    }

    private void prepareCut() throws Exception {
        XarmXid branch = xid("prepare");
        Work.end(connection, branch, "b5", "v");
        relay.cutReply(9);
        code(XAER_RMFAIL, () -> resource.prepare(branch));
        listed(resource, branch);
        resource.commit(branch, false);
        value(connection, "b5", "v");
    }

    private void prepareRequestCut() throws Exception {
        XarmXid branch = xid("prepare request");
        Work.end(connection, branch, "b6", "v");
        relay.cutRequest(9);
        code(XAER_RMFAIL, () -> resource.prepare(branch));
        listed(resource);
        equal(XA_OK, resource.prepare(branch));
        resource.commit(branch, false);
        value(connection, "b6", "v");
    }

    private void commitCut() throws Exception {
        XarmXid branch = xid("commit");
        Work.prepare(connection, branch, "b7", "v");
        relay.cutReply(18);
        code(XAER_RMFAIL, () -> resource.commit(branch, false));
        code(XAER_NOTA, () -> resource.commit(branch, false));
        value(connection, "b7", "v");
    }

    private void commitRequestCut() throws Exception {
        XarmXid branch = xid("commit request");
        Work.prepare(connection, branch, "b8", "v");
        relay.cutRequest(5);
        code(XAER_RMFAIL, () -> resource.commit(branch, false));
        resource.commit(branch, false);
        value(connection, "b8", "v");
    }

    private void onePhaseCut() throws Exception {
        XarmXid branch = xid("one phase");
        Work.begin(connection, branch, "b13", "v");
        relay.cutReply(9);
        resource.end(branch, TMSUCCESS);
        // the next reply is that of Open
        value(connection, "b8", "v");
        relay.cutReply(9);
        code(XAER_RMFAIL, () -> resource.commit(branch, true));
        code(XAER_NOTA, () -> resource.commit(branch, true));
        code(XAER_NOTA, () -> resource.rollback(branch));
        value(connection, "b13", "v");
    }

    private void rollbackCut() throws Exception {
        XarmXid branch = xid("rollback");
        Work.end(connection, branch, "b9", "v");
        relay.cutReply(1);
        code(XAER_RMFAIL, () -> resource.rollback(branch));
        code(XAER_NOTA, () -> resource.rollback(branch));
        value(connection, "b9", null);
    }

    private void recoverCut() throws Exception {
        XarmXid branch = xid("recover");
        Work.prepare(connection, branch, "b10", "v");
        relay.cutReply(25);
        code(XAER_RMFAIL, () -> resource.recover(XAResource.TMSTARTRSCAN));
        listed(resource, branch);
        resource.rollback(branch);
    }

    private void beforeHangUp() throws Exception {
        try (Fake fake = new Fake(); XarmXAConnection early = fake.connect(10 * READ_TIMEOUT)) {
            XarmXid branch = xid("early");
            fake.answer(Fake.reply(XA_OK, Detail.NOTHING, 1, new byte[8]));
            early.getXAResource().start(branch, TMNOFLAGS);
            fake.answer(new byte[4]);
            refusal(XAER_RMFAIL, Detail.NOTHING, () -> early.getRecords().put(text("k"), text("v")));
            fake.answer(XAER_PROTO, Detail.NOTHING);
            fake.answer(XAER_PROTO, Detail.NOTHING);
            fake.answer(XA_RBCOMMFAIL, Detail.NOTHING);
            code(XA_RBCOMMFAIL, () -> early.getXAResource().prepare(branch));
            fake.answer(XAER_NOTA, Detail.NOTHING);
            early.getXAResource().rollback(branch);
        }
    }

    private void silent() throws Exception {
        XarmXADataSource source = relayed();
        try (XarmXAConnection waiting = source.getXAConnection()) {
            XarmXid branch = xid("silent");
            Work.end(waiting, branch, "b11", "v");
            relay.holdReply();
            // what is to be answered has the data source's, however busy the machine is
            waiting.setReadTimeout(READ_TIMEOUT);
            within(() -> code(XAER_RMFAIL, () -> waiting.getXAResource().prepare(branch)));
            waiting.setReadTimeout(source.getReadTimeout());
            listed(waiting.getXAResource(), branch);
            waiting.getXAResource().rollback(branch);
        }
    }

    private void slow() throws Exception {
        try (Fake fake = new Fake(READ_TIMEOUT / 4); XarmXAConnection waiting = fake.connect(10 * READ_TIMEOUT)) {
            fake.answer(XA_OK, Detail.NOTHING);
            waiting.setReadTimeout(READ_TIMEOUT);
            within(() -> code(XAER_RMFAIL, () -> waiting.getXAResource().forget(xid("slow"))));
        }
    }

    private void mute() throws Exception {
        try (ServerSocket listener = new ServerSocket(0, 1, InetAddress.getByName("127.0.0.1"))) {
            XarmXADataSource source = new XarmXADataSource("127.0.0.1", listener.getLocalPort(), "bank");
            source.setReadTimeout(READ_TIMEOUT);
            within(() -> refusal(XAER_RMFAIL, Detail.NOTHING, source::getXAConnection));
        }
    }

    private void gone() throws Exception {
        XarmXid branch = xid("gone");
        server.kill();
        code(XAER_RMFAIL, () -> direct.getXAResource().start(branch, TMNOFLAGS));
        refusal(XAER_RMFAIL, Detail.NOTHING, server::connect);
        Records records = direct.getRecords();
        refusal(XAER_RMFAIL, Detail.NOTHING, () -> records.get(text("b3")));
        server.start();
        value(direct, "b3", "v");
    }

    /** A call takes the read time-out, and not much more. */
    private static void within(Tests.Body body) throws Exception {
        long begin = System.nanoTime();
        body.run();
        long took = TimeUnit.NANOSECONDS.toMillis(System.nanoTime() - begin);
        holds(READ_TIMEOUT - 50 <= took && took < 10 * READ_TIMEOUT, took + " ms are about the read time-out");
    }
}
