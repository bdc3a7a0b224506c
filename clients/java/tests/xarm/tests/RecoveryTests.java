package xarm.tests;

import static javax.transaction.xa.XAException.XAER_INVAL;
import static javax.transaction.xa.XAException.XAER_NOTA;
import static javax.transaction.xa.XAException.XAER_RMFAIL;
import static javax.transaction.xa.XAException.XA_RBCOMMFAIL;
import static javax.transaction.xa.XAResource.TMENDRSCAN;
import static javax.transaction.xa.XAResource.TMNOFLAGS;
import static javax.transaction.xa.XAResource.TMSTARTRSCAN;
import static javax.transaction.xa.XAResource.TMSUCCESS;
import static xarm.tests.Expect.code;
import static xarm.tests.Expect.equal;
import static xarm.tests.Expect.listed;
import static xarm.tests.Expect.refusal;
import static xarm.tests.Expect.text;
import static xarm.tests.Expect.value;
import static xarm.tests.Expect.xid;

import java.util.Arrays;
import java.util.stream.IntStream;
import javax.transaction.xa.XAResource;
import javax.transaction.xa.Xid;
import xarm.client.Detail;
import xarm.client.XarmXAConnection;
import xarm.client.XarmXid;

/** Servers that are killed and started again on their logs, and what recover lists then. */
final class RecoveryTests implements Suite {
    private static final int BRANCHES = 300; // more than one page, and fewer than two

    private Server bank;
    private Server shop;
    private XarmXAConnection connection;
    private XAResource resource;

    @Override
    public void run(Tests tests) throws Exception {
        bank = tests.server();
        shop = tests.server("shop");
        connection = bank.connect();
        resource = connection.getXAResource();
        tests.test("kill -9 between prepare and commit: it is listed, and committed", this::killedPrepared);
        tests.test("kill -9 between prepare and commit: it is committed by a new connection", this::killedPreparedAndLeft);
        tests.test("kill -9 under the work: end doesn't throw, prepare tells it, and the rollback is XA_OK", this::killedAtWork);
        tests.test("kill -9 after the end: prepare and rollback are XAER_NOTA", this::killedEnded);
        tests.test("kill -9 of one of two servers: both halves of a transfer are committed", this::killedOne);
        tests.test("recover lists 300 branches in its first call", this::pages);
        bank.close();
        shop.close();
    }

    private static void killAndStart(Server server) throws Exception {
        server.kill();
        server.start();
    }

    private void killedPrepared() throws Exception {
        XarmXid branch = xid("prepared");
        Work.prepare(connection, branch, "r1", "v");
        bank.kill();
        code(XAER_RMFAIL, () -> resource.commit(branch, false));
        code(XAER_RMFAIL, () -> resource.recover(TMSTARTRSCAN | TMENDRSCAN));
        bank.start();
        listed(resource, branch);
        resource.commit(branch, false);
        listed(resource);
        value(connection, "r1", "v");
    }

    private void killedPreparedAndLeft() throws Exception {
        XarmXid branch = xid("left");
        Work.prepare(connection, branch, "r2", "v");
        killAndStart(bank);
        try (XarmXAConnection other = bank.connect()) {
            listed(other.getXAResource(), branch);
            other.getXAResource().commit(branch, false);
        }
        // the first call meets the old connection
        code(XAER_RMFAIL, () -> resource.commit(branch, false));
        code(XAER_NOTA, () -> resource.commit(branch, false));
        value(connection, "r2", "v");
    }

    private void killedAtWork() throws Exception {
        XarmXid branch = xid("at work");
        Work.begin(connection, branch, "r3", "v");
        killAndStart(bank);
        refusal(XAER_RMFAIL, Detail.NOTHING, () -> connection.getRecords().put(text("r3"), text("w")));
        resource.end(branch, TMSUCCESS);
        code(XA_RBCOMMFAIL, () -> resource.prepare(branch));
        resource.rollback(branch);
        value(connection, "r3", null);
    }

    private void killedEnded() throws Exception {
        XarmXid branch = xid("ended");
        Work.end(connection, branch, "r4", "v");
        killAndStart(bank);
        code(XAER_RMFAIL, () -> resource.prepare(branch));
        code(XAER_NOTA, () -> resource.prepare(branch));
        code(XAER_NOTA, () -> resource.rollback(branch));
        value(connection, "r4", null);
    }

    private void killedOne() throws Exception {
        try (XarmXAConnection other = shop.connect()) {
            Work.prepare(connection, xid("transfer", "bank"), "r5", "-1");
            Work.prepare(other, xid("transfer", "shop"), "r5", "1");
            resource.commit(xid("transfer", "bank"), false);
            shop.kill();
            code(XAER_RMFAIL, () -> other.getXAResource().commit(xid("transfer", "shop"), false));
            shop.start();
            listed(other.getXAResource(), xid("transfer", "shop"));
            other.getXAResource().commit(xid("transfer", "shop"), false);
            value(connection, "r5", "-1");
            value(other, "r5", "1");
        }
    }

    private void pages() throws Exception {
        Xid[] branches = IntStream.range(0, BRANCHES).mapToObj(i -> xid("page" + (1_000 + i))).toArray(Xid[]::new);
        for (Xid branch : branches) {
            Work.prepare(connection, branch, branch.toString().substring(0, 20), "v");
        }
        Xid[] found = resource.recover(TMSTARTRSCAN);
        equal(Arrays.asList(branches), Arrays.asList(found));
        equal(0, resource.recover(TMNOFLAGS).length);
        equal(0, resource.recover(TMENDRSCAN).length);
        code(XAER_INVAL, () -> resource.recover(TMENDRSCAN));
        for (Xid branch : branches) {
            resource.rollback(branch);
        }
        listed(resource);
    }
}
