package xarm.tests;

import static javax.transaction.xa.XAException.XAER_NOTA;
import static javax.transaction.xa.XAException.XAER_PROTO;
import static javax.transaction.xa.XAException.XA_HEURCOM;
import static javax.transaction.xa.XAException.XA_HEURRB;
import static javax.transaction.xa.XAException.XA_RBOTHER;
import static javax.transaction.xa.XAException.XA_RBROLLBACK;
import static javax.transaction.xa.XAResource.TMNOFLAGS;
import static javax.transaction.xa.XAResource.TMRESUME;
import static javax.transaction.xa.XAResource.TMSUCCESS;
import static javax.transaction.xa.XAResource.TMSUSPEND;
import static xarm.tests.Expect.code;
import static xarm.tests.Expect.equal;
import static xarm.tests.Expect.listed;
import static xarm.tests.Expect.refusal;
import static xarm.tests.Expect.text;
import static xarm.tests.Expect.value;
import static xarm.tests.Expect.xid;

import javax.transaction.xa.XAResource;
import xarm.client.Detail;
import xarm.client.XarmXAConnection;
import xarm.client.XarmXid;

/** What a session meets of the operator: marks, completions and restarts. */
final class OperatorTests implements Suite {
    private Server server;
    private XarmXAConnection connection;
    private XAResource resource;

    @Override
    public void run(Tests tests) throws Exception {
        server = tests.server();
        connection = server.connect();
        resource = connection.getXAResource();
        tests.test("a doomed branch ends without a throw, and prepare tells the mark", this::doomed);
        tests.test("the rollback of a doomed branch tells the mark", this::doomedAndRolledBack);
        tests.test("a commit in one phase of a doomed branch tells the mark", this::doomedInOnePhase);
        tests.test("a doomed branch is not resumed, and its end is XA_OK", this::doomedWhileSuspended);
        tests.test("a branch that the operator committed is XA_HEURCOM, until it is forgotten", this::decidedToCommit);
        tests.test("a branch that the operator rolled back is XA_HEURRB, until it is forgotten", this::decidedToRollBack);
        tests.test("forget of a branch that nobody completed is XAER_PROTO", this::notDecided);
        tests.test("a Restart under its work is told by prepare, and the rollback is XA_OK", this::restarted);
        tests.test("a prepared branch outlasts a Restart, and the session goes on", this::restartedWhilePrepared);
        server.close();
    }

    private void operate(String line) throws Exception {
        equal("0 Nothing", server.talk("connect", "1 " + line));
    }

    private void doom(XarmXid branch) throws Exception {
        operate("doom " + branch);
    }

    private void doomed() throws Exception {
        XarmXid branch = xid("doomed");
        Work.begin(connection, branch, "d1", "v");
        doom(branch);
        refusal(XA_RBOTHER, Detail.NOTHING, () -> connection.getRecords().put(text("d1"), text("w")));
        refusal(XA_RBOTHER, Detail.NOTHING, () -> connection.getRecords().get(text("d1")));
        refusal(XA_RBOTHER, Detail.NOTHING, () -> connection.getRecords().delete(text("d1")));
        resource.end(branch, TMSUCCESS);
        resource.end(branch, TMSUCCESS);
        code(XA_RBOTHER, () -> resource.prepare(branch));
        code(XA_RBOTHER, () -> resource.prepare(branch));
        resource.rollback(branch);
        value(connection, "d1", null);
    }

    private void doomedAndRolledBack() throws Exception {
        XarmXid branch = xid("doomed again");
        Work.begin(connection, branch, "d2", "v");
        doom(branch);
        resource.end(branch, TMSUCCESS);
        code(XA_RBOTHER, () -> resource.rollback(branch));
        code(XAER_NOTA, () -> resource.rollback(branch));
    }

    private void doomedInOnePhase() throws Exception {
        XarmXid branch = xid("doomed at last");
        Work.end(connection, branch, "d3", "v");
        doom(branch);
        code(XA_RBOTHER, () -> resource.commit(branch, true));
        resource.rollback(branch);
        value(connection, "d3", null);
    }

    private void doomedWhileSuspended() throws Exception {
        XarmXid branch = xid("doomed asleep");
        Work.begin(connection, branch, "d4", "v");
        resource.end(branch, TMSUSPEND);
        doom(branch);
        code(XA_RBOTHER, () -> resource.start(branch, TMRESUME));
        code(XA_RBOTHER, () -> resource.start(branch, TMRESUME));
        resource.end(branch, TMSUCCESS);
        code(XA_RBOTHER, () -> resource.rollback(branch));
    }

    private void decidedToCommit() throws Exception {
        XarmXid branch = xid("decided");
        Work.prepare(connection, branch, "d5", "v");
        operate("decide commit " + branch);
        code(XA_HEURCOM, () -> resource.commit(branch, false));
        code(XA_HEURCOM, () -> resource.rollback(branch));
        listed(resource, branch);
        resource.forget(branch);
        listed(resource);
        code(XAER_NOTA, () -> resource.forget(branch));
        value(connection, "d5", "v");
    }

    private void decidedToRollBack() throws Exception {
        XarmXid branch = xid("decided against");
        Work.prepare(connection, branch, "d6", "v");
        operate("decide rollback " + branch);
        code(XA_HEURRB, () -> resource.commit(branch, false));
        code(XA_HEURRB, () -> resource.rollback(branch));
        resource.forget(branch);
        listed(resource);
        value(connection, "d6", null);
    }

    private void notDecided() throws Exception {
        XarmXid branch = xid("undecided");
        Work.prepare(connection, branch, "d7", "v");
        code(XAER_PROTO, () -> resource.forget(branch));
        resource.rollback(branch);
    }

    private void restarted() throws Exception {
        XarmXid branch = xid("restarted");
        Work.begin(connection, branch, "d8", "v");
        operate("restart");
        refusal(XAER_PROTO, Detail.NOTHING, () -> connection.getRecords().put(text("d8"), text("w")));
        resource.end(branch, TMSUCCESS);
        code(XA_RBROLLBACK, () -> resource.prepare(branch));
        resource.rollback(branch);
        code(XAER_NOTA, () -> resource.rollback(branch));
        value(connection, "d8", null);
    }

    private void restartedWhilePrepared() throws Exception {
        XarmXid branch = xid("prepared");
        Work.prepare(connection, branch, "d9", "v");
        operate("restart");
        listed(resource, branch);
        resource.commit(branch, false);
        value(connection, "d9", "v");
        resource.start(xid("goes on"), TMNOFLAGS);
        resource.end(xid("goes on"), TMSUCCESS);
        resource.rollback(xid("goes on"));
    }
}
