package xarm.tests;

import static javax.transaction.xa.XAException.XAER_INVAL;
import static javax.transaction.xa.XAException.XAER_NOTA;
import static javax.transaction.xa.XAException.XAER_PROTO;
import static javax.transaction.xa.XAException.XAER_RMFAIL;
import static javax.transaction.xa.XAException.XA_RBCOMMFAIL;
import static javax.transaction.xa.XAException.XA_RBROLLBACK;
import static javax.transaction.xa.XAException.XA_RBTIMEOUT;
import static javax.transaction.xa.XAResource.TMENDRSCAN;
import static javax.transaction.xa.XAResource.TMFAIL;
import static javax.transaction.xa.XAResource.TMJOIN;
import static javax.transaction.xa.XAResource.TMNOFLAGS;
import static javax.transaction.xa.XAResource.TMRESUME;
import static javax.transaction.xa.XAResource.TMSTARTRSCAN;
import static javax.transaction.xa.XAResource.TMSUCCESS;
import static javax.transaction.xa.XAResource.TMSUSPEND;
import static javax.transaction.xa.XAResource.XA_OK;
import static javax.transaction.xa.XAResource.XA_RDONLY;
import static xarm.tests.Expect.code;
import static xarm.tests.Expect.equal;
import static xarm.tests.Expect.holds;
import static xarm.tests.Expect.illegal;
import static xarm.tests.Expect.listed;
import static xarm.tests.Expect.refusal;
import static xarm.tests.Expect.text;
import static xarm.tests.Expect.value;
import static xarm.tests.Expect.xid;

import java.util.Arrays;
import javax.transaction.xa.XAResource;
import javax.transaction.xa.Xid;
import xarm.client.Detail;
import xarm.client.Records;
import xarm.client.XarmXAConnection;
import xarm.client.XarmXADataSource;
import xarm.client.XarmXid;

/** Each method, as it succeeds. */
final class ResourceTests implements Suite {
    private Server server;
    private XarmXAConnection connection;
    private XAResource resource;
    private Records records;

    @Override
    public void run(Tests tests) throws Exception {
        server = tests.server();
        connection = server.connect();
        resource = connection.getXAResource();
        records = connection.getRecords();
        tests.test("a branch is committed in one phase", this::onePhase);
        tests.test("a branch is committed in two phases", this::twoPhases);
        tests.test("a branch that only read is prepared as read-only", this::readOnly);
        tests.test("a branch is rolled back, at work and prepared", this::rolledBack);
        tests.test("records are read, written, deleted and empty", this::recordsInBranch);
        tests.test("records have limits, and no branch outside of start and end", this::recordsOutOfLimits);
        tests.test("a branch is suspended and resumed", this::suspended);
        tests.test("a second session joins a branch", this::joined);
        tests.test("two sessions of one global transaction are two branches", this::twoBranches);
        tests.test("an end with TMFAIL is told by prepare, and the rollback after it is XA_OK", this::failed);
        tests.test("recover is a scan, whose first call lists all", this::scans);
        tests.test("a branch runs out of time, and its rollback is told XA_RBTIMEOUT", this::timeLimit);
        tests.test("an XID of another class is taken, and its parts compared", this::xids);
        tests.test("a closed connection rolls back what it was at work for", this::closed);
        tests.test("a data source is a bean, and refuses what can't be", this::source);
        server.close();
    }

    private void onePhase() throws Exception {
        Work.commit(connection, xid("one"), "k1", "v1");
        value(connection, "k1", "v1");
        code(XAER_NOTA, () -> resource.commit(xid("one"), true));
    }

    private void twoPhases() throws Exception {
        Work.prepare(connection, xid("two"), "k2", "v2");
        listed(resource, xid("two"));
        resource.commit(xid("two"), false);
        listed(resource);
        value(connection, "k2", "v2");
        code(XAER_NOTA, () -> resource.commit(xid("two"), false));
    }

    private void readOnly() throws Exception {
        resource.start(xid("read"), TMNOFLAGS);
        records.get(text("k1"));
        resource.end(xid("read"), TMSUCCESS);
        equal(XA_RDONLY, resource.prepare(xid("read")));
        code(XAER_NOTA, () -> resource.commit(xid("read"), false));
        code(XAER_NOTA, () -> resource.rollback(xid("read")));
    }

    private void rolledBack() throws Exception {
        Work.end(connection, xid("at work"), "k3", "v3");
        resource.rollback(xid("at work"));
        Work.prepare(connection, xid("prepared"), "k3", "v3");
        resource.rollback(xid("prepared"));
        value(connection, "k3", null);
        code(XAER_NOTA, () -> resource.rollback(xid("prepared")));
    }

    private void recordsInBranch() throws Exception {
        resource.start(xid("records"), TMNOFLAGS);
        byte[] longest = new byte[16_384];
        Arrays.fill(longest, (byte) 0xfe);
        records.put(new byte[64], longest);
        holds(Arrays.equals(longest, records.get(new byte[64])), "its own write is read");
        records.put(text("empty"), new byte[0]);
        equal(0, records.get(text("empty")).length);
        records.delete(text("empty"));
        holds(records.get(text("empty")) == null, "what was deleted is absent");
        records.delete(text("never"));
        resource.end(xid("records"), TMSUCCESS);
        resource.commit(xid("records"), true);
        value(connection, "empty", null);
    }

    private void recordsOutOfLimits() throws Exception {
        illegal(() -> records.get(new byte[0]));
        illegal(() -> records.put(new byte[65], new byte[0]));
        illegal(() -> records.put(text("k"), new byte[16_385]));
        illegal(() -> records.delete(new byte[0]));
        refusal(XAER_PROTO, Detail.NOTHING, () -> records.get(text("k")));
        refusal(XAER_PROTO, Detail.NOTHING, () -> records.put(text("k"), text("v")));
        refusal(XAER_PROTO, Detail.NOTHING, () -> records.delete(text("k")));
    }

    private void suspended() throws Exception {
        Work.begin(connection, xid("rest"), "k4", "v4");
        resource.end(xid("rest"), TMSUSPEND);
        refusal(XAER_PROTO, Detail.NOTHING, () -> records.get(text("k4")));
        Work.commit(connection, xid("meanwhile"), "k5", "v5");
        resource.start(xid("rest"), TMRESUME);
        records.put(text("k6"), text("v6"));
        resource.end(xid("rest"), TMSUCCESS);
        resource.commit(xid("rest"), true);
        value(connection, "k4", "v4");
        value(connection, "k6", "v6");
        Work.begin(connection, xid("slept"), "k7", "v7");
        resource.end(xid("slept"), TMSUSPEND);
        resource.end(xid("slept"), TMSUCCESS);
        resource.rollback(xid("slept"));
    }

    private void joined() throws Exception {
        try (XarmXAConnection other = server.connect()) {
            Work.end(connection, xid("both"), "k8", "v8");
            other.getXAResource().start(xid("both"), TMJOIN);
            holds(Arrays.equals(text("v8"), other.getRecords().get(text("k8"))), "the branch's write is read");
            other.getXAResource().end(xid("both"), TMSUCCESS);
            resource.commit(xid("both"), true);
        }
    }

    private void twoBranches() throws Exception {
        try (XarmXAConnection other = server.connect()) {
            Work.prepare(connection, xid("global", "1"), "k9", "1");
            Work.prepare(other, xid("global", "2"), "k10", "2");
            listed(resource, xid("global", "1"), xid("global", "2"));
            resource.commit(xid("global", "1"), false);
            other.getXAResource().commit(xid("global", "2"), false);
        }
    }

    private void failed() throws Exception {
        Work.begin(connection, xid("fails"), "k11", "v");
        resource.end(xid("fails"), TMFAIL);
        code(XA_RBROLLBACK, () -> resource.prepare(xid("fails")));
        resource.rollback(xid("fails"));
        code(XAER_NOTA, () -> resource.rollback(xid("fails")));
        Work.begin(connection, xid("fails"), "k11", "v");
        resource.end(xid("fails"), TMFAIL);
        code(XA_RBROLLBACK, () -> resource.rollback(xid("fails")));
        value(connection, "k11", null);
    }

    private void scans() throws Exception {
        Work.prepare(connection, xid("scan"), "k12", "v");
        equal(1, resource.recover(TMSTARTRSCAN).length);
        equal(0, resource.recover(TMNOFLAGS).length);
        equal(0, resource.recover(TMENDRSCAN).length);
        code(XAER_INVAL, () -> resource.recover(TMNOFLAGS));
        code(XAER_INVAL, () -> resource.recover(TMENDRSCAN));
        code(XAER_INVAL, () -> resource.recover(TMJOIN));
        resource.rollback(xid("scan"));
    }

    private void timeLimit() throws Exception {
        equal(0, resource.getTransactionTimeout());
        code(XAER_INVAL, () -> resource.setTransactionTimeout(-1));
        holds(resource.setTransactionTimeout(10), "it is set");
        equal(10, resource.getTransactionTimeout());
        tick(9, 0);
        Work.begin(connection, xid("limit"), "k-limit", "v");
        tick(18, 0);
        tick(19, 1);
        refusal(XA_RBTIMEOUT, Detail.NOTHING, () -> records.put(text("k-limit"), text("w")));
        resource.end(xid("limit"), TMSUCCESS);
        code(XA_RBTIMEOUT, () -> resource.prepare(xid("limit")));
        resource.rollback(xid("limit"));
        value(connection, "k-limit", null);
        resource.setTransactionTimeout(0);
        Work.begin(connection, xid("no limit"), "k-limit", "v");
        tick(1_000_000, 0);
        resource.end(xid("no limit"), TMSUCCESS);
        resource.commit(xid("no limit"), true);
        value(connection, "k-limit", "v");
    }

    private void tick(long moment, int marked) throws Exception {
        equal("0 Nothing number " + marked, server.talk("connect", "1 tick " + moment));
    }

    private void xids() throws Exception {
        XarmXid branch = new XarmXid(-7, new byte[] {0, (byte) 0xab}, new byte[0]);
        Xid other = new Xid() {
            @Override
            public int getFormatId() {
                return -7;
            }

            @Override
            public byte[] getGlobalTransactionId() {
                return new byte[] {0, (byte) 0xab};
            }

            @Override
            public byte[] getBranchQualifier() {
                return new byte[0];
            }
        };
        Work.prepare(connection, other, "k13", "v");
        listed(resource, branch);
        equal("-7:00ab:", branch.toString());
        equal(branch, resource.recover(TMSTARTRSCAN)[0]);
        equal(branch.hashCode(), resource.recover(TMSTARTRSCAN)[0].hashCode());
        resource.rollback(branch);
        holds(!new XarmXid(1, text("ab"), text("")).equals(new XarmXid(1, text("a"), text("b"))), "parts are compared");
        illegal(() -> new XarmXid(-1, text("a"), text("b")));
        illegal(() -> new XarmXid(1, new byte[0], text("b")));
        illegal(() -> new XarmXid(1, new byte[65], text("b")));
        illegal(() -> new XarmXid(1, text("a"), new byte[65]));
    }

    private void closed() throws Exception {
        XarmXAConnection other = server.connect();
        Work.begin(other, xid("left"), "k14", "v");
        other.close();
        code(XAER_RMFAIL, () -> other.getXAResource().prepare(xid("left")));
        refusal(XAER_RMFAIL, Detail.NOTHING, () -> other.getRecords().get(text("k14")));
        Eventually.code(XA_RBCOMMFAIL, XAER_PROTO, () -> resource.rollback(xid("left")));
    }

    private void source() throws Exception {
        XarmXADataSource source = new XarmXADataSource();
        equal("xarm at 127.0.0.1:4187", source.toString());
        holds(connection.getXAResource() == resource && connection.getRecords() == records, "each is the same each time");
        equal(30_000, source.getReadTimeout());
        source.setPort(server.port());
        refusal(XAER_RMFAIL, Detail.NOTHING, source::getXAConnection);
        source.setName("bank");
        source.setHost("localhost");
        source.setReadTimeout(5_000);
        XarmXAConnection opened = source.getXAConnection();
        equal(5_000, opened.getReadTimeout());
        opened.setReadTimeout(6_000);
        equal(6_000, opened.getReadTimeout());
        illegal(() -> opened.setReadTimeout(0));
        opened.close();
        illegal(() -> source.setPort(0));
        illegal(() -> source.setPort(65_536));
        illegal(() -> source.setName("n".repeat(256)));
        illegal(() -> source.setHost(""));
        illegal(() -> source.setReadTimeout(0));
    }
}
