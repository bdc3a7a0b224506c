package xarm.tests;

import static javax.transaction.xa.XAException.XAER_ASYNC;
import static javax.transaction.xa.XAException.XAER_DUPID;
import static javax.transaction.xa.XAException.XAER_INVAL;
import static javax.transaction.xa.XAException.XAER_NOTA;
import static javax.transaction.xa.XAException.XAER_PROTO;
import static javax.transaction.xa.XAException.XA_RBTRANSIENT;
import static javax.transaction.xa.XAException.XA_RETRY;
import static javax.transaction.xa.XAResource.TMJOIN;
import static javax.transaction.xa.XAResource.TMNOFLAGS;
import static javax.transaction.xa.XAResource.TMRESUME;
import static javax.transaction.xa.XAResource.TMSUCCESS;
import static xarm.tests.Expect.code;
import static xarm.tests.Expect.refusal;
import static xarm.tests.Expect.text;
import static xarm.tests.Expect.value;
import static xarm.tests.Expect.xid;

import javax.transaction.xa.XAResource;
import javax.transaction.xa.Xid;
import xarm.client.Detail;
import xarm.client.Records;
import xarm.client.XarmXAConnection;
import xarm.client.XarmXid;

/** Refusals of a server that is well. */
final class CodeTests implements Suite {
    private static final int TMASYNC = 0x80000000;
    private static final int MOST_KEYS = 256;

    private Server server;
    private XarmXAConnection connection;
    private XarmXAConnection other;
    private XAResource resource;

    @Override
    public void run(Tests tests) throws Exception {
        server = tests.server();
        connection = server.connect();
        other = server.connect();
        resource = connection.getXAResource();
        tests.test("a late write is XA_RBTRANSIENT, prepare tells it, and the rollback is XA_OK", this::late);
        tests.test("a busy read is XA_RETRY, until the other branch is completed", this::busy);
        tests.test("a branch writes 256 keys, and goes on after one more", this::tooManyKeys);
        tests.test("a known XID is XAER_DUPID, at work and prepared", this::known);
        tests.test("an unknown XID is XAER_NOTA", this::unknown);
        tests.test("what doesn't fit is XAER_PROTO", this::outOfOrder);
        tests.test("flags and XIDs that can't be are XAER_INVAL, and TMASYNC is XAER_ASYNC", this::arguments);
        server.close();
    }

    private void late() throws Exception {
        XarmXid early = xid("early");
        resource.start(early, TMNOFLAGS);
        value(other, "late", null);
        refusal(XA_RBTRANSIENT, Detail.LATE, () -> connection.getRecords().put(text("late"), text("v")));
        refusal(XA_RBTRANSIENT, Detail.NOTHING, () -> connection.getRecords().delete(text("late")));
        resource.end(early, TMSUCCESS);
        code(XA_RBTRANSIENT, () -> resource.prepare(early));
        resource.rollback(early);
        value(other, "late", null);
    }

    private void busy() throws Exception {
        XarmXid writer = xid("writer");
        XarmXid reader = xid("reader of it");
        Work.prepare(connection, writer, "busy", "v");
        Records records = other.getRecords();
        other.getXAResource().start(reader, TMNOFLAGS);
        refusal(XA_RETRY, Detail.BUSY, () -> records.get(text("busy")));
        resource.commit(writer, false);
        Expect.holds(records.get(text("busy")) != null, "it is read after the commit");
        other.getXAResource().end(reader, TMSUCCESS);
        other.getXAResource().commit(reader, true);
    }

    private void tooManyKeys() throws Exception {
        XarmXid branch = xid("many");
        Records records = connection.getRecords();
        resource.start(branch, TMNOFLAGS);
        for (int i = 0; i < MOST_KEYS; i++) {
            records.put(text("many" + i), text("v"));
        }
        refusal(XAER_INVAL, Detail.LIMIT, () -> records.put(text("one more"), text("v")));
        refusal(XAER_INVAL, Detail.LIMIT, () -> records.delete(text("one more")));
        records.put(text("many0"), text("w"));
        resource.end(branch, TMSUCCESS);
        resource.commit(branch, true);
        value(connection, "many0", "w");
        value(connection, "many255", "v");
    }

    private void known() throws Exception {
        XarmXid branch = xid("known");
        Work.begin(connection, branch, "known", "v");
        code(XAER_DUPID, () -> other.getXAResource().start(branch, TMNOFLAGS));
        resource.end(branch, TMSUCCESS);
        code(XAER_DUPID, () -> resource.start(branch, TMNOFLAGS));
        resource.prepare(branch);
        code(XAER_DUPID, () -> resource.start(branch, TMNOFLAGS));
        resource.commit(branch, false);
        resource.start(branch, TMNOFLAGS);
        resource.end(branch, TMSUCCESS);
        resource.rollback(branch);
    }

    private void unknown() throws Exception {
        XarmXid branch = xid("unknown");
        code(XAER_NOTA, () -> resource.start(branch, TMJOIN));
        code(XAER_NOTA, () -> resource.start(branch, TMRESUME));
        code(XAER_NOTA, () -> resource.end(branch, TMSUCCESS));
        code(XAER_NOTA, () -> resource.prepare(branch));
        code(XAER_NOTA, () -> resource.commit(branch, true));
        code(XAER_NOTA, () -> resource.commit(branch, false));
        code(XAER_NOTA, () -> resource.rollback(branch));
        code(XAER_NOTA, () -> resource.forget(branch));
    }

    private void outOfOrder() throws Exception {
        XarmXid branch = xid("order");
        resource.start(branch, TMNOFLAGS);
        code(XAER_PROTO, () -> resource.start(xid("second"), TMNOFLAGS));
        code(XAER_PROTO, () -> resource.start(branch, TMRESUME));
        code(XAER_PROTO, () -> other.getXAResource().end(branch, TMSUCCESS));
        code(XAER_PROTO, () -> resource.prepare(branch));
        code(XAER_PROTO, () -> resource.commit(branch, true));
        code(XAER_PROTO, () -> resource.rollback(branch));
        connection.getRecords().put(text("order"), text("v"));
        resource.end(branch, TMSUCCESS);
        code(XAER_PROTO, () -> resource.end(branch, TMSUCCESS));
        code(XAER_PROTO, () -> resource.commit(branch, false));
        resource.prepare(branch);
        code(XAER_PROTO, () -> resource.prepare(branch));
        code(XAER_PROTO, () -> resource.commit(branch, true));
        code(XAER_PROTO, () -> resource.start(branch, TMJOIN));
        resource.commit(branch, false);
    }

    private void arguments() throws Exception {
        XarmXid branch = xid("arguments");
        code(XAER_INVAL, () -> resource.start(null, TMNOFLAGS));
        code(XAER_INVAL, () -> resource.prepare(new Parts(-1, 1, 1)));
        code(XAER_INVAL, () -> resource.prepare(new Parts(1, 0, 1)));
        code(XAER_INVAL, () -> resource.prepare(new Parts(1, 65, 1)));
        code(XAER_INVAL, () -> resource.prepare(new Parts(1, 1, 65)));
        code(XAER_INVAL, () -> resource.start(branch, TMJOIN | TMRESUME));
        code(XAER_INVAL, () -> resource.start(branch, TMSUCCESS));
        code(XAER_ASYNC, () -> resource.start(branch, TMASYNC));
        resource.start(branch, TMNOFLAGS);
        code(XAER_INVAL, () -> resource.end(branch, TMNOFLAGS));
        code(XAER_ASYNC, () -> resource.end(branch, TMASYNC | TMSUCCESS));
        resource.end(branch, TMSUCCESS);
        resource.rollback(branch);
    }

    /** An XID of parts of these lengths. */
    private static final class Parts implements Xid {
        private final int formatId;
        private final int global;
        private final int branch;

        Parts(int formatId, int global, int branch) {
            this.formatId = formatId;
            this.global = global;
            this.branch = branch;
        }

        @Override
        public int getFormatId() {
            return formatId;
        }

        @Override
        public byte[] getGlobalTransactionId() {
            return new byte[global];
        }

        @Override
        public byte[] getBranchQualifier() {
            return new byte[branch];
        }
    }
}
