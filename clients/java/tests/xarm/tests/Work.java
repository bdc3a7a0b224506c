package xarm.tests;

import static javax.transaction.xa.XAResource.TMNOFLAGS;
import static javax.transaction.xa.XAResource.TMSUCCESS;
import static xarm.tests.Expect.equal;
import static xarm.tests.Expect.text;

import javax.transaction.xa.XAResource;
import javax.transaction.xa.Xid;
import xarm.client.XarmXAConnection;

/** What tests do before they come to their point. */
final class Work {
    private Work() {}

    /** Begins a branch, and writes a record. */
    static void begin(XarmXAConnection connection, Xid branch, String key, String value) throws Exception {
        connection.getXAResource().start(branch, TMNOFLAGS);
        connection.getRecords().put(text(key), text(value));
    }

    /** A branch that wrote a record, and whose work is ended. */
    static void end(XarmXAConnection connection, Xid branch, String key, String value) throws Exception {
        begin(connection, branch, key, value);
        connection.getXAResource().end(branch, TMSUCCESS);
    }

    /** A branch that wrote a record, and is prepared. */
    static void prepare(XarmXAConnection connection, Xid branch, String key, String value) throws Exception {
        end(connection, branch, key, value);
        equal(XAResource.XA_OK, connection.getXAResource().prepare(branch));
    }

    /** Writes a record in a branch that is committed. */
    static void commit(XarmXAConnection connection, Xid branch, String key, String value) throws Exception {
        end(connection, branch, key, value);
        connection.getXAResource().commit(branch, true);
    }
}
