package xarm.tests;

import java.nio.charset.StandardCharsets;
import java.util.Arrays;
import javax.transaction.xa.XAException;
import javax.transaction.xa.XAResource;
import javax.transaction.xa.Xid;
import xarm.client.Detail;
import xarm.client.XarmException;
import xarm.client.XarmXAConnection;
import xarm.client.XarmXid;

/** What tests expect, and how they spell keys, values and XIDs. */
final class Expect {
    private Expect() {}

    static void equal(Object wanted, Object found) {
        if (!wanted.equals(found)) {
            throw new AssertionError(found + " and not " + wanted);
        }
    }

    static void holds(boolean isWell, String what) {
        if (!isWell) {
            throw new AssertionError("not so: " + what);
        }
    }

    /** An XAException of this code. */
    static void code(int wanted, Tests.Body body) throws Exception {
        try {
            body.run();
        } catch (XAException refused) {
            if (refused.errorCode != wanted) {
                throw new AssertionError(refused.getMessage() + " and not " + wanted, refused);
            }
            return;
        }
        throw new AssertionError("nothing was thrown, and not " + wanted);
    }

    /** A call on records that is refused with this code and detail. */
    static void refusal(int code, Detail detail, Tests.Body body) throws Exception {
        try {
            body.run();
        } catch (XarmException refused) {
            if (refused.code() != code || refused.detail() != detail) {
                throw new AssertionError(refused.getMessage() + " and not " + code + " " + detail, refused);
            }
            return;
        }
        throw new AssertionError("nothing was thrown, and not " + code + " " + detail);
    }

    static void illegal(Tests.Body body) throws Exception {
        try {
            body.run();
        } catch (IllegalArgumentException refused) {
            return;
        }
        throw new AssertionError("an argument out of its limits was taken");
    }

    /** A key has this value for a branch that begins now; null where it has none. */
    static void value(XarmXAConnection connection, String key, String wanted) throws Exception {
        XarmXid reader = xid("reader");
        connection.getXAResource().start(reader, XAResource.TMNOFLAGS);
        byte[] found = connection.getRecords().get(text(key));
        connection.getXAResource().end(reader, XAResource.TMSUCCESS);
        connection.getXAResource().commit(reader, true);
        if (!Arrays.equals(wanted == null ? null : text(wanted), found)) {
            throw new AssertionError(key + " is " + (found == null ? null : new String(found, StandardCharsets.UTF_8)));
        }
    }

    /** The branches in doubt, or completed by the operator, are these. */
    static void listed(XAResource resource, Xid... wanted) throws Exception {
        Xid[] found = resource.recover(XAResource.TMSTARTRSCAN | XAResource.TMENDRSCAN);
        if (!Arrays.equals(wanted, found)) {
            throw new AssertionError("recover lists " + Arrays.toString(found));
        }
    }

    static byte[] text(String text) {
        return text.getBytes(StandardCharsets.UTF_8);
    }

    static XarmXid xid(String global) {
        return xid(global, "b");
    }

    static XarmXid xid(String global, String branch) {
        return new XarmXid(1, text(global), text(branch));
    }
}
