package xarm.client;

import static javax.transaction.xa.XAException.XAER_RMFAIL;
import static javax.transaction.xa.XAResource.XA_OK;

/**
 * The records of a server, for the branch that the session works for: between a {@code start} of its resource and the
 * {@code end}.
 *
 * <p>Each call sends one frame and throws what isn't answered XA_OK as an {@link XarmException} with the same code:
 *
 * <ul>
 *   <li>XA_RB*: the branch is marked, and can only be rolled back. Of a write, XA_RBTRANSIENT with detail LATE says that a branch
 *       with a later timestamp has read the record; the same work may succeed in a new branch
 *   <li>XAER_PROTO: the session works for no branch; also where an operator's Restart rolled the branch back
 *   <li>XAER_INVAL with detail LIMIT: the branch wrote 256 keys already; it goes on
 *   <li>XAER_RMFAIL: the resource manager is down; or, with detail MEMORY, it found none, and nothing changed; or the
 *       connection broke, and with it the branch's work
 * </ul>
 */
public final class Records {
    private static final int MOST_KEY = 64;
    private static final int MOST_VALUE = 16_384;

    private final Session session;

    Records(Session session) {
        this.session = session;
    }

    /**
     * Sends Get.
     *
     * @param key 1 to 64 bytes
     * @return the value, or null where there is none
     * @throws XarmException as above; and XA_RETRY with detail BUSY: the version to be read is another branch's that isn't
     *     completed. Ask again once it is, or give the branch up
     */
    public byte[] get(byte[] key) throws XarmException {
        return ask(new Request(Operation.GET).name(checkedKey(key))).value();
    }

    /**
     * Sends Put.
     *
     * @param key 1 to 64 bytes
     * @param value 0 to 16,384 bytes
     * @throws XarmException as above
     */
    public void put(byte[] key, byte[] value) throws XarmException {
        if (value.length > MOST_VALUE) {
            throw new IllegalArgumentException("a value of " + value.length + " bytes");
        }
        ask(new Request(Operation.PUT).name(checkedKey(key)).value(value));
    }

    /**
     * Sends Delete. It is a write: one of a key that has no value, too.
     *
     * @param key 1 to 64 bytes
     * @throws XarmException as above
     */
    public void delete(byte[] key) throws XarmException {
        ask(new Request(Operation.DELETE).name(checkedKey(key)));
    }

    private Reply ask(Request request) throws XarmException {
        synchronized (session) {
            // a new session would work for no branch, and what was lost is a connection, not a start
            if (!session.isConnected()) {
                throw new XarmException(request.operation() + ": no connection", XAER_RMFAIL, Detail.NOTHING);
            }
            Reply reply = session.call(request);
            if (reply.code() != XA_OK) {
                throw new XarmException(request.operation().toString(), reply.code(), reply.detail());
            }
            return reply;
        }
    }

    private static byte[] checkedKey(byte[] key) {
        if (key.length < 1 || key.length > MOST_KEY) {
            throw new IllegalArgumentException("a key of " + key.length + " bytes");
        }
        return key;
    }
}
