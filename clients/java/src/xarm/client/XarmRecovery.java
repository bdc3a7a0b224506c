package xarm.client;

import javax.transaction.xa.XAResource;

/**
 * What recovery wants of a server, in the shape of two managers' own types, which this jar does without:
 *
 * <ul>
 *   <li>Narayana's {@code org.jboss.tm.XAResourceRecovery} has one method, which {@code recovery::getXAResources} is; it is given to a
 *       {@code XAResourceRecoveryRegistry}
 *   <li>Atomikos' {@code XATransactionalResource} has the abstract method {@link #refreshXAConnection}, which an extension of it calls
 *       here
 * </ul>
 *
 * <p>It has a connection of its own, which works for no branch, and connects at its first call.
 */
public final class XarmRecovery implements AutoCloseable {
    private final XarmXADataSource source;
    private XarmXAConnection connection;

    /** Recovery of the branches of a server. */
    public XarmRecovery(XarmXADataSource source) {
        this.source = source;
        connection = source.unconnected();
    }

    /**
     * The one resource to be recovered by, the same one each time. It throws nothing if the server is down: then the resource's
     * {@code recover} does, and the next pass asks it again.
     */
    public synchronized XAResource[] getXAResources() {
        return new XAResource[] {connection.getXAResource()};
    }

    /**
     * A resource of a new connection, which takes the place of the old one.
     *
     * @throws XarmException as {@link XarmXADataSource#getXAConnection}
     */
    public synchronized XAResource refreshXAConnection() throws XarmException {
        XarmXAConnection next = source.getXAConnection();
        connection.close();
        connection = next;
        return next.getXAResource();
    }

    /** Closes its connection. */
    @Override
    public synchronized void close() {
        connection.close();
    }
}
