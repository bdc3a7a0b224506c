package xarm.bitronix;

import javax.transaction.SystemException;
import xarm.client.Records;

/** A connection of an {@link XarmPool}, until it is closed. */
public final class XarmConnection implements AutoCloseable {
    private PooledConnection connection;

    XarmConnection(PooledConnection connection) {
        this.connection = connection;
    }

    /**
     * The records, as the current transaction's branch reads and writes them: the connection is enlisted, if it isn't.
     *
     * @throws Exception if there is no transaction, or it is timed out or marked, or the start of the branch is refused
     */
    public synchronized Records getRecords() throws Exception {
        if (connection == null) {
            throw new IllegalStateException("the connection was closed");
        }
        return connection.enlisted();
    }

    /** Gives it back to the pool, once the transaction is over. */
    @Override
    public synchronized void close() throws SystemException {
        if (connection != null) {
            PooledConnection closing = connection;
            connection = null;
            closing.release();
        }
    }
}
