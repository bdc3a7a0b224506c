package xarm.bitronix;

import bitronix.tm.resource.common.AbstractXAResourceHolder;
import bitronix.tm.resource.common.ResourceBean;
import bitronix.tm.resource.common.TransactionContextHelper;
import bitronix.tm.resource.common.XAResourceHolder;
import java.util.Date;
import java.util.List;
import javax.transaction.SystemException;
import javax.transaction.xa.XAResource;
import xarm.client.Records;
import xarm.client.XarmXAConnection;

/** A connection in Bitronix's pool. It may be handed out several times to one transaction, if the pool's setting is to share it. */
final class PooledConnection extends AbstractXAResourceHolder {
    private final XarmXAConnection connection;
    private final ResourceBean bean;
    private volatile Date released = new Date();
    private int handles;

    PooledConnection(XarmXAConnection connection, ResourceBean bean) {
        this.connection = connection;
        this.bean = bean;
    }

    @Override
    public XAResource getXAResource() {
        return connection.getXAResource();
    }

    @Override
    public ResourceBean getResourceBean() {
        return bean;
    }

    @Override
    public List<XAResourceHolder> getXAResourceHolders() {
        return List.of(this);
    }

    @Override
    public synchronized Object getConnectionHandle() {
        if (handles == 0) {
            setState(STATE_ACCESSIBLE);
            TransactionContextHelper.recycle(this);
        }
        handles++;
        return new XarmConnection(this);
    }

    /** The records, for the current transaction's branch. */
    Records enlisted() throws Exception {
        if (bean.getAutomaticEnlistingEnabled()) {
            TransactionContextHelper.enlistInCurrentTransaction(this);
        }
        return connection.getRecords();
    }

    /** The last handle of a transaction's is closed: its work ends, and the connection goes back once the transaction is over. */
    synchronized void release() throws SystemException {
        handles--;
        if (handles == 0) {
            released = new Date();
            try {
                TransactionContextHelper.delistFromCurrentTransaction(this);
            } finally {
                TransactionContextHelper.requeue(this, bean);
            }
        }
    }

    @Override
    public Date getLastReleaseDate() {
        return released;
    }

    @Override
    public void close() {
        setState(STATE_CLOSED);
        connection.close();
    }
}
