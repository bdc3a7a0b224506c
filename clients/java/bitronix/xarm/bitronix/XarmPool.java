package xarm.bitronix;

import bitronix.tm.internal.XAResourceHolderState;
import bitronix.tm.recovery.RecoveryException;
import bitronix.tm.resource.ResourceConfigurationException;
import bitronix.tm.resource.ResourceObjectFactory;
import bitronix.tm.resource.ResourceRegistrar;
import bitronix.tm.resource.common.RecoveryXAResourceHolder;
import bitronix.tm.resource.common.ResourceBean;
import bitronix.tm.resource.common.XAPool;
import bitronix.tm.resource.common.XAResourceHolder;
import bitronix.tm.resource.common.XAResourceProducer;
import javax.naming.NamingException;
import javax.naming.Reference;
import javax.naming.StringRefAddr;
import javax.transaction.xa.XAResource;
import xarm.client.XarmXAConnection;
import xarm.client.XarmXADataSource;

/**
 * A server in Bitronix, as its {@code PoolingDataSource} is a database: a pool of connections, which enlist themselves in the current
 * transaction, and one to recover by.
 *
 * <p>Set {@code uniqueName}, {@code maxPoolSize}, and the properties of {@link XarmXADataSource} in {@code driverProperties}; then
 * {@link #init}, before the transaction manager starts.
 */
public final class XarmPool extends ResourceBean implements XAResourceProducer {
    private static final long serialVersionUID = 1;

    private transient volatile XAPool pool;
    private transient volatile PooledConnection recovery;

    public XarmPool() {
        setClassName(XarmXADataSource.class.getName());
    }

    /** Makes the pool, and registers it for recovery. @throws ResourceConfigurationException if a connection can't be had */
    @Override
    public synchronized void init() {
        if (pool != null) {
            return;
        }
        try {
            pool = new XAPool(this, this);
            ResourceRegistrar.register(this);
        } catch (Exception fault) {
            pool = null;
            throw new ResourceConfigurationException("no pool of " + getUniqueName(), fault);
        }
    }

    /**
     * A connection of the pool, which is given back by its close.
     *
     * @throws Exception if none is free for as long as {@code acquisitionTimeout}, or the server is gone
     */
    public XarmConnection getConnection() throws Exception {
        init();
        return (XarmConnection) pool.getConnectionHandle();
    }

    @Override
    public synchronized XAResourceHolderState startRecovery() throws RecoveryException {
        init();
        if (recovery != null) {
            throw new RecoveryException("recovery is under way at " + this);
        }
        try {
            recovery = createPooledConnection(pool.getXAFactory(), this);
        } catch (Exception fault) {
            throw new RecoveryException("no connection for recovery at " + this, fault);
        }
        return new XAResourceHolderState(new RecoveryXAResourceHolder(recovery), this);
    }

    @Override
    public synchronized void endRecovery() {
        if (recovery != null) {
            recovery.close();
            recovery = null;
        }
    }

    @Override
    public void setFailed(boolean isFailed) {
        if (pool != null) {
            pool.setFailed(isFailed);
        }
    }

    @Override
    public XAResourceHolder findXAResourceHolder(XAResource resource) {
        PooledConnection recovering = recovery;
        if (recovering != null && recovering.getXAResource() == resource) {
            return recovering;
        }
        return pool == null ? null : pool.findXAResourceHolder(resource);
    }

    @Override
    public synchronized void close() {
        if (pool != null) {
            endRecovery();
            pool.close();
            pool = null;
            ResourceRegistrar.unregister(this);
        }
    }

    @Override
    public PooledConnection createPooledConnection(Object factory, ResourceBean bean) throws Exception {
        XarmXAConnection connection = ((XarmXADataSource) factory).getXAConnection();
        return new PooledConnection(connection, bean);
    }

    @Override
    public Reference getReference() throws NamingException {
        return new Reference(
                XarmPool.class.getName(), new StringRefAddr("uniqueName", getUniqueName()), ResourceObjectFactory.class.getName(), null);
    }

    @Override
    public String toString() {
        return getUniqueName() + " with " + (pool == null ? "no pool" : pool);
    }
}
