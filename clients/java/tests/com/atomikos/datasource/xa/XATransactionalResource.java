package com.atomikos.datasource.xa;

import com.atomikos.datasource.ResourceException;
import javax.transaction.xa.XAException;
import javax.transaction.xa.XAResource;

/** Atomikos' class of this name, as far as the tests need it: its jar isn't in Debian. */
public abstract class XATransactionalResource {
    private XAResource resource;

    protected abstract XAResource refreshXAConnection() throws ResourceException;

    /** The connection that this resource recovers by. */
    public XAResource getXAResource() {
        if (resource == null) {
            resource = refreshXAConnection();
        }
        return resource;
    }

    /** Whether this resource recovers what is begun by that one. */
    public boolean usesXAResource(XAResource other) throws XAException {
        return other.isSameRM(getXAResource());
    }
}
