package org.jboss.tm;

import javax.transaction.xa.XAResource;

/** Narayana's interface of this name, as far as the tests need it: its jar isn't in Debian. */
public interface XAResourceRecovery {
    XAResource[] getXAResources() throws RuntimeException;
}
