package xarm.client;

/**
 * A session at a server: the resource by which a transaction manager has it work for branches, and the records that it reads
 * and writes for the branch that it works for.
 *
 * <p>Threads may share it, and wait for each other's calls; it works for one branch at a time. Where its connection breaks,
 * the next call of the resource makes a new one. An interrupt ends no call.
 */
public final class XarmXAConnection implements AutoCloseable {
    private final Session session;
    private final XarmXAResource resource;
    private final Records records;

    XarmXAConnection(Session session, boolean isJoinable) {
        this.session = session;
        resource = new XarmXAResource(session, isJoinable);
        records = new Records(session);
    }

    /** The same one each time. */
    public XarmXAResource getXAResource() {
        return resource;
    }

    /** The same ones each time. */
    public Records getRecords() {
        return records;
    }

    public int getReadTimeout() {
        return session.readTimeout();
    }

    /**
     * How many milliseconds a call waits for its answer, from the next one on, as for
     * {@link XarmXADataSource#setReadTimeout}. At first it is the data source's.
     */
    public void setReadTimeout(int milliseconds) {
        session.setReadTimeout(milliseconds);
    }

    /**
     * Closes the connection, and sends nothing: the server hangs the session up. A branch that it was at work for can only be
     * rolled back from then on; one whose work was ended, and one that is prepared, stays as it is. Doesn't wait for another thread's
     * call that is under way: that one is XAER_RMFAIL, and so are calls that come later.
     */
    @Override
    public void close() {
        session.close();
    }
}
