package xarm.client;

import javax.transaction.xa.XAException;

/** What a refusal is about, beside its code. The order is that of the numbers in a reply. */
public enum Detail {
    /** Nothing beside the code. */
    NOTHING,
    /** Memory was wanted; nothing changed, so ask again. */
    MEMORY,
    /** The log's device failed. */
    DEVICE,
    /** The version to be read is another branch's that is undecided. */
    BUSY,
    /** A branch with a later timestamp has read what this write would have changed; this branch can only be rolled back. */
    LATE,
    /** A limit of the resource manager was met. */
    LIMIT,
    /** The server read no request. */
    FRAME,
    /** The log has no room for the branch's record; the branch is rolled back. */
    LOG_FULL,
    /** The connection may not ask for this; nothing changed. */
    ACCESS;

    /** The detail of this number. One that a later server has is taken for what leaves as much open: DEVICE with XAER_RMFAIL, else NOTHING. */
    static Detail of(int number, int code) {
        if (number < values().length) {
            return values()[number];
        }
        return code == XAException.XAER_RMFAIL ? DEVICE : NOTHING;
    }
}
