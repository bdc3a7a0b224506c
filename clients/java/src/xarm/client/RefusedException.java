package xarm.client;

import java.net.ProtocolException;

/** A connection that the server refuses to let its client have. */
final class RefusedException extends ProtocolException {
    private static final long serialVersionUID = 1;

    private final Detail detail;

    RefusedException(String why, Detail detail) {
        super(why);
        this.detail = detail;
    }

    Detail detail() {
        return detail;
    }
}
