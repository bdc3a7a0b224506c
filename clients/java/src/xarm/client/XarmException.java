package xarm.client;

import javax.transaction.xa.XAException;

/**
 * A call on records that was refused, or a connection that can't be had. Calls on the {@link XarmXAResource} throw an
 * {@link XAException} with the same code instead.
 */
public class XarmException extends Exception {
    private static final long serialVersionUID = 1;

    private final int code;
    private final Detail detail;

    XarmException(String asked, int code, Detail detail) {
        super(asked + ": " + Codes.name(code) + (detail == Detail.NOTHING ? "" : " " + detail));
        this.code = code;
        this.detail = detail;
    }

    XarmException(String asked, Throwable cause) {
        super(asked + ": XAER_RMFAIL: " + (cause.getMessage() == null ? cause : cause.getMessage()), cause);
        code = XAException.XAER_RMFAIL;
        detail = cause instanceof RefusedException ? ((RefusedException) cause).detail() : Detail.NOTHING;
    }

    /** The code, with the number that {@link XAException} gives it; XAER_RMFAIL of a connection that broke. */
    public int code() {
        return code;
    }

    /** What the refusal is about. */
    public Detail detail() {
        return detail;
    }

    static XAException refusal(Operation operation, XarmXid branch, Reply reply) {
        return refusal(operation, branch, reply.code(), reply.detail());
    }

    static XAException refusal(Operation operation, XarmXid branch, int code, Detail detail) {
        return new XarmException(branch == null ? operation.toString() : operation + " " + branch, code, detail).toXAException();
    }

    XAException toXAException() {
        XAException exception = new XAException(getMessage());
        exception.errorCode = code;
        exception.initCause(this);
        return exception;
    }
}
