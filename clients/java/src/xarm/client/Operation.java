package xarm.client;

import static javax.transaction.xa.XAResource.XA_OK;

/** The requests that the driver sends, each with its byte in a frame. */
enum Operation {
    OPEN(1),
    START(3),
    END(4),
    PREPARE(5),
    COMMIT(6),
    ROLLBACK(7),
    RECOVER(8),
    FORGET(9),
    GET(10),
    PUT(11),
    DELETE(12),
    TIMEOUT(16),
    STATUS(67),
    HELLO(70),
    FIRST(74),
    FINAL(75);

    private final int number;

    Operation(int number) {
        this.number = number;
    }

    byte number() {
        return (byte) number;
    }

    /** Whether a reply has the kind of body that this request is answered by. A refusal has none. */
    boolean isAnsweredBy(Reply reply) {
        switch (this) {
            case START:
                return reply.kind() == (reply.code() == XA_OK ? Reply.NUMBER : Reply.NOTHING);
            case GET:
                return reply.code() == XA_OK
                        ? reply.kind() == Reply.VALUE || reply.kind() == Reply.ABSENT
                        : reply.kind() == Reply.NOTHING;
            case RECOVER:
                return reply.code() >= 0
                        ? reply.kind() == Reply.XIDS && reply.xids().size() == reply.code()
                        : reply.kind() == Reply.NOTHING;
            case STATUS:
                return reply.kind() == (reply.code() == XA_OK ? Reply.STATUS : Reply.NOTHING);
            case HELLO:
                return reply.kind() == (reply.code() == XA_OK ? Reply.HELLO : Reply.NOTHING);
            case FIRST:
                return reply.kind() == (reply.code() == XA_OK ? Reply.CHALLENGE : Reply.NOTHING);
            case FINAL:
                return reply.kind() == (reply.code() == XA_OK ? Reply.WELCOME : Reply.NOTHING);
            default:
                return reply.kind() == Reply.NOTHING;
        }
    }

    @Override
    public String toString() {
        return name().toLowerCase(java.util.Locale.ROOT);
    }
}
