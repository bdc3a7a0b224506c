package xarm.client;

import java.net.ProtocolException;
import java.nio.BufferUnderflowException;
import java.nio.ByteBuffer;
import java.util.ArrayList;
import java.util.List;

/** A reply: the code, the detail, the place, and a body of one of those kinds that the driver asks for. */
final class Reply {
    static final int NOTHING = 0;
    static final int NUMBER = 1;
    static final int VALUE = 2;
    static final int ABSENT = 3;
    static final int XIDS = 4;
    static final int STATUS = 6;
    static final int HELLO = 8;
    static final int CHALLENGE = 11;
    static final int WELCOME = 12;

    private static final byte VERSION = 1;
    private static final int MOST_VALUE = 16_384;
    private static final int MOST_MESSAGE = 256;
    private static final int MOST_XIDS = 256;
    private static final int STATUS_NUMBERS = 10;

    private final int code;
    private final Detail detail;
    private final long place;
    private final int kind;
    private byte[] value;
    private int revision;
    private long features;
    private final List<XarmXid> xids = new ArrayList<>();

    private Reply(ByteBuffer content) {
        require(content.get() == VERSION, "its version");
        code = content.getInt();
        detail = Detail.of(Byte.toUnsignedInt(content.get()), code);
        place = content.getLong();
        kind = content.get();
        readBody(content);
        require(!content.hasRemaining(), "bytes after it");
    }

    /**
     * Reads the content of a reply's frame.
     *
     * @throws ProtocolException if it is none
     */
    static Reply read(byte[] content) throws ProtocolException {
        try {
            return new Reply(ByteBuffer.wrap(content));
        } catch (BufferUnderflowException cut) {
            throw new ProtocolException("no reply of an xarm server: it is cut");
        } catch (IllegalArgumentException fault) {
            throw new ProtocolException("no reply of an xarm server: " + fault.getMessage());
        }
    }

    private void readBody(ByteBuffer content) {
        switch (kind) {
            case NOTHING:
            case ABSENT:
                break;
            case NUMBER:
                content.getLong(); // a branch's timestamp
                break;
            case VALUE:
                int length = Short.toUnsignedInt(content.getShort());
                require(length <= MOST_VALUE, "its value's length");
                value = new byte[length];
                content.get(value);
                break;
            case XIDS:
                int count = Short.toUnsignedInt(content.getShort());
                require(count <= MOST_XIDS, "its number of XIDs");
                for (int i = 0; i < count; i++) {
                    xids.add(XarmXid.read(content));
                }
                break;
            case STATUS:
                for (int i = 0; i < STATUS_NUMBERS; i++) {
                    content.getLong();
                }
                break;
            case HELLO:
                revision = content.getInt();
                features = content.getLong();
                break;
            case CHALLENGE:
            case WELCOME:
                require(content.remaining() <= MOST_MESSAGE, "its message's length");
                value = new byte[content.remaining()];
                content.get(value);
                break;
            default:
                require(false, "its kind");
        }
    }

    private static void require(boolean isWell, String what) {
        if (!isWell) {
            throw new IllegalArgumentException(what);
        }
    }

    int code() {
        return code;
    }

    Detail detail() {
        return detail;
    }

    /** Where the call is in the server's history, unsigned and ascending; 0 where it isn't there. */
    long place() {
        return place;
    }

    int kind() {
        return kind;
    }

    /** The value, or a login's message; null if there is none. */
    byte[] value() {
        return value;
    }

    List<XarmXid> xids() {
        return xids;
    }

    /** The revision of the protocol that the server speaks, unsigned, of a Hello; else 0. */
    int revision() {
        return revision;
    }

    /** What else the server can do, a bit each, of a Hello; else 0. */
    long features() {
        return features;
    }
}
