package xarm.client;

import java.nio.ByteBuffer;
import java.util.Arrays;

/** A request, which is a frame in the making: its length, the version, the operation, and the fields in their order. */
final class Request {
    private static final byte VERSION = 1;
    private static final int LENGTH_BYTES = 4;
    // without a value the longest is an Open: flags, and an info of 255 bytes after its length
    private static final int MOST_BYTES = LENGTH_BYTES + 2 + 4 + 1 + 255;

    private final Operation operation;
    private ByteBuffer bytes = ByteBuffer.allocate(MOST_BYTES);

    Request(Operation operation) {
        this.operation = operation;
        bytes.position(LENGTH_BYTES);
        bytes.put(VERSION).put(operation.number());
    }

    Request flags(int flags) {
        bytes.putInt(flags);
        return this;
    }

    Request xid(XarmXid xid) {
        xid.write(bytes);
        return this;
    }

    Request count(int count) {
        bytes.putInt(count);
        return this;
    }

    Request seconds(int seconds) {
        bytes.putInt(seconds);
        return this;
    }

    /** The protocol's revision, and what the client can do, a bit each. */
    Request hello(int revision, long features) {
        bytes.putInt(revision).putLong(features);
        return this;
    }

    /** A key, or an open info: bytes after their length of one byte. */
    Request name(byte[] name) {
        bytes.put((byte) name.length).put(name);
        return this;
    }

    /** A value: bytes after their length of two bytes. Room is made for it here, so that only a Put takes so much. */
    Request value(byte[] value) {
        bytes = ByteBuffer.allocate(bytes.position() + 2 + value.length).put(bytes.flip());
        bytes.putShort((short) value.length).put(value);
        return this;
    }

    /** A login's message, which is all that there is, at most 256 bytes. */
    Request message(byte[] message) {
        bytes.put(message);
        return this;
    }

    Operation operation() {
        return operation;
    }

    byte[] frame() {
        bytes.putInt(0, bytes.position() - LENGTH_BYTES);
        return Arrays.copyOf(bytes.array(), bytes.position());
    }
}
