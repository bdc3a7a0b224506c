package xarm.client;

import java.nio.ByteBuffer;
import java.util.Arrays;
import javax.transaction.xa.Xid;

/** An XID as the server knows it. Two are equal if their three parts are. */
public final class XarmXid implements Xid {
    private static final int NULL_FORMAT = -1;

    private final int formatId;
    private final byte[] globalTransactionId;
    private final byte[] branchQualifier;

    /**
     * An XID of three parts.
     *
     * @param formatId any number but -1, which is the null XID's
     * @param globalTransactionId 1 to 64 bytes
     * @param branchQualifier 0 to 64 bytes
     * @throws IllegalArgumentException if a part is none of these
     */
    public XarmXid(int formatId, byte[] globalTransactionId, byte[] branchQualifier) {
        if (formatId == NULL_FORMAT) {
            throw new IllegalArgumentException("the null XID");
        }
        if (globalTransactionId.length < 1 || globalTransactionId.length > MAXGTRIDSIZE) {
            throw new IllegalArgumentException("an XID with a global part of " + globalTransactionId.length + " bytes");
        }
        if (branchQualifier.length > MAXBQUALSIZE) {
            throw new IllegalArgumentException("an XID with a branch part of " + branchQualifier.length + " bytes");
        }
        this.formatId = formatId;
        this.globalTransactionId = globalTransactionId.clone();
        this.branchQualifier = branchQualifier.clone();
    }

    /** The same XID, of whichever class it is. */
    static XarmXid of(Xid xid) {
        return xid instanceof XarmXid
                ? (XarmXid) xid
                : new XarmXid(xid.getFormatId(), xid.getGlobalTransactionId(), xid.getBranchQualifier());
    }

    /** Reads an XID's bytes. */
    static XarmXid read(ByteBuffer bytes) {
        int formatId = bytes.getInt();
        byte[] globalTransactionId = new byte[Byte.toUnsignedInt(bytes.get())];
        byte[] branchQualifier = new byte[Byte.toUnsignedInt(bytes.get())];
        bytes.get(globalTransactionId).get(branchQualifier);
        return new XarmXid(formatId, globalTransactionId, branchQualifier);
    }

    /** Writes an XID's bytes, at most 134. */
    void write(ByteBuffer bytes) {
        bytes.putInt(formatId);
        bytes.put((byte) globalTransactionId.length).put((byte) branchQualifier.length);
        bytes.put(globalTransactionId).put(branchQualifier);
    }

    @Override
    public int getFormatId() {
        return formatId;
    }

    @Override
    public byte[] getGlobalTransactionId() {
        return globalTransactionId.clone();
    }

    @Override
    public byte[] getBranchQualifier() {
        return branchQualifier.clone();
    }

    @Override
    public boolean equals(Object other) {
        if (!(other instanceof XarmXid)) {
            return false;
        }
        XarmXid xid = (XarmXid) other;
        return formatId == xid.formatId
                && Arrays.equals(globalTransactionId, xid.globalTransactionId)
                && Arrays.equals(branchQualifier, xid.branchQualifier);
    }

    @Override
    public int hashCode() {
        return 31 * (31 * formatId + Arrays.hashCode(globalTransactionId)) + Arrays.hashCode(branchQualifier);
    }

    /** The XID's text, as {@code 1:aa:bb}: what {@code xarm talk} takes. */
    @Override
    public String toString() {
        return formatId + ":" + hexadecimal(globalTransactionId) + ":" + hexadecimal(branchQualifier);
    }

    private static String hexadecimal(byte[] bytes) {
        StringBuilder text = new StringBuilder(2 * bytes.length);
        for (byte it : bytes) {
            text.append(Character.forDigit(it >> 4 & 15, 16)).append(Character.forDigit(it & 15, 16));
        }
        return text.toString();
    }
}
