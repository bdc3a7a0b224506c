package xarm.client;

/** What a connection knows of its server: it needs the driver's own types. */
public final class Hellos {
    private Hellos() {}

    /** The revision and the features, in hexadecimal, of a connection to this port. */
    public static String told(int port) throws Exception {
        Session session = new Session(new Endpoint("127.0.0.1", port, null, "fake"), null, 10_000, Integer.MAX_VALUE);
        session.open(10_000);
        try {
            return Integer.toUnsignedString(session.revision()) + " " + Long.toHexString(session.features());
        } finally {
            session.close();
        }
    }
}
