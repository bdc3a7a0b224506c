package xarm.client;

import java.nio.charset.StandardCharsets;

/** Logins whose nonce a test gives: it needs the driver's own types. */
public final class Logins {
    private static final int TIMEOUT = 10_000;

    private Logins() {}

    /** Connects with this nonce. */
    public static XarmXAConnection connection(int port, String user, String password, String nonce) throws XarmException {
        Login login = new Login(user, password, () -> nonce);
        Session session = new Session(new Endpoint("127.0.0.1", port, null, "fake"), login, TIMEOUT, Integer.MAX_VALUE);
        session.open(TIMEOUT);
        return new XarmXAConnection(session, true);
    }

    /** PBKDF2 by HMAC-SHA-256: its first 32 bytes, in hexadecimal. */
    public static String hi(String secret, String salt, int iterations) {
        StringBuilder text = new StringBuilder();
        for (byte it : Scram.hi(secret.getBytes(StandardCharsets.UTF_8), salt.getBytes(StandardCharsets.UTF_8), iterations)) {
            text.append(String.format("%02x", it));
        }
        return text.toString();
    }
}
