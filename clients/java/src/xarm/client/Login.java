package xarm.client;

import java.io.IOException;
import java.net.ProtocolException;
import java.nio.ByteBuffer;
import java.nio.CharBuffer;
import java.nio.charset.CharacterCodingException;
import java.nio.charset.StandardCharsets;
import java.security.SecureRandom;
import java.util.Base64;
import java.util.function.Supplier;
import java.util.regex.Pattern;
import javax.transaction.xa.XAException;
import javax.transaction.xa.XAResource;

/** Who connects, and the password. It is told in no message. */
final class Login {
    /** Asks a server, and is answered. */
    interface Exchange {
        Reply ask(Request request) throws IOException;
    }

    private static final int MOST_SECRET = 1_024;
    private static final int NONCE_BYTES = 18;
    private static final Pattern USER = Pattern.compile("[A-Za-z0-9_.@-]{1,64}");
    private static final SecureRandom RANDOM = new SecureRandom();

    private final String user;
    private final byte[] secret; // empty if there is no password
    private final Supplier<String> nonces;

    /** Of a user, and a password or null, which is refused once it is wanted. */
    Login(String user, String password) {
        this(user, password, Login::nonce);
    }

    Login(String user, String password, Supplier<String> nonces) {
        this.user = checkedUser(user);
        secret = password == null ? new byte[0] : bytes(password);
        this.nonces = nonces;
    }

    /** A name that a user can have. */
    static String checkedUser(String user) {
        if (!USER.matcher(user).matches()) {
            throw new IllegalArgumentException("no user can have the name " + user);
        }
        return user;
    }

    /** A password that a user can have. */
    static String checkedPassword(String password) {
        bytes(password);
        return password;
    }

    private static byte[] bytes(String password) {
        try {
            ByteBuffer bytes = StandardCharsets.UTF_8.newEncoder().encode(CharBuffer.wrap(password));
            if (bytes.remaining() > MOST_SECRET) {
                throw new IllegalArgumentException("a password of more than " + MOST_SECRET + " bytes");
            }
            byte[] all = new byte[bytes.remaining()];
            bytes.get(all);
            return all;
        } catch (CharacterCodingException none) {
            throw new IllegalArgumentException("a password with half a character");
        }
    }

    private static String nonce() {
        byte[] bytes = new byte[NONCE_BYTES];
        RANDOM.nextBytes(bytes);
        return Base64.getEncoder().encodeToString(bytes);
    }

    String user() {
        return user;
    }

    /**
     * Logs in, before anything else is asked.
     *
     * @throws RefusedException if the server refuses the user or the password, or takes no logins
     * @throws IOException if the connection breaks, or the server doesn't know the password's verifier; it must be closed then
     */
    void run(Exchange exchange) throws IOException {
        if (secret.length == 0) {
            throw new ProtocolException("there is no password");
        }
        Scram scram = new Scram(user, secret, nonces.get());
        byte[] challenge = answered(exchange.ask(new Request(Operation.FIRST).message(scram.first())));
        byte[] last = answered(exchange.ask(new Request(Operation.FINAL).message(scram.answer(challenge))));
        if (!scram.isAcceptedBy(last)) {
            throw new ProtocolException("the server doesn't know the password's verifier, so it isn't who it says");
        }
    }

    private static byte[] answered(Reply reply) throws RefusedException {
        if (reply.code() == XAResource.XA_OK) {
            return reply.value();
        }
        String why = "the login was answered " + Codes.name(reply.code()) + " " + reply.detail();
        if (reply.code() == XAException.XAER_INVAL && reply.detail() == Detail.ACCESS) {
            why = "the server refuses the name or the password";
        } else if (reply.code() == XAException.XAER_INVAL && reply.detail() == Detail.FRAME) {
            why = "the server takes no logins";
        }
        throw new RefusedException(why, reply.detail());
    }
}
