package xarm.client;

import java.net.ProtocolException;
import java.nio.charset.StandardCharsets;
import java.security.GeneralSecurityException;
import java.security.MessageDigest;
import java.util.Base64;
import java.util.regex.Matcher;
import java.util.regex.Pattern;
import javax.crypto.Mac;
import javax.crypto.spec.SecretKeySpec;

/**
 * The client's side of one login by SCRAM-SHA-256 (RFC 5802, RFC 7677), without channel binding: {@link #first}, {@link #answer}, and then
 * {@link #isAcceptedBy}.
 */
final class Scram {
    private static final int LEAST_ITERATIONS = 4_096; // RFC 7677, 4
    private static final int MOST_ITERATIONS = 1_000_000;
    private static final int MOST_SALT = 32;
    private static final int MOST_NONCE = 64;
    /** The nonce has printable characters but the comma. What may come after the count, or before the nonce, no server of ours sends. */
    private static final Pattern CHALLENGE = Pattern.compile("r=([!-+\\x2d-~]+),s=([A-Za-z0-9+/]+={0,2}),i=([1-9][0-9]{3,6})");
    private static final String HEADER = "n,,";

    private final byte[] secret;
    private final String nonce;
    private final String bare; // the first message without its header
    private byte[] acceptance = new byte[0];

    /** With a nonce that is another one each time, and that nobody can guess. */
    Scram(String user, byte[] secret, String nonce) {
        this.secret = secret;
        this.nonce = nonce;
        bare = "n=" + user + ",r=" + nonce;
    }

    /** The client's first message. */
    byte[] first() {
        return bytes(HEADER + bare);
    }

    /**
     * The client's last message: the answer to the server's first one.
     *
     * @throws ProtocolException if that is no challenge to this login, or asks for too little or too much
     */
    byte[] answer(byte[] challenge) throws ProtocolException {
        String text = new String(challenge, StandardCharsets.ISO_8859_1);
        Matcher parts = CHALLENGE.matcher(text);
        if (!parts.matches() || !parts.group(1).startsWith(nonce)) {
            throw new ProtocolException("no challenge to this login");
        }
        int own = parts.group(1).length() - nonce.length();
        byte[] salt = salt(parts.group(2));
        int iterations = Integer.parseInt(parts.group(3));
        if (own < 1 || own > MOST_NONCE || iterations < LEAST_ITERATIONS || iterations > MOST_ITERATIONS) {
            throw new ProtocolException("a challenge with " + own + " bytes of a nonce, and " + iterations + " iterations");
        }
        String last = "c=" + base64(bytes(HEADER)) + ",r=" + parts.group(1);
        byte[] signed = bytes(bare + "," + text + "," + last);
        byte[] salted = hi(secret, salt, iterations);
        byte[] key = hmac(salted, bytes("Client Key"));
        byte[] proof = xor(key, hmac(sha256(key), signed));
        acceptance = bytes("v=" + base64(hmac(hmac(salted, bytes("Server Key")), signed)));
        return bytes(last + ",p=" + base64(proof));
    }

    /** Whether the server's last message shows that it knows the secret's verifier. */
    boolean isAcceptedBy(byte[] last) {
        return acceptance.length > 0 && MessageDigest.isEqual(acceptance, last);
    }

    /** Each salt has one spelling. */
    private static byte[] salt(String text) throws ProtocolException {
        try {
            byte[] salt = Base64.getDecoder().decode(text);
            if (salt.length <= MOST_SALT && base64(salt).equals(text)) {
                return salt;
            }
        } catch (IllegalArgumentException none) {
            // as below
        }
        throw new ProtocolException("a challenge with a salt that is none");
    }

    /** PBKDF2 (RFC 8018) by HMAC-SHA-256, one block, of the secret's bytes as they are. */
    static byte[] hi(byte[] secret, byte[] salt, int iterations) {
        Mac mac = keyed(secret);
        mac.update(salt);
        byte[] link = mac.doFinal(new byte[] {0, 0, 0, 1});
        byte[] all = link.clone();
        for (int i = 1; i < iterations; i++) {
            link = mac.doFinal(link);
            for (int at = 0; at < all.length; at++) {
                all[at] ^= link[at];
            }
        }
        return all;
    }

    private static byte[] hmac(byte[] key, byte[] text) {
        return keyed(key).doFinal(text);
    }

    private static Mac keyed(byte[] key) {
        try {
            Mac mac = Mac.getInstance("HmacSHA256");
            mac.init(new SecretKeySpec(key, "HmacSHA256"));
            return mac;
        } catch (GeneralSecurityException none) {
            throw new IllegalStateException("no HMAC by SHA-256, which each Java has", none);
        }
    }

    private static byte[] sha256(byte[] text) {
        try {
            return MessageDigest.getInstance("SHA-256").digest(text);
        } catch (GeneralSecurityException none) {
            throw new IllegalStateException("no SHA-256, which each Java has", none);
        }
    }

    private static byte[] xor(byte[] one, byte[] other) {
        byte[] all = one.clone();
        for (int at = 0; at < all.length; at++) {
            all[at] ^= other[at];
        }
        return all;
    }

    private static String base64(byte[] bytes) {
        return Base64.getEncoder().encodeToString(bytes);
    }

    private static byte[] bytes(String text) {
        return text.getBytes(StandardCharsets.ISO_8859_1);
    }
}
