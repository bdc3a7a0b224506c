package xarm.tests;

import java.io.DataInputStream;
import java.io.IOException;
import java.io.OutputStream;
import java.net.InetAddress;
import java.net.ServerSocket;
import java.net.Socket;
import java.nio.charset.StandardCharsets;
import java.security.MessageDigest;
import java.util.ArrayList;
import java.util.Base64;
import java.util.List;
import java.util.Map;
import java.util.concurrent.ConcurrentHashMap;
import java.util.concurrent.Semaphore;
import java.util.concurrent.TimeUnit;
import javax.crypto.Mac;
import javax.crypto.spec.SecretKeySpec;
import javax.transaction.xa.XAException;
import xarm.client.Detail;
import xarm.client.XarmXADataSource;

/**
 * A server that lets in who has RFC 7677's password, {@code pencil}, or answers a First or a Final with the bytes that a test has put down.
 * All else is answered Access before a login, and XA_OK after it.
 */
final class Guard implements AutoCloseable {
    static final int OPEN = 1;
    static final int FORGET = 9;
    static final int HELLO = 70;
    static final int FIRST = 74;
    static final int FINAL = 75;
    static final int CHALLENGED = 11;
    static final int WELCOMED = 12;
    /** What a server keeps of that password, with RFC 7677's salt and count; as PostgreSQL spells it. */
    static final String VERIFIER = "SCRAM-SHA-256$4096:W22ZaJ0SNY7soEsUEjb6gQ==$WG5d8oPm3OtcPnkdi4Uo7BkeZkBFzpcXkuLmtbsT4qY=:"
            + "wfPLwcE6nTWhTAmQ7tl2KeoiWGPlZqQxSrmfPwDl2dU=";

    private static final String[] PARTS = VERIFIER.split("[$:]");
    private static final String OWN = "%hvYDpWUa2RaTCAfuxFIlj)hNlF$k0";
    private static final int LIMIT_SECONDS = 30;

    private final ServerSocket listener = new ServerSocket(0, 50, InetAddress.getByName("127.0.0.1"));
    private final Map<Integer, byte[]> answers = new ConcurrentHashMap<>();
    private final List<Integer> asked = new ArrayList<>();
    private final List<String> said = new ArrayList<>();
    private final Semaphore ends = new Semaphore(0);

    Guard() throws IOException {
        Relay.inThread(() -> {
            while (true) {
                Socket client = listener.accept();
                Relay.inThread(() -> serve(client));
            }
        });
    }

    int port() {
        return listener.getLocalPort();
    }

    XarmXADataSource source(String user, String password) {
        XarmXADataSource source = new XarmXADataSource("127.0.0.1", port(), "fake", user, password);
        source.setValidationInterval(Server.NEVER);
        return source;
    }

    /** A First, or a Final, is answered so from now on; the connection ends after what is no whole frame. */
    void answer(int operation, byte[] frame) {
        answers.put(operation, frame);
    }

    /** It answers by itself again. */
    void answerWell() {
        answers.clear();
    }

    /** What it was asked for, since this was called last. */
    synchronized List<Integer> asked() {
        List<Integer> since = List.copyOf(asked);
        asked.clear();
        return since;
    }

    /** The messages of logins, since this was called last. */
    synchronized List<String> said() {
        List<String> since = List.copyOf(said);
        said.clear();
        return since;
    }

    /** What it was asked for, once a connection has ended. */
    List<Integer> ended() throws InterruptedException {
        Expect.holds(ends.tryAcquire(LIMIT_SECONDS, TimeUnit.SECONDS), "the connection was closed");
        return asked();
    }

    static byte[] message(int kind, String text) {
        return Fake.reply(0, Detail.NOTHING, kind, text.getBytes(StandardCharsets.ISO_8859_1));
    }

    private synchronized void note(int operation, String message) {
        asked.add(operation);
        if (operation == FIRST || operation == FINAL) {
            said.add(message);
        }
    }

    private void serve(Socket client) throws IOException {
        try (client) {
            DataInputStream input = new DataInputStream(client.getInputStream());
            OutputStream output = client.getOutputStream();
            String bare = "";
            String challenge = "";
            long place = 0;
            boolean isIn = false;
            while (true) {
                byte[] content = input.readNBytes(input.readInt());
                String message = new String(content, 2, content.length - 2, StandardCharsets.ISO_8859_1);
                note(content[1], message);
                byte[] answer = Fake.reply(XAException.XAER_INVAL, Detail.ACCESS, 0, new byte[0]);
                if (content[1] == FIRST) {
                    bare = message.substring(3);
                    challenge = "r=" + bare.substring(bare.indexOf(",r=") + 3) + OWN + ",s=" + PARTS[2] + ",i=" + PARTS[1];
                    answer = message(CHALLENGED, challenge);
                } else if (content[1] == FINAL) {
                    String signed = bare + "," + challenge + "," + message.substring(0, message.lastIndexOf(",p="));
                    isIn = proves(message.substring(message.lastIndexOf(",p=") + 3), signed);
                    answer = isIn ? message(WELCOMED, "v=" + Base64.getEncoder().encodeToString(mac(PARTS[4], signed))) : answer;
                } else if (isIn) {
                    answer = Fake.reply(0, Detail.NOTHING, ++place, content[1] == HELLO ? 8 : 0, new byte[content[1] == HELLO ? 12 : 0]);
                }
                answer = answers.getOrDefault((int) content[1], answer);
                output.write(answer);
                if (answer.length < 19) {
                    return;
                }
            }
        } finally {
            ends.release();
        }
    }

    private static boolean proves(String proof, String signed) {
        byte[] key = Base64.getDecoder().decode(proof);
        byte[] signature = mac(PARTS[3], signed);
        for (int at = 0; at < key.length; at++) {
            key[at] ^= signature[at];
        }
        try {
            return Base64.getEncoder().encodeToString(MessageDigest.getInstance("SHA-256").digest(key)).equals(PARTS[3]);
        } catch (java.security.GeneralSecurityException none) {
            throw new IllegalStateException(none);
        }
    }

    private static byte[] mac(String key, String text) {
        try {
            Mac mac = Mac.getInstance("HmacSHA256");
            mac.init(new SecretKeySpec(Base64.getDecoder().decode(key), "HmacSHA256"));
            return mac.doFinal(text.getBytes(StandardCharsets.ISO_8859_1));
        } catch (java.security.GeneralSecurityException none) {
            throw new IllegalStateException(none);
        }
    }

    @Override
    public void close() throws IOException {
        listener.close();
    }
}
