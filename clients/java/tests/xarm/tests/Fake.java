package xarm.tests;

import java.io.DataInputStream;
import java.io.IOException;
import java.io.OutputStream;
import java.net.InetAddress;
import java.net.ServerSocket;
import java.net.Socket;
import java.nio.ByteBuffer;
import java.util.ArrayList;
import java.util.List;
import java.util.concurrent.BlockingQueue;
import java.util.concurrent.LinkedBlockingQueue;
import java.util.concurrent.atomic.AtomicLong;
import javax.transaction.xa.XAException;
import xarm.client.Detail;
import xarm.client.XarmXAConnection;
import xarm.client.XarmXADataSource;

/**
 * Answers each Hello as an older server, or as a test wants it, each Open with XA_OK, and each other frame with the bytes that a test has put
 * down, with the next place where they have none.
 */
final class Fake implements AutoCloseable {
    private final ServerSocket listener = new ServerSocket(0, 50, InetAddress.getByName("127.0.0.1"));
    private static final int PLACE_AT = 10;
    private static final int OPEN = 1;
    private static final int HELLO = 70;

    private final BlockingQueue<byte[]> answers = new LinkedBlockingQueue<>();
    private final BlockingQueue<Integer> asked = new LinkedBlockingQueue<>();
    private final AtomicLong place = new AtomicLong();
    private final long pause;
    private volatile byte[] always;
    private volatile byte[] hello = reply(XAException.XAER_INVAL, Detail.FRAME, 0, new byte[0]);

    Fake() throws IOException {
        this(0);
    }

    /** With a pause before each byte of what was put down, in milliseconds. */
    Fake(long pause) throws IOException {
        this.pause = pause;
        Relay.inThread(() -> {
            while (true) {
                Socket client = listener.accept();
                Relay.inThread(() -> serve(client));
            }
        });
    }

    int port() {
        return listener.getLocalPort();
    }

    /** Whose connections are never asked whether they stand. */
    XarmXADataSource source(int readTimeout) {
        XarmXADataSource source = new XarmXADataSource("127.0.0.1", port(), "fake");
        source.setReadTimeout(readTimeout);
        source.setValidationInterval(Server.NEVER);
        return source;
    }

    XarmXAConnection connect(int readTimeout) throws Exception {
        return source(readTimeout).getXAConnection();
    }

    /** Each Hello from now on is answered so. */
    void hello(byte[] frame) {
        hello = frame;
    }

    /** The operations that it was asked for, but Hello and Open, since this was called last. */
    List<Integer> asked() {
        List<Integer> since = new ArrayList<>();
        asked.drainTo(since);
        return since;
    }

    /** The next frame is answered so. */
    void answer(byte[] frame) {
        answers.add(frame);
    }

    void answer(int code, Detail detail) {
        answer(reply(code, detail, 0, new byte[0]));
    }

    /** Each frame from now on is answered so. */
    void always(int code) {
        always = reply(code, Detail.NOTHING, 0, new byte[0]);
    }

    /** A reply's frame, without a place. */
    static byte[] reply(int code, Detail detail, int kind, byte[] body) {
        return reply(code, detail, 0, kind, body);
    }

    static byte[] reply(int code, Detail detail, long place, int kind, byte[] body) {
        return ByteBuffer.allocate(19 + body.length)
                .putInt(15 + body.length).put((byte) 1).putInt(code).put((byte) detail.ordinal()).putLong(place).put((byte) kind)
                .put(body).array();
    }

    private byte[] placed(byte[] frame) {
        if (frame.length < PLACE_AT + Long.BYTES || ByteBuffer.wrap(frame).getLong(PLACE_AT) != 0) {
            return frame;
        }
        return ByteBuffer.wrap(frame.clone()).putLong(PLACE_AT, place.incrementAndGet()).array();
    }

    private void serve(Socket client) throws IOException {
        try (client) {
            client.setTcpNoDelay(true);
            DataInputStream input = new DataInputStream(client.getInputStream());
            OutputStream output = client.getOutputStream();
            while (true) {
                byte[] content = input.readNBytes(input.readInt());
                if (content[1] == HELLO) {
                    output.write(hello);
                    continue;
                }
                if (content[1] == OPEN) {
                    output.write(placed(reply(0, Detail.NOTHING, 0, new byte[0])));
                    continue;
                }
                asked.add((int) content[1]);
                for (byte it : placed(always == null ? answers.take() : always)) {
                    Thread.sleep(pause);
                    output.write(it);
                }
            }
        } catch (InterruptedException interrupted) {
            Thread.currentThread().interrupt();
        }
    }

    @Override
    public void close() throws IOException {
        listener.close();
    }
}
