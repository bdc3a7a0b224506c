package xarm.tests;

import java.io.DataInputStream;
import java.io.IOException;
import java.net.InetAddress;
import java.net.ServerSocket;
import java.net.Socket;
import java.nio.ByteBuffer;
import java.util.concurrent.atomic.AtomicInteger;

/** Stands between the driver and a server, and lets one request or one reply come in part or not at all. */
final class Relay implements AutoCloseable {
    private static final int WHOLE = -1;
    private static final int HELD = -2;

    private final ServerSocket listener = new ServerSocket(0, 50, InetAddress.getByName("127.0.0.1"));
    private final AtomicInteger nextRequest = new AtomicInteger(WHOLE);
    private final AtomicInteger nextReply = new AtomicInteger(WHOLE);

    Relay(int port) throws IOException {
        inThread(() -> {
            while (true) {
                Socket client = listener.accept();
                Socket server = new Socket("127.0.0.1", port);
                inThread(() -> pass(client, server, nextRequest));
                inThread(() -> pass(server, client, nextReply));
            }
        });
    }

    int port() {
        return listener.getLocalPort();
    }

    /** Of the next request this many bytes come, and then the connection ends. */
    void cutRequest(int bytes) {
        nextRequest.set(bytes);
    }

    /** Of the next reply this many bytes come, and then the connection ends. */
    void cutReply(int bytes) {
        nextReply.set(bytes);
    }

    /** The next reply doesn't come, and the connection stays. */
    void holdReply() {
        nextReply.set(HELD);
    }

    private static void pass(Socket from, Socket to, AtomicInteger next) throws IOException {
        try (from; to) {
            to.setTcpNoDelay(true);
            DataInputStream input = new DataInputStream(from.getInputStream());
            while (true) {
                int length = input.readInt();
                byte[] frame = ByteBuffer.allocate(4 + length).putInt(length).put(input.readNBytes(length)).array();
                int part = next.getAndSet(WHOLE);
                if (part == WHOLE) {
                    to.getOutputStream().write(frame);
                } else if (part != HELD) {
                    to.getOutputStream().write(frame, 0, part);
                    return;
                }
            }
        }
    }

    interface Task {
        void run() throws IOException;
    }

    /** In a thread of its own, until one of its sockets is closed. */
    static void inThread(Task task) {
        Thread thread = new Thread(() -> {
            try {
                task.run();
            } catch (IOException ended) {
                // a socket was closed
            }
        });
        thread.setDaemon(true);
        thread.start();
    }

    @Override
    public void close() throws IOException {
        listener.close();
    }
}
