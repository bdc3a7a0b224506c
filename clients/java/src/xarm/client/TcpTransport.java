package xarm.client;

import java.io.EOFException;
import java.io.IOException;
import java.io.InputStream;
import java.net.InetSocketAddress;
import java.net.Socket;

/** A connection to a TCP port. */
final class TcpTransport implements Transport {
    private final String host;
    private final int port;
    private final Socket socket = new Socket();

    TcpTransport(String host, int port) {
        this.host = host;
        this.port = port;
    }

    @Override
    public void connect(long deadline) throws IOException {
        socket.setTcpNoDelay(true);
        socket.setKeepAlive(true);
        socket.connect(new InetSocketAddress(host, port), Transport.millisecondsUntil(deadline));
    }

    /** It doesn't wait: one request is under way at a time, so its frame is in the socket's buffer whatever the server does. */
    @Override
    public void write(byte[] bytes, long deadline) throws IOException {
        socket.getOutputStream().write(bytes);
    }

    @Override
    public byte[] read(int count, long deadline) throws IOException {
        InputStream input = socket.getInputStream();
        byte[] bytes = new byte[count];
        int at = 0;
        while (at < count) {
            socket.setSoTimeout(Transport.millisecondsUntil(deadline));
            int some = input.read(bytes, at, count - at);
            if (some < 0) {
                throw new EOFException("the server ended the connection");
            }
            at += some;
        }
        return bytes;
    }

    @Override
    public void close() {
        try {
            socket.close();
        } catch (IOException fault) {
            // it is gone all the same
        }
    }
}
