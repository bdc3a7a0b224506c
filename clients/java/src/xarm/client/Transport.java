package xarm.client;

import java.io.Closeable;
import java.io.IOException;
import java.net.SocketTimeoutException;
import java.util.concurrent.TimeUnit;

/**
 * The bytes of a connection. Each call ends by its deadline, which is one of {@link System#nanoTime}, and with an
 * {@link IOException} once another thread closes it. An interrupt ends none.
 */
interface Transport extends Closeable {
    void connect(long deadline) throws IOException;

    void write(byte[] bytes, long deadline) throws IOException;

    /** So many bytes: a peer that sends one now and then doesn't hold a call longer than one that is silent. */
    byte[] read(int count, long deadline) throws IOException;

    /** Of any thread. */
    @Override
    void close();

    /** 1 or more. */
    static int millisecondsUntil(long deadline) throws SocketTimeoutException {
        long left = TimeUnit.NANOSECONDS.toMillis(deadline - System.nanoTime());
        if (left <= 0) {
            throw new SocketTimeoutException("no answer in time");
        }
        return (int) Math.min(left, Integer.MAX_VALUE);
    }
}
