package xarm.client;

import java.io.EOFException;
import java.io.IOException;
import java.lang.reflect.InvocationTargetException;
import java.net.ProtocolFamily;
import java.net.SocketAddress;
import java.net.SocketException;
import java.net.StandardProtocolFamily;
import java.nio.ByteBuffer;
import java.nio.channels.CancelledKeyException;
import java.nio.channels.ClosedChannelException;
import java.nio.channels.ClosedSelectorException;
import java.nio.channels.SelectionKey;
import java.nio.channels.Selector;
import java.nio.channels.SocketChannel;

/**
 * A connection to a Unix socket, which Java has since release 16: it is called by reflection, so that the driver runs with older ones.
 *
 * <p>The channel doesn't block, and a selector waits for it, since a blocking one has no time-outs, and is closed by an interrupt.
 */
final class UnixTransport implements Transport {
    private final SocketAddress address;
    private final SocketChannel channel;
    private final Selector selector;
    private final SelectionKey key;

    UnixTransport(String path) throws IOException {
        address = (SocketAddress) reflected("java.net.UnixDomainSocketAddress", "of", String.class, path);
        channel = (SocketChannel) reflected(SocketChannel.class.getName(), "open", ProtocolFamily.class, unix());
        try {
            channel.configureBlocking(false);
            selector = Selector.open();
            key = channel.register(selector, 0);
        } catch (IOException fault) {
            channel.close();
            throw fault;
        }
    }

    private static ProtocolFamily unix() throws IOException {
        try {
            return StandardProtocolFamily.valueOf("UNIX");
        } catch (IllegalArgumentException none) {
            throw new SocketException("a Unix socket needs Java 16 or later");
        }
    }

    private static Object reflected(String type, String method, Class<?> parameter, Object argument) throws IOException {
        try {
            return Class.forName(type).getMethod(method, parameter).invoke(null, argument);
        } catch (InvocationTargetException fault) {
            throw new IOException(fault.getCause());
        } catch (ReflectiveOperationException none) {
            throw new SocketException("a Unix socket needs Java 16 or later");
        }
    }

    @Override
    public void connect(long deadline) throws IOException {
        boolean isMade = channel.connect(address);
        while (!isMade) {
            await(SelectionKey.OP_CONNECT, deadline);
            isMade = channel.finishConnect();
        }
    }

    @Override
    public void write(byte[] bytes, long deadline) throws IOException {
        ByteBuffer left = ByteBuffer.wrap(bytes);
        while (left.hasRemaining()) {
            if (channel.write(left) == 0) {
                await(SelectionKey.OP_WRITE, deadline);
            }
        }
    }

    @Override
    public byte[] read(int count, long deadline) throws IOException {
        ByteBuffer bytes = ByteBuffer.allocate(count);
        while (bytes.hasRemaining()) {
            int some = channel.read(bytes);
            if (some < 0) {
                throw new EOFException("the server ended the connection");
            }
            if (some == 0) {
                await(SelectionKey.OP_READ, deadline);
            }
        }
        return bytes.array();
    }

    private void await(int operation, long deadline) throws IOException {
        boolean isInterrupted = false;
        try {
            key.interestOps(operation);
            do {
                // a selector doesn't wait while the thread is interrupted
                isInterrupted |= Thread.interrupted();
                selector.select(Transport.millisecondsUntil(deadline));
            } while (Thread.currentThread().isInterrupted());
            selector.selectedKeys().clear();
        } catch (ClosedSelectorException | CancelledKeyException closed) {
            throw new ClosedChannelException();
        } finally {
            if (isInterrupted) {
                Thread.currentThread().interrupt();
            }
        }
    }

    @Override
    public void close() {
        try {
            channel.close();
            selector.close();
        } catch (IOException fault) {
            // it is gone all the same
        }
    }
}
