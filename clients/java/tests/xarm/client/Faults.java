package xarm.client;

import java.io.IOException;
import java.util.concurrent.atomic.AtomicReference;

/** Connections that throw between a request and its reply what a test has put down: it needs the driver's own types. */
public final class Faults {
    private Faults() {}

    /** The next reply isn't read, and this is thrown in its place, if there is something. */
    public static XarmXAConnection connection(int port, String name, AtomicReference<Error> next) {
        Endpoint endpoint = new Endpoint("127.0.0.1", port, null, name);
        Session session = new Session(endpoint, () -> new Faulty(endpoint.transport(), next), null, 10_000, Integer.MAX_VALUE);
        return new XarmXAConnection(session, true);
    }

    private static final class Faulty implements Transport {
        private final Transport transport;
        private final AtomicReference<Error> next;

        Faulty(Transport transport, AtomicReference<Error> next) {
            this.transport = transport;
            this.next = next;
        }

        @Override
        public void connect(long deadline) throws IOException {
            transport.connect(deadline);
        }

        @Override
        public void write(byte[] bytes, long deadline) throws IOException {
            transport.write(bytes, deadline);
        }

        @Override
        public byte[] read(int count, long deadline) throws IOException {
            Error fault = next.getAndSet(null);
            if (fault != null) {
                throw fault;
            }
            return transport.read(count, deadline);
        }

        @Override
        public void close() {
            transport.close();
        }
    }
}
