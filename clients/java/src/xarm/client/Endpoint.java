package xarm.client;

import java.io.IOException;
import java.util.Locale;
import java.util.Objects;

/**
 * Where a server listens, and which name its resource manager has. Two are equal if they are spelled alike: then their connections
 * work for one resource manager.
 */
final class Endpoint {
    private final String host;
    private final int port;
    private final String socketPath; // null for a TCP port
    private final String name;

    Endpoint(String host, int port, String socketPath, String name) {
        this.host = host.toLowerCase(Locale.ROOT);
        this.port = port;
        this.socketPath = socketPath;
        this.name = name;
    }

    String name() {
        return name;
    }

    /** Of a connection that isn't made yet. */
    Transport transport() throws IOException {
        return socketPath == null ? new TcpTransport(host, port) : new UnixTransport(socketPath);
    }

    @Override
    public boolean equals(Object other) {
        if (!(other instanceof Endpoint)) {
            return false;
        }
        Endpoint endpoint = (Endpoint) other;
        return name.equals(endpoint.name)
                && Objects.equals(socketPath, endpoint.socketPath)
                && (socketPath != null || host.equals(endpoint.host) && port == endpoint.port);
    }

    @Override
    public int hashCode() {
        return Objects.hash(name, socketPath);
    }

    /** The address alone. */
    @Override
    public String toString() {
        return socketPath == null ? host + ":" + port : socketPath;
    }
}
