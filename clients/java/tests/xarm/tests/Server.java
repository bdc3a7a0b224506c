package xarm.tests;

import java.io.BufferedReader;
import java.io.IOException;
import java.io.InputStreamReader;
import java.net.BindException;
import java.net.InetAddress;
import java.net.ServerSocket;
import java.nio.charset.StandardCharsets;
import java.nio.file.Path;
import java.util.ArrayList;
import java.util.List;
import java.util.concurrent.ThreadLocalRandom;
import java.util.concurrent.TimeUnit;
import xarm.client.XarmException;
import xarm.client.XarmXAConnection;
import xarm.client.XarmXADataSource;

/** A live {@code xarm serve} on a port of 127.0.0.1, which is started again at the same port and log. It ends with the tests. */
final class Server implements AutoCloseable {
    private static final int LIMIT_SECONDS = 60;
    private static final int TRIES = 100;
    private static final int LEAST_PORT = 10_000;
    private static final int MOST_PORT = 32_000;
    /** So long a connection isn't idle: a test decides itself which frames are sent. */
    static final int NEVER = Integer.MAX_VALUE;

    private final String program;
    private final Path log;
    private final String name;
    private final List<String> options;
    private final int port;
    private volatile Process process;

    /** With further options of {@code serve}; with {@code --socket} it listens there, and not at the port. */
    Server(String program, Path log, String name, String... options) throws Exception {
        this.program = program;
        this.log = log;
        this.name = name;
        this.options = List.of(options);
        port = freePort();
        Runtime.getRuntime().addShutdownHook(new Thread(this::close));
        start();
    }

    /**
     * A port on which nobody listens. It is below those that systems take for outgoing connections: while a server is down, one of these
     * could have its port, and even meet itself there.
     */
    private static int freePort() throws IOException {
        for (int i = 0; i < TRIES; i++) {
            int port = ThreadLocalRandom.current().nextInt(LEAST_PORT, MOST_PORT);
            try (ServerSocket probe = new ServerSocket(port, 1, InetAddress.getByName("127.0.0.1"))) {
                return probe.getLocalPort();
            } catch (BindException taken) {
                // another one
            }
        }
        throw new BindException("no free port");
    }

    void start() throws IOException {
        List<String> words = new ArrayList<>(List.of(program, "serve", "--log", log.toString(), "--name", name));
        words.addAll(options.contains("--workers") ? List.of() : List.of("--tick", "0")); // with workers it is 0
        words.addAll(options.contains("--socket") ? List.of() : List.of("--port", Integer.toString(port)));
        words.addAll(options);
        process = new ProcessBuilder(words)
                .redirectError(ProcessBuilder.Redirect.INHERIT)
                .start();
        String line = new BufferedReader(new InputStreamReader(process.getInputStream(), StandardCharsets.UTF_8)).readLine();
        if (!"ready".equals(line)) {
            throw new IOException("the server isn't ready: " + line);
        }
    }

    /** By SIGKILL. */
    void kill() throws InterruptedException {
        process.destroyForcibly();
        if (!process.waitFor(LIMIT_SECONDS, TimeUnit.SECONDS)) {
            throw new IllegalStateException("the server lives on");
        }
    }

    /** It does nothing, or goes on. */
    void stop(boolean isStopped) throws Exception {
        new ProcessBuilder("kill", isStopped ? "-STOP" : "-CONT", Long.toString(process.pid())).inheritIO().start().waitFor();
    }

    int port() {
        return port;
    }

    XarmXADataSource source() {
        return new XarmXADataSource("127.0.0.1", port, name);
    }

    XarmXAConnection connect() throws XarmException {
        return source().getXAConnection();
    }

    /** The last line that {@code xarm talk} prints for some lines: the operator's calls. */
    String talk(String... lines) throws Exception {
        Process talk = new ProcessBuilder(program, "talk", "--port", Integer.toString(port))
                .redirectError(ProcessBuilder.Redirect.INHERIT)
                .start();
        talk.getOutputStream().write((String.join("\n", lines) + "\n").getBytes(StandardCharsets.UTF_8));
        talk.getOutputStream().close();
        List<String> printed = List.of(new String(talk.getInputStream().readAllBytes(), StandardCharsets.UTF_8).split("\n"));
        if (!talk.waitFor(LIMIT_SECONDS, TimeUnit.SECONDS)) {
            throw new IllegalStateException("talk doesn't end");
        }
        return printed.get(printed.size() - 1);
    }

    @Override
    public void close() {
        process.destroyForcibly();
    }
}
