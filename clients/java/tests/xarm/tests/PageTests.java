package xarm.tests;

import static xarm.tests.Expect.equal;
import static xarm.tests.Expect.holds;

import java.io.ByteArrayOutputStream;
import java.net.Socket;
import java.nio.file.Files;
import java.util.regex.Matcher;
import java.util.regex.Pattern;

/** The bytes of docs/CLIENT.md: what it says is sent is sent, and what it says is answered is answered. */
final class PageTests implements Suite {
    private static final Pattern LINE = Pattern.compile(" {4}([<>!]) ((?:(?:[0-9a-f]{2})+ )*(?:[0-9a-f]{2})+(?= {2}|$))?.*");
    private static final int READ_TIMEOUT = 20_000;
    private static final int LEAST_ANSWERS = 19;

    private Server server;
    private Socket socket;
    private int answers;

    @Override
    public void run(Tests tests) throws Exception {
        server = tests.server();
        tests.test("the bytes of docs/CLIENT.md are what a server is sent and answers", () -> {
            connect();
            char direction = '>';
            ByteArrayOutputStream bytes = new ByteArrayOutputStream();
            for (String line : Files.readAllLines(tests.top().resolve("docs/CLIENT.md"))) {
                Matcher matcher = LINE.matcher(line);
                if (!matcher.matches()) {
                    continue;
                }
                char next = matcher.group(1).charAt(0);
                if (next != direction) {
                    pass(direction, bytes.toByteArray());
                    bytes.reset();
                    direction = next;
                }
                if (next != '!') {
                    bytes.write(parsed(matcher.group(2)));
                }
            }
            pass(direction, bytes.toByteArray());
            holds(answers >= LEAST_ANSWERS, "the page has " + answers + " answers");
        });
        socket.close();
        server.close();
    }

    private void connect() throws Exception {
        socket = new Socket("127.0.0.1", server.port());
        socket.setSoTimeout(READ_TIMEOUT);
    }

    private void pass(char direction, byte[] bytes) throws Exception {
        switch (direction) {
            case '>':
                socket.getOutputStream().write(bytes);
                break;
            case '<':
                answers++;
                equal(spelled(bytes), spelled(socket.getInputStream().readNBytes(bytes.length)));
                break;
            default:
                server.kill();
                socket.close();
                server.start();
                connect();
        }
    }

    private static byte[] parsed(String hexadecimal) {
        String digits = hexadecimal.replace(" ", "");
        byte[] bytes = new byte[digits.length() / 2];
        for (int i = 0; i < bytes.length; i++) {
            bytes[i] = (byte) Integer.parseInt(digits.substring(2 * i, 2 * i + 2), 16);
        }
        return bytes;
    }

    private static String spelled(byte[] bytes) {
        StringBuilder text = new StringBuilder();
        for (byte it : bytes) {
            text.append(String.format("%02x ", it));
        }
        return text.toString().trim();
    }
}
