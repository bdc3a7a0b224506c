package xarm.tests;

import static xarm.tests.Expect.equal;
import static xarm.tests.Expect.holds;
import static xarm.tests.Expect.value;

import java.nio.charset.StandardCharsets;
import java.nio.file.Files;
import java.nio.file.Path;
import java.util.concurrent.TimeUnit;
import xarm.client.XarmXAConnection;

/** README's Attach.java, as it stands but for the ports, commits over two servers. */
final class BitronixReadmeTests implements Suite {
    private static final String FIRST = "    import bitronix";
    private static final String LAST = "    }";
    private static final int LIMIT_SECONDS = 120;

    @Override
    public void run(Tests tests) throws Exception {
        tests.test("README's Attach.java commits over two servers", () -> {
            try (Server bank = tests.server("bank"); Server shop = tests.server("shop")) {
                String source = attach(tests.top())
                        .replace("\"bank\", 4187", "\"bank\", " + bank.port())
                        .replace("\"shop\", 4188", "\"shop\", " + shop.port());
                Path file = tests.folder().resolve("Attach.java");
                Files.writeString(file, source);
                Process java = new ProcessBuilder("java", "-cp", System.getProperty("java.class.path"), file.toString())
                        .directory(tests.folder().toFile())
                        .redirectErrorStream(true)
                        .redirectOutput(tests.folder().resolve("attach.log").toFile())
                        .start();
                holds(java.waitFor(LIMIT_SECONDS, TimeUnit.SECONDS), "it ends");
                equal("", java.exitValue() == 0 ? "" : Files.readString(tests.folder().resolve("attach.log")));
                for (Server server : new Server[] {bank, shop}) {
                    try (XarmXAConnection connection = server.connect()) {
                        value(connection, "greeting", "hello");
                    }
                }
            }
        });
    }

    /** The lines of README from its first import to the end of the class. */
    private static String attach(Path top) throws Exception {
        StringBuilder source = new StringBuilder();
        for (String line : Files.readAllLines(top.resolve("README.md"), StandardCharsets.UTF_8)) {
            if (source.length() > 0 || line.startsWith(FIRST)) {
                source.append(line).append('\n');
                if (line.equals(LAST)) {
                    break;
                }
            }
        }
        return source.toString();
    }
}
