package xarm.tests;

import java.nio.charset.StandardCharsets;
import java.nio.file.Path;
import java.util.Arrays;
import java.util.List;
import java.util.Timer;
import java.util.TimerTask;

/**
 * Runs suites of the driver's tests against the program: {@code Tests PROGRAM TOP FOLDER SECONDS SUITE...}, with the top of the
 * repository, in a folder that is empty. Each test prints a line; the last one is {@code N passed, M failed}. It ends within this many
 * seconds, since whichever test waits by then has failed.
 */
public final class Tests {
    interface Body {
        void run() throws Exception;
    }

    private final String program;
    private final Path top;
    private final Path folder;
    private int servers;
    private int passed;
    private int failed;
    private volatile String running = "none";

    private Tests(String program, Path top, Path folder) {
        this.program = program;
        this.top = top;
        this.folder = folder;
    }

    public static void main(String[] words) throws Exception {
        Tests tests = new Tests(words[0], Path.of(words[1]), Path.of(words[2]));
        tests.endWithin(Long.parseLong(words[3]));
        List<String> suites = Arrays.asList(words).subList(4, words.length);
        for (String suite : suites) {
            tests.runSuite(suite);
        }
        tests.end();
    }

    private void runSuite(String name) {
        try {
            ((Suite) Class.forName("xarm.tests." + name).getDeclaredConstructor().newInstance()).run(this);
        } catch (Exception wrong) {
            fail(name, wrong.toString());
            wrong.printStackTrace();
        }
    }

    /** Runs a test, and prints what came of it. */
    void test(String name, Body body) {
        running = name;
        try {
            body.run();
            passed++;
            System.out.println("java: " + name + " ... ok");
        } catch (Exception | AssertionError wrong) {
            fail(name, wrong.toString());
            wrong.printStackTrace();
        }
    }

    /** A new server with a log of its own, which ends with the tests. */
    Server server() throws Exception {
        return server("bank");
    }

    /** One that keeps its history. */
    Server server(String name) throws Exception {
        return server(name, "--workers", "4");
    }

    Server server(String name, String... options) throws Exception {
        servers++;
        return new Server(program, folder.resolve("log" + servers), name, options);
    }

    /** Whether {@code serve} has this option. */
    boolean hasOption(String option) throws Exception {
        Process help = new ProcessBuilder(program, "serve", "--help").redirectError(ProcessBuilder.Redirect.DISCARD).start();
        String text = new String(help.getInputStream().readAllBytes(), StandardCharsets.UTF_8);
        help.waitFor();
        return text.contains(option);
    }

    /** The top of the repository, whose documents are tested. */
    Path top() {
        return top;
    }

    /** For files that tests write. */
    Path folder() {
        return folder;
    }

    private void fail(String name, String why) {
        failed++;
        System.out.println("java: " + name + " ... FAILED: " + why);
    }

    private void endWithin(long seconds) {
        TimerTask late = new TimerTask() {
            @Override
            public void run() {
                fail(running, "it isn't done after " + seconds + " seconds of all tests");
                end();
            }
        };
        new Timer(true).schedule(late, 1_000 * seconds);
    }

    private void end() {
        System.out.println(passed + " passed, " + failed + " failed");
        System.exit(failed == 0 ? 0 : 1);
    }
}
