package xarm.tests;

import static xarm.tests.Expect.equal;
import static xarm.tests.Expect.holds;

import java.nio.file.Files;
import java.nio.file.Path;
import java.util.Set;
import java.util.TreeSet;
import java.util.concurrent.TimeUnit;
import java.util.jar.JarFile;
import java.util.stream.Collectors;

/** By pom.xml Maven makes a jar of the same classes, offline. */
final class MavenTests implements Suite {
    private static final int LIMIT_SECONDS = 200;

    @Override
    public void run(Tests tests) throws Exception {
        tests.test("pom.xml makes a jar with the same classes, offline", () -> {
            Path folder = tests.folder().resolve("maven");
            Path told = tests.folder().resolve("maven.log");
            Process maven = new ProcessBuilder("mvn", "-o", "-q", "-B", "-Dmaven.repo.local=" + System.getProperty("xarm.maven"),
                            "-Dfolder=" + folder, "-Drevision=1.2.3", "package")
                    .directory(tests.top().resolve("clients/java").toFile())
                    .redirectErrorStream(true)
                    .redirectOutput(told.toFile())
                    .start();
            holds(maven.waitFor(LIMIT_SECONDS, TimeUnit.SECONDS), "it ends");
            equal("", maven.exitValue() == 0 ? "" : Files.readString(told));
            try (JarFile wanted = new JarFile(System.getProperty("xarm.jar")); JarFile found = new JarFile(folder + "/xarm-client.jar")) {
                equal(classes(wanted), classes(found));
                equal("xarm.client", found.getManifest().getMainAttributes().getValue("Automatic-Module-Name"));
            }
        });
    }

    private static Set<String> classes(JarFile jar) {
        return jar.stream().map(Object::toString).filter(it -> it.endsWith(".class")).collect(Collectors.toCollection(TreeSet::new));
    }
}
