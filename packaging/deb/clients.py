"""The clients' packages: a program of each, built with what they install and run against the package's server, for packaging/deb/test."""
import os
import re
import shutil
import sys

from unpacked import OPEN, Server, Skipped, ends, free_port, run, run_long, same, tool

LIBRARIES = "usr/lib/x86_64-linux-gnu"
# For programs in Java that don't run for long.
QUICKLY = "-XX:TieredStopAtLevel=1", "-XX:+UseSerialGC"
DEMO = """
import xarm.client.XarmXADataSource;
import xarm.client.XarmXid;
import javax.transaction.xa.XAResource;

class Demo {
    public static void main(String[] words) throws Exception {
        var connection = new XarmXADataSource("127.0.0.1", Integer.parseInt(words[0]), words[1]).getXAConnection();
        var resource = connection.getXAResource();
        var xid = new XarmXid(1, "java".getBytes(), "1".getBytes());
        resource.start(xid, XAResource.TMNOFLAGS);
        connection.getRecords().put("greeting".getBytes(), "hello".getBytes());
        resource.end(xid, XAResource.TMSUCCESS);
        System.out.println(resource.prepare(xid));
        resource.commit(xid, false);
        connection.close();
    }
}
"""
SCRIPT = """
import sys, xarm
with xarm.connect(port=int(sys.argv[1]), name=sys.argv[2]) as bank:
    bank.tpc_begin(bank.xid(1, b"python", b"1"))
    bank.put(b"greeting", b"hello")
    bank.tpc_prepare()
    bank.tpc_commit()
    print(bank.tpc_recover(), xarm.__file__)
"""
PROJECT = """
<project xmlns="http://maven.apache.org/POM/4.0.0">
  <modelVersion>4.0.0</modelVersion>
  <groupId>demo</groupId>
  <artifactId>demo</artifactId>
  <version>1</version>
  <properties>
    <project.build.sourceEncoding>UTF-8</project.build.sourceEncoding>
    <maven.compiler.release>11</maven.compiler.release>
  </properties>
  <dependencies>
    <dependency><groupId>xarm</groupId><artifactId>xarm-client</artifactId><version>VERSION</version></dependency>
  </dependencies>
  <build><sourceDirectory>src</sourceDirectory></build>
</project>
"""


def library(package):
    """What libxarm1 says of its library."""
    tree = package.with_clients("libxarm1", "libxarm-dev")
    symbols = re.findall(r"^ (\S+) (\S+)$", package.control("symbols", "libxarm1"), re.M)
    shown = run(tool("nm"), "-D", "--defined-only", "--with-symbol-versions", f"{tree}/{LIBRARIES}/libxarm.so").stdout
    names = [(name.replace("@@", "@"), kind) for kind, name in re.findall(r"^\w+ (\w) (\S+)$", shown, re.M)]
    shown = sorted(f"{name}@{name}" if kind == "A" and "@" not in name else name for name, kind in names)
    yield "libxarm1: symbols are those of the library", same(sorted(name for name, _ in symbols), shown)
    later = [it for it in symbols if run("dpkg", "--compare-versions", it[1], "gt", package.field("Version")).returncode == 0]
    yield "libxarm1: symbols are of no later version", same(later, [])
    name = re.search(r"SONAME +(\S+)", run(tool("objdump"), "-p", f"{tree}/{LIBRARIES}/libxarm.so").stdout).group(1)
    yield "libxarm1: shlibs", same(package.control("shlibs", "libxarm1").split()[:3], [*name.split(".so."), "libxarm1"])
    yield "libxarm1: the loader's cache is triggered", same(package.control("triggers", "libxarm1"), "activate-noawait ldconfig\n")
    functions = sorted(name.split("@")[0] for name in shown if not name.startswith("XARM"))
    pages = sorted(it.removesuffix(".3.gz") for it in os.listdir(f"{tree}/usr/share/man/man3") if it != "xarm.3.gz")
    yield "libxarm-dev: a manual page of each function", same(pages, functions)


def programs(package):
    """README's example in C, by pkg-config."""
    tree = package.with_clients("libxarm1", "libxarm-dev")
    gcc, asked = tool("gcc"), tool("pkg-config")
    root = {"PKG_CONFIG_LIBDIR": f"{tree}/{LIBRARIES}/pkgconfig", "PKG_CONFIG_SYSROOT_DIR": tree, "PKG_CONFIG_ALLOW_SYSTEM_LIBS": "1"}
    how = {**os.environ, **root, "LD_LIBRARY_PATH": f"{tree}/{LIBRARIES}"}
    yield "pkg-config: the version", ends(run(asked, "--modversion", "xarm", env=how), package.field("Version", "libxarm-dev") + "\n")
    port, page = free_port(), package.read("usr/share/doc/libxarm-dev/README.md")
    source = re.sub(r"^    ", "", re.search(r"^    #include.*?^    }$", page, re.M | re.S).group(0), flags=re.M)
    source = source.replace("port=4187 name=bank", f"port={port} name={package.settings()['XARM_NAME']}")
    demo, made = package.put("demo.c", source), f"{package.room}/demo"
    words = run(asked, "--cflags", "--libs", "xarm", env=how).stdout.split()
    yield "c: README's example, by pkg-config", ends(run(gcc, "-Wall", "-Werror", demo, *words, "-o", made, env=how), "")
    with Server(package, port) as server:
        yield "c: a server", server.unready()
        yield "c: README's example ran with the shared library", ends(run(made, env=how), "0 hello\n")
        words = run(asked, "--cflags", "--libs", "--static", "xarm", env=how).stdout.replace("-lxarm", "-l:libxarm.a").split()
        alone = run(gcc, "-Wall", "-Werror", demo, *words, "-o", f"{made}-alone", env=how)
        yield "c: README's example, with the static library", ends(alone, "") or ends(run(f"{made}-alone"), "0 hello\n")
        yield "c: the server's end", same(server.stop(), ((0, "", ""), (0, "calls 22\n", f"{OPEN}xarm: PEER: shutdown\nxarm: shutdown\n")))


def depending(package):
    """What a program that was linked with the library depends on, as Debian's build of it finds out."""
    tree = package.with_clients("libxarm1", "libxarm-dev")
    tool("dpkg-shlibdeps"), tool("gcc")
    package.put("user.c", "#include <xarm.h>\nint main(void) { return xarm_delete(0, 0, 0); }\n")
    words = f"-I{tree}/usr/include/xarm", "user.c", f"-L{tree}/{LIBRARIES}", "-lxarm", "-o", "user"
    yield "dpkg-shlibdeps: a program", ends(run("gcc", *words, cwd=package.room), "")
    os.makedirs(f"{package.room}/debian/libxarm1/DEBIAN")
    for control in ("symbols", "shlibs"):
        package.put(f"debian/libxarm1/DEBIAN/{control}", package.control(control, "libxarm1"))
    package.put("debian/control", "Source: user\nMaintainer: a <a@b.c>\n\nPackage: user\nArchitecture: any\n")
    ran = run("dpkg-shlibdeps", "-O", "-Sdebian/libxarm1", f"-l{tree}/{LIBRARIES}", "user", cwd=package.room)
    yield "dpkg-shlibdeps: what it depends on", same(re.findall(r"libxarm1 \(.*?\)", ran.stdout) or ran.stderr, ["libxarm1 (>= 0.1.0)"])


def driver(package):
    """A class that was compiled with the installed jar commits a record."""
    jar, port = f"{package.with_clients('libxarm-java')}/usr/share/java/xarm.jar", free_port()
    tool("javac"), tool("java")
    demo = package.put("Demo.java", DEMO)
    quickly = [f"-J{it}" for it in QUICKLY]
    ran = run("javac", *quickly, "--release", "11", "-cp", jar, "-d", f"{package.room}/classes", demo)
    yield "java: a class with the jar", ends(ran, "")
    with Server(package, port) as server:
        yield "java: a server", server.unready()
        ran = run("java", *QUICKLY, "-cp", f"{jar}:{package.room}/classes", "Demo", port, package.settings()["XARM_NAME"])
        yield "java: a branch is committed", ends(ran, "0\n")


def repository(package):
    """Maven, offline, finds the jar in Debian's repository, which here is a folder of links to that and to the package's."""
    tree, debian = package.with_clients("libxarm-java"), "/usr/share/maven-repo"
    made = "usr/share/maven-repo/xarm/xarm-client"
    found = {name: os.path.realpath(f"{tree}/{made}/{name}/xarm-client-{name}.jar") for name in sorted(os.listdir(f"{tree}/{made}"))}
    jar = os.path.realpath(f"{tree}/usr/share/java/xarm.jar")
    yield "maven-repo: the jar, as its version and as debian", same(found, {package.field("Version", "libxarm-java"): jar, "debian": jar})
    tool("mvn")
    missing = [it for it in ("compiler", "resources") if not os.path.isdir(f"{debian}/org/apache/maven/plugins/maven-{it}-plugin")]
    if missing:
        raise Skipped(f"Maven's plugins aren't installed: {', '.join(missing)} (Debian's libmaven-*-plugin-java)")
    for part in (debian, f"{tree}/usr/share/maven-repo"):
        shutil.copytree(part, f"{package.room}/maven", copy_function=os.symlink, dirs_exist_ok=True)
    os.makedirs(f"{package.room}/project/src")
    package.put("project/pom.xml", PROJECT.replace("VERSION", package.field("Version", "libxarm-java")))
    package.put("project/src/Demo.java", DEMO)
    how = {**os.environ, "MAVEN_OPTS": " ".join(QUICKLY)}
    ran = run_long("mvn", "-o", "-q", "-B", f"-Dmaven.repo.local={package.room}/maven", "compile", cwd=f"{package.room}/project", env=how)
    done = os.path.exists(f"{package.room}/project/target/classes/Demo.class")
    yield "maven-repo: mvn -o compiles a class with it", None if (ran.returncode, done) == (0, True) else ran.stdout


def modules(package):
    """The installed module commits a record."""
    folder, port = f"{package.with_clients('python3-xarm')}/usr/lib/python3/dist-packages", free_port()
    how = {"PYTHONPATH": folder, "PYTHONDONTWRITEBYTECODE": "1"}
    with Server(package, port) as server:
        yield "python: a server", server.unready()
        ran = run(sys.executable, "-c", SCRIPT, port, package.settings()["XARM_NAME"], env=how)
        yield "python: a branch is committed", ends(ran, f"[] {folder}/xarm.py\n")
    ran = run(sys.executable, "-c", "import xarm_transaction; print(xarm_transaction.xarm.__file__)", env=how)
    yield "python: the data manager's module", ends(ran, f"{folder}/xarm.py\n")
