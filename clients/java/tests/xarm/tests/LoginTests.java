package xarm.tests;

import static javax.transaction.xa.XAException.XAER_INVAL;
import static javax.transaction.xa.XAException.XAER_RMFAIL;
import static javax.transaction.xa.XAResource.TMNOFLAGS;
import static xarm.tests.Expect.code;
import static xarm.tests.Expect.equal;
import static xarm.tests.Expect.holds;
import static xarm.tests.Expect.illegal;
import static xarm.tests.Expect.refusal;
import static xarm.tests.Expect.value;
import static xarm.tests.Expect.xid;

import java.net.InetAddress;
import java.net.ServerSocket;
import java.nio.file.Files;
import java.nio.file.Path;
import java.nio.file.attribute.PosixFilePermissions;
import java.util.Arrays;
import java.util.Base64;
import java.util.HashSet;
import java.util.List;
import java.util.Set;
import javax.transaction.xa.XAException;
import javax.transaction.xa.XAResource;
import xarm.client.Detail;
import xarm.client.Logins;
import xarm.client.XarmException;
import xarm.client.XarmRecovery;
import xarm.client.XarmXAConnection;
import xarm.client.XarmXADataSource;
import xarm.client.XarmXid;

/** Logins: at a server in the test that keeps the verifier of RFC 7677's password, and at a live one if it takes logins. */
final class LoginTests implements Suite {
    private static final String USER = "user";
    private static final String SECRET = "pencil";
    // RFC 7677, 3: what is said if this nonce is the client's
    private static final String NONCE = "rOprNGfwEbeRWgbNEkqO";
    private static final String SALT = "W22ZaJ0SNY7soEsUEjb6gQ==";
    private static final String FIRST = "n,,n=user,r=rOprNGfwEbeRWgbNEkqO";
    private static final String CHALLENGE = "r=rOprNGfwEbeRWgbNEkqO%hvYDpWUa2RaTCAfuxFIlj)hNlF$k0,s=" + SALT + ",i=4096";
    private static final String FINAL = "c=biws,r=rOprNGfwEbeRWgbNEkqO%hvYDpWUa2RaTCAfuxFIlj)hNlF$k0,"
            + "p=dHzbZapWIk4jUhN+Ute9ytag9zjfMHgsqmmiz7AndVQ=";
    private static final String WELCOME = "v=6rriTRBi23WpRR/wtup+mMhUZUn/dB5nLTJRsjl95G4=";
    private static final List<Integer> LOGIN = List.of(Guard.FIRST, Guard.FINAL);
    private static final List<Integer> WELL = List.of(Guard.FIRST, Guard.FINAL, Guard.HELLO, Guard.OPEN);
    private static final int NONCE_BYTES = 18;
    private static final int SHORT = 300;

    private Guard guard;
    private Server server;

    @Override
    public void run(Tests tests) throws Exception {
        guard = new Guard();
        tests.test("PBKDF2 is that of RFC 7914's vectors", LoginTests::derived);
        tests.test("the messages of a login are those of RFC 7677", this::standard);
        tests.test("who has the password is let in, with another nonce each time", this::welcome);
        tests.test("a connection that is made anew logs in again, and so does recovery's", this::again);
        tests.test("a wrong password is refused, and nothing more is asked", this::wrong);
        tests.test("a server that doesn't know the verifier is refused, and asked for nothing more", this::stranger);
        tests.test("what is no reply to a login's message is refused", this::noReply);
        tests.test("a challenge that isn't to this login, or that asks for too little or too much, is refused", this::challenges);
        tests.test("a server that takes no logins, or answers another refusal, is told", this::withoutLogins);
        tests.test("a server that wants a login says so to who has none", this::withoutUser);
        tests.test("a connection that breaks in a login is lost, and the next call logs in", this::broken);
        tests.test("a login that isn't answered ends with the login's time-out", LoginTests::silent);
        tests.test("a user or a password that can't be is refused before it is used", this::arguments);
        tests.test("a fault names the user and the server, and nothing tells the password", this::untold);
        guard.close();
        server = tests.server();
        tests.test("a live server that takes no logins is told, and serves who doesn't log in", this::withoutLiveLogins);
        server.close();
        if (!tests.hasOption("--users")) {
            System.out.println("java: logins at a live server were not tried, since the program takes none");
            return;
        }
        server = tests.server("bank", "--users", users(tests.folder()).toString());
        tests.test("a client commits a branch at a live server, and logs in again once that was started anew", this::works);
        tests.test("a live server refuses a wrong password, an unknown name, and who doesn't log in", this::refuses);
        tests.test("a monitor may not open the resource manager of a live server", this::monitor);
        server.close();
    }

    private static void derived() {
        // RFC 7914, 11: the first 32 of its 64 bytes
        equal("55ac046e56e3089fec1691c22544b605f94185216dde0465e68b9d57c20dacbc", Logins.hi("passwd", "salt", 1));
        equal("4ddcd8f60b98be21830cee5ef22701f9641a4418d04c0414aeff08876b34ab56", Logins.hi("Password", "NaCl", 80_000));
    }

    private void standard() throws Exception {
        guard.answer(Guard.FIRST, Guard.message(Guard.CHALLENGED, CHALLENGE));
        guard.answer(Guard.FINAL, Guard.message(Guard.WELCOMED, WELCOME));
        // the guard lets nobody in whose proof isn't right
        Logins.connection(guard.port(), USER, SECRET, NONCE).close();
        equal(List.of(FIRST, FINAL), guard.said());
        equal(WELL, guard.ended());
        guard.answerWell();
    }

    private void welcome() throws Exception {
        Set<String> nonces = new HashSet<>();
        XarmXADataSource source = guard.source(null, null);
        for (int i = 0; i < 2; i++) {
            try (XarmXAConnection connection =
                    i == 0 ? guard.source(USER, SECRET).getXAConnection() : source.getXAConnection(USER, SECRET)) {
                connection.getXAResource().forget(xid("k"));
                String first = guard.said().get(0);
                equal("n,,n=user,r=", first.substring(0, 12));
                equal(NONCE_BYTES, Base64.getDecoder().decode(first.substring(12)).length);
                nonces.add(first);
            }
            equal(List.of(Guard.FIRST, Guard.FINAL, Guard.HELLO, Guard.OPEN, Guard.FORGET), guard.ended());
        }
        equal(2, nonces.size());
    }

    private void again() throws Exception {
        try (Relay relay = new Relay(guard.port())) {
            XarmXADataSource source = new XarmXADataSource("127.0.0.1", relay.port(), "fake", USER, SECRET);
            source.setValidationInterval(Server.NEVER);
            try (XarmXAConnection connection = source.getXAConnection()) {
                relay.cutReply(9);
                code(XAER_RMFAIL, () -> connection.getXAResource().forget(xid("k")));
                equal(List.of(Guard.FIRST, Guard.FINAL, Guard.HELLO, Guard.OPEN, Guard.FORGET), guard.ended());
                connection.getXAResource().forget(xid("k"));
            }
            equal(List.of(Guard.FIRST, Guard.FINAL, Guard.HELLO, Guard.OPEN, Guard.FORGET), guard.ended());
            try (XarmRecovery recovery = new XarmRecovery(source)) {
                recovery.getXAResources()[0].forget(xid("k"));
            }
            equal(List.of(Guard.FIRST, Guard.FINAL, Guard.HELLO, Guard.OPEN, Guard.FORGET), guard.ended());
        }
    }

    private void wrong() throws Exception {
        for (String wrong : List.of("Pencil", "pencil ", "p".repeat(1_024), "пароль")) {
            refusal(XAER_RMFAIL, Detail.ACCESS, guard.source(USER, wrong)::getXAConnection);
            equal(LOGIN, guard.ended());
        }
        refusal(XAER_RMFAIL, Detail.ACCESS, () -> guard.source(USER, SECRET).getXAConnection(USER, "wrong"));
        equal(LOGIN, guard.ended());
        try (XarmRecovery recovery = new XarmRecovery(guard.source(USER, "wrong"))) {
            XAResource resource = recovery.getXAResources()[0];
            code(XAER_RMFAIL, () -> resource.start(xid("k"), TMNOFLAGS));
            equal(LOGIN, guard.ended());
        }
    }

    private void stranger() throws Exception {
        String other = "v=" + Base64.getEncoder().encodeToString(new byte[32]);
        for (String last : List.of(WELCOME, "", "v=", other, "e=other-error", WELCOME + ",x=y")) {
            guard.answer(Guard.FINAL, Guard.message(Guard.WELCOMED, last));
            refusal(XAER_RMFAIL, Detail.NOTHING, guard.source(USER, SECRET)::getXAConnection);
            equal(LOGIN, guard.ended());
        }
        guard.answerWell();
    }

    private void noReply() throws Exception {
        for (int step : LOGIN) {
            int kind = step == Guard.FIRST ? Guard.CHALLENGED : Guard.WELCOMED;
            for (byte[] wrong : List.of(
                    Fake.reply(0, Detail.NOTHING, 0, new byte[0]),
                    Fake.reply(0, Detail.NOTHING, 1, new byte[8]),
                    Guard.message(Guard.CHALLENGED + Guard.WELCOMED - kind, step == Guard.FIRST ? WELCOME : CHALLENGE),
                    Guard.message(kind, "r".repeat(257)),
                    Fake.reply(XAER_INVAL, Detail.ACCESS, kind, new byte[0]))) {
                guard.answer(step, wrong);
                refusal(XAER_RMFAIL, Detail.NOTHING, guard.source(USER, SECRET)::getXAConnection);
                equal(step == Guard.FIRST ? List.of(Guard.FIRST) : LOGIN, guard.ended());
            }
            guard.answerWell();
        }
    }

    private void challenges() throws Exception {
        String front = "r=" + NONCE;
        String salted = ",s=" + SALT;
        for (String challenge : List.of(
                "",
                front + salted + ",i=4096",
                "r=other" + salted + ",i=4096",
                "r=x" + NONCE + salted + ",i=4096",
                front + "x".repeat(65) + salted + ",i=4096",
                front + "\u007f" + salted + ",i=4096",
                front + "x,s=,i=4096",
                front + "x,s=W22ZaJ0SNY7soEsUEjb6gQ,i=4096",
                front + "x,s=W22ZaJ0SNY7soEsUEjb6gR==,i=4096",
                front + "x,s=W22ZaJ0SNY7soEsUEjb6g,i=4096",
                front + "x,s=" + Base64.getEncoder().encodeToString(new byte[33]) + ",i=4096",
                front + "x" + salted + ",i=4095",
                front + "x" + salted + ",i=1",
                front + "x" + salted + ",i=04096",
                front + "x" + salted + ",i=-4096",
                front + "x" + salted + ",i=1000001",
                front + "x" + salted + ",i=99999999999999999999",
                front + "x" + salted + ",i=4096,x=y",
                front + "x" + salted + ",i=4096\n",
                "m=y," + front + "x" + salted + ",i=4096",
                front + "x,i=4096" + salted)) {
            guard.answer(Guard.FIRST, Guard.message(Guard.CHALLENGED, challenge));
            refusal(XAER_RMFAIL, Detail.NOTHING, () -> Logins.connection(guard.port(), USER, SECRET, NONCE));
            equal(List.of(Guard.FIRST), guard.ended());
        }
        // what is just within the limits is answered, which this server takes for a wrong password
        for (String challenge : List.of(
                front + "x,s=" + Base64.getEncoder().encodeToString(new byte[32]) + ",i=4096",
                front + "~".repeat(64) + ",s=AA==,i=1000000")) {
            guard.answer(Guard.FIRST, Guard.message(Guard.CHALLENGED, challenge));
            refusal(XAER_RMFAIL, Detail.ACCESS, () -> Logins.connection(guard.port(), USER, SECRET, NONCE));
            equal(LOGIN, guard.ended());
        }
        guard.answerWell();
        guard.said();
    }

    private void withoutLogins() throws Exception {
        guard.answer(Guard.FIRST, Fake.reply(XAER_INVAL, Detail.FRAME, 0, new byte[0]));
        refusal(XAER_RMFAIL, Detail.FRAME, guard.source(USER, SECRET)::getXAConnection);
        equal(List.of(Guard.FIRST), guard.ended());
        guard.answer(Guard.FIRST, Fake.reply(XAER_RMFAIL, Detail.MEMORY, 0, new byte[0]));
        refusal(XAER_RMFAIL, Detail.MEMORY, guard.source(USER, SECRET)::getXAConnection);
        equal(List.of(Guard.FIRST), guard.ended());
        guard.answerWell();
    }

    private void withoutUser() throws Exception {
        guard.answer(Guard.HELLO, Fake.reply(0, Detail.NOTHING, 8, new byte[] {0, 0, 0, 1, 0, 0, 0, 0, 0, 0, 0, 8}));
        String wanted = "open at 127.0.0.1:" + guard.port() + ": XAER_RMFAIL: the server wants a login, and there is no user";
        told(guard.source(null, null), Detail.ACCESS, wanted);
        equal(List.of(Guard.HELLO, Guard.OPEN), guard.ended());
        guard.answerWell();
    }

    private void broken() throws Exception {
        byte[] whole = Guard.message(Guard.CHALLENGED, CHALLENGE);
        for (int step : LOGIN) {
            for (int part : new int[] {0, 3, 18}) {
                guard.answer(step, Arrays.copyOf(whole, part));
                try (XarmRecovery recovery = new XarmRecovery(guard.source(USER, SECRET))) {
                    XAResource resource = recovery.getXAResources()[0];
                    code(XAER_RMFAIL, () -> resource.forget(xid("k")));
                    equal(step == Guard.FIRST ? List.of(Guard.FIRST) : LOGIN, guard.ended());
                    guard.answerWell();
                    resource.forget(xid("k"));
                }
                equal(List.of(Guard.FIRST, Guard.FINAL, Guard.HELLO, Guard.OPEN, Guard.FORGET), guard.ended());
            }
        }
    }

    private static void silent() throws Exception {
        try (ServerSocket silent = new ServerSocket(0, 50, InetAddress.getByName("127.0.0.1"))) {
            XarmXADataSource source = new XarmXADataSource("127.0.0.1", silent.getLocalPort(), "bank", USER, SECRET);
            source.setReadTimeout(SHORT);
            refusal(XAER_RMFAIL, Detail.NOTHING, source::getXAConnection);
        }
    }

    private void arguments() throws Exception {
        XarmXADataSource source = guard.source(USER, SECRET);
        for (String user : List.of("a,b", "a=b", "a b", "é", "user\n", "u".repeat(65))) {
            illegal(() -> source.setUser(user));
            illegal(() -> source.getXAConnection(user, SECRET));
        }
        for (String password : List.of("p".repeat(1_025), "é".repeat(513), "\ud800")) {
            illegal(() -> source.setPassword(password));
            illegal(() -> source.getXAConnection(USER, password));
        }
        equal(USER, source.getUser());
        equal(SECRET, source.getPassword());
        source.setUser("u".repeat(64));
        source.setPassword("é".repeat(512));
        source.setUser("aZ0.-_@");
        source.setPassword("");
        told(source, Detail.NOTHING, "open at 127.0.0.1:" + guard.port() + " as aZ0.-_@: XAER_RMFAIL: there is no password");
        source.setUser("");
        equal(List.of(), guard.ended());
        holds(source.getUser() == null && source.getPassword() == null, "what is empty isn't there");
    }

    private void untold() throws Exception {
        String front = "open at 127.0.0.1:" + guard.port() + " as user: XAER_RMFAIL: ";
        told(guard.source(USER, "Secret"), Detail.ACCESS, front + "the server refuses the name or the password");
        guard.answer(Guard.FINAL, Guard.message(Guard.WELCOMED, "v="));
        String stranger = front + "the server doesn't know the password's verifier, so it isn't who it says";
        told(guard.source(USER, SECRET), Detail.NOTHING, stranger);
        guard.answer(Guard.FINAL, new byte[0]);
        told(guard.source(USER, SECRET), Detail.NOTHING, front + "the server ended the connection");
        guard.answer(Guard.FIRST, Fake.reply(XAER_INVAL, Detail.FRAME, 0, new byte[0]));
        told(guard.source(USER, SECRET), Detail.FRAME, front + "the server takes no logins");
        guard.answerWell();
        equal("fake at 127.0.0.1:" + guard.port(), guard.source(USER, SECRET).toString());
    }

    /** What the fault of a connection says. */
    private static void told(XarmXADataSource source, Detail detail, String wanted) throws Exception {
        try {
            source.getXAConnection();
        } catch (XarmException refused) {
            equal(wanted, refused.getMessage());
            equal(detail, refused.detail());
            holds(source.getPassword() == null || !refused.toString().contains(source.getPassword()), "no password is told");
            return;
        }
        throw new AssertionError("nothing was thrown, and not " + wanted);
    }

    /** A file of users with each role, and the same password. */
    private static Path users(Path folder) throws Exception {
        StringBuilder text = new StringBuilder();
        String[][] roles = {{USER, "client"}, {"duty", "operator"}, {"eve", "monitor"}};
        for (String[] it : roles) {
            text.append(String.format("[%s]%nrole = \"%s\"%nverifier = \"%s\"%n", it[0], it[1], Guard.VERIFIER));
        }
        var mine = PosixFilePermissions.asFileAttribute(PosixFilePermissions.fromString("rw-------"));
        return Files.writeString(Files.createFile(folder.resolve("users"), mine), text);
    }

    private void withoutLiveLogins() throws Exception {
        refusal(XAER_RMFAIL, Detail.FRAME, () -> server.source().getXAConnection(USER, SECRET));
        try (XarmXAConnection connection = server.connect()) {
            value(connection, "g0", null);
        }
    }

    private void works() throws Exception {
        XarmXADataSource source = server.source();
        source.setUser(USER);
        source.setPassword(SECRET);
        try (XarmXAConnection connection = source.getXAConnection(); XarmXAConnection duty = source.getXAConnection("duty", SECRET)) {
            Work.commit(connection, xid("live"), "g1", "v");
            XarmXid branch = xid("prepared");
            Work.prepare(duty, branch, "g2", "v");
            server.kill();
            server.start();
            code(XAER_RMFAIL, () -> connection.getXAResource().prepare(branch));
            connection.getXAResource().commit(branch, false);
            value(connection, "g1", "v");
            value(connection, "g2", "v");
        }
    }

    private void refuses() throws Exception {
        for (String[] it : new String[][] {{USER, "Pencil"}, {"nobody", SECRET}, {null, null}}) {
            refusal(XAER_RMFAIL, Detail.ACCESS, () -> server.source().getXAConnection(it[0], it[1]));
        }
    }

    private void monitor() throws Exception {
        try {
            server.source().getXAConnection("eve", SECRET);
        } catch (XarmException refused) {
            equal(XAException.XAER_RMFAIL, refused.code());
            equal(Detail.ACCESS, refused.detail());
            holds(refused.getMessage().endsWith(" as eve: XAER_RMFAIL: the user may not open the resource manager"), refused.getMessage());
            return;
        }
        throw new AssertionError("a monitor opened it");
    }
}
