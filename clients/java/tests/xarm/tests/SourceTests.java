package xarm.tests;

import static javax.transaction.xa.XAException.XAER_RMFAIL;
import static javax.transaction.xa.XAResource.TMNOFLAGS;
import static javax.transaction.xa.XAResource.TMSTARTRSCAN;
import static xarm.tests.Expect.code;
import static xarm.tests.Expect.equal;
import static xarm.tests.Expect.holds;
import static xarm.tests.Expect.illegal;
import static xarm.tests.Expect.refusal;
import static xarm.tests.Expect.value;
import static xarm.tests.Expect.xid;

import com.atomikos.datasource.ResourceException;
import com.atomikos.datasource.xa.XATransactionalResource;
import java.beans.Introspector;
import java.beans.PropertyDescriptor;
import java.io.ByteArrayInputStream;
import java.io.ByteArrayOutputStream;
import java.io.ObjectInputStream;
import java.io.ObjectOutputStream;
import java.net.InetAddress;
import java.net.ServerSocket;
import java.util.ArrayList;
import java.util.List;
import java.util.concurrent.TimeUnit;
import java.util.stream.Collectors;
import java.util.stream.Stream;
import javax.naming.Reference;
import javax.naming.StringRefAddr;
import javax.naming.spi.ObjectFactory;
import javax.transaction.xa.XAResource;
import org.jboss.tm.XAResourceRecovery;
import xarm.client.Detail;
import xarm.client.XarmException;
import xarm.client.XarmRecovery;
import xarm.client.XarmXAConnection;
import xarm.client.XarmXADataSource;
import xarm.client.XarmXid;

/** Data sources: what they say of a server, how that is kept, and what recovery is given. */
final class SourceTests implements Suite {
    private static final int FIRST_WITH_UNIX = 16;
    private static final int SHORT = 300;

    private Tests tests;
    private Server server;

    @Override
    public void run(Tests tests) throws Exception {
        this.tests = tests;
        server = tests.server();
        tests.test("a Unix socket is connected to, times out, and is connected to anew", this::unixSocket);
        tests.test("a data source's properties are a bean's, by JDBC's names and by short ones", this::properties);
        tests.test("a data source is serialized, and named, with each of its properties", this::kept);
        tests.test("a login's time-out is its own", this::login);
        tests.test("Narayana's recovery has a resource, also while the server is down", this::narayana);
        tests.test("Atomikos' recovery finds a connection's resource, and has a new one", this::atomikos);
        server.close();
    }

    private void unixSocket() throws Exception {
        String path = tests.folder().resolve("socket").toString();
        XarmXADataSource source = new XarmXADataSource();
        source.setSocketPath(path);
        source.setName("bank");
        equal("bank at " + path, source.toString());
        if (Runtime.version().feature() < FIRST_WITH_UNIX) {
            refusal(XAER_RMFAIL, Detail.NOTHING, source::getXAConnection);
            return;
        }
        try (Server there = tests.server("bank", "--socket", path); XarmXAConnection connection = source.getXAConnection()) {
            Work.commit(connection, xid("unix"), "s1", "v".repeat(16_384));
            LostTests.interrupted(connection, "s2");
            XarmXid branch = xid("silent");
            Work.end(connection, branch, "s3", "v");
            there.stop(true);
            connection.setReadTimeout(SHORT);
            long begin = System.nanoTime();
            code(XAER_RMFAIL, () -> connection.getXAResource().prepare(branch));
            holds(TimeUnit.NANOSECONDS.toMillis(System.nanoTime() - begin) >= SHORT, "it was waited for");
            closesWhileCalling(source);
            there.stop(false);
            connection.setReadTimeout(source.getReadTimeout());
            value(connection, "s1", "v".repeat(16_384));
            there.kill();
            refusal(XAER_RMFAIL, Detail.NOTHING, source::getXAConnection);
        }
    }

    /** The server doesn't answer. */
    private static void closesWhileCalling(XarmXADataSource source) throws Exception {
        Thread opening = new Thread(() -> {
            try {
                source.getXAConnection();
            } catch (XarmException broken) {
                // once it goes on, or doesn't
            }
        });
        opening.setDaemon(true);
        opening.start();
        XarmRecovery recovery = new XarmRecovery(source);
        Thread scanning = new Thread(() -> {
            try {
                recovery.getXAResources()[0].recover(TMSTARTRSCAN);
            } catch (Exception broken) {
                // it was closed
            }
        });
        scanning.start();
        Thread.sleep(SHORT);
        recovery.close();
        scanning.join(10 * SHORT);
        holds(!scanning.isAlive(), "a call ends once its connection is closed");
    }

    private void properties() throws Exception {
        List<String> names = settings().stream().map(PropertyDescriptor::getName).collect(Collectors.toList());
        equal(List.of("databaseName", "description", "host", "loginTimeout", "name", "password", "port", "portNumber", "readTimeout",
                "serverName", "socketPath", "useTmJoin", "user", "validationInterval"), names);
        XarmXADataSource source = source();
        equal("server.example", source.getHost());
        equal(4_711, source.getPort());
        equal("ledger", source.getName());
        illegal(() -> source.setLoginTimeout(-1));
        illegal(() -> source.setValidationInterval(-1));
        source.setSocketPath("");
        equal("ledger at server.example:4711", source.toString());
    }

    /** No property is as it is if it isn't set. */
    private static XarmXADataSource source() {
        XarmXADataSource source = new XarmXADataSource();
        source.setServerName("server.example");
        source.setPortNumber(4_711);
        source.setSocketPath("/run/xarm.socket");
        source.setDatabaseName("ledger");
        source.setUser("ada");
        source.setPassword("secret, whole");
        source.setDescription("money");
        source.setLoginTimeout(7);
        source.setReadTimeout(8);
        source.setValidationInterval(9);
        source.setUseTmJoin(false);
        return source;
    }

    private static List<Object> told(XarmXADataSource source) throws Exception {
        List<Object> told = new ArrayList<>();
        for (PropertyDescriptor property : settings()) {
            told.add(property.getReadMethod().invoke(source));
        }
        return told;
    }

    private static List<PropertyDescriptor> settings() throws Exception {
        PropertyDescriptor[] all = Introspector.getBeanInfo(XarmXADataSource.class, Object.class).getPropertyDescriptors();
        return Stream.of(all).filter(it -> it.getWriteMethod() != null && it.getReadMethod() != null).collect(Collectors.toList());
    }

    private void kept() throws Exception {
        XarmXADataSource source = source();
        ByteArrayOutputStream bytes = new ByteArrayOutputStream();
        try (ObjectOutputStream output = new ObjectOutputStream(bytes)) {
            output.writeObject(source);
        }
        try (ObjectInputStream input = new ObjectInputStream(new ByteArrayInputStream(bytes.toByteArray()))) {
            equal(told(source), told((XarmXADataSource) input.readObject()));
        }
        Reference reference = source.getReference();
        ObjectFactory factory = (ObjectFactory) Class.forName(reference.getFactoryClassName()).getConstructor().newInstance();
        equal(told(source), told((XarmXADataSource) factory.getObjectInstance(reference, null, null, null)));
        Reference spelled = new Reference(XarmXADataSource.class.getName(), factory.getClass().getName(), null);
        spelled.add(new StringRefAddr("host", "other.example"));
        spelled.add(new StringRefAddr("port", "99"));
        spelled.add(new StringRefAddr("name", "n"));
        spelled.add(new StringRefAddr("auth", "Container"));
        equal("n at other.example:99", factory.getObjectInstance(spelled, null, null, null).toString());
        holds(factory.getObjectInstance(new Reference("java.lang.String"), null, null, null) == null, "of another class there is none");
        holds(factory.getObjectInstance("bank", null, null, null) == null, "of what is no reference there is none");
    }

    private void login() throws Exception {
        try (ServerSocket silent = new ServerSocket(0, 50, InetAddress.getByName("127.0.0.1"))) {
            XarmXADataSource source = new XarmXADataSource("127.0.0.1", silent.getLocalPort(), "bank");
            source.setLoginTimeout(1);
            long begin = System.nanoTime();
            refusal(XAER_RMFAIL, Detail.NOTHING, source::getXAConnection);
            long took = TimeUnit.NANOSECONDS.toMillis(System.nanoTime() - begin);
            holds(950 <= took && took < source.getReadTimeout() / 2, took + " ms are about a second");
        }
    }

    /** Its branch is prepared, and nothing but recovery knows of it. */
    private void narayana() throws Exception {
        try (XarmXAConnection connection = server.connect()) {
            Work.prepare(connection, xid("narayana"), "s4", "v");
        }
        server.kill();
        try (XarmRecovery recovery = new XarmRecovery(server.source())) {
            XAResourceRecovery registered = recovery::getXAResources;
            equal(1, registered.getXAResources().length);
            code(XAER_RMFAIL, () -> registered.getXAResources()[0].recover(TMSTARTRSCAN));
            server.start();
            XAResource resource = registered.getXAResources()[0];
            equal(xid("narayana"), resource.recover(TMSTARTRSCAN)[0]);
            resource.commit(xid("narayana"), false);
        }
    }

    private static final class Registered extends XATransactionalResource {
        private final XarmRecovery recovery;

        Registered(XarmRecovery recovery) {
            this.recovery = recovery;
        }

        @Override
        protected XAResource refreshXAConnection() throws ResourceException {
            try {
                return recovery.refreshXAConnection();
            } catch (XarmException fault) {
                throw new ResourceException("no connection", fault);
            }
        }
    }

    private void atomikos() throws Exception {
        try (XarmXAConnection connection = server.connect(); XarmRecovery recovery = new XarmRecovery(server.source())) {
            XATransactionalResource registered = new Registered(recovery);
            holds(registered.usesXAResource(connection.getXAResource()), "it is found by isSameRM");
            Work.prepare(connection, xid("atomikos"), "s5", "v");
            XAResource resource = registered.getXAResource();
            equal(xid("atomikos"), resource.recover(TMSTARTRSCAN)[0]);
            resource.rollback(xid("atomikos"));
            holds(recovery.refreshXAConnection() != resource, "it has a new one");
            code(XAER_RMFAIL, () -> resource.start(xid("old"), TMNOFLAGS));
        }
    }
}
