package xarm.client;

import java.io.Serializable;
import java.nio.charset.StandardCharsets;
import java.util.concurrent.TimeUnit;
import javax.naming.Reference;
import javax.naming.Referenceable;
import javax.naming.StringRefAddr;

/**
 * What a transaction manager is told of a server: where it listens, which name its resource manager has, who logs in, and how long a call
 * waits for an answer. It isn't {@code javax.sql.XADataSource}, since the server has records and no SQL, but has its shape, and its
 * properties have JDBC's names where it has them. Each takes effect for the connections made from then on.
 */
public final class XarmXADataSource implements Serializable, Referenceable {
    private static final long serialVersionUID = 1;
    private static final int MOST_NAME = 255;

    private String serverName = "127.0.0.1";
    private int portNumber = 4187;
    private String socketPath;
    private String databaseName = "xarm";
    private String user;
    private String password;
    private String description;
    private int loginTimeout;
    private int readTimeout = 30_000;
    private int validationInterval = 500;
    private boolean useTmJoin = true;

    /** A server at port 4187 of 127.0.0.1 with the name {@code xarm}, whose answers are waited for 30 seconds. */
    public XarmXADataSource() {}

    /** A server at a port of a host, with the name that it was started with. */
    public XarmXADataSource(String host, int port, String name) {
        setServerName(host);
        setPortNumber(port);
        setDatabaseName(name);
    }

    /** The same, and this user logs in. */
    public XarmXADataSource(String host, int port, String name, String user, String password) {
        this(host, port, name);
        setUser(user);
        setPassword(password);
    }

    /**
     * Connects, logs in if there is a user, and sends Open.
     *
     * @throws XarmException XAER_RMFAIL: nothing listens there; the server has another name (Open was answered XAER_INVAL); it didn't
     *     answer in time; Java is too old for a Unix socket; there is a user and no password; or the server doesn't know the password's
     *     verifier. With {@link Detail#ACCESS}: the server refuses the user or the password, the user may not open the resource manager, or
     *     there is no user and the server wants one. With {@link Detail#FRAME}: the server takes no logins
     */
    public XarmXAConnection getXAConnection() throws XarmException {
        return connected(user, password);
    }

    /**
     * Connects as this user.
     *
     * @throws XarmException as {@link #getXAConnection()}
     * @throws IllegalArgumentException as {@link #setUser} and {@link #setPassword}
     */
    public XarmXAConnection getXAConnection(String user, String password) throws XarmException {
        return connected(absent(user), absent(password));
    }

    private XarmXAConnection connected(String user, String password) throws XarmException {
        Session session = session(user, password);
        session.open(loginTimeout == 0 ? readTimeout : (int) Math.min(TimeUnit.SECONDS.toMillis(loginTimeout), Integer.MAX_VALUE));
        return new XarmXAConnection(session, useTmJoin);
    }

    /** One that connects at its first call. */
    XarmXAConnection unconnected() {
        return new XarmXAConnection(session(user, password), useTmJoin);
    }

    private Session session(String user, String password) {
        Login login = user == null ? null : new Login(user, password);
        return new Session(new Endpoint(serverName, portNumber, socketPath, databaseName), login, readTimeout, validationInterval);
    }

    /** A text that a manager sets to nothing isn't there. */
    private static String absent(String text) {
        return text == null || text.isEmpty() ? null : text;
    }

    public String getServerName() {
        return serverName;
    }

    /** The server's host, a name or an address. A server listens on 127.0.0.1 unless {@code --listen} says otherwise. */
    public void setServerName(String serverName) {
        if (serverName == null || serverName.isEmpty()) {
            throw new IllegalArgumentException("no host");
        }
        this.serverName = serverName;
    }

    /** Another name of {@link #getServerName}. */
    public String getHost() {
        return getServerName();
    }

    /** Another name of {@link #setServerName}. */
    public void setHost(String host) {
        setServerName(host);
    }

    public int getPortNumber() {
        return portNumber;
    }

    /** The server's {@code --port}: 1 to 65,535. */
    public void setPortNumber(int portNumber) {
        if (portNumber < 1 || portNumber > 65_535) {
            throw new IllegalArgumentException("port " + portNumber);
        }
        this.portNumber = portNumber;
    }

    /** Another name of {@link #getPortNumber}. */
    public int getPort() {
        return getPortNumber();
    }

    /** Another name of {@link #setPortNumber}. */
    public void setPort(int port) {
        setPortNumber(port);
    }

    /** The path of a Unix socket, or null where the server has a port. */
    public String getSocketPath() {
        return socketPath;
    }

    /**
     * The server's {@code --socket}, the path of a Unix socket: it is connected to in place of the port, and needs Java 16 or later. Null
     * or empty for the port.
     */
    public void setSocketPath(String socketPath) {
        this.socketPath = absent(socketPath);
    }

    public String getDatabaseName() {
        return databaseName;
    }

    /** The name of the resource manager, {@code --name} of the server: at most 255 bytes in UTF-8. */
    public void setDatabaseName(String databaseName) {
        if (databaseName.getBytes(StandardCharsets.UTF_8).length > MOST_NAME) {
            throw new IllegalArgumentException("a name of more than " + MOST_NAME + " bytes");
        }
        this.databaseName = databaseName;
    }

    /** Another name of {@link #getDatabaseName}. */
    public String getName() {
        return getDatabaseName();
    }

    /** Another name of {@link #setDatabaseName}. */
    public void setName(String name) {
        setDatabaseName(name);
    }

    public String getUser() {
        return user;
    }

    /**
     * Who logs in, by SCRAM-SHA-256, on each new connection, before anything else is asked: 1 to 64 letters, digits, {@code -}, {@code _},
     * {@code .} and {@code @} of ASCII. Null or empty if nobody does. A connection to a server that takes no logins, or that doesn't
     * know the password's verifier, is refused then.
     */
    public void setUser(String user) {
        this.user = absent(user) == null ? null : Login.checkedUser(user);
    }

    public String getPassword() {
        return password;
    }

    /**
     * The user's password, 1 to 1,024 bytes in UTF-8. It is never sent, and in no message; it is kept with the other properties, also if
     * the data source is serialized or named.
     */
    public void setPassword(String password) {
        this.password = absent(password) == null ? null : Login.checkedPassword(password);
    }

    public String getDescription() {
        return description;
    }

    /** For those who read it. */
    public void setDescription(String description) {
        this.description = description;
    }

    public int getLoginTimeout() {
        return loginTimeout;
    }

    /**
     * How many seconds {@link #getXAConnection()} waits for the connection, the login and the answer to Open; 0 for as long as a call
     * waits.
     */
    public void setLoginTimeout(int seconds) {
        if (seconds < 0) {
            throw new IllegalArgumentException("a login time-out of " + seconds + " s");
        }
        loginTimeout = seconds;
    }

    public int getReadTimeout() {
        return readTimeout;
    }

    /**
     * How many milliseconds a call waits for its answer, the connect and Open included where it makes a new connection: 1 or
     * more, since no call waits for ever. One that waited in vain is XAER_RMFAIL, and its connection is closed.
     */
    public void setReadTimeout(int milliseconds) {
        readTimeout = Session.checkedTimeout(milliseconds);
    }

    public int getValidationInterval() {
        return validationInterval;
    }

    /**
     * For how many milliseconds a connection may be idle before it is asked whether it stands ahead of a {@code start} or a scan: 500 if
     * not set, 0 to ask each time.
     */
    public void setValidationInterval(int milliseconds) {
        if (milliseconds < 0) {
            throw new IllegalArgumentException("an interval of " + milliseconds + " ms");
        }
        validationInterval = milliseconds;
    }

    public boolean getUseTmJoin() {
        return useTmJoin;
    }

    /**
     * Whether resources of connections to the same server and name are the same resource manager ({@code isSameRM}), so that in one
     * transaction the second connection joins the first one's branch (TMJOIN), and they read each other's writes. With branches of their
     * own, a read of what the other one wrote is XA_RETRY, and a write of what it read may be XA_RBTRANSIENT.
     *
     * <p>True if not set, since managers do well by it: Bitronix, whose setting of this name is true too, joins a branch only once the
     * other connection's work has ended; Narayana joins at once, ends each connection's work, and completes the branch by the first one;
     * Atomikos finds by it which resource recovers a connection. A server has one branch work for any number of sessions. If one
     * of them breaks, the branch can only be rolled back, as then the whole transaction would be with two branches.
     */
    public void setUseTmJoin(boolean useTmJoin) {
        this.useTmJoin = useTmJoin;
    }

    /** For a naming service: what {@link XarmXADataSourceFactory} makes an equal data source of. */
    @Override
    public Reference getReference() {
        Reference reference = new Reference(XarmXADataSource.class.getName(), XarmXADataSourceFactory.class.getName(), null);
        add(reference, "serverName", serverName);
        add(reference, "portNumber", portNumber);
        add(reference, "socketPath", socketPath);
        add(reference, "databaseName", databaseName);
        add(reference, "user", user);
        add(reference, "password", password);
        add(reference, "description", description);
        add(reference, "loginTimeout", loginTimeout);
        add(reference, "readTimeout", readTimeout);
        add(reference, "validationInterval", validationInterval);
        add(reference, "useTmJoin", useTmJoin);
        return reference;
    }

    private static void add(Reference reference, String property, Object value) {
        if (value != null) {
            reference.add(new StringRefAddr(property, value.toString()));
        }
    }

    @Override
    public String toString() {
        return databaseName + " at " + (socketPath == null ? serverName + ":" + portNumber : socketPath);
    }
}
