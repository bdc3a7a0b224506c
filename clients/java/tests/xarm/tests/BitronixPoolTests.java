package xarm.tests;

import static xarm.tests.Expect.equal;
import static xarm.tests.Expect.text;
import static xarm.tests.Expect.value;

import bitronix.tm.BitronixTransactionManager;
import bitronix.tm.TransactionManagerServices;
import bitronix.tm.utils.UidGenerator;
import java.nio.charset.StandardCharsets;
import java.util.concurrent.TimeUnit;
import javax.transaction.xa.XAResource;
import javax.transaction.xa.Xid;
import xarm.bitronix.XarmConnection;
import xarm.bitronix.XarmPool;
import xarm.client.XarmXAConnection;

/** The pool of connections for Bitronix: they are enlisted, go on in a branch, and one recovers. */
final class BitronixPoolTests implements Suite {
    private static final int LIMIT_SECONDS = 60;

    private Server bank;
    private Server shop;
    private XarmPool atBank;
    private XarmPool atShop;
    private BitronixTransactionManager manager;

    @Override
    public void run(Tests tests) throws Exception {
        bank = tests.server("bank");
        shop = tests.server("shop");
        TransactionManagerServices.getConfiguration()
                .setServerId("xarm-pools")
                .setLogPart1Filename(tests.folder().resolve("pools1").toString())
                .setLogPart2Filename(tests.folder().resolve("pools2").toString())
                .setBackgroundRecoveryIntervalSeconds(86_400)
                .setGracefulShutdownInterval(5)
                .setDisableJmx(true);
        atBank = pool(bank, "bank");
        atShop = pool(shop, "shop");
        manager = TransactionManagerServices.getTransactionManager();
        tests.test("connections of two pools are enlisted by themselves, and committed", this::committed);
        tests.test("what a transaction wrote by a connection that it closed, its next one reads", this::goesOn);
        tests.test("a pool goes on, and recovers a branch, after its server was killed", this::recovered);
        manager.shutdown();
        atBank.close();
        atShop.close();
        bank.close();
        shop.close();
    }

    private static XarmPool pool(Server server, String name) {
        XarmPool pool = new XarmPool();
        pool.setUniqueName(name + " pool");
        pool.setMaxPoolSize(3);
        pool.getDriverProperties().setProperty("serverName", "127.0.0.1");
        pool.getDriverProperties().setProperty("portNumber", Integer.toString(server.port()));
        pool.getDriverProperties().setProperty("databaseName", name);
        pool.getDriverProperties().setProperty("validationInterval", "0");
        pool.init();
        return pool;
    }

    private void committed() throws Exception {
        for (String round : new String[] {"one", "two"}) {
            manager.begin();
            for (XarmPool pool : new XarmPool[] {atBank, atShop}) {
                try (XarmConnection connection = pool.getConnection()) {
                    connection.getRecords().put(text("pooled"), text(round));
                }
            }
            manager.commit();
            for (Server server : new Server[] {bank, shop}) {
                try (XarmXAConnection connection = server.connect()) {
                    value(connection, "pooled", round);
                }
            }
        }
    }

    private void goesOn() throws Exception {
        manager.begin();
        try (XarmConnection first = atBank.getConnection()) {
            first.getRecords().put(text("shared"), text("v"));
        }
        try (XarmConnection second = atBank.getConnection()) {
            equal("v", new String(second.getRecords().get(text("shared")), StandardCharsets.UTF_8));
        }
        manager.rollback();
        try (XarmXAConnection connection = bank.connect()) {
            value(connection, "shared", null);
        }
    }

    private void recovered() throws Exception {
        Xid branch = UidGenerator.generateXid(UidGenerator.generateUid());
        try (XarmXAConnection connection = bank.connect()) {
            Work.prepare(connection, branch, "doubt", "v");
        }
        bank.kill();
        bank.start();
        try (XarmXAConnection connection = bank.connect()) {
            long deadline = System.nanoTime() + TimeUnit.SECONDS.toNanos(LIMIT_SECONDS);
            XAResource resource = connection.getXAResource();
            do {
                Expect.holds(System.nanoTime() < deadline, "it is rolled back, since no journal has it");
                manager.begin();
                TransactionManagerServices.getRecoverer().run();
                manager.rollback();
            } while (resource.recover(XAResource.TMSTARTRSCAN | XAResource.TMENDRSCAN).length > 0);
        }
        committed();
    }
}
