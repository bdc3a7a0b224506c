package xarm.tests;

import static xarm.tests.Expect.equal;
import static xarm.tests.Expect.holds;
import static xarm.tests.Expect.text;

import bitronix.tm.BitronixTransactionManager;
import bitronix.tm.TransactionManagerServices;
import bitronix.tm.resource.ehcache.EhCacheXAResourceProducer;
import java.nio.charset.StandardCharsets;
import java.nio.file.Path;
import java.util.ArrayList;
import java.util.List;
import java.util.Random;
import java.util.concurrent.TimeUnit;
import java.util.concurrent.atomic.AtomicBoolean;
import java.util.concurrent.atomic.AtomicInteger;
import java.util.concurrent.atomic.AtomicLong;
import java.util.concurrent.atomic.AtomicReference;
import java.util.concurrent.locks.ReadWriteLock;
import java.util.concurrent.locks.ReentrantReadWriteLock;
import javax.transaction.RollbackException;
import javax.transaction.xa.XAResource;
import xarm.client.Records;
import xarm.client.XarmException;
import xarm.client.XarmXAConnection;

/** Bitronix commits transfers over two servers, and one of them is killed now and then. */
final class BitronixTests implements Suite {
    private static final int KILLS = 30;
    private static final int CLERKS = 2;
    private static final int ACCOUNTS = 8;
    private static final long BALANCE = 1_000_000;
    private static final int MOST = 100;
    private static final int LONGEST_WORK = 150; // milliseconds between a first commit and a kill
    private static final int LIMIT_SECONDS = 600;
    private static final int CLERK_SECONDS = 60;

    private final AtomicInteger commits = new AtomicInteger();
    private final AtomicInteger rollbacks = new AtomicInteger();
    private final AtomicLong moved = new AtomicLong();
    private final AtomicBoolean isClosing = new AtomicBoolean();
    private final AtomicReference<Throwable> fault = new AtomicReference<>();
    private final ReadWriteLock office = new ReentrantReadWriteLock(true); // a clerk reads while a transfer is under way
    private final long seed = System.nanoTime();
    private int recovered;
    private BitronixTransactionManager manager;
    private Server bank;
    private Server shop;

    @Override
    public void run(Tests tests) throws Exception {
        bank = tests.server("bank");
        shop = tests.server("shop");
        manager = started(tests.folder());
        tests.test("Bitronix commits over two servers, one of them killed 30 times: the sums hold", this::killed);
        System.out.println("java: seed " + seed + ": " + commits + " transfers were committed and " + rollbacks + " rolled back, and "
                + recovered + " branches were in doubt after a kill");
        manager.shutdown();
        bank.close();
        shop.close();
    }

    private static BitronixTransactionManager started(Path folder) {
        TransactionManagerServices.getConfiguration()
                .setServerId("xarm-tests")
                .setLogPart1Filename(folder.resolve("bitronix1").toString())
                .setLogPart2Filename(folder.resolve("bitronix2").toString())
                .setBackgroundRecoveryIntervalSeconds(86_400) // never: see recover
                .setGracefulShutdownInterval(5)
                .setDisableJmx(true);
        return TransactionManagerServices.getTransactionManager();
    }

    private void killed() throws Exception {
        Random random = new Random(seed);
        long deadline = System.nanoTime() + TimeUnit.SECONDS.toNanos(LIMIT_SECONDS);
        fill(bank);
        fill(shop);
        // recovery takes the first resource of a name, which works for no branch
        registered(bank, "bank");
        registered(shop, "shop");
        List<Thread> clerks = new ArrayList<>();
        for (int i = 0; i < CLERKS; i++) {
            clerks.add(clerk(random.nextLong()));
        }
        for (int i = 0; i < KILLS; i++) {
            awaitCommit(deadline);
            Thread.sleep(random.nextInt(LONGEST_WORK));
            Server server = random.nextBoolean() ? bank : shop;
            server.kill();
            server.start();
            audit(deadline);
        }
        awaitCommit(deadline);
        isClosing.set(true);
        for (Thread clerk : clerks) {
            clerk.join(TimeUnit.SECONDS.toMillis(CLERK_SECONDS));
            holds(!clerk.isAlive(), "a clerk ends");
        }
        audit(deadline);
    }

    /** Between transfers all that was in doubt is completed, and each server has what was committed, and no more. */
    private void audit(long deadline) throws Exception {
        office.writeLock().lock();
        try (XarmXAConnection atBank = bank.connect(); XarmXAConnection atShop = shop.connect()) {
            recovered += inDoubt(atBank) + inDoubt(atShop);
            do {
                holds(System.nanoTime() < deadline, "nothing is left in doubt");
                recover();
            } while (inDoubt(atBank) + inDoubt(atShop) > 0);
            equal(ACCOUNTS * BALANCE - moved.get(), sum(atBank));
            equal(ACCOUNTS * BALANCE + moved.get(), sum(atShop));
        } finally {
            office.writeLock().unlock();
        }
    }

    /**
     * Has Bitronix recover, while no transfer is under way. Bitronix 2.1.4 looks first into its journal, and then which transactions are
     * under way: it rolls back what was left in doubt by one that decided to commit in between. And it recovers nothing where no
     * transaction is under way, so an empty one is.
     */
    private void recover() throws Exception {
        manager.begin();
        TransactionManagerServices.getRecoverer().run();
        manager.rollback();
    }

    private static byte[] account(int number) {
        return text("account " + number);
    }

    private static void fill(Server server) throws Exception {
        try (XarmXAConnection connection = server.connect()) {
            connection.getXAResource().start(Expect.xid("fill"), XAResource.TMNOFLAGS);
            for (int i = 0; i < ACCOUNTS; i++) {
                connection.getRecords().put(account(i), text(Long.toString(BALANCE)));
            }
            connection.getXAResource().end(Expect.xid("fill"), XAResource.TMSUCCESS);
            connection.getXAResource().commit(Expect.xid("fill"), true);
        }
    }

    private static XarmXAConnection registered(Server server, String name) throws Exception {
        XarmXAConnection connection = server.connect();
        EhCacheXAResourceProducer.registerXAResource(name, connection.getXAResource());
        return connection;
    }

    /** Takes from the one and gives to the other, until it is told that the day is over. */
    private Thread clerk(long clerkSeed) throws Exception {
        XarmXAConnection from = registered(bank, "bank");
        XarmXAConnection to = registered(shop, "shop");
        Random random = new Random(clerkSeed);
        Thread thread = new Thread(() -> {
            try {
                while (!isClosing.get()) {
                    office.readLock().lock();
                    try {
                        transfer(from, to, random.nextInt(ACCOUNTS), random.nextInt(MOST));
                    } finally {
                        office.readLock().unlock();
                    }
                }
            } catch (Exception | AssertionError wrong) {
                fault.compareAndSet(null, wrong);
            }
        });
        thread.setDaemon(true);
        thread.start();
        return thread;
    }

    private void transfer(XarmXAConnection from, XarmXAConnection to, int account, int amount) throws Exception {
        manager.begin();
        try {
            manager.getTransaction().enlistResource(from.getXAResource());
            manager.getTransaction().enlistResource(to.getXAResource());
            add(from.getRecords(), account, -amount);
            add(to.getRecords(), account, amount);
        } catch (Exception refused) {
            // late, busy, or a server is gone
            manager.rollback();
            rollbacks.incrementAndGet();
            return;
        }
        try {
            manager.commit();
        } catch (RollbackException undone) {
            rollbacks.incrementAndGet();
            return;
        }
        moved.addAndGet(amount);
        commits.incrementAndGet();
    }

    private static void add(Records records, int account, long amount) throws XarmException {
        long balance = number(records.get(account(account)));
        records.put(account(account), text(Long.toString(balance + amount)));
    }

    private static long number(byte[] text) {
        return Long.parseLong(new String(text, StandardCharsets.UTF_8));
    }

    /** One more transfer is committed. */
    private void awaitCommit(long deadline) throws Exception {
        int before = commits.get();
        while (commits.get() == before) {
            if (fault.get() != null) {
                throw new AssertionError("a transfer failed", fault.get());
            }
            holds(System.nanoTime() < deadline, "30 kills within " + LIMIT_SECONDS + " seconds");
            Thread.sleep(1);
        }
    }

    private static int inDoubt(XarmXAConnection connection) throws Exception {
        return connection.getXAResource().recover(XAResource.TMSTARTRSCAN | XAResource.TMENDRSCAN).length;
    }

    private static long sum(XarmXAConnection connection) throws Exception {
        long sum = 0;
        connection.getXAResource().start(Expect.xid("sum"), XAResource.TMNOFLAGS);
        for (int i = 0; i < ACCOUNTS; i++) {
            sum += number(connection.getRecords().get(account(i)));
        }
        connection.getXAResource().end(Expect.xid("sum"), XAResource.TMSUCCESS);
        connection.getXAResource().commit(Expect.xid("sum"), true);
        return sum;
    }
}
