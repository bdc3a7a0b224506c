package xarm.tests;

import static javax.transaction.xa.XAException.XAER_INVAL;
import static javax.transaction.xa.XAException.XAER_NOTA;
import static javax.transaction.xa.XAException.XAER_PROTO;
import static javax.transaction.xa.XAException.XAER_RMERR;
import static javax.transaction.xa.XAException.XAER_RMFAIL;
import static javax.transaction.xa.XAException.XA_RBOTHER;
import static javax.transaction.xa.XAException.XA_RETRY;
import static javax.transaction.xa.XAResource.TMNOFLAGS;
import static javax.transaction.xa.XAResource.TMSTARTRSCAN;
import static javax.transaction.xa.XAResource.XA_OK;
import static xarm.tests.Expect.code;
import static xarm.tests.Expect.equal;
import static xarm.tests.Expect.refusal;
import static xarm.tests.Expect.text;
import static xarm.tests.Expect.xid;

import java.nio.ByteBuffer;
import java.util.ArrayList;
import java.util.List;
import javax.transaction.xa.XAException;
import javax.transaction.xa.XAResource;
import xarm.client.Detail;
import xarm.client.Hellos;
import xarm.client.XarmXAConnection;
import xarm.client.XarmXid;

/** Codes that take a device, a log or a memory that fails, and replies that are none: a fake server gives them. */
final class DeviceTests implements Suite {
    private static final int READ_TIMEOUT = 10_000;
    private static final byte[] NO_BODY = new byte[0];
    private static final int FIRST_COMPLETION = 4; // of those that are asked again

    private XarmXid branch = xid("device");
    private int branches;
    private Fake fake;
    private XarmXAConnection connection;
    private XAResource resource;

    @Override
    public void run(Tests tests) throws Exception {
        fake = new Fake();
        connection = fake.connect(READ_TIMEOUT);
        resource = connection.getXAResource();
        tests.test("each code of each method is an XAException with this code", this::eachCode);
        tests.test("each detail comes with the refusal of a record's call", this::eachDetail);
        tests.test("a commit that the log refused is XA_RETRY, and is asked again", this::retry);
        tests.test("a full log is told by prepare and a commit in one phase, and the rollback is XA_OK", this::logFull);
        tests.test("a commit in one phase that the log refused is XAER_RMERR, and the rollback is XA_OK", this::onePhaseRefused);
        tests.test("a prepare that the log refused is XAER_RMERR, and is rolled back by a frame", this::prepareRefused);
        tests.test("a refused page of recover is thrown", this::pageRefused);
        tests.test("what is no reply is XAER_RMFAIL, and the next call connects anew", this::noReply);
        tests.test("a connection knows what its server speaks: an older one, this one and a later one", this::hellos);
        tests.test("what is no answer to a hello is XAER_RMFAIL, and the next connection asks anew", this::noHello);
        fake.close();
    }

    /** Of XAER_PROTO, JoinTests tells when a completion is asked again. */
    private void eachCode() throws Exception {
        List<Integer> codes = new ArrayList<>(List.of(4, 5, 6, 7, 8, 9));
        for (int refused = -2; refused >= -9; refused--) {
            codes.add(refused);
        }
        List<Tests.Body> methods = List.of(
                () -> resource.start(branch, TMNOFLAGS),
                () -> resource.end(branch, XAResource.TMSUCCESS),
                () -> resource.commit(branch, false),
                () -> resource.forget(branch),
                () -> resource.prepare(branch),
                () -> resource.commit(branch, true),
                () -> resource.rollback(branch));
        for (Tests.Body method : methods) {
            for (int code : codes) {
                if (code != XAER_PROTO || methods.indexOf(method) < FIRST_COMPLETION) {
                    fresh();
                    fake.answer(code, Detail.NOTHING);
                    code(code, method);
                }
            }
        }
        for (int code = XAException.XA_RBBASE; code <= XAException.XA_RBEND; code++) {
            int mark = code;
            fresh();
            fake.answer(mark, Detail.NOTHING);
            code(mark, () -> resource.prepare(branch));
            fake.answer(mark, Detail.NOTHING);
            code(mark, () -> resource.rollback(branch));
        }
    }

    /** A new session, and a branch of which nothing is known. */
    private void fresh() throws Exception {
        branches++;
        branch = xid("device" + branches);
        connection.close();
        connection = fake.connect(READ_TIMEOUT);
        resource = connection.getXAResource();
    }

    private void eachDetail() throws Exception {
        for (Detail detail : Detail.values()) {
            fake.answer(XAER_RMFAIL, detail);
            refusal(XAER_RMFAIL, detail, () -> connection.getRecords().put(text("k"), text("v")));
        }
        // those that a later server may have
        for (int later : new int[] {9, 127, 128, 255}) {
            fake.answer(changed(Fake.reply(XAER_RMFAIL, Detail.NOTHING, 0, NO_BODY), 9, later));
            refusal(XAER_RMFAIL, Detail.DEVICE, () -> connection.getRecords().put(text("k"), text("v")));
            fake.answer(changed(Fake.reply(XAER_INVAL, Detail.NOTHING, 0, NO_BODY), 9, later));
            refusal(XAER_INVAL, Detail.NOTHING, () -> connection.getRecords().put(text("k"), text("v")));
            fake.answer(changed(Fake.reply(XA_OK, Detail.NOTHING, 0, NO_BODY), 9, later));
            connection.getRecords().put(text("k"), text("v"));
        }
    }

    private void retry() throws Exception {
        for (Detail detail : List.of(Detail.DEVICE, Detail.MEMORY)) {
            fake.answer(XA_RETRY, detail);
            code(XA_RETRY, () -> resource.commit(branch, false));
        }
        fake.answer(XA_OK, Detail.NOTHING);
        resource.commit(branch, false);
    }

    private void logFull() throws Exception {
        for (Tests.Body method : List.<Tests.Body>of(() -> resource.prepare(branch), () -> resource.commit(branch, true))) {
            fake.answer(XA_RBOTHER, Detail.LOG_FULL);
            code(XA_RBOTHER, method);
            fake.answer(XAER_NOTA, Detail.NOTHING);
            resource.rollback(branch);
        }
    }

    private void onePhaseRefused() throws Exception {
        fake.answer(XAER_RMERR, Detail.DEVICE);
        code(XAER_RMERR, () -> resource.commit(branch, true));
        fake.answer(XAER_NOTA, Detail.NOTHING);
        resource.rollback(branch);
    }

    private void prepareRefused() throws Exception {
        fake.answer(XAER_RMERR, Detail.DEVICE);
        code(XAER_RMERR, () -> resource.prepare(branch));
        fake.answer(XA_OK, Detail.NOTHING);
        resource.rollback(branch);
        fake.answer(XAER_NOTA, Detail.NOTHING);
        code(XAER_NOTA, () -> resource.rollback(branch));
    }

    private void pageRefused() throws Exception {
        fake.answer(XAER_RMFAIL, Detail.MEMORY);
        code(XAER_RMFAIL, () -> resource.recover(TMSTARTRSCAN));
    }

    private void noReply() throws Exception {
        byte[] well = Fake.reply(XA_OK, Detail.NOTHING, 0, NO_BODY);
        List<byte[]> faults = List.of(
                changed(well, 4, 2), // the version
                changed(well, 18, 5), // the kind
                Fake.reply(XA_OK, Detail.NOTHING, 0, new byte[1]), // a byte after it
                Fake.reply(XA_OK, Detail.NOTHING, 1, new byte[8]), // a number, where none is answered
                Fake.reply(XA_OK, Detail.NOTHING, 1, new byte[7]), // a number that is cut
                Fake.reply(XA_OK, Detail.NOTHING, 2, new byte[] {64, 1}), // a value of 16,385 bytes
                Fake.reply(1, Detail.NOTHING, 4, new byte[] {0, 1, 0, 0, 0, 1, 0, 0}), // an XID without a global part
                new byte[4], // a frame of no bytes
                ByteBuffer.allocate(4).putInt(65_536).array(), // a length that no frame has
                ByteBuffer.allocate(4).putInt(-1).array());
        for (byte[] fault : faults) {
            fake.answer(fault);
            code(XAER_RMFAIL, () -> resource.forget(branch));
            fake.answer(XA_OK, Detail.NOTHING);
            resource.forget(branch);
        }
        // a start is answered by a number, a get by a value or its absence, a recover by as many XIDs as its code says
        fake.answer(Fake.reply(1, Detail.NOTHING, 4, new byte[2]));
        code(XAER_RMFAIL, () -> resource.recover(TMSTARTRSCAN));
        fake.answer(Fake.reply(0, Detail.NOTHING, 4, new byte[2]));
        equal(0, resource.recover(TMSTARTRSCAN).length);
        fake.answer(well);
        refusal(XAER_RMFAIL, Detail.NOTHING, () -> connection.getRecords().get(text("k")));
        fake.answer(well);
        code(XAER_RMFAIL, () -> resource.start(branch, TMNOFLAGS));
    }

    private static byte[] changed(byte[] frame, int at, int to) {
        byte[] other = frame.clone();
        other[at] = (byte) to;
        return other;
    }

    private static byte[] hello(int code, int revision, long features) {
        return Fake.reply(code, Detail.NOTHING, 8, ByteBuffer.allocate(12).putInt(revision).putLong(features).array());
    }

    private void hellos() throws Exception {
        try (Fake server = new Fake()) {
            equal("0 0", Hellos.told(server.port()));
            server.hello(Fake.reply(XAER_RMFAIL, Detail.MEMORY, 0, NO_BODY));
            equal("0 0", Hellos.told(server.port()));
            server.hello(hello(XA_OK, 1, 3));
            equal("1 3", Hellos.told(server.port()));
            server.hello(hello(XA_OK, -1, Long.MIN_VALUE | 1));
            equal("4294967295 8000000000000001", Hellos.told(server.port()));
        }
    }

    private void noHello() throws Exception {
        List<byte[]> faults = List.of(
                Fake.reply(XA_OK, Detail.NOTHING, 0, NO_BODY), // a success without a body
                hello(XAER_INVAL, 1, 3), // a refusal with one
                Fake.reply(XA_OK, Detail.NOTHING, 8, new byte[11]), // one that is cut
                Fake.reply(XA_OK, Detail.NOTHING, 8, new byte[13])); // a byte after it
        try (Fake server = new Fake()) {
            for (byte[] fault : faults) {
                server.hello(fault);
                refusal(XAER_RMFAIL, Detail.NOTHING, () -> Hellos.told(server.port()));
                server.hello(hello(XA_OK, 1, 3));
                equal("1 3", Hellos.told(server.port()));
            }
        }
    }
}
