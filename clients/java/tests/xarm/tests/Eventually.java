package xarm.tests;

import javax.transaction.xa.XAException;

/** What comes about a moment later, as a server's hang-up of a connection that was closed. */
final class Eventually {
    private static final int TRIES = 6_000;
    private static final int PAUSE = 10;

    private Eventually() {}

    /** A call throws a code, perhaps after some times that it throws another one. */
    static void code(int wanted, int before, Tests.Body body) throws Exception {
        for (int i = 0; i < TRIES; i++) {
            try {
                body.run();
                throw new AssertionError("nothing was thrown, and not " + wanted);
            } catch (XAException refused) {
                if (refused.errorCode == wanted) {
                    return;
                }
                Expect.equal(before, refused.errorCode);
            }
            Thread.sleep(PAUSE);
        }
        throw new AssertionError("still " + before + ", and not " + wanted);
    }
}
