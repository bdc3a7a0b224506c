package xarm.client;

import java.util.Map;
import javax.transaction.xa.XAException;
import javax.transaction.xa.XAResource;

/** The codes of replies. They are C193's, and so are the constants of {@link XAException}. */
final class Codes {
    private static final Map<Integer, String> NAMES = Map.ofEntries(
            Map.entry(XAResource.XA_OK, "XA_OK"),
            Map.entry(XAResource.XA_RDONLY, "XA_RDONLY"),
            Map.entry(XAException.XA_RETRY, "XA_RETRY"),
            Map.entry(XAException.XA_HEURMIX, "XA_HEURMIX"),
            Map.entry(XAException.XA_HEURRB, "XA_HEURRB"),
            Map.entry(XAException.XA_HEURCOM, "XA_HEURCOM"),
            Map.entry(XAException.XA_HEURHAZ, "XA_HEURHAZ"),
            Map.entry(XAException.XA_NOMIGRATE, "XA_NOMIGRATE"),
            Map.entry(XAException.XA_RBROLLBACK, "XA_RBROLLBACK"),
            Map.entry(XAException.XA_RBCOMMFAIL, "XA_RBCOMMFAIL"),
            Map.entry(XAException.XA_RBDEADLOCK, "XA_RBDEADLOCK"),
            Map.entry(XAException.XA_RBINTEGRITY, "XA_RBINTEGRITY"),
            Map.entry(XAException.XA_RBOTHER, "XA_RBOTHER"),
            Map.entry(XAException.XA_RBPROTO, "XA_RBPROTO"),
            Map.entry(XAException.XA_RBTIMEOUT, "XA_RBTIMEOUT"),
            Map.entry(XAException.XA_RBTRANSIENT, "XA_RBTRANSIENT"),
            Map.entry(XAException.XAER_ASYNC, "XAER_ASYNC"),
            Map.entry(XAException.XAER_RMERR, "XAER_RMERR"),
            Map.entry(XAException.XAER_NOTA, "XAER_NOTA"),
            Map.entry(XAException.XAER_INVAL, "XAER_INVAL"),
            Map.entry(XAException.XAER_PROTO, "XAER_PROTO"),
            Map.entry(XAException.XAER_RMFAIL, "XAER_RMFAIL"),
            Map.entry(XAException.XAER_DUPID, "XAER_DUPID"),
            Map.entry(XAException.XAER_OUTSIDE, "XAER_OUTSIDE"));

    private Codes() {}

    static String name(int code) {
        return NAMES.getOrDefault(code, Integer.toString(code));
    }

    /** Whether a branch with this code can only be rolled back, or is rolled back already: XA_RB*. */
    static boolean isRollback(int code) {
        return XAException.XA_RBBASE <= code && code <= XAException.XA_RBEND;
    }
}
