/**
 * A client of {@code xarm serve} for transaction managers, by the {@code javax.transaction.xa} of the JDK alone.
 *
 * <p>{@link xarm.client.XarmXADataSource} says where a server is and who logs in, and makes connections. Each
 * {@link xarm.client.XarmXAConnection} is one session: its {@link xarm.client.XarmXAResource} goes to the transaction manager, and
 * its {@link xarm.client.Records} are read and written for the branch that the session works for. {@link xarm.client.XarmRecovery} is
 * what managers recover by.
 *
 * <p>The bytes are those of docs/PROTOCOL.md and docs/CLIENT.md.
 */
package xarm.client;
