package felter;

import java.nio.ByteBuffer;

/** The handler of a controlled read. The read calls the handler with each message. The handler returns the action that
 * the read takes. */
@FunctionalInterface
public interface ControlledMessageHandler {
    /** The ways in which a controlled read goes on after a message was shown. */
    enum Action {
        /** Stops. The message stays in the ring. */
        ABORT,
        /** Takes the message, and stops. */
        BREAK,
        /** Takes the message, and goes on. */
        COMMIT,
        /**
         * Takes the message, and goes on. This does the same as COMMIT, since the producers get the room of each
         * message at once.
         */
        CONTINUE
    }

    /**
     * Handles a message, which is at an index of the buffer. The buffer is as {@link MessageHandler#onMessage} says.
     */
    Action onMessage(int msgTypeId, ByteBuffer buffer, int index, int length);
}
