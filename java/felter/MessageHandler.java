package felter;

import java.nio.ByteBuffer;

/** The handler of a read. The read calls the handler with each message. */
@FunctionalInterface
public interface MessageHandler {
    /**
     * Handles a message, which is at an index of the buffer. The buffer has the native byte order, its position is 0,
     * and its limit is its capacity. The handler may change all three. The buffer is reused after the call.
     */
    void onMessage(int msgTypeId, ByteBuffer buffer, int index, int length);
}
