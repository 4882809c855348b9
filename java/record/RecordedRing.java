import felter.RingBuffer;
import java.nio.ByteBuffer;

/**
 * A ring in the shape of Agrona's RingBuffer whose calls are recorded for ring-check. For Agrona's own class change the
 * import to org.agrona.concurrent.ringbuffer.RingBuffer, and wrap the arrays into an UnsafeBuffer.
 *
 * <p>The first 16 bytes of each message name its producer and its number.
 */
public final class RecordedRing {
    private static final int NAME = 16;

    private final RingBuffer ring;

    public RecordedRing(final RingBuffer ring) {
        this.ring = ring;
    }

    /** A producer with its number. Only the thread of the producer uses it. */
    public final class Producer {
        public final RunLog log = new RunLog();
        private final int id;
        private long number;

        public Producer(final int id) {
            this.id = id;
        }

        /** Writes a message of a type, and returns whether there was room. A second try of a message has the same
         * number. */
        public boolean write(final int type, final byte[] payload) {
            final ByteBuffer made = ByteBuffer.allocate(NAME + payload.length);
            final byte[] body = made.putLong(id).putLong(number).put(payload).array();
            final long sum = RunLog.sum(body, 0, body.length);
            if (!ring.write(type, body, 0, body.length)) {
                log.refused(id, number, sum);
                return false;
            }
            log.sent(id, number++, sum);
            return true;
        }
    }

    /** Reads the messages that are there, and notes them in the consumer's log. Returns how many messages there
     * were. */
    public int read(final RunLog log) {
        return ring.read((type, buffer, index, length) -> {
            final byte[] body = new byte[length];
            for (int i = 0; i < length; i++) {
                body[i] = buffer.get(index + i);
            }
            final boolean isNamed = length >= NAME;
            final long id = isNamed ? ByteBuffer.wrap(body).getLong() : -1;
            log.got((int) (id & 0xffff), isNamed ? ByteBuffer.wrap(body).getLong(8) : -1, RunLog.sum(body, 0, length));
        });
    }
}
