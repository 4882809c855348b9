import felter.ManyToOneRingBuffer;
import felter.MessageHandler;
import felter.OneToOneRingBuffer;
import felter.RingBuffer;
import java.nio.ByteBuffer;
import java.nio.ByteOrder;

/** A ring of felter.jar. Bodies are in direct buffers, whose addresses go through JNI. */
final class FelterRing implements Ring {
    private final RingBuffer ring;
    private Follower follower;
    private final MessageHandler handler = (type, buffer, index, length) ->
        follower.on(buffer.getLong(index), buffer.getLong(index + length - 8));

    FelterRing(final boolean isForOne, final int capacity) {
        ring = isForOne ? new OneToOneRingBuffer(capacity) : new ManyToOneRingBuffer(capacity);
    }

    @Override
    public Writer writer(final int size) {
        final ByteBuffer body = ByteBuffer.allocateDirect(size).order(ByteOrder.nativeOrder());
        for (int k = 0; k < size; k++) body.put(k, (byte) 7);
        return first -> {
            body.putLong(0, first);
            return ring.write(1, body, 0, size);
        };
    }

    @Override
    public int read(final Follower on) {
        follower = on;
        return ring.read(handler, LIMIT);
    }

    @Override
    public void close() {
        ring.close();
    }
}
