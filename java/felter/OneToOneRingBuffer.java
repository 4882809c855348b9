package felter;

/**
 * A ring to which one thread at a time writes, and from which another thread reads. Any thread may call the methods
 * that neither write nor read messages, such as {@link #size}.
 */
public final class OneToOneRingBuffer extends RingBuffer {
    private final Producer producer;

    /** Makes a ring of {@code capacity} bytes, which must be a power of two from 128 to 2^24. */
    public OneToOneRingBuffer(final int capacity) {
        super(true, capacity);
        producer = new Producer(first, maxMsgLength(), new Producer.OpenClaim());
    }

    @Override
    Producer producer() {
        return producer;
    }
}
